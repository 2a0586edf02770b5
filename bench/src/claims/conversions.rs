// What a port makes of a configuration request that it is about to be crossed by.
use crate::chassis::Conversion;
use crate::claims::claims;
use crate::claims::decoders::bus_claims;
use crate::ids::PortNo;
use crate::ids::Rid;
use crate::ids::Target;
use crate::ids::Unit;
use crate::registers::enabled;
use crate::registers::port_at;
use crate::registers::with_ari;
use crate::registers::Fpb;
use crate::registers::Mechanism;
use crate::registers::Port;

// The unit where the Secondary range starts.
pub fn secondary_start(f: Fpb) -> Unit {
    Unit(((f.rid_control_2 >> 3) % 8192) as u16)
}

// How many units an upstream port's Secondary range has: a field of n means n + 1 device numbers.
pub fn secondary_units(f: Fpb) -> u16 {
    ((f.capabilities >> 3) % 32) as u16 + 1
}

// Whether an ID is in a port's Secondary range: units of an upstream port, a bus with ARI, else one unit.
pub fn in_secondary_range(p: Port, rid: Rid) -> bool {
    let f = p.fpb;
    let start = secondary_start(f);
    let unit = rid.unit();
    if p.kind == 1 {
        return (start.0 <= unit.0) & (unit.0 < start.0 + secondary_units(f));
    }
    if with_ari(p) {
        return rid.bus() as u16 == start.0 / 32;
    }
    unit.0 == start.0
}

// What the bus pair makes of an ID that the port claims, where the Secondary range does not decide.
pub fn converted_by_bus(p: Port, rid: Rid) -> Conversion {
    let b = p.bridge;
    if bus_claims(b, rid) & (rid.bus() == b.secondary) {
        if (p.kind == 1) | with_ari(p) | (rid.device() == 0) {
            return Conversion::Type0;
        }
        return Conversion::Unsupported;
    }
    Conversion::Type1
}

// What port p makes of a configuration request for an ID.
fn converted_id(s: &[u8], p: PortNo, rid: Rid) -> Conversion {
    if claims(s, p, Target::Id(rid)) {
        let port = port_at(s, p);
        let f = port.fpb;
        if enabled(f, Mechanism::Rid) & in_secondary_range(port, rid) {
            return Conversion::Type0;
        }
        return converted_by_bus(port, rid);
    }
    Conversion::NotClaimed
}

// What port p makes of a configuration request; an address is the target of none.
pub fn conversion(s: &[u8], p: PortNo, t: Target) -> Conversion {
    match t {
        Target::Id(rid) => converted_id(s, p, rid),
        Target::Addr(_) => Conversion::NotClaimed,
    }
}
