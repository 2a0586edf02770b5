// What a port claims, by its decoders, and what it holds and converts; each answer is a handful of reads.
mod conversions;
mod decoders;

pub use crate::claims::conversions::conversion;
pub use crate::claims::conversions::converted_by_bus;
pub use crate::claims::conversions::in_secondary_range;
pub use crate::claims::conversions::secondary_start;
pub use crate::claims::conversions::secondary_units;
pub use crate::claims::decoders::base_of;
pub use crate::claims::decoders::bus_claims;
pub use crate::claims::decoders::high_claims;
pub use crate::claims::decoders::low_claims;
pub use crate::claims::decoders::memory_claims;
pub use crate::claims::decoders::memory_space_enabled;
pub use crate::claims::decoders::prefetchable_claims;
pub use crate::claims::decoders::upper_of;
pub use crate::claims::decoders::vector_claims;
pub use crate::claims::decoders::vga_enabled;
pub use crate::claims::decoders::video_claims;
pub use crate::claims::decoders::VIDEO_FIRST;
use crate::chassis::Decoders;
use crate::ids::PortNo;
use crate::ids::Rid;
use crate::ids::Target;
use crate::picture::vector;
use crate::registers::enables_of;
use crate::registers::port_at;
use crate::registers::Mechanism;

// No decoder claims the target.
const NO_DECODERS: Decoders =
    Decoders { bus: false, rid: false, mem: false, pref: false, low: false, high: false, vga: false };

// The decoders of port p that claim an ID: its bus pair, its RID vector.
fn id_decoders(s: &[u8], p: PortNo, rid: Rid) -> Decoders {
    let port = port_at(s, p);
    let b = port.bridge;
    let f = port.fpb;
    let mut by = NO_DECODERS;
    by.bus = bus_claims(b, rid);
    by.rid = vector_claims(f, Mechanism::Rid, vector(s, p, Mechanism::Rid), rid.0 as u64);
    by
}

// The decoders of port p that claim an address; without Memory Space Enable none does.
fn address_decoders(s: &[u8], p: PortNo, a: u64) -> Decoders {
    let port = port_at(s, p);
    let b = port.bridge;
    let f = port.fpb;
    let mut by = NO_DECODERS;
    if memory_space_enabled(b) {
        by.mem = memory_claims(b, a);
        by.pref = prefetchable_claims(b, a);
        by.low = low_claims(f, vector(s, p, Mechanism::Low), a);
        by.high = high_claims(f, vector(s, p, Mechanism::High), a);
        by.vga = video_claims(b, a);
    }
    by
}

// The decoders of port p that claim the target.
pub fn decoders_of(s: &[u8], p: PortNo, t: Target) -> Decoders {
    match t {
        Target::Id(rid) => id_decoders(s, p, rid),
        Target::Addr(a) => address_decoders(s, p, a),
    }
}

// Whether at least one decoder of port p claims the target.
pub fn claims(s: &[u8], p: PortNo, t: Target) -> bool {
    decoders_of(s, p, t).at_least_one()
}

// The ID of port p itself.
pub fn own_id(s: &[u8], p: PortNo) -> Rid {
    Rid(crate::lent::u16_at(s, crate::registers::record_in(s, p) + 2))
}

// Whether the target is the ID of port p itself.
pub fn is_own(s: &[u8], p: PortNo, t: Target) -> bool {
    match t {
        Target::Id(rid) => own_id(s, p).0 == rid.0,
        Target::Addr(_) => false,
    }
}

// Whether the target is port p's own or claimed by it.
pub fn holds(s: &[u8], p: PortNo, t: Target) -> bool {
    is_own(s, p, t) | claims(s, p, t)
}

// Whether port p claims the video range; two reads of its record.
pub fn claims_video(s: &[u8], p: PortNo) -> bool {
    let b = enables_of(s, p);
    memory_space_enabled(b) & vga_enabled(b)
}

// Whether port p forwards with ARI.
pub fn with_ari_at(s: &[u8], p: PortNo) -> bool {
    crate::registers::with_ari(port_at(s, p))
}

// Whether port p has P2P Request Redirect set.
pub fn with_redirect_at(s: &[u8], p: PortNo) -> bool {
    crate::registers::with_redirect(port_at(s, p))
}
