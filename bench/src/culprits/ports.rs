// Numbers 13 to 15 and 18: the lowest port that strays at a target, whose own ID is lost, or whose parent takes what it claims.
use crate::chassis::Conversion;
use crate::claims::claims;
use crate::claims::conversion;
use crate::claims::holds;
use crate::claims::own_id;
use crate::culprits::taken::taken_at;
use crate::ids::PortNo;
use crate::ids::Target;
use crate::picture::Culprit;
use crate::trees::kind_at;
use crate::trees::parent_at;

// What may be wrong with a port by itself.
#[derive(Clone, Copy)]
pub enum PortFault {
    Stray(Target),
    Lost,
    Taken(Target),
}

// Whether port p is no root port and holds a target that its parent does not claim.
pub fn strays_at(s: &[u8], t: Target, p: PortNo) -> bool {
    !(kind_at(s, p) == 0) & holds(s, p, t) & !claims(s, parent_at(s, p), t)
}

// Whether a conversion is Type 0.
fn is_type0(made: Conversion) -> bool {
    match made {
        Conversion::NotClaimed => false,
        Conversion::Type0 => true,
        Conversion::Type1 => false,
        Conversion::Unsupported => false,
    }
}

// Whether port p is no root port and its parent does not claim its own ID and convert it to Type 0.
fn own_id_lost(s: &[u8], p: PortNo) -> bool {
    let parent = parent_at(s, p);
    let own = Target::Id(own_id(s, p));
    !(kind_at(s, p) == 0) & !(claims(s, parent, own) & is_type0(conversion(s, parent, own)))
}

// Whether a port has a fault.
fn has_fault(s: &[u8], fault: PortFault, p: PortNo) -> bool {
    match fault {
        PortFault::Stray(t) => strays_at(s, t, p),
        PortFault::Lost => own_id_lost(s, p),
        PortFault::Taken(t) => taken_at(s, t, p),
    }
}

// The lowest of n ports that has a fault.
pub fn lowest(s: &[u8], n: u8, fault: PortFault) -> Culprit {
    let mut p: u8 = 0;
    while p < n {
        if has_fault(s, fault, PortNo(p)) {
            return Culprit::Port(PortNo(p));
        }
        p += 1;
    }
    Culprit::Nobody
}

// The same by its number, 255 where none has it.
pub fn lowest_port(s: &[u8], n: u8, fault: PortFault) -> PortNo {
    match lowest(s, n, fault) {
        Culprit::Port(p) => p,
        Culprit::Nobody => PortNo(255),
    }
}
