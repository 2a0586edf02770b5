// What a port holds or claims in one space, and which IDs it takes: as ranges and grids for a search, and the next target of
// either kind.
mod reaches;
mod taken;

pub use crate::holdings::reaches::one_of;
pub use crate::holdings::reaches::reach;
use crate::holdings::taken::taken_in;
use crate::ids::PortNo;
use crate::ids::Space;
use crate::least::Found;
use crate::picture::vector;
use crate::registers::port_at;
use crate::registers::Mechanism;
use crate::spans::Reach;

// What is looked at of port p in a space: the IDs that it takes, where `taken`; else its own ID, where `own`, and what it claims,
// where `claims`.
pub fn reach_at(s: &[u8], p: PortNo, space: Space, own: bool, claims: bool, taken: bool) -> Reach {
    let port = port_at(s, p);
    if taken {
        return taken_in(port, space);
    }
    reach(port, space, own, claims)
}

// The next target of a space, from `from` on, that port p holds.
pub fn next_held(s: &[u8], p: PortNo, space: Space, from: u64) -> Found {
    let d = reach_at(s, p, space, true, true, false);
    crate::spans::next_reached(d, vector(s, p, one_of(space)), vector(s, p, Mechanism::High), from)
}

// The last target of a space.
fn last(space: Space) -> u64 {
    match space {
        Space::Ids => 65535,
        Space::Addresses => u64::MAX,
    }
}

// The next target of a space, from `from` on, that port p does not claim.
pub fn next_unclaimed(s: &[u8], p: PortNo, space: Space, from: u64) -> Found {
    let d = reach_at(s, p, space, false, true, false);
    let next =
        crate::spans::next_unreached(d, vector(s, p, one_of(space)), vector(s, p, Mechanism::High), from);
    crate::spans::grids::clip(next, last(space))
}
