// Numbers 13 and 14: the least target that a port holds and its parent does not claim.
use crate::chassis::Fault;
use crate::ids::PortNo;
use crate::ids::Space;
use crate::least::Found;
use crate::overlaps::meetings::least_meeting;
use crate::overlaps::meetings::Holding;
use crate::overlaps::video::with_video;
use crate::trees::kind_at;
use crate::trees::parent_at;

// The best so far, after port p was tried; nothing of a root port strays.
fn with_child(s: &[u8], space: Space, p: PortNo, best: Found) -> Found {
    if kind_at(s, p) == 0 {
        return best;
    }
    let held = Holding { port: p, own: true, claims: true, taken: false };
    let claimed = Holding { port: parent_at(s, p), own: false, claims: true, taken: false };
    least_meeting(s, space, held, claimed, false, best)
}

// The least target of a space that strays, over all of n ports.
pub fn least_stray(s: &[u8], n: u8, space: Space) -> Found {
    let mut best = Found::Nothing;
    let mut p: u8 = 0;
    while p < n {
        best = with_child(s, space, PortNo(p), best);
        p += 1;
    }
    with_video(s, n, Fault::Stray, space, best)
}
