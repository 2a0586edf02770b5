// Number 18: the least ID that a port claims and its parent takes.
use crate::ids::PortNo;
use crate::ids::Space;
use crate::least::Found;
use crate::overlaps::meetings::least_meeting;
use crate::overlaps::meetings::Holding;
use crate::trees::kind_at;
use crate::trees::parent_at;

// The best so far, after port p was tried; nothing of a root port is taken. What its parent takes is little, so it comes first.
fn with_taken(s: &[u8], p: PortNo, best: Found) -> Found {
    if kind_at(s, p) == 0 {
        return best;
    }
    let taken = Holding { port: parent_at(s, p), own: false, claims: false, taken: true };
    let claimed = Holding { port: p, own: false, claims: true, taken: false };
    least_meeting(s, Space::Ids, taken, claimed, true, best)
}

// The least ID that one of n ports claims and its parent takes.
pub fn least_taken(s: &[u8], n: u8) -> Found {
    let mut best = Found::Nothing;
    let mut p: u8 = 0;
    while p < n {
        best = with_taken(s, PortNo(p), best);
        p += 1;
    }
    best
}
