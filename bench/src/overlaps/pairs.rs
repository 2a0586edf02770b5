// Numbers 11 and 12: the least target that two ports at one place hold, or that is the own ID of a port that claims it.
use crate::chassis::Fault;
use crate::ids::PortNo;
use crate::ids::Space;
use crate::least::Found;
use crate::overlaps::meetings::least_meeting;
use crate::overlaps::meetings::Holding;
use crate::overlaps::video::with_video;
use crate::trees::parent_at;

// The best so far, after ports p and q were tried; a port with itself is its own ID against its claims.
fn with_pair(s: &[u8], space: Space, p: PortNo, q: PortNo, best: Found) -> Found {
    if parent_at(s, p).0 == parent_at(s, q).0 {
        let apart = !(p.0 == q.0);
        let a = Holding { port: p, own: true, claims: apart, taken: false };
        let b = Holding { port: q, own: apart, claims: true, taken: false };
        least_meeting(s, space, a, b, true, best)
    } else {
        best
    }
}

// The best so far, after port p was tried with itself and with each later one; the earlier ones were tried with it.
fn with_port(s: &[u8], n: u8, space: Space, p: u8, best: Found) -> Found {
    let mut found = best;
    let mut q: u8 = p;
    while q < n {
        found = with_pair(s, space, PortNo(p), PortNo(q), found);
        q += 1;
    }
    found
}

// The least target of a space that is shared, over all pairs of n ports at all places.
pub fn least_shared(s: &[u8], n: u8, space: Space) -> Found {
    let mut best = Found::Nothing;
    let mut p: u8 = 0;
    while p < n {
        best = with_port(s, n, space, p, best);
        p += 1;
    }
    with_video(s, n, Fault::Shared, space, best)
}
