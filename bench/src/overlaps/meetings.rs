// The least target that two ports have to do with.
use crate::holdings::one_of;
use crate::holdings::reach_at;
use crate::ids::PortNo;
use crate::ids::Space;
use crate::least::Found;
use crate::picture::vector;
use crate::registers::Mechanism;

// What of a port is looked at: the IDs that it takes, where `taken`; else its own ID, its claims, or both.
#[derive(Clone, Copy)]
pub struct Holding {
    pub port: PortNo,
    pub own: bool,
    pub claims: bool,
    pub taken: bool,
}

// The least target of a space that a has, and that b has or does not, as is wanted; or the best so far, if that is lower.
pub fn least_meeting(s: &[u8], space: Space, a: Holding, b: Holding, want: bool, best: Found) -> Found {
    let m = one_of(space);
    let p = a.port;
    let q = b.port;
    crate::search::least_both(
        reach_at(s, p, space, a.own, a.claims, a.taken),
        vector(s, p, m),
        vector(s, p, Mechanism::High),
        reach_at(s, q, space, b.own, b.claims, b.taken),
        vector(s, q, m),
        vector(s, q, Mechanism::High),
        want,
        best,
    )
}
