// The check's verdict: numbers 11 to 15 and 18, the lowest that applies, with its least target and the ports that it names.
use crate::chassis::Verdict;
use crate::culprits::first_pair;
use crate::culprits::lowest;
use crate::culprits::lowest_port;
use crate::culprits::PortFault;
use crate::ids::Rid;
use crate::ids::Space;
use crate::ids::Target;
use crate::least::Found;
use crate::overlaps::least_shared;
use crate::overlaps::least_stray;
use crate::overlaps::least_taken;
use crate::picture::Culprit;

// The target of a space by its number.
fn target_in(space: Space, t: u64) -> Target {
    match space {
        Space::Ids => Target::Id(Rid(t as u16)),
        Space::Addresses => Target::Addr(t),
    }
}

// Number 11 or 12, at the least target.
fn shared_at(s: &[u8], n: u8, t: Target) -> Verdict {
    let pair = first_pair(s, n, t);
    let first = pair.first;
    let second = pair.second;
    Verdict::Shared(t, first, second)
}

// Number 13 or 14, at the least target.
fn stray_at(s: &[u8], n: u8, t: Target) -> Verdict {
    Verdict::Stray(t, lowest_port(s, n, PortFault::Stray(t)))
}

// Number 18, or none.
fn from_18(s: &[u8], n: u8) -> Verdict {
    match least_taken(s, n) {
        Found::At(id) => {
            let t = target_in(Space::Ids, id);
            Verdict::Taken(t, lowest_port(s, n, PortFault::Taken(t)))
        }
        Found::Nothing => Verdict::Clear,
    }
}

// Number 15, or a higher one.
fn from_15(s: &[u8], n: u8) -> Verdict {
    match lowest(s, n, PortFault::Lost) {
        Culprit::Port(p) => Verdict::Lost(p),
        Culprit::Nobody => from_18(s, n),
    }
}

// Number 14, or a higher one.
fn from_14(s: &[u8], n: u8) -> Verdict {
    match least_stray(s, n, Space::Addresses) {
        Found::At(t) => stray_at(s, n, target_in(Space::Addresses, t)),
        Found::Nothing => from_15(s, n),
    }
}

// Number 13, or a higher one.
fn from_13(s: &[u8], n: u8) -> Verdict {
    match least_stray(s, n, Space::Ids) {
        Found::At(t) => stray_at(s, n, target_in(Space::Ids, t)),
        Found::Nothing => from_14(s, n),
    }
}

// Number 12, or a higher one.
fn from_12(s: &[u8], n: u8) -> Verdict {
    match least_shared(s, n, Space::Addresses) {
        Found::At(t) => shared_at(s, n, target_in(Space::Addresses, t)),
        Found::Nothing => from_13(s, n),
    }
}

// The lowest of numbers 11 to 15 and 18 that applies to a picture of n ports.
pub fn verdict(s: &[u8], n: u8) -> Verdict {
    match least_shared(s, n, Space::Ids) {
        Found::At(t) => shared_at(s, n, target_in(Space::Ids, t)),
        Found::Nothing => from_12(s, n),
    }
}
