// Ranges of targets: the next target in one, or out of it.
use crate::least::Found;

// Both ends belong to it; it is empty where `lo` is above `hi`.
#[derive(Clone, Copy)]
pub struct Range {
    pub lo: u64,
    pub hi: u64,
}

// Whether a target lies in a range.
pub fn contains(r: Range, t: u64) -> bool {
    (r.lo <= t) & (t <= r.hi)
}

// The later of two targets.
pub fn later(a: u64, b: u64) -> u64 {
    if a <= b {
        b
    } else {
        a
    }
}

// The next target in a range.
pub fn next_in(r: Range, from: u64) -> Found {
    let t = later(from, r.lo);
    if t <= r.hi {
        Found::At(t)
    } else {
        Found::Nothing
    }
}

// The next target out of a range.
pub fn next_out(r: Range, from: u64) -> Found {
    if from < r.lo {
        return Found::At(from);
    }
    if r.hi < from {
        return Found::At(from);
    }
    if r.hi == u64::MAX {
        return Found::Nothing;
    }
    Found::At(r.hi + 1)
}

// The same, from what was found before.
pub fn out_from(r: Range, found: Found) -> Found {
    match found {
        Found::At(i) => next_out(r, i),
        Found::Nothing => Found::Nothing,
    }
}
