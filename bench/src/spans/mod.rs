// What one port reaches in one space, IDs or addresses, and the search from next to next. No step goes target by target.
pub mod grids;
pub mod ranges;

use crate::least::Found;
use crate::spans::grids::Grid;
use crate::spans::ranges::Range;

// Two ranges and two vectors' grids. What is off is an empty range, or a grid within one.
#[derive(Clone, Copy)]
pub struct Reach {
    pub first: Range,
    pub second: Range,
    pub one: Grid,
    pub other: Grid,
}

// Whether a target is reached.
pub fn reached(d: Reach, v: &[u8], w: &[u8], t: u64) -> bool {
    (crate::spans::ranges::contains(d.first, t) | crate::spans::ranges::contains(d.second, t))
        | (crate::spans::grids::hit_in(v, d.one, t) | crate::spans::grids::hit_in(w, d.other, t))
}

// The next target, from `from` on, that is reached.
pub fn next_reached(d: Reach, v: &[u8], w: &[u8], from: u64) -> Found {
    let on_ranges = crate::least::sooner(
        crate::spans::ranges::next_in(d.first, from),
        crate::spans::ranges::next_in(d.second, from),
    );
    let with_one = crate::spans::grids::next_hit_in(v, d.one, from, on_ranges);
    crate::spans::grids::next_hit_in(w, d.other, from, with_one)
}

// From a target out of the first range, from there out of the second, and past the grids in the same way: the same target
// exactly if it is not reached.
fn skip(d: Reach, v: &[u8], w: &[u8], i: u64) -> Found {
    let past_first = crate::spans::ranges::next_out(d.first, i);
    let past_ranges = crate::spans::ranges::out_from(d.second, past_first);
    let past_one = crate::spans::grids::miss_from(v, d.one, past_ranges);
    crate::spans::grids::miss_from(w, d.other, past_one)
}

// The next target, from `from` on, that is not reached.
pub fn next_unreached(d: Reach, v: &[u8], w: &[u8], from: u64) -> Found {
    let mut i = from;
    loop {
        let Found::At(k) = skip(d, v, w, i) else {
            return Found::Nothing;
        };
        if k == i {
            return Found::At(k);
        }
        i = k;
    }
}
