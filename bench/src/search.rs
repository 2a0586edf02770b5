// The search for the least target that two reaches have to do with.
use crate::least::Found;
use crate::spans::Reach;

// The next target that is reached, or, where that is wanted, that is not.
fn next_where(d: Reach, v: &[u8], w: &[u8], want: bool, from: u64) -> Found {
    if want {
        crate::spans::next_reached(d, v, w, from)
    } else {
        crate::spans::next_unreached(d, v, w, from)
    }
}

// The least target that a reaches and b reaches, or, where that is wanted, does not; or the best so far, if that is lower.
pub fn least_both(
    a: Reach,
    va: &[u8],
    wa: &[u8],
    b: Reach,
    vb: &[u8],
    wb: &[u8],
    want: bool,
    best: Found,
) -> Found {
    let mut i = 0;
    loop {
        let Found::At(j) = crate::spans::next_reached(a, va, wa, i) else {
            return best;
        };
        if crate::least::is_by(best, j) {
            return best;
        }
        let Found::At(k) = next_where(b, vb, wb, want, j) else {
            return best;
        };
        if k == j {
            return crate::least::sooner(best, Found::At(k));
        }
        i = k;
    }
}
