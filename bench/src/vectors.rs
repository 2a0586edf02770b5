// A vector of entries, as the RID, MEM Low and MEM High vectors all are: which entry applies to a target, whether it is
// set, and the next entry that is.
use crate::least::Found;

// A vector's size in entries, the target where entry 0 begins, and its granularity: an entry stands for 2^scale targets.
#[derive(Clone, Copy)]
pub struct Settings {
    pub size: u64,
    pub start: u64,
    pub scale: u32,
}

// The entry that applies to a target.
pub fn entry(g: Settings, t: u64) -> Found {
    if t < g.start {
        return Found::Nothing;
    }
    let i = (t - g.start) >> g.scale;
    if i < g.size {
        Found::At(i)
    } else {
        Found::Nothing
    }
}

// Whether entry i is set; an entry past the vector's bytes is clear.
pub fn is_set(v: &[u8], i: u64) -> bool {
    (crate::lent::u8_at(v, (i / 8) as usize) >> (i % 8)) % 2 == 1
}

// Whether the entry that applies to a target is set.
pub fn hit(v: &[u8], g: Settings, t: u64) -> bool {
    match entry(g, t) {
        Found::At(i) => is_set(v, i),
        Found::Nothing => false,
    }
}

// The next entry from `from` on, below the size, that is set, or, where that is wanted, clear. Bytes that hold none such are
// stepped over.
pub fn next_entry(v: &[u8], want: bool, from: u64, size: u64) -> Found {
    let mut i = from;
    loop {
        let seen = look(v, want, i);
        if seen.wanted != 0 {
            let found = i + seen.wanted.trailing_zeros() as u64;
            if size <= found {
                return Found::Nothing;
            }
            return Found::At(found);
        }
        if size <= seen.last {
            return Found::Nothing;
        }
        i = seen.last + 1;
    }
}

// The entries from the one looked for on, up to and with `last`, as binary digits: 1 for one that is as wanted.
struct Seen {
    wanted: u64,
    last: u64,
}

// The entries from i on that lie in the same bytes: eight of them, or one where fewer than eight are left.
fn look(v: &[u8], want: bool, i: u64) -> Seen {
    if v.len() / 8 <= (i / 64) as usize {
        let set = crate::lent::u8_at(v, (i / 8) as usize);
        let wanted = if want { set } else { !set };
        return Seen { wanted: wanted as u64 >> (i % 8), last: i - i % 8 + 7 };
    }
    let set = crate::lent::whole64(v, (8 * (i / 64)) as usize);
    let wanted = if want { set } else { !set };
    Seen { wanted: wanted >> (i % 64), last: i - i % 64 + 63 }
}
