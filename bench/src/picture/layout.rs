// Where the vectors of each port lie (number 10), and each vector as a part of the picture.
use crate::ids::PortNo;
use crate::picture::Culprit;
use crate::registers::edition_of;
use crate::registers::record_at;
use crate::registers::sizes_of;
use crate::registers::vector_bytes;
use crate::registers::vectors_start;
use crate::registers::Fpb;
use crate::registers::Mechanism;

// The bytes of all vectors of a port.
fn all_bytes(f: Fpb) -> u64 {
    vector_bytes(f, Mechanism::Rid) + vector_bytes(f, Mechanism::Low) + vector_bytes(f, Mechanism::High)
}

// The lowest port whose vectors start elsewhere than at the running offset, or 255 if they do not end at the total.
pub fn misplaced(s: &[u8], n: u8) -> Culprit {
    let mut offset: u64 = record_at(edition_of(s), n as usize) as u64;
    let mut p: u8 = 0;
    while p < n {
        if vectors_start(s, PortNo(p)) as u64 != offset {
            return Culprit::Port(PortNo(p));
        }
        offset += all_bytes(sizes_of(s, PortNo(p)));
        p += 1;
    }
    if offset != s.len() as u64 {
        return Culprit::Port(PortNo(255));
    }
    Culprit::Nobody
}

// The bytes between the start of a port's vectors and one of them.
fn offset_in(f: Fpb, m: Mechanism) -> u64 {
    match m {
        Mechanism::Rid => 0,
        Mechanism::Low => vector_bytes(f, Mechanism::Rid),
        Mechanism::High => vector_bytes(f, Mechanism::Rid) + vector_bytes(f, Mechanism::Low),
    }
}

// A port's vector, as a part of the picture.
pub fn vector(s: &[u8], p: PortNo, m: Mechanism) -> &[u8] {
    let f = sizes_of(s, p);
    let at = vectors_start(s, p) as u64 + offset_in(f, m);
    crate::lent::part(s, at as usize, vector_bytes(f, m) as usize)
}
