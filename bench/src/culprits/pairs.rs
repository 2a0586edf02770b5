// Numbers 11 and 12: the first pair of ports that share a target.
use crate::claims::claims;
use crate::claims::holds;
use crate::claims::is_own;
use crate::ids::PortNo;
use crate::ids::Target;
use crate::trees::parent_at;

#[derive(Clone, Copy)]
pub struct Pair {
    pub first: PortNo,
    pub second: PortNo,
}

// Whether two siblings hold the target, or a port claims its own ID.
fn clashes(s: &[u8], t: Target, p: PortNo, q: PortNo) -> bool {
    if p.0 == q.0 {
        return is_own(s, p, t) & claims(s, p, t);
    }
    if parent_at(s, p).0 == parent_at(s, q).0 {
        return holds(s, p, t) & holds(s, q, t);
    }
    false
}

// Whether port p shares the target with one of n ports, or claims it as its own ID.
pub fn clashes_with(s: &[u8], n: u8, t: Target, p: PortNo) -> bool {
    let mut q: u8 = 0;
    while q < n {
        if clashes(s, t, p, PortNo(q)) {
            return true;
        }
        q += 1;
    }
    false
}

// The first pair at a target that is shared, by first port and then second, a port with itself tried too.
pub fn first_pair(s: &[u8], n: u8, t: Target) -> Pair {
    let mut p: u8 = 0;
    'ports: loop {
        let mut q: u8 = 0;
        while q < n {
            if clashes(s, t, PortNo(p), PortNo(q)) {
                break 'ports Pair { first: PortNo(p), second: PortNo(q) };
            }
            q += 1;
        }
        p += 1;
    }
}
