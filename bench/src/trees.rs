// How the ports of a picture hang together: kinds, parents, children and chains (numbers 6 and 7).
use crate::ids::PortNo;

// 0 root port, 1 switch upstream, 2 switch downstream.
pub fn kind_at(s: &[u8], p: PortNo) -> u8 {
    crate::lent::u8_at(s, crate::registers::record_in(s, p))
}

// The port above, 255 for a root port.
pub fn parent_at(s: &[u8], p: PortNo) -> PortNo {
    PortNo(crate::lent::u8_at(s, crate::registers::record_in(s, p) + 1))
}

// Whether one of the ports below number n is a child of q.
pub fn has_child_below(s: &[u8], n: u8, q: PortNo) -> bool {
    let mut found = false;
    let mut p: u8 = 0;
    while p < n {
        found = found | (parent_at(s, PortNo(p)).0 == q.0);
        p += 1;
    }
    found
}

// A root or downstream port without a child, where n is the count of ports.
pub fn is_device_port(s: &[u8], n: u8, p: PortNo) -> bool {
    (p.0 < n) & !(kind_at(s, p) == 1) & !has_child_below(s, n, p)
}

// An upstream port below an upstream port, or below one that is a parent already.
fn upstream_broken(s: &[u8], p: PortNo) -> bool {
    let parent = parent_at(s, p);
    (kind_at(s, parent) == 1) | has_child_below(s, p.0, parent)
}

// A downstream port that is not below an upstream port.
fn downstream_broken(s: &[u8], p: PortNo) -> bool {
    !(kind_at(s, parent_at(s, p)) == 1)
}

// Number 6.
pub fn tree_broken(s: &[u8], p: PortNo) -> bool {
    let kind = kind_at(s, p);
    let parent = parent_at(s, p);
    if kind == 0 {
        return !(parent.0 == 255);
    }
    if kind == 1 {
        return !(parent.0 < p.0) | upstream_broken(s, p);
    }
    !(parent.0 < p.0) | (!(kind == 2) | downstream_broken(s, p))
}

// Number 7.
pub fn chain_too_long(s: &[u8], p: PortNo) -> bool {
    let mut q = p;
    let mut k: u8 = 0;
    while k < 16 {
        if q.0 == 255 {
            return false;
        }
        q = parent_at(s, q);
        k += 1;
    }
    !(q.0 == 255)
}
