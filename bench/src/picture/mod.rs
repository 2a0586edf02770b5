// Reading a picture: any lent bytes are read, or refused with the number of the table and the port that it names.
mod headers;
mod layout;

use crate::ids::PortNo;
pub use crate::picture::layout::vector;
use crate::registers::port_at;

#[derive(Clone, Copy)]
pub struct Header {
    pub edition: u16,
    pub count: u16,
    pub total: u32,
    pub records_at: u32,
    pub vectors_at: u32,
}

// A number of the table, and the port that it names, or 255.
#[derive(Clone, Copy)]
pub struct Refusal {
    pub number: u8,
    pub port: PortNo,
}

#[derive(Clone, Copy)]
pub enum Reading {
    Read(Header),
    Refused(Refusal),
}

// The rules that each port keeps by itself: numbers 6 to 9.
#[derive(Clone, Copy)]
pub enum Rule {
    Tree,
    Chain,
    Settings,
    Start,
}

// The port that breaks a rule, if one does.
#[derive(Clone, Copy)]
pub enum Culprit {
    Port(PortNo),
    Nobody,
}

// Whether a port breaks a rule.
fn breaks_rule(s: &[u8], p: PortNo, rule: Rule) -> bool {
    match rule {
        Rule::Tree => crate::trees::tree_broken(s, p),
        Rule::Chain => crate::trees::chain_too_long(s, p),
        Rule::Settings => crate::registers::settings_wrong(port_at(s, p)),
        Rule::Start => crate::registers::start_wrong(port_at(s, p)),
    }
}

// The lowest of n ports that breaks a rule.
fn lowest_culprit(s: &[u8], n: u8, rule: Rule) -> Culprit {
    let mut p: u8 = 0;
    while p < n {
        if breaks_rule(s, PortNo(p), rule) {
            return Culprit::Port(PortNo(p));
        }
        p += 1;
    }
    Culprit::Nobody
}

// The answer for a picture that does not read.
fn refuse(number: u8, port: PortNo) -> Reading {
    Reading::Refused(Refusal { number, port })
}

// Numbers 6 to 10, looked for over all ports one number after the other.
fn read_ports(s: &[u8], h: Header) -> Reading {
    let n = h.count as u8;
    if let Culprit::Port(p) = lowest_culprit(s, n, Rule::Tree) {
        return refuse(6, p);
    }
    if let Culprit::Port(p) = lowest_culprit(s, n, Rule::Chain) {
        return refuse(7, p);
    }
    if let Culprit::Port(p) = lowest_culprit(s, n, Rule::Settings) {
        return refuse(8, p);
    }
    if let Culprit::Port(p) = lowest_culprit(s, n, Rule::Start) {
        return refuse(9, p);
    }
    if let Culprit::Port(p) = crate::picture::layout::misplaced(s, n) {
        return refuse(10, p);
    }
    Reading::Read(h)
}

// Reads a picture: numbers 1 to 10, or its header.
pub fn read(s: &[u8]) -> Reading {
    if crate::picture::headers::length_wrong(s) {
        return refuse(1, PortNo(255));
    }
    let h = crate::picture::headers::header_at(s);
    if crate::picture::headers::edition_wrong(h) {
        return refuse(2, PortNo(255));
    }
    if crate::picture::headers::count_wrong(h) {
        return refuse(3, PortNo(255));
    }
    if crate::picture::headers::total_wrong(s.len(), h) {
        return refuse(4, PortNo(255));
    }
    if crate::picture::headers::offset_wrong(s.len(), h) {
        return refuse(5, PortNo(255));
    }
    read_ports(s, h)
}
