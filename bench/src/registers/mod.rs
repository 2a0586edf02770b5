// A port's record: its registers by value, as the picture carries them.
mod fields;
mod rules;

use crate::ids::PortNo;
use crate::ids::Rid;
use crate::lent::u16_at;
use crate::lent::u32_at;
use crate::lent::u8_at;
pub use crate::registers::fields::enabled;
pub use crate::registers::fields::granularity_code;
pub use crate::registers::fields::settings;
pub use crate::registers::fields::size_code;
pub use crate::registers::fields::supported;
pub use crate::registers::fields::vector_bytes;
pub use crate::registers::rules::settings_wrong;
pub use crate::registers::rules::start_wrong;
pub use crate::registers::rules::with_ari;
pub use crate::registers::rules::with_redirect;

// What a record is about: a Type 1 header's registers.
#[derive(Clone, Copy)]
pub struct Bridge {
    pub command: u16,
    pub secondary: u8,
    pub subordinate: u8,
    pub memory_base: u16,
    pub memory_limit: u16,
    pub prefetchable_base: u16,
    pub prefetchable_limit: u16,
    pub prefetchable_base_upper: u32,
    pub prefetchable_limit_upper: u32,
    pub bridge_control: u16,
}

// The registers of the Flattening Portal Bridge capability.
#[derive(Clone, Copy)]
pub struct Fpb {
    pub capabilities: u32,
    pub rid_control_1: u32,
    pub rid_control_2: u32,
    pub mem_low_control: u32,
    pub mem_high_control_1: u32,
    pub mem_high_control_2: u32,
}

// The three FPB decode mechanisms, each with a vector of its own.
#[derive(Clone, Copy)]
pub enum Mechanism {
    Rid,
    Low,
    High,
}

#[derive(Clone, Copy)]
pub struct Port {
    pub kind: u8,
    pub parent: PortNo,
    pub own_id: Rid,
    pub device_control_2: u16,
    pub bridge: Bridge,
    pub fpb: Fpb,
    pub vectors_at: u32,
    pub acs_control: u16,
    pub zeros: u16,
}

// The edition that the header names.
pub fn edition_of(s: &[u8]) -> u16 {
    u16_at(s, 0)
}

// Where the record of port p starts; where all records end, if p is the count of ports.
pub fn record_at(edition: u16, p: usize) -> usize {
    let record_bytes = if edition == 2 { 60 } else { 56 };
    16 + record_bytes * p
}

// Where the record of port p of a picture starts.
pub fn record_in(s: &[u8], p: PortNo) -> usize {
    record_at(edition_of(s), p.0 as usize)
}

// The Type 1 header registers of the record that starts at r.
fn bridge_at(s: &[u8], r: usize) -> Bridge {
    Bridge {
        command: u16_at(s, r + 4),
        secondary: u8_at(s, r + 6),
        subordinate: u8_at(s, r + 7),
        memory_base: u16_at(s, r + 8),
        memory_limit: u16_at(s, r + 10),
        prefetchable_base: u16_at(s, r + 12),
        prefetchable_limit: u16_at(s, r + 14),
        prefetchable_base_upper: u32_at(s, r + 16),
        prefetchable_limit_upper: u32_at(s, r + 20),
        bridge_control: u16_at(s, r + 26),
    }
}

// The Type 1 header registers of port p as far as they enable anything: Command and Bridge Control. The others are left 0.
pub fn enables_of(s: &[u8], p: PortNo) -> Bridge {
    let r = record_in(s, p);
    Bridge {
        command: u16_at(s, r + 4),
        secondary: 0,
        subordinate: 0,
        memory_base: 0,
        memory_limit: 0,
        prefetchable_base: 0,
        prefetchable_limit: 0,
        prefetchable_base_upper: 0,
        prefetchable_limit_upper: 0,
        bridge_control: u16_at(s, r + 26),
    }
}

// The FPB registers of the record that starts at r.
fn fpb_at(s: &[u8], r: usize) -> Fpb {
    Fpb {
        capabilities: u32_at(s, r + 28),
        rid_control_1: u32_at(s, r + 32),
        rid_control_2: u32_at(s, r + 36),
        mem_low_control: u32_at(s, r + 40),
        mem_high_control_1: u32_at(s, r + 44),
        mem_high_control_2: u32_at(s, r + 48),
    }
}

// A field that records of 60 bytes alone have, 0 elsewhere.
fn in_edition_2(s: &[u8], edition: u16, at: usize) -> u16 {
    if edition == 2 {
        return u16_at(s, at);
    }
    0
}

// The record of port p.
pub fn port_at(s: &[u8], p: PortNo) -> Port {
    let edition = edition_of(s);
    let r = record_at(edition, p.0 as usize);
    Port {
        kind: u8_at(s, r),
        parent: PortNo(u8_at(s, r + 1)),
        own_id: Rid(u16_at(s, r + 2)),
        device_control_2: u16_at(s, r + 24),
        bridge: bridge_at(s, r),
        fpb: fpb_at(s, r),
        vectors_at: u32_at(s, r + 52),
        acs_control: in_edition_2(s, edition, r + 56),
        zeros: in_edition_2(s, edition, r + 58),
    }
}

// The FPB registers of port p as far as its vectors' sizes hang on them: Capabilities. The others are left 0.
pub fn sizes_of(s: &[u8], p: PortNo) -> Fpb {
    Fpb {
        capabilities: u32_at(s, record_in(s, p) + 28),
        rid_control_1: 0,
        rid_control_2: 0,
        mem_low_control: 0,
        mem_high_control_1: 0,
        mem_high_control_2: 0,
    }
}

// Where the vectors of port p start.
pub fn vectors_start(s: &[u8], p: PortNo) -> u32 {
    u32_at(s, record_in(s, p) + 52)
}
