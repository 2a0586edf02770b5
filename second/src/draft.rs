//! A picture in the making: registers that can be set one by one, and written out as bytes.

use crate::picture::Edition;

pub const ROOT: u8 = 0;
pub const UPSTREAM: u8 = 1;
pub const DOWNSTREAM: u8 = 2;
pub const NO_PARENT: u8 = 255;

const MEMORY_SPACE_ENABLE: u16 = 1 << 1;
const ARI_FORWARDING_ENABLE: u16 = 1 << 5;
const VGA_ENABLE: u16 = 1 << 3;
pub const REQUEST_REDIRECT: u16 = 1 << 2;

/// Which of the three vectors.
#[derive(Clone, Copy, Debug, PartialEq, Eq)]
pub enum Which {
    Rid,
    Low,
    High,
}

pub const ALL_VECTORS: [Which; 3] = [Which::Rid, Which::Low, Which::High];

/// Size code, granularity code and start of a vector. The start is in the smallest granule of its
/// kind: 8 IDs, 1 MiB or 256 MiB.
#[derive(Clone, Copy, Debug)]
pub struct VectorShape {
    pub size_code: u32,
    pub granularity_code: u32,
    pub start: u64,
}

/// The registers of one port, and the bytes of its supported vectors.
#[derive(Clone, Debug, Default)]
pub struct DraftPort {
    pub kind: u8,
    pub parent: u8,
    pub own_id: u16,
    pub command: u16,
    pub secondary: u8,
    pub subordinate: u8,
    pub memory_base: u16,
    pub memory_limit: u16,
    pub prefetchable_base: u16,
    pub prefetchable_limit: u16,
    pub prefetchable_base_upper: u32,
    pub prefetchable_limit_upper: u32,
    pub device_control_2: u16,
    pub bridge_control: u16,
    pub capabilities: u32,
    pub rid_control_1: u32,
    pub rid_control_2: u32,
    pub low_control: u32,
    pub high_control_1: u32,
    pub high_control_2: u32,
    /// ACS Control and the two bytes after it, which are written in edition 2 alone.
    pub acs_control: u16,
    pub after_acs_control: u16,
    pub rid_vector: Vec<u8>,
    pub low_vector: Vec<u8>,
    pub high_vector: Vec<u8>,
}

/// A whole picture in the making.
#[derive(Clone, Debug, Default)]
pub struct Draft {
    pub edition: Edition,
    pub ports: Vec<DraftPort>,
}

/// Puts a value into the bits from `low` up, `width` of them, and leaves the rest.
fn put(register: &mut u32, low: u32, width: u32, value: u32) {
    let mask = ((1u64 << width) - 1) as u32;
    *register = *register & !(mask << low) | (value & mask) << low;
}

impl DraftPort {
    /// A port that claims nothing: no bus pair, no memory, no vectors.
    pub fn silent(kind: u8, parent: u8, own_id: u16) -> DraftPort {
        let closed = 0xFFF0;
        let memory_base = closed;
        let prefetchable_base = closed;
        DraftPort { kind, parent, own_id, memory_base, prefetchable_base, ..Default::default() }
    }

    /// Sets the Secondary and Subordinate Bus Number.
    pub fn buses(mut self, secondary: u8, subordinate: u8) -> DraftPort {
        self.secondary = secondary;
        self.subordinate = subordinate;
        self
    }

    /// Sets Memory Base and Limit from MiB numbers, and Memory Space Enable.
    pub fn memory(mut self, base_mib: u16, limit_mib: u16) -> DraftPort {
        self.memory_base = base_mib << 4;
        self.memory_limit = limit_mib << 4;
        self.with_memory_space(true)
    }

    /// Sets Prefetchable Base and Limit of type 1 from MiB numbers, and Memory Space Enable.
    pub fn prefetchable(mut self, base_mib: u64, limit_mib: u64) -> DraftPort {
        self.prefetchable_base = (base_mib << 4) as u16 | 1;
        self.prefetchable_limit = (limit_mib << 4) as u16 | 1;
        self.prefetchable_base_upper = (base_mib >> 12) as u32;
        self.prefetchable_limit_upper = (limit_mib >> 12) as u32;
        self.with_memory_space(true)
    }

    /// Sets Prefetchable Base and Limit of type 0 from MiB numbers, and Memory Space Enable.
    pub fn prefetchable_type_0(mut self, base_mib: u16, limit_mib: u16) -> DraftPort {
        self.prefetchable_base = base_mib << 4;
        self.prefetchable_limit = limit_mib << 4;
        self.with_memory_space(true)
    }

    /// Sets VGA Enable and Memory Space Enable.
    pub fn video(mut self) -> DraftPort {
        self.set_vga(true);
        self.with_memory_space(true)
    }

    /// Sets or clears VGA Enable.
    pub fn set_vga(&mut self, enabled: bool) {
        self.bridge_control &= !VGA_ENABLE;
        self.bridge_control |= if enabled { VGA_ENABLE } else { 0 };
    }

    /// Sets P2P Request Redirect.
    pub fn redirecting(mut self) -> DraftPort {
        self.acs_control |= REQUEST_REDIRECT;
        self
    }

    /// Sets or clears Memory Space Enable.
    pub fn with_memory_space(mut self, enabled: bool) -> DraftPort {
        self.set_memory_space(enabled);
        self
    }

    /// Sets or clears Memory Space Enable.
    pub fn set_memory_space(&mut self, enabled: bool) {
        self.command &= !MEMORY_SPACE_ENABLE;
        self.command |= if enabled { MEMORY_SPACE_ENABLE } else { 0 };
    }

    /// Is Memory Space Enable set?
    pub fn has_memory_space(&self) -> bool {
        self.command & MEMORY_SPACE_ENABLE != 0
    }

    /// Sets ARI Forwarding Enable.
    pub fn with_ari(mut self) -> DraftPort {
        self.device_control_2 |= ARI_FORWARDING_ENABLE;
        self
    }

    /// Turns ARI Forwarding Enable over.
    pub fn flip_ari(&mut self) {
        self.device_control_2 ^= ARI_FORWARDING_ENABLE;
    }

    /// Sets the Secondary Start (a unit) and the Num Sec Dev field.
    pub fn secondary_range(mut self, start: u16, num_sec_dev: u32) -> DraftPort {
        self.set_secondary_start(start);
        put(&mut self.capabilities, 3, 5, num_sec_dev);
        self
    }

    /// Sets the Secondary Start, a unit.
    pub fn set_secondary_start(&mut self, start: u16) {
        put(&mut self.rid_control_2, 3, 13, start as u32);
    }

    /// Supports and enables a vector, and sets the given entries.
    pub fn vector(mut self, which: Which, shape: VectorShape, entries: &[u64]) -> DraftPort {
        self.give_vector(which, shape);
        for &entry in entries {
            self.flip_entry(which, entry);
        }
        self
    }

    /// Supports and enables a vector whose entries are all clear. The size code is a defined one.
    pub fn give_vector(&mut self, which: Which, shape: VectorShape) {
        self.support(which, shape.size_code, 32 << shape.size_code);
        put(self.control_mut(which), 4, 4, shape.granularity_code);
        self.set_start(which, shape.start);
        self.set_enabled(which, true);
    }

    /// Sets the Supported bit and the size field, and lays out that many bytes.
    pub fn support(&mut self, which: Which, size_code: u32, bytes: usize) {
        put(&mut self.capabilities, which as u32, 1, 1);
        put(&mut self.capabilities, 8 * (which as u32 + 1), 3, size_code);
        *self.bytes_mut(which) = vec![0; bytes];
    }

    /// Sets or clears the enable bit of a vector.
    pub fn set_enabled(&mut self, which: Which, enabled: bool) {
        put(self.control_mut(which), 0, 1, enabled as u32);
    }

    /// Sets the granularity code of a vector.
    pub fn set_granularity(&mut self, which: Which, code: u32) {
        put(self.control_mut(which), 4, 4, code);
    }

    /// Sets the start of a vector, in the smallest granule of its kind.
    pub fn set_start(&mut self, which: Which, start: u64) {
        match which {
            Which::Rid => put(&mut self.rid_control_1, 19, 13, start as u32),
            Which::Low => put(&mut self.low_control, 20, 12, start as u32),
            Which::High => {
                put(&mut self.high_control_1, 28, 4, start as u32);
                self.high_control_2 = (start >> 4) as u32;
            }
        }
    }

    /// The start of a vector, in the smallest granule of its kind.
    pub fn start(&self, which: Which) -> u64 {
        match which {
            Which::Rid => self.rid_control_1 as u64 >> 19,
            Which::Low => self.low_control as u64 >> 20,
            Which::High => (self.high_control_2 as u64) << 4 | self.high_control_1 as u64 >> 28,
        }
    }

    /// Is the vector enabled?
    pub fn is_enabled(&self, which: Which) -> bool {
        self.control(which) & 1 == 1
    }

    /// The granularity code of a vector.
    pub fn granularity_code(&self, which: Which) -> u32 {
        self.control(which) >> 4 & 0xF
    }

    /// Turns an entry over.
    pub fn flip_entry(&mut self, which: Which, entry: u64) {
        self.bytes_mut(which)[(entry / 8) as usize] ^= 1 << (entry % 8);
    }

    /// The register with the enable bit and the granularity of a vector.
    fn control(&self, which: Which) -> u32 {
        match which {
            Which::Rid => self.rid_control_1,
            Which::Low => self.low_control,
            Which::High => self.high_control_1,
        }
    }

    /// The same register, to be changed.
    fn control_mut(&mut self, which: Which) -> &mut u32 {
        match which {
            Which::Rid => &mut self.rid_control_1,
            Which::Low => &mut self.low_control,
            Which::High => &mut self.high_control_1,
        }
    }

    /// The bytes of a vector.
    pub fn bytes(&self, which: Which) -> &[u8] {
        match which {
            Which::Rid => &self.rid_vector,
            Which::Low => &self.low_vector,
            Which::High => &self.high_vector,
        }
    }

    /// The bytes of a vector, to be changed.
    pub fn bytes_mut(&mut self, which: Which) -> &mut Vec<u8> {
        match which {
            Which::Rid => &mut self.rid_vector,
            Which::Low => &mut self.low_vector,
            Which::High => &mut self.high_vector,
        }
    }

    /// How many bytes the vectors of the port take.
    pub fn vector_length(&self) -> usize {
        ALL_VECTORS.iter().map(|&which| self.bytes(which).len()).sum()
    }

    /// The bytes of the record.
    fn write(&self, out: &mut Vec<u8>, edition: Edition, vectors_start: u32) {
        out.extend([self.kind, self.parent]);
        out.extend(self.own_id.to_le_bytes());
        out.extend(self.command.to_le_bytes());
        out.extend([self.secondary, self.subordinate]);
        out.extend(self.memory_base.to_le_bytes());
        out.extend(self.memory_limit.to_le_bytes());
        out.extend(self.prefetchable_base.to_le_bytes());
        out.extend(self.prefetchable_limit.to_le_bytes());
        out.extend(self.prefetchable_base_upper.to_le_bytes());
        out.extend(self.prefetchable_limit_upper.to_le_bytes());
        out.extend(self.device_control_2.to_le_bytes());
        out.extend(self.bridge_control.to_le_bytes());
        out.extend(self.capabilities.to_le_bytes());
        out.extend(self.rid_control_1.to_le_bytes());
        out.extend(self.rid_control_2.to_le_bytes());
        out.extend(self.low_control.to_le_bytes());
        out.extend(self.high_control_1.to_le_bytes());
        out.extend(self.high_control_2.to_le_bytes());
        out.extend(vectors_start.to_le_bytes());
        if edition == Edition::Two {
            out.extend(self.acs_control.to_le_bytes());
            out.extend(self.after_acs_control.to_le_bytes());
        }
    }
}

impl Draft {
    /// A picture of these ports, of edition 1.
    pub fn of(ports: Vec<DraftPort>) -> Draft {
        Draft::in_edition(Edition::One, ports)
    }

    /// A picture of these ports, of this edition.
    pub fn in_edition(edition: Edition, ports: Vec<DraftPort>) -> Draft {
        Draft { edition, ports }
    }

    /// The picture as bytes, with offsets, starts and total as they should be.
    pub fn bytes(&self) -> Vec<u8> {
        let vectors = self.edition.record_start(self.ports.len());
        let total = vectors + self.ports.iter().map(DraftPort::vector_length).sum::<usize>();
        let mut out = Vec::with_capacity(total);
        out.extend(self.edition.field().to_le_bytes());
        out.extend((self.ports.len() as u16).to_le_bytes());
        out.extend((total as u32).to_le_bytes());
        out.extend(16u32.to_le_bytes());
        out.extend((vectors as u32).to_le_bytes());
        let mut offset = vectors;
        for port in &self.ports {
            port.write(&mut out, self.edition, offset as u32);
            offset += port.vector_length();
        }
        for port in &self.ports {
            for which in ALL_VECTORS {
                out.extend(port.bytes(which));
            }
        }
        out
    }
}
