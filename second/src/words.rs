//! Words that the sentence and the drawing share: IDs, kinds of port, starts and granularities.

use crate::claims::{bus, device};
use crate::draft::Which;
use crate::picture::{Kind, MIB};

/// An ID as lspci writes it: `03:00.0`.
pub fn id_text(id: u16) -> String {
    format!("{:02x}:{:02x}.{}", bus(id), device(id), id & 7)
}

/// The kind of a port in words.
pub fn kind_text(kind: Kind) -> &'static str {
    match kind {
        Kind::Root => "root port",
        Kind::Upstream => "switch upstream port",
        Kind::Downstream => "switch downstream port",
    }
}

/// The name of a vector.
pub fn vector_name(which: Which) -> &'static str {
    match which {
        Which::Rid => "RID vector",
        Which::Low => "MEM Low vector",
        Which::High => "MEM High vector",
    }
}

/// The start of a vector: an ID, or an address of 8 or 16 digits.
pub fn start_text(which: Which, start: u64) -> String {
    match which {
        Which::Rid => id_text(start as u16),
        Which::Low => format!("{start:08x}"),
        Which::High => format!("{start:016x}"),
    }
}

/// What an entry of a vector stands for: `8 IDs`, `16 MiB`.
pub fn granularity_text(which: Which, granularity: u64) -> String {
    match which {
        Which::Rid => format!("{granularity} IDs"),
        Which::Low | Which::High => format!("{} MiB", granularity / MIB),
    }
}
