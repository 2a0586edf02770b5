//! The settings history: a first picture, changes of single bytes kept in a lent room, and numbered versions. A
//! version is written out whole, as the first picture with its changes made one after the other.

use std::ops::Range;

use crate::picture::{edition_of, read, records_of, Edition};

/// The parts of a port in which a change can be.
pub const RECORD: u32 = 0;
pub const VECTORS: u32 = 1;

/// A change of one byte, counted from the start of a part of a port.
#[derive(Clone, Copy, Debug, Default, PartialEq, Eq)]
pub struct Change {
    pub port: u32,
    pub part: u32,
    pub at: u32,
    pub old: u8,
    pub new: u8,
}

/// Where the first picture has the record and the vectors of each port; later versions do not move them.
pub struct Layout {
    ports: Vec<[Range<usize>; 2]>,
}

impl Layout {
    /// The layout of a first picture, or the number from 1 to 10 of one that does not read.
    pub fn of(first: &[u8]) -> Result<Layout, u32> {
        read(first).map_err(|refusal| refusal.number as u32)?;
        let edition = edition_of(first).unwrap_or_default();
        let mut ports = Vec::new();
        for (port, record) in records_of(first).iter().enumerate() {
            let vectors = record.vectors_start() as usize;
            let length: usize = record.vector_lengths().iter().sum();
            ports.push([record_bytes(edition, port), vectors..vectors + length]);
        }
        Ok(Layout { ports })
    }

    /// How many ports the first picture has.
    pub fn count(&self) -> usize {
        self.ports.len()
    }

    /// The byte of a picture that a change names, if there is one.
    pub fn place(&self, change: &Change) -> Option<usize> {
        self.part(change.port, change.part)?.nth(change.at as usize)
    }

    /// The bytes of a part of a port, if there are such a port and part.
    pub fn part(&self, port: u32, part: u32) -> Option<Range<usize>> {
        self.ports.get(port as usize)?.get(part as usize).cloned()
    }
}

/// The bytes of a port's record.
fn record_bytes(edition: Edition, port: usize) -> Range<usize> {
    edition.record_start(port)..edition.record_start(port + 1)
}

/// The first picture with these changes made. A change that names no byte changes nothing.
pub fn changed(first: &[u8], layout: &Layout, changes: &[Change]) -> Vec<u8> {
    let mut version = first.to_vec();
    for change in changes {
        if let Some(place) = layout.place(change) {
            version[place] = change.new;
        }
    }
    version
}

/// The changes that a room holds of so many kept.
pub fn held(room: &[Change], kept: u32) -> &[Change] {
    &room[..room.len().min(kept as usize)]
}

/// Adds a run behind the changes kept, whole or not at all: 1 to 10, 37, 38, 39, else 0 with the new number kept.
pub fn add(first: &[u8], room: &mut [Change], kept: u32, run: &[Change], now_kept: &mut u32) -> u32 {
    match refusal_of_run(first, room, kept, run) {
        Some(number) => number,
        None => {
            let start = kept as usize;
            room[start..start + run.len()].copy_from_slice(run);
            *now_kept = kept + run.len() as u32;
            0
        }
    }
}

/// The first number, in their order, that refuses a run.
fn refusal_of_run(first: &[u8], room: &[Change], kept: u32, run: &[Change]) -> Option<u32> {
    let layout = match Layout::of(first) {
        Ok(layout) => layout,
        Err(number) => return Some(number),
    };
    if run.iter().any(|change| layout.place(change).is_none()) {
        return Some(37);
    }
    let mut before = changed(first, &layout, held(room, kept));
    for change in run {
        let place = layout.place(change).expect("number 37 is behind us");
        if before[place] != change.old {
            return Some(38);
        }
        before[place] = change.new;
    }
    (kept as u64 + run.len() as u64 > room.len() as u64).then_some(39)
}

/// Winds back to version k: 40 if it is above the last, else 0 with k as the number kept.
pub fn wind_back(kept: u32, k: u32, now_kept: &mut u32) -> u32 {
    if k > kept {
        return 40;
    }
    *now_kept = k;
    0
}

/// Reads version k back: 1 to 10, 40, 23, else 0 with the version at the beginning of `out`.
pub fn version(first: &[u8], room: &[Change], kept: u32, k: u32, out: &mut [u8]) -> u32 {
    let layout = match Layout::of(first) {
        Ok(layout) => layout,
        Err(number) => return number,
    };
    if k > kept || kept as usize > room.len() {
        return 40;
    }
    if out.len() < first.len() {
        return 23;
    }
    out[..first.len()].copy_from_slice(&changed(first, &layout, &room[..k as usize]));
    0
}
