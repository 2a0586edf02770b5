//! A patch lent beside a picture: numbers 30 to 32, the picture with its vectors put in, and where the
//! vectors lie before that.

use crate::picture::{read, records_of, word, Record, Refusal};

/// One of the two lent slices.
#[derive(Clone, Copy, Debug, PartialEq, Eq)]
pub enum Slice {
    Picture,
    Patch,
}

/// Where a vector lies: in which slice, how far from its start, and how many bytes it has there.
#[derive(Clone, Copy, Debug, PartialEq, Eq)]
pub struct Part {
    pub slice: Slice,
    pub at: usize,
    pub length: usize,
}

/// A port in a patch: its number, and the offset of its vectors.
struct Entry {
    port: usize,
    offset: usize,
}

/// What is wrong with a patch that is lent with a picture that reads.
#[derive(Clone, Copy, Debug, PartialEq, Eq)]
pub enum Fault {
    /// Number 30: no room for count and total, a total that is not the length, or no room for the ports.
    Header,
    /// Number 31: a port that the picture does not have, which has so many.
    Beyond { port: usize, count: usize },
    /// Number 31: a port behind one that it should stand before, or behind itself.
    Behind { port: usize, before: usize },
    /// Number 32: a port whose vectors begin elsewhere than where those before end.
    Begins { port: usize, at: usize, end_before: usize },
    /// Number 32: the last vectors end elsewhere than the patch.
    Ends { at: usize },
}

impl Fault {
    /// The number that is given for it.
    pub fn number(&self) -> u8 {
        match self {
            Fault::Header => 30,
            Fault::Beyond { .. } | Fault::Behind { .. } => 31,
            Fault::Begins { .. } | Fault::Ends { .. } => 32,
        }
    }
}

/// The picture with the patch's vectors put in; or the first of 1 to 10, 30, 31 and 32 that applies.
pub fn put_in(picture: &[u8], patch: &[u8]) -> Result<Vec<u8>, Refusal> {
    let entries = read_patch(picture, patch)?;
    let records = records_of(picture);
    let mut patched = picture.to_vec();
    for entry in entries {
        let record = &records[entry.port];
        let to = record.vectors_start() as usize;
        let length = length_of_all(record);
        patched[to..to + length].copy_from_slice(&patch[entry.offset..entry.offset + length]);
    }
    Ok(patched)
}

/// Where a vector of a port lies; mechanism 0 is RID, 1 Low, 2 High. Numbers as for the patch, then 16.
pub fn part(picture: &[u8], patch: &[u8], port: u32, mechanism: u32) -> Result<Part, Refusal> {
    let (entries, records) = (read_patch(picture, patch)?, records_of(picture));
    let record = records.get(port as usize).ok_or(Refusal::bare(16))?;
    let lengths = record.vector_lengths();
    let mechanism = mechanism as usize;
    let length = *lengths.get(mechanism).ok_or(Refusal::bare(16))?;
    let (slice, start) = match entries.iter().find(|entry| entry.port == port as usize) {
        Some(entry) => (Slice::Patch, entry.offset),
        None => (Slice::Picture, record.vectors_start() as usize),
    };
    let before: usize = lengths[..mechanism].iter().sum();
    Ok(Part { slice, at: start + before, length })
}

/// Reads the picture and then the patch: the ports in it, or a refusal.
fn read_patch(picture: &[u8], patch: &[u8]) -> Result<Vec<Entry>, Refusal> {
    read(picture)?;
    judge_patch(&records_of(picture), patch).map_err(|fault| Refusal::bare(fault.number()))
}

/// What is wrong with a patch, if anything is; the picture reads.
pub fn fault_of(picture: &[u8], patch: &[u8]) -> Option<Fault> {
    judge_patch(&records_of(picture), patch).err()
}

/// The ports in a patch, or its first fault. Each number is looked for over the whole patch before the
/// next.
fn judge_patch(records: &[Record], patch: &[u8]) -> Result<Vec<Entry>, Fault> {
    judge_header(patch)?;
    let entries = entries(patch);
    judge_ports(&entries, records.len())?;
    judge_offsets(&entries, records, patch.len())?;
    Ok(entries)
}

/// The header's fields as they stand: count and total. The patch has 8 bytes or more.
pub fn patch_header_fields(patch: &[u8]) -> (u32, u32) {
    (word(patch, 0), word(patch, 4))
}

/// Number 30.
fn judge_header(patch: &[u8]) -> Result<(), Fault> {
    let length = patch.len() as u64;
    if length < 8 {
        return Err(Fault::Header);
    }
    let (count, total) = patch_header_fields(patch);
    if total as u64 != length || 8 + 8 * count as u64 > length {
        return Err(Fault::Header);
    }
    Ok(())
}

/// The ports of a patch whose header is good.
fn entries(patch: &[u8]) -> Vec<Entry> {
    let entry = |index: usize| Entry {
        port: word(patch, 8 + 8 * index) as usize,
        offset: word(patch, 12 + 8 * index) as usize,
    };
    (0..word(patch, 0) as usize).map(entry).collect()
}

/// Number 31: the numbers rise strictly, and all are below the picture's count.
fn judge_ports(entries: &[Entry], count: usize) -> Result<(), Fault> {
    let mut before = None;
    for &Entry { port, .. } in entries {
        if port >= count {
            return Err(Fault::Beyond { port, count });
        }
        match before {
            Some(before) if port <= before => return Err(Fault::Behind { port, before }),
            _ => before = Some(port),
        }
    }
    Ok(())
}

/// Number 32: every offset is where the vectors before end, and the last vectors end at the total.
fn judge_offsets(entries: &[Entry], records: &[Record], total: usize) -> Result<(), Fault> {
    let mut end = 8 + 8 * entries.len();
    for &Entry { port, offset } in entries {
        if offset != end {
            return Err(Fault::Begins { port, at: offset, end_before: end });
        }
        end += length_of_all(&records[port]);
    }
    if end != total {
        return Err(Fault::Ends { at: end });
    }
    Ok(())
}

/// How many bytes the vectors of a port take together.
fn length_of_all(record: &Record) -> usize {
    record.vector_lengths().iter().sum()
}
