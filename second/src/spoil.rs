//! Random edits of good bytes, on both sides of every edge of numbers 1 to 10, in both editions.

// Every edit has the same type, also those that do not change the length.
#![allow(clippy::ptr_arg)]

use crate::draft::{DraftPort, DOWNSTREAM, NO_PARENT, ROOT, UPSTREAM};
use crate::editions::{in_either_edition, some_acs_control};
use crate::picture::{edition_of, shortest_length, Edition};
use crate::random::Random;

/// One random edit of the bytes of a picture.
type Edit = fn(&mut Random, &mut Vec<u8>);

/// The edits around the edges of numbers 1 to 5.
const HEADER_EDITS: [Edit; 6] =
    [edit_length, edit_edition, edit_count, edit_total, edit_offset, edit_records_past_end];

/// The edits between the editions: the one with something of the other, and what edition 2 alone has.
const EDITION_EDITS: [Edit; 6] = [
    turn_edition,
    turn_edition_and_offset,
    starts_of_the_other_edition,
    edit_acs_control,
    edit_after_acs_control,
    edit_after_acs_control,
];

/// The edits around the edges of numbers 6, 8, 9 and 10.
const RECORD_EDITS: [Edit; 12] = [
    edit_kind,
    edit_parent,
    edit_supported,
    edit_size,
    edit_control,
    edit_control,
    edit_range_bits,
    edit_ari,
    edit_start,
    edit_start,
    edit_vectors_start,
    edit_tail,
];

/// Edits a picture in one way or in several, so that one number hides another.
pub fn spoil(random: &mut Random, picture: &mut Vec<u8>) {
    for _ in 0..random.pick(&[1, 1, 1, 2, 2, 3, 5]) {
        if picture.len() < shortest_length(edition_of(picture)) {
            return;
        }
        let edits: &[Edit] = match random.below(20) {
            0..=4 => &HEADER_EDITS,
            5..=7 => &EDITION_EDITS,
            _ => &RECORD_EDITS,
        };
        random.pick(edits)(random, picture);
    }
}

/// The edition by whose records the bytes are edited: that of the header, and edition 1 if there is none.
fn edition(picture: &[u8]) -> Edition {
    edition_of(picture).unwrap_or_default()
}

/// The other edition.
fn other_edition(picture: &[u8]) -> Edition {
    match edition(picture) {
        Edition::One => Edition::Two,
        Edition::Two => Edition::One,
    }
}

/// Some port but the first becomes a switch port, or seldom one of no kind, below any lower one.
pub fn misplace(random: &mut Random, picture: &mut Vec<u8>) {
    let (port, at) = any_record(random, picture);
    if port > 0 {
        picture[at] = random.pick(&[UPSTREAM, DOWNSTREAM, UPSTREAM, DOWNSTREAM, UPSTREAM, DOWNSTREAM, 3]);
        picture[at + 1] = random.below(port as u64) as u8;
    }
}

/// Random FPB registers, low bits of range registers and bytes after ACS Control for some port, so that much is
/// wrong at once.
pub fn scramble_settings(random: &mut Random, picture: &mut Vec<u8>) {
    let (_, at) = any_record(random, picture);
    for register in [28, 32, 40, 44] {
        let bits = random.bits() as u32;
        put_4(picture, at + register, bits);
    }
    if random.percent(50) {
        edit_range_bits(random, picture);
    }
    if random.percent(25) {
        picture[at + 8] ^= random.pick(&[1, 2, 15]);
        picture[at + 14] ^= random.pick(&[1, 2, 15]);
    }
    if edition(picture) == Edition::Two && random.percent(50) {
        put_2(picture, at + 58, random.bits() as u16);
    }
}

/// Random starts for all vectors of some port, and often ARI.
pub fn scramble_starts(random: &mut Random, picture: &mut Vec<u8>) {
    let (_, at) = any_record(random, picture);
    let enabled = [32, 40, 44].iter().any(|control| picture[at + control] & 1 == 1);
    if !enabled {
        return;
    }
    for (register, start_bits) in
        [(32, 0xFFF8_0000u32), (40, 0xFFF0_0000), (44, 0xF000_0000), (48, 0xFFFF_FFFF)]
    {
        let old = get_4(picture, at + register);
        put_4(picture, at + register, old & !start_bits | random.bits() as u32 & start_bits);
    }
    if random.percent(50) {
        picture[at + 24] |= 0x20;
    }
}

/// A random own ID for every port of a picture without an edit.
pub fn scatter_own_ids(random: &mut Random, picture: &mut Vec<u8>) {
    for port in 0..picture[2] as usize {
        let at = edition(picture).record_start(port) + 2;
        put_2(picture, at, random.bits() as u16);
    }
}

/// A chain whose length is at the edge, among other ports, in either edition.
pub fn chain_at_the_edge(random: &mut Random) -> Vec<u8> {
    let length = random.pick(&[15, 16, 17, 18, 40]);
    let ports = long_chain(length, random.below(4) as usize);
    in_either_edition(random, ports).bytes()
}

/// So many root ports, and after them one chain.
pub fn long_chain(length: usize, roots_before: usize) -> Vec<DraftPort> {
    let mut ports = vec![DraftPort::silent(ROOT, NO_PARENT, 1); roots_before];
    for step in 0..length {
        let parent = (roots_before + step).wrapping_sub(1) as u8;
        ports.push(match step {
            0 => DraftPort::silent(ROOT, NO_PARENT, 2),
            _ if step % 2 == 1 => DraftPort::silent(UPSTREAM, parent, 3),
            _ => DraftPort::silent(DOWNSTREAM, parent, 4),
        });
    }
    ports
}

/// Puts a little-endian number of 2 bytes.
pub fn put_2(picture: &mut [u8], at: usize, value: u16) {
    picture[at..at + 2].copy_from_slice(&value.to_le_bytes());
}

/// Puts a little-endian number of 4 bytes.
pub fn put_4(picture: &mut [u8], at: usize, value: u32) {
    picture[at..at + 4].copy_from_slice(&value.to_le_bytes());
}

/// The little-endian number of 4 bytes there.
pub fn get_4(picture: &[u8], at: usize) -> u32 {
    u32::from_le_bytes(picture[at..at + 4].try_into().expect("these are 4 bytes"))
}

/// How many records there are: as many as the count says, one at least and not more than there is room for.
fn record_count(picture: &[u8]) -> usize {
    let fitting = (picture.len() - 16) / edition(picture).record_size();
    (picture[2] as usize).clamp(1, 64).min(fitting)
}

/// A random port, and where its record begins; always within the picture.
fn any_record(random: &mut Random, picture: &[u8]) -> (usize, usize) {
    let port = random.below(record_count(picture) as u64) as usize;
    (port, edition(picture).record_start(port))
}

/// Where a field of a random record is, so far from its beginning.
fn any_field(random: &mut Random, picture: &[u8], at: usize) -> usize {
    any_record(random, picture).1 + at
}

/// Cuts or stretches the picture to a length at an edge; mostly the total follows.
fn edit_length(random: &mut Random, picture: &mut Vec<u8>) {
    let length = picture.len();
    let lengths = [0, 1, 15, 71, 72, 73, 74, 75, 76, 77, length - 1, length + 1, 65_535, 65_536, 65_537];
    picture.resize(random.pick(&lengths), 0);
    if picture.len() >= 8 && random.percent(80) {
        let total = picture.len() as u32;
        put_4(picture, 4, total);
    }
}

/// An edition that is 1 or 2, or differs from these in either byte.
fn edit_edition(random: &mut Random, picture: &mut Vec<u8>) {
    let editions = [0, 1, 2, 3, 0x0100, 0x0101, 0x0102, 0x0200, 0x0201, 0xFFFF];
    put_2(picture, 0, random.pick(&editions));
}

/// The edition becomes the other one, and all else stays.
fn turn_edition(_: &mut Random, picture: &mut Vec<u8>) {
    let other = other_edition(picture).field();
    put_2(picture, 0, other);
}

/// The edition becomes the other one, and the offset of vectors with it, or without it.
fn turn_edition_and_offset(random: &mut Random, picture: &mut Vec<u8>) {
    let (other, count) = (other_edition(picture), record_count(picture));
    put_4(picture, 12, other.record_start(count) as u32);
    if random.percent(50) {
        put_2(picture, 0, other.field());
    }
}

/// A count at an edge.
fn edit_count(random: &mut Random, picture: &mut Vec<u8>) {
    let count = picture[2] as u16;
    put_2(picture, 2, random.pick(&[0, 0, 1, count + 1, count.wrapping_sub(1), 64, 65, 256 + count, 0xFFFF]));
}

/// A total that is off by a little or by a lot.
fn edit_total(random: &mut Random, picture: &mut Vec<u8>) {
    let total = get_4(picture, 4);
    put_4(picture, 4, total.wrapping_add(random.pick(&[1, 4, u32::MAX, 0x1_0000, 56, 60, 0x8000_0000])));
}

/// One of the two offsets off by a little or by a lot.
fn edit_offset(random: &mut Random, picture: &mut Vec<u8>) {
    let at = random.pick(&[8, 12]);
    let offset = get_4(picture, at);
    put_4(picture, at, offset.wrapping_add(random.pick(&[1, 4, u32::MAX, 0x1_0000, 56, 60, 0x8000_0000])));
}

/// More ports than there is room for, with the offset of vectors to match.
fn edit_records_past_end(random: &mut Random, picture: &mut Vec<u8>) {
    let count = random.pick(&[2, 3, 40, 64]);
    put_2(picture, 2, count);
    let records_end = edition(picture).record_start(count as usize);
    put_4(picture, 12, records_end as u32);
}

/// Another kind for some port.
fn edit_kind(random: &mut Random, picture: &mut Vec<u8>) {
    let at = any_field(random, picture, 0);
    picture[at] = random.pick(&[0, 1, 2, 3, 255]);
}

/// Another parent for some port.
fn edit_parent(random: &mut Random, picture: &mut Vec<u8>) {
    let (port, at) = any_record(random, picture);
    let port = port as u8;
    let parents = [0, 1, port, port.wrapping_sub(1), port + 1, 63, 64, 254, 255];
    picture[at + 1] = random.pick(&parents);
}

/// A Supported bit turned over.
fn edit_supported(random: &mut Random, picture: &mut Vec<u8>) {
    let at = any_field(random, picture, 28);
    picture[at] ^= 1 << random.below(3);
}

/// Another size code.
fn edit_size(random: &mut Random, picture: &mut Vec<u8>) {
    let at = any_field(random, picture, 29) + random.below(3) as usize;
    picture[at] = picture[at] & !7 | random.below(8) as u8;
}

/// An enable bit turned over, or another granularity code.
fn edit_control(random: &mut Random, picture: &mut Vec<u8>) {
    let at = any_field(random, picture, 0) + random.pick(&[32, 40, 44]);
    match random.percent(40) {
        true => picture[at] ^= 1,
        false => picture[at] = picture[at] & 0x0F | (random.below(16) << 4) as u8,
    }
}

/// Low bits of Memory or Prefetchable Base or Limit.
fn edit_range_bits(random: &mut Random, picture: &mut Vec<u8>) {
    let at = any_field(random, picture, 0) + random.pick(&[8, 10, 12, 14, 12, 14]);
    picture[at] ^= random.pick(&[1, 1, 2, 8, 15]);
}

/// ARI Forwarding Enable turned over.
fn edit_ari(random: &mut Random, picture: &mut Vec<u8>) {
    let at = any_field(random, picture, 24);
    picture[at] ^= 0x20;
}

/// A low bit of the start of an enabled vector turned over, of a coarse one if there is any.
fn edit_start(random: &mut Random, picture: &mut Vec<u8>) {
    let mut starts = Vec::new();
    for record in (0..record_count(picture)).map(|port| edition(picture).record_start(port)) {
        for (control, start, low_bit) in [(32, 32, 19), (40, 40, 20), (44, 44, 28), (44, 48, 0)] {
            let enabled = picture[record + control] & 1 == 1;
            let coarse = picture[record + control] >> 4 > 0;
            if enabled {
                starts.extend(vec![(record + start, low_bit); if coarse { 8 } else { 1 }]);
            }
        }
    }
    if !starts.is_empty() {
        let (at, low_bit) = random.pick(&starts);
        let register = get_4(picture, at);
        put_4(picture, at, register ^ 1 << (low_bit + random.below(4)));
    }
}

/// The place where a port's vectors start, off by something.
fn edit_vectors_start(random: &mut Random, picture: &mut Vec<u8>) {
    let at = any_field(random, picture, 52);
    let start = get_4(picture, at);
    put_4(picture, at, start.wrapping_add(random.pick(&[1, 4, u32::MAX, 32, 0x1_0000, 0x8000_0000])));
}

/// Every port's vectors start where they would in the other edition.
fn starts_of_the_other_edition(_: &mut Random, picture: &mut Vec<u8>) {
    let (edition, other, count) = (edition(picture), other_edition(picture), record_count(picture));
    let by = other.record_start(count).wrapping_sub(edition.record_start(count)) as u32;
    for at in (0..count).map(|port| edition.record_start(port) + 52) {
        let start = get_4(picture, at);
        put_4(picture, at, start.wrapping_add(by));
    }
}

/// Another ACS Control, where there is one: any value reads.
fn edit_acs_control(random: &mut Random, picture: &mut Vec<u8>) {
    if edition(picture) == Edition::Two {
        let at = any_field(random, picture, 56);
        put_2(picture, at, some_acs_control(random, 50));
    }
}

/// One of the two bytes after ACS Control, where there are any, becomes another than zero.
fn edit_after_acs_control(random: &mut Random, picture: &mut Vec<u8>) {
    if edition(picture) == Edition::Two {
        let at = any_field(random, picture, 0) + random.pick(&[58, 59]);
        picture[at] = random.pick(&[1, 4, 0x80, 0xFF]);
    }
}

/// Bytes more or fewer at the end, and the total with them.
pub fn edit_tail(random: &mut Random, picture: &mut Vec<u8>) {
    let length = picture.len();
    picture.resize(random.pick(&[length + 1, length + 32, length - 1, length.saturating_sub(32)]), 0);
    let total = picture.len() as u32;
    put_4(picture, 4, total);
}
