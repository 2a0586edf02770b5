//! Random new vectors for a picture that reads.

use crate::patch_draft::NewVectors;
use crate::picture::{records_of, Picture, Port, Refusal, Target, Vector, VIDEO_RANGE};
use crate::random::Random;

/// What is known of a picture that reads: its bytes, and its ports.
#[derive(Clone, Copy)]
pub struct Readable<'a> {
    pub bytes: &'a [u8],
    pub picture: &'a Picture,
}

/// The vectors of a port as the picture has them.
pub fn old_vectors(of: Readable, port: usize) -> NewVectors {
    let record = &records_of(of.bytes)[port];
    let start = record.vectors_start() as usize;
    let length: usize = record.vector_lengths().iter().sum();
    NewVectors { port: port as u32, bytes: of.bytes[start..start + length].to_vec() }
}

/// New vectors for some ports in rising order: for none, one, a few or all of them. Mostly only one of
/// them differs from the old ones.
pub fn new_vectors(random: &mut Random, of: Readable) -> Vec<NewVectors> {
    let with_vectors = ports_with_vectors(of);
    let chance = random.pick(&[0, 5, 10, 30, 60, 100]);
    let chosen = (chance > 0 && !with_vectors.is_empty()).then(|| random.pick(&with_vectors));
    let all_differ = random.percent(30);
    let mut new = Vec::new();
    for port in 0..of.picture.ports.len() {
        if chosen == Some(port) || random.percent(chance) {
            new.push(match chosen == Some(port) || all_differ {
                true => changed_vectors(random, of, port),
                false => old_vectors(of, port),
            });
        }
    }
    new
}

/// The ports that have vectors.
pub fn ports_with_vectors(of: Readable) -> Vec<usize> {
    (0..of.picture.ports.len()).filter(|&port| !old_vectors(of, port).bytes.is_empty()).collect()
}

/// New vectors for a port: the old ones with a bit or two turned over or with something that another port
/// at its place holds, the old ones as they are, random ones, all clear or all set.
fn changed_vectors(random: &mut Random, of: Readable, port: usize) -> NewVectors {
    let mut new = old_vectors(of, port);
    match random.below(16) {
        0 => {}
        1 => new.bytes.fill(0),
        2 => new.bytes.fill(0xFF),
        3 => new.bytes.iter_mut().for_each(|byte| *byte = random.bits() as u8),
        4 | 5 => {
            new.bytes.fill(0);
            flip_bits(random, &mut new.bytes, 4);
        }
        6..=9 => collide(random, of, port, &mut new),
        _ => flip_bits(random, &mut new.bytes, 2),
    }
    new
}

/// Turns over so many bits at most.
fn flip_bits(random: &mut Random, bytes: &mut [u8], most: u64) {
    if bytes.is_empty() {
        return;
    }
    for _ in 0..random.between(1, most) {
        bytes[random.below(bytes.len() as u64) as usize] ^= 1 << random.below(8);
    }
}

/// Lets a port claim something that another at its place, or its parent, holds, if its vectors reach there.
fn collide(random: &mut Random, of: Readable, port: usize, new: &mut NewVectors) {
    let place = of.picture.ports[port].parent;
    let mut others = of.picture.ports_at(place);
    others.retain(|&other| other != port);
    others.extend(place);
    if others.is_empty() {
        return;
    }
    let old = new.clone();
    for _ in 0..8 {
        let other = &of.picture.ports[random.pick(&others)];
        turn_entries(of, new, something_held(random, other), |byte, bit| *byte |= bit);
        if *new != old {
            return;
        }
    }
}

/// An ID or an address that the port holds, if it holds any of its kind.
fn something_held(random: &mut Random, port: &Port) -> Target {
    match random.below(7) {
        0 => Target::Id(port.own_id),
        1 => Target::Id((port.secondary as u16) << 8),
        2 | 3 => Target::Id(first_target(random, port.rid.as_ref()) as u16),
        4 if port.vga_enable => Target::Address(VIDEO_RANGE.base),
        4 => Target::Address(random.pick(&[port.memory.base, port.prefetchable.base])),
        5 => Target::Address(first_target(random, port.low.as_ref())),
        _ => Target::Address(first_target(random, port.high.as_ref())),
    }
}

/// The first target of a set entry, or of any if none is set.
fn first_target(random: &mut Random, vector: Option<&Vector>) -> u64 {
    let Some(vector) = vector else { return 0 };
    let set: Vec<u64> = (0..vector.size).filter(|&entry| vector.is_set(entry)).collect();
    let entry = if set.is_empty() { random.below(vector.size) } else { random.pick(&set) };
    vector.start.wrapping_add(entry * vector.granularity)
}

/// Sets or clears the entries that apply to a target, in new vectors of a port.
fn turn_entries(of: Readable, new: &mut NewVectors, target: Target, turn: fn(&mut u8, u8)) {
    let port = &of.picture.ports[new.port as usize];
    let lengths = records_of(of.bytes)[new.port as usize].vector_lengths();
    let (value, vectors) = match target {
        Target::Id(id) => (id as u64, [port.rid.as_ref(), None, None]),
        Target::Address(address) => (address, [None, port.low.as_ref(), port.high.as_ref()]),
    };
    let mut at = 0;
    for (vector, length) in vectors.into_iter().zip(lengths) {
        if let Some(entry) = vector.and_then(|vector| vector.entry_of(value)) {
            turn(&mut new.bytes[at + (entry / 8) as usize], 1 << (entry % 8));
        }
        at += length;
    }
}

/// New vectors that take away what the check found at its least target: the ports named let go of it, or
/// the parent of the one named claims it.
pub fn repairing_vectors(random: &mut Random, of: Readable, found: &Refusal) -> Vec<NewVectors> {
    let Some(target) = found.target else { return Vec::new() };
    let first = found.ports[0].port as usize;
    let parent = of.picture.ports[first].parent;
    if let (13 | 14, Some(parent), true) = (found.number, parent, random.percent(50)) {
        let mut new = old_vectors(of, parent);
        turn_entries(of, &mut new, target, |byte, bit| *byte |= bit);
        return vec![new];
    }
    let mut new = old_vectors(of, random.pick(&found.ports).port as usize);
    turn_entries(of, &mut new, target, |byte, bit| *byte &= !bit);
    vec![new]
}
