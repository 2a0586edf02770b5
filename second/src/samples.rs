//! Full sound pictures of 64 ports for benchmarks, of edition 1: every port has large vectors of one shape, and
//! every entry of a place's port goes to some port there.

use crate::draft::{Draft, DraftPort, VectorShape, Which, DOWNSTREAM, NO_PARENT, ROOT, UPSTREAM};
use crate::picture::Edition;
use crate::random::Random;
use crate::topology::{grow, Form};

/// The names of the samples, for `picture SEED KIND`.
pub const SAMPLE_NAMES: [&str; 7] = ["flat", "nested", "chain", "high", "low", "rid", "wide"];

/// Size code, granularity code and start of each vector that the ports have.
type Shapes = [Option<VectorShape>; 3];

/// A vector from the first granule of its space on; High begins at 4 GiB.
fn shape(size_code: u32, granularity_code: u32, start: u64) -> Option<VectorShape> {
    Some(VectorShape { size_code, granularity_code, start })
}

/// The sample of that name, if there is one; the seed decides which entry goes where.
pub fn sample(name: &str, seed: u64) -> Option<Draft> {
    let random = &mut Random::new(seed);
    let all_three = [shape(2, 3, 0), shape(4, 0, 0), shape(3, 0, 16)];
    let (ports, shapes) = match name {
        "flat" => (grow(random, Form::Flat, 64), all_three),
        "nested" => (nested_ports(), all_three),
        "chain" => (grow(random, Form::Chains, 64), all_three),
        "high" => (grow(random, Form::Flat, 64), [shape(0, 5, 0), None, shape(5, 0, 16)]),
        "low" => (grow(random, Form::Flat, 64), [shape(2, 3, 0), shape(4, 0, 0), None]),
        "rid" => (grow(random, Form::Flat, 64), [shape(5, 0, 0), None, None]),
        "wide" => return Some(windows_side_by_side(random)),
        _ => return None,
    };
    Some(fill_to_the_brim(random, ports, shapes))
}

/// 58 root ports with High vectors of 8,192 entries side by side, half of the entries set, and 6
/// more root ports: the most edges of addresses that a sound picture can have, or nearly so.
fn windows_side_by_side(random: &mut Random) -> Draft {
    let mut ports = grow(random, Form::Flat, 64);
    for (port, registers) in ports.iter_mut().enumerate() {
        registers.own_id = port as u16;
        if port < 58 {
            let start = 16 + 8_192 * port as u64;
            registers.give_vector(Which::High, VectorShape { size_code: 5, granularity_code: 0, start });
            registers.bytes_mut(Which::High).iter_mut().for_each(|byte| *byte = random.bits() as u8);
            registers.set_memory_space(true);
        }
    }
    Draft::of(ports)
}

/// A switch of six downstream ports, each with a switch of eight below it, and two more root ports.
fn nested_ports() -> Vec<DraftPort> {
    let mut ports = vec![DraftPort::silent(ROOT, NO_PARENT, 0), DraftPort::silent(UPSTREAM, 0, 0)];
    for _ in 0..6 {
        let middle = ports.len() as u8;
        ports.push(DraftPort::silent(DOWNSTREAM, 1, 0));
        ports.push(DraftPort::silent(UPSTREAM, middle, 0));
        for _ in 0..8 {
            ports.push(DraftPort::silent(DOWNSTREAM, middle + 1, 0));
        }
    }
    ports.push(DraftPort::silent(ROOT, NO_PARENT, 0));
    ports.push(DraftPort::silent(ROOT, NO_PARENT, 0));
    ports
}

/// The ports at a place.
fn ports_at(ports: &[DraftPort], place: Option<usize>) -> Vec<usize> {
    let parent = place.map_or(NO_PARENT, |port| port as u8);
    (0..ports.len()).filter(|&port| ports[port].parent == parent).collect()
}

/// A port as many times as there are ports from it on downward, for a fair draw.
fn lots(ports: &[DraftPort], port: usize) -> usize {
    1 + ports_at(ports, Some(port)).into_iter().map(|child| lots(ports, child)).sum::<usize>()
}

/// Gives every port its vectors, as long as the picture has room, and hands out all entries.
fn fill_to_the_brim(random: &mut Random, mut ports: Vec<DraftPort>, shapes: Shapes) -> Draft {
    let mut bytes_left = 65_536 - Edition::One.record_start(ports.len());
    for port in &mut ports {
        let needed: usize = shapes.iter().flatten().map(|shape| 32usize << shape.size_code).sum();
        if needed <= bytes_left {
            bytes_left -= needed;
            give_vectors(port, shapes);
        }
    }
    let places = [None].into_iter().chain((0..ports.len()).map(Some));
    for place in places.collect::<Vec<_>>() {
        hand_out_entries(random, &mut ports, place, shapes);
    }
    Draft::of(ports)
}

/// Gives a port all its vectors, still clear, and opens its memory.
fn give_vectors(port: &mut DraftPort, shapes: Shapes) {
    for (which, shape) in [Which::Rid, Which::Low, Which::High].into_iter().zip(shapes) {
        if let Some(shape) = shape {
            port.give_vector(which, shape);
        }
    }
    port.set_memory_space(true);
}

/// Hands out the entries that the place's port has set (all, at the root) to the ports there.
fn hand_out_entries(random: &mut Random, ports: &mut [DraftPort], place: Option<usize>, shapes: Shapes) {
    let children = ports_at(ports, place);
    if children.is_empty() {
        return;
    }
    let mut draw = Vec::new();
    for &child in &children {
        draw.extend(vec![child; lots(ports, child)]);
    }
    for (which, shape) in [Which::Rid, Which::Low, Which::High].into_iter().zip(shapes) {
        let Some(shape) = shape else { continue };
        let mut entries = entries_of(ports, place, which, shape);
        if which == Which::Rid {
            hand_out_own_ids(ports, place, &children, shape, &mut entries);
        }
        for entry in entries {
            let child = random.pick(&draw);
            if ports[child].is_enabled(which) {
                ports[child].flip_entry(which, entry);
            }
        }
    }
}

/// The entries that a place has to give.
fn entries_of(ports: &[DraftPort], place: Option<usize>, which: Which, shape: VectorShape) -> Vec<u64> {
    let is_set = |&entry: &u64| match place {
        None => true,
        Some(port) => ports[port].bytes(which)[(entry / 8) as usize] >> (entry % 8) & 1 == 1,
    };
    (0..256u64 << shape.size_code).filter(is_set).collect()
}

/// Takes the first entries for own IDs, as many as are needed, and makes them Type 0 above. Below a
/// port, one entry of 64 IDs is enough.
fn hand_out_own_ids(
    ports: &mut [DraftPort],
    place: Option<usize>,
    children: &[usize],
    shape: VectorShape,
    entries: &mut Vec<u64>,
) {
    let ids_of_an_entry = 8u64 << shape.granularity_code;
    let needed = children.len().div_ceil(ids_of_an_entry as usize);
    let first_id = entries[0] * ids_of_an_entry;
    entries.drain(..needed);
    for (index, &child) in children.iter().enumerate() {
        ports[child].own_id = (first_id + index as u64) as u16;
    }
    if let Some(port) = place {
        ports[port] = ports[port].clone().secondary_range((first_id / 8) as u16, 7);
    }
}
