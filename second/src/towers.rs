//! Pictures for redirect, of edition 2: towers of ports with device ports at every depth, sound as far as IDs go,
//! that share a few MiB soundly or not. The deepest device port redirects.

use crate::draft::{Draft, DraftPort, Which, DOWNSTREAM, NO_PARENT};
use crate::editions::is_device_port;
use crate::picture::Edition;
use crate::random::Random;
use crate::sound::{fill, Taste};
use crate::spoil::long_chain;
use crate::widen::{set_entry, MIB_OF_A_HIGH_GRANULE};

/// How many ports a tower has in its chain; 16 are the most, and end in an upstream port.
const HEIGHTS: [usize; 8] = [1, 3, 5, 9, 15, 16, 16, 16];

/// The most ports of a tower: three of them make a picture.
const MOST_PORTS: usize = 20;

/// The MiB that ports share, below 4 GiB and from there on; and the one that the deepest has.
const SHARED: [u64; 8] = [1, 2, 3, 4, 5, 6, 0x1000, 0x1100];
const OF_THE_DEEPEST: u64 = 7;

/// A picture of one to three towers.
pub fn towers(random: &mut Random) -> Draft {
    let mut ports = Vec::new();
    for _ in 0..random.pick(&[1, 2, 2, 2, 3]) {
        push_tower(random, &mut ports);
    }
    let taste = Taste { registers: 0, ..Taste::plain() };
    let mut draft = Draft { edition: Edition::Two, ..fill(random, ports, &taste) };
    draft.ports.iter_mut().for_each(|port| port.set_memory_space(true));
    for mib in SHARED {
        share(random, &mut draft.ports, mib);
    }
    let ports = &mut draft.ports;
    for port in deepest(ports, |_| true) {
        claim(random, &mut ports[port], OF_THE_DEEPEST);
    }
    if let Some(&port) = deepest(ports, |port| is_device_port(ports, port)).first() {
        ports[port] = ports[port].clone().redirecting();
    }
    draft
}

/// The deepest of these ports, and all above it; nothing if there is none.
fn deepest(ports: &[DraftPort], property: impl Fn(usize) -> bool) -> Vec<usize> {
    let ways = (0..ports.len()).filter(|&port| property(port)).map(|port| way_up(ports, port));
    ways.max_by_key(Vec::len).unwrap_or_default()
}

/// Adds a chain, and beside some of its downstream ports others, mostly beside the deepest.
fn push_tower(random: &mut Random, ports: &mut Vec<DraftPort>) {
    let (first, height) = (ports.len(), random.pick(&HEIGHTS));
    ports.extend(long_chain(height, first).split_off(first));
    for step in (1..height.saturating_sub(1)).step_by(2).rev() {
        let chance = if step + 3 >= height { 90 } else { 35 };
        while ports.len() - first < MOST_PORTS && random.percent(chance) {
            ports.push(DraftPort::silent(DOWNSTREAM, (first + step) as u8, 0));
            if random.percent(60) {
                break;
            }
        }
    }
}

/// The port and all above it.
fn way_up(ports: &[DraftPort], port: usize) -> Vec<usize> {
    match ports[port].parent {
        NO_PARENT => vec![port],
        parent => [vec![port], way_up(ports, parent as usize)].concat(),
    }
}

/// Gives a MiB to a port and to all above it; in four of five cases something is not sound then: another port has
/// it too, alone, with all above it or beside one of these, or one of these has it not.
fn share(random: &mut Random, ports: &mut [DraftPort], mib: u64) {
    let any_port = |random: &mut Random| random.below(ports.len() as u64) as usize;
    let (owner, other, fault) = (any_port(random), any_port(random), random.below(5));
    let mut claiming = way_up(ports, owner);
    let parents: Vec<u8> = claiming.iter().map(|&port| ports[port].parent).collect();
    match fault {
        0 => claiming.push(other),
        1 => claiming.extend(way_up(ports, other)),
        2 => claiming.extend((0..ports.len()).rev().find(|&port| {
            ports[port].kind == DOWNSTREAM
                && parents.contains(&ports[port].parent)
                && !claiming.contains(&port)
        })),
        3 => {
            claiming.remove(random.below(claiming.len() as u64) as usize);
        }
        _ => {}
    }
    claiming.into_iter().for_each(|port| claim(random, &mut ports[port], mib));
}

/// Lets a port claim a MiB, mostly by a vector.
fn claim(random: &mut Random, port: &mut DraftPort, mib: u64) {
    match (random.below(10), mib < 0x1000) {
        (0, true) => *port = port.clone().memory(mib as u16, mib as u16),
        (1, _) => *port = port.clone().prefetchable(mib, mib),
        (_, true) => set_entry(port, Which::Low, mib),
        (_, false) => set_entry(port, Which::High, mib / MIB_OF_A_HIGH_GRANULE),
    }
}
