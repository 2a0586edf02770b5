//! Two ports at one place that hold one target, by turns in ways that pictures drawn at random seldom show.

use crate::breaking::two_siblings;
use crate::claims::{bus, unit};
use crate::draft::{Draft, DraftPort, Which};
use crate::judge::Judge;
use crate::picture::{Named, Target, FOUR_GIB, MIB, VIDEO_RANGE};
use crate::random::Random;
use crate::sound::{fill, Taste};
use crate::topology::{grow, ALL_FORMS};
use crate::widen::{set_entry, MIB_OF_A_HIGH_GRANULE};
use crate::wild::add_noise;

/// The bits of a way to hold a target: a claim's, and one for the own ID.
const BUS: u32 = 1;
const RID: u32 = 1 << 1;
const MEM: u32 = 1 << 2;
const PREF: u32 = 1 << 3;
const LOW: u32 = 1 << 4;
const HIGH: u32 = 1 << 5;
const VGA: u32 = 1 << 6;
const OWN: u32 = 1 << 7;

/// How the first and how the second of two ports holds a target.
type Ways = [u32; 2];

/// How often a picture is drawn anew until the check finds what is wanted.
const TRIES: usize = 100;

/// The ways in turn: at an ID, above 4 GiB, in the video range and below 4 GiB.
fn all_ways() -> Vec<Ways> {
    let mut ways = Vec::new();
    for first in [OWN, BUS, RID, BUS | RID] {
        ways.extend([BUS | RID, OWN | RID].map(|second| [first, second]));
    }
    ways.extend([[OWN, RID], [RID, OWN], [OWN, OWN | BUS]]);
    for first in [PREF, HIGH, PREF | HIGH] {
        ways.extend([PREF, HIGH, PREF | HIGH].map(|second| [first, second]));
    }
    for more in [0, MEM, PREF, MEM | PREF] {
        ways.extend([[VGA, more | VGA], [more | LOW | VGA, VGA]]);
    }
    ways.extend([[VGA, MEM], [MEM | LOW, MEM | PREF], [LOW, MEM | PREF]]);
    ways
}

/// A small picture, sound but for two ports that meet in the ways of this turn; several tries, and whatever
/// the last one gives.
pub fn meeting(random: &mut Random, turn: u64) -> Vec<u8> {
    let all = all_ways();
    let ways = all[turn as usize % all.len()];
    let mut picture = Vec::new();
    for _ in 0..TRIES {
        picture = let_two_meet(random, ways).bytes();
        let found = Judge::new(&picture).check();
        if found.is_err_and(|refusal| refusal.ports.iter().map(way_of).eq(ways)) {
            break;
        }
    }
    picture
}

/// The way in which the port holds the target; 0 if none is named.
fn way_of(named: &Named) -> u32 {
    named.holding.map_or(0, |holding| holding.decoders.bits() | if holding.own { OWN } else { 0 })
}

/// Lets two ports of a small sound picture hold one target.
fn let_two_meet(random: &mut Random, ways: Ways) -> Draft {
    let (form, count) = (random.pick(&ALL_FORMS), random.between(2, 9) as usize);
    let ports = grow(random, form, count);
    let taste = Taste::random(random);
    let mut draft = fill(random, ports, &taste);
    let judge = Judge::new(&draft.bytes());
    let (port, other) = two_siblings(random, judge.reading().expect("a sound picture reads"));
    let target = some_target(random, ways);
    hold(&mut draft.ports[port.min(other)], ways[0], target);
    hold(&mut draft.ports[port.max(other)], ways[1], target);
    if random.percent(50) {
        add_noise(random, &mut draft);
    }
    draft
}

/// A target for these ways: the first ID of a bus, the first address of a High granule or of a MiB, or that of
/// the video range.
fn some_target(random: &mut Random, ways: Ways) -> Target {
    let used = ways[0] | ways[1];
    if used & (OWN | BUS | RID) != 0 {
        Target::Id((random.between(1, 255) as u16) << 8)
    } else if used & VGA != 0 {
        Target::Address(VIDEO_RANGE.base)
    } else if used & (MEM | LOW) != 0 {
        Target::Address(random.between(1, 4_095) * MIB)
    } else {
        Target::Address(FOUR_GIB + random.below(4_096) * MIB_OF_A_HIGH_GRANULE * MIB)
    }
}

/// Lets a port hold a target in this way.
fn hold(port: &mut DraftPort, way: u32, target: Target) {
    match target {
        Target::Id(id) => hold_id(port, way, id),
        Target::Address(address) => hold_mib(port, way, address / MIB),
    }
}

/// Lets a port hold an ID in this way.
fn hold_id(port: &mut DraftPort, way: u32, id: u16) {
    if way & OWN != 0 {
        port.own_id = id;
    }
    if way & BUS != 0 {
        *port = port.clone().buses(bus(id), bus(id));
    }
    if way & RID != 0 {
        set_entry(port, Which::Rid, unit(id) as u64);
    }
}

/// Lets a port claim a MiB in this way, of which VGA Enable gives the video range only.
fn hold_mib(port: &mut DraftPort, way: u32, mib: u64) {
    if way & MEM != 0 {
        *port = port.clone().memory(mib as u16, mib as u16);
    }
    if way & PREF != 0 {
        *port = port.clone().prefetchable(mib, mib);
    }
    if way & LOW != 0 {
        set_entry(port, Which::Low, mib);
    }
    if way & HIGH != 0 {
        set_entry(port, Which::High, mib / MIB_OF_A_HIGH_GRANULE);
    }
    if way & VGA != 0 {
        port.set_vga(true);
    }
    port.set_memory_space(true);
}
