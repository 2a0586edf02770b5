//! Batches of random pictures, each with a report, a check and a choice of further calls.

use crate::batch::Record;
use crate::breaking::{break_at_video, break_once, shake};
use crate::cases::all_cases;
use crate::claim_calls::{claim_calls, claim_calls_on_nothing, holders_call};
use crate::claims::{bus, unit};
use crate::draft::{Draft, DraftPort, Which, NO_PARENT, ROOT, UPSTREAM};
use crate::edges::reading_edges;
use crate::editions::in_either_edition;
use crate::judge::Judge;
use crate::meetings::meeting;
use crate::patches::Readable;
use crate::picture::{read, Picture, Port, Refusal, Target, Vector, FOUR_GIB};
use crate::random::Random;
use crate::redirects::redirect_calls;
use crate::samples::{sample, SAMPLE_NAMES};
use crate::sound::{fill, Taste};
use crate::spoil::{
    chain_at_the_edge, edit_tail, misplace, scatter_own_ids, scramble_settings, scramble_starts, spoil,
};
use crate::stopped::stopped;
use crate::stopped_calls::write_stopped;
use crate::topology::{grow, port_count, Form, ALL_FORMS};
use crate::towers::towers;
use crate::trials::{write_redirect_trials, write_trials};
use crate::video::{crowd_the_first_mib, has_video, video_edge};
use crate::widen::{set_entry, widen};
use crate::wild::{add_noise, make_memory_wild, wild};

/// Numbers that are no start anywhere; some would be one if they were cut to 8 or 16 bits.
pub const BAD_STARTS: [u32; 8] = [64, 254, 256, 300, 511, 0xFF00, 0x1_0000, u32::MAX];

/// Packet kinds that there are not.
pub const BAD_KINDS: [u32; 5] = [3, 255, 256, 258, u32::MAX];

/// IDs over FFFFh, some of which would be good IDs if they were cut.
pub const LONG_IDS: [u64; 4] = [0x1_0000, 0x1_0308, 0x1_0000_0000, u64::MAX];

/// Numbers in turn, those whose sentences have many forms more than once; 11 is for own IDs that are claimed,
/// 12 for the video range, 13 by turns for a first child that is number 6 and for any other cause of it.
const TURNS: [u8; 17] = [1, 6, 2, 8, 3, 9, 13, 4, 11, 12, 5, 8, 7, 6, 9, 10, 15];

/// One of so many pictures of a batch has two ports that meet.
const MEETING_EVERY: u64 = 8;

/// After one of so many pictures of a batch comes one more, for number 18.
const STOPPED_EVERY: u64 = 5;

/// After one of so many comes one more for redirect, the one half-way.
const TOWERS_EVERY: u64 = 5;

/// Of so many pictures for texts one is for number 18, the one half-way.
const STOPPED_OF_TEXTS: u64 = 16;

/// How often a picture that reads is asked for a walk of each kind; fewer where two ports meet, in a small one,
/// and where redirect has its own walks.
const ROUNDS: usize = 12;
const ROUNDS_AT_A_MEETING: usize = 6;
const ROUNDS_IN_TOWERS: usize = 3;

/// A batch of so many pictures, and for every five of them one more for number 18 and one for redirect; the same
/// seed gives the same batch.
pub fn generate(seed: u64, count: u64) -> Vec<u8> {
    let mut batch = Vec::new();
    for index in 0..count {
        let random = &mut random_of(seed, index);
        let meets = index % MEETING_EVERY == MEETING_EVERY - 1;
        let picture = match meets {
            true => meeting(random, index / MEETING_EVERY),
            false => random_picture(random),
        };
        let judge = Judge::new(&picture);
        let rounds = if meets { ROUNDS_AT_A_MEETING } else { ROUNDS };
        write_with_calls(random, &picture, &judge, rounds, &mut batch);
        write_trials(&mut random_of_trials(seed, index), &picture, &judge, &mut batch);
        if index % STOPPED_EVERY == STOPPED_EVERY - 1 {
            write_stopped(&mut random_of_stopped(seed, index), index / STOPPED_EVERY, &mut batch);
        }
        if index % TOWERS_EVERY == TOWERS_EVERY / 2 {
            write_towers(&mut random_of_towers(seed, index), &mut batch);
        }
    }
    batch
}

/// Writes a picture for redirect, its calls and two trials.
fn write_towers(random: &mut Random, batch: &mut Vec<u8>) {
    let bytes = towers(random).bytes();
    let judge = Judge::new(&bytes);
    write_with_calls(random, &bytes, &judge, ROUNDS_IN_TOWERS, batch);
    write_redirect_trials(
        random,
        Readable { bytes: &bytes, picture: judge.reading().expect("towers read") },
        batch,
    );
}

/// The random numbers of one picture of a seed.
pub fn random_of(seed: u64, index: u64) -> Random {
    Random::new(seed.wrapping_mul(0x1_0000_0001).wrapping_add(index))
}

/// Those of its trials, apart from the others, so that trials change nothing in the rest of a batch.
fn random_of_trials(seed: u64, index: u64) -> Random {
    Random::new(!random_of(seed, index).bits())
}

/// Those of the picture for number 18 that comes after it, apart from the others too.
fn random_of_stopped(seed: u64, index: u64) -> Random {
    Random::new(random_of(seed, index).bits().rotate_left(32))
}

/// Those of the picture for redirect that comes after it, apart from the others too.
fn random_of_towers(seed: u64, index: u64) -> Random {
    Random::new(random_of(seed, index).bits().swap_bytes())
}

/// So many pictures: every other one from the families of a batch, of these one in eight for number 18, and
/// between them pictures for each of these numbers in turn.
pub fn pictures(seed: u64, count: u64) -> impl Iterator<Item = Vec<u8>> {
    (0..count).map(move |index| {
        let random = &mut random_of(seed, index);
        let (round, turn) = (index as usize / 2 / TURNS.len(), index as usize / 2 % TURNS.len());
        match (index % 2, TURNS[turn]) {
            (0, _) if index % STOPPED_OF_TEXTS == STOPPED_OF_TEXTS / 2 => {
                stopped(random, index / STOPPED_OF_TEXTS).draft.bytes()
            }
            (0, _) => random_picture(random),
            (_, 11) => twice_owned_picture(random),
            (_, 12) => video_picture(random),
            (_, 13) if round % 2 == 1 => first_child_picture(random),
            (_, 13) => refused_picture(random, 6),
            (_, 15) => unreached_picture(random),
            (_, number) => refused_picture(random, number),
        }
    })
}

/// A picture refused by a number from 1 to 10, often for more than one cause; several tries, and
/// whatever the last one gives.
pub fn refused_picture(random: &mut Random, number: u8) -> Vec<u8> {
    let good = if random.percent(50) { wild(random) } else { sound_draft(random) }.bytes();
    let mut picture = Vec::new();
    for _ in 0..2_000 {
        picture = match number {
            7 => chain_at_the_edge(random),
            _ => good.clone(),
        };
        match number {
            6 if random.percent(60) => misplace(random, &mut picture),
            7 => scatter_own_ids(random, &mut picture),
            8 if random.percent(75) => scramble_settings(random, &mut picture),
            9 if random.percent(75) => scramble_starts(random, &mut picture),
            10 if random.percent(40) => edit_tail(random, &mut picture),
            _ => spoil(random, &mut picture),
        }
        if read(&picture).is_err_and(|refusal| refusal.number == number) {
            break;
        }
    }
    picture
}

/// Number 11: two root ports with one own ID, which the second claims by its RID vector, and sometimes by its
/// bus pair too.
fn twice_owned_picture(random: &mut Random) -> Vec<u8> {
    let own_id = random.bits() as u16;
    let first = DraftPort::silent(ROOT, NO_PARENT, own_id);
    let mut second = first.clone();
    set_entry(&mut second, Which::Rid, unit(own_id) as u64);
    if random.percent(30) {
        second = second.buses(bus(own_id), bus(own_id));
    }
    in_either_edition(random, vec![first, second]).bytes()
}

/// Number 6: an upstream port below another, which has no child of a lower number.
fn first_child_picture(random: &mut Random) -> Vec<u8> {
    let root = DraftPort::silent(ROOT, NO_PARENT, random.bits() as u16);
    let upstream = DraftPort::silent(UPSTREAM, 0, random.bits() as u16);
    let below = DraftPort::silent(UPSTREAM, 1, random.bits() as u16);
    in_either_edition(random, vec![root, upstream, below]).bytes()
}

/// Mostly number 12 or 14: a small picture that is sound but around the video range.
fn video_picture(random: &mut Random) -> Vec<u8> {
    let ports = grow(random, Form::Tangled, 5);
    let sound = fill(random, ports, &Taste::plain());
    break_at_video(random, &sound).bytes()
}

/// Number 15: a switch on the Secondary bus of its root port, with another device number than 0; seldom on
/// a bus behind it.
fn unreached_picture(random: &mut Random) -> Vec<u8> {
    let secondary = random.between(1, 200) as u8;
    let bus = secondary + random.pick(&[0, 0, 0, 1]);
    let own_id = (bus as u16) << 8 | random.between(8, 255) as u16;
    let root = DraftPort::silent(ROOT, NO_PARENT, random.below(256) as u16);
    let root = root.buses(secondary, secondary + random.between(1, 50) as u8);
    in_either_edition(random, vec![root, DraftPort::silent(UPSTREAM, 0, own_id)]).bytes()
}

/// The hand-written cases and all edges of reading, as a batch; at every eighth edge holders are asked for.
pub fn hand_written() -> Vec<u8> {
    let mut batch = Vec::new();
    for case in all_cases() {
        Record::Picture(case.picture).write(&mut batch);
        match case.patch {
            Some(patch) => Record::Patch(patch).write(&mut batch),
            None => [Record::Report, Record::Check].iter().for_each(|call| call.write(&mut batch)),
        }
        case.calls.iter().for_each(|(call, _)| call.write(&mut batch));
    }
    for (index, picture) in reading_edges().into_iter().enumerate() {
        Record::Picture(picture).write(&mut batch);
        Record::Report.write(&mut batch);
        Record::Check.write(&mut batch);
        Record::Walk { kind: 0, start: 255, target: 0 }.write(&mut batch);
        Record::Claim { port: 0, target_kind: 0, target: 0 }.write(&mut batch);
        Record::Conversion { port: 0, id: 0 }.write(&mut batch);
        if index % 8 == 0 {
            Record::Holders { target_kind: 0, target: 0 }.write(&mut batch);
        }
    }
    batch
}

/// A picture of one of the families: spoiled, wild, sound, broken once, wild in memory, crowded in the
/// first MiB, broken at the video range, or shaken; seldom a chain at the edge, or a full picture. Half of
/// those that the check may refuse for a target have more decoders there.
fn random_picture(random: &mut Random) -> Vec<u8> {
    if random.percent(2) {
        return chain_at_the_edge(random);
    }
    if random.percent(1) {
        return full_picture(random);
    }
    let family = random.below(22);
    let mut draft = if family < 5 { wild(random) } else { sound_draft(random) };
    match family {
        0..=9 => {}
        10..=15 => draft = break_once(random, &draft),
        16 | 17 => make_memory_wild(random, &mut draft),
        18 => crowd_the_first_mib(random, &mut draft),
        19 => draft = break_at_video(random, &draft),
        _ => {
            let times = random.between(2, 8);
            draft = shake(random, &draft, times);
        }
    }
    if !matches!(family, 3..=9) && random.percent(50) {
        widen(random, &mut draft);
    }
    if random.percent(50) {
        add_noise(random, &mut draft);
    }
    let mut picture = draft.bytes();
    if matches!(family, 3..=6) {
        spoil(random, &mut picture);
    }
    picture
}

/// One of the full pictures, in half of the cases broken once.
fn full_picture(random: &mut Random) -> Vec<u8> {
    let name = random.pick(&SAMPLE_NAMES);
    let full = sample(name, random.bits()).expect("every name has a sample");
    match random.percent(50) {
        true => full.bytes(),
        false => break_once(random, &full).bytes(),
    }
}

/// A random sound picture.
pub fn sound_draft(random: &mut Random) -> Draft {
    let (ports, taste) = ports_and_taste(random);
    fill(random, ports, &taste)
}

/// Silent ports in any form, and a taste to fill them by.
pub fn ports_and_taste(random: &mut Random) -> (Vec<DraftPort>, Taste) {
    let form = random.pick(&ALL_FORMS);
    let count = port_count(random);
    let ports = grow(random, form, count);
    (ports, Taste::random(random))
}

/// Writes a picture, its report and check, and calls that suit it, with so many rounds of walks.
fn write_with_calls(random: &mut Random, picture: &[u8], judge: &Judge, rounds: usize, batch: &mut Vec<u8>) {
    Record::Picture(picture.to_vec()).write(batch);
    Record::Report.write(batch);
    Record::Check.write(batch);
    let mut calls = match judge.reading() {
        Ok(picture) => calls_on(random, picture, rounds),
        Err(_) => calls_on_nothing(random),
    };
    if let (Ok(picture), Err(Refusal { target: Some(least), .. })) = (judge.reading(), judge.check()) {
        calls.extend(calls_on_least_target(random, picture, least));
    }
    if let Ok(picture) = judge.reading() {
        calls.extend(redirect_calls(random, picture));
    }
    calls.iter().for_each(|call| call.write(batch));
}

/// Walks to the least target of a check and just below it, from the host and from device ports; and who
/// holds it.
fn calls_on_least_target(random: &mut Random, picture: &Picture, least: Target) -> Vec<Record> {
    let (kinds, target): (&[u32], u64) = match least {
        Target::Id(id) => (&[0, 0, 2], id as u64),
        Target::Address(address) => (&[1], address),
    };
    let mut starts = vec![255];
    starts.extend((0..picture.ports.len() as u32).filter(|&port| picture.is_device_port(port as usize)));
    let mut calls = vec![Record::Walk { kind: kinds[0], start: 255, target }];
    for _ in 0..4 {
        let target = target.saturating_sub(random.pick(&[0, 0, 0, 1]));
        calls.push(Record::Walk { kind: random.pick(kinds), start: random.pick(&starts), target });
    }
    calls.push(holders_call(least));
    calls
}

/// A few calls on a picture that does not read; some would be refused anyway.
fn calls_on_nothing(random: &mut Random) -> Vec<Record> {
    let kind = random.pick(&[0, 1, 2, 3, 256]);
    let start = random.pick(&[255, 0, 254, 511]);
    let walk = Record::Walk { kind, start, target: random.pick(&[0, 0x0308, 0x1_0000]) };
    [vec![walk], claim_calls_on_nothing(random)].concat()
}

/// Calls on a picture that reads: all kinds, with targets at and around the edges of its ports, and so many rounds
/// of walks.
fn calls_on(random: &mut Random, picture: &Picture, rounds: usize) -> Vec<Record> {
    let mut calls = Vec::new();
    for _ in 0..rounds {
        for kind in 0..3 {
            calls.push(walk_call(random, picture, kind));
        }
    }
    for _ in 0..8 {
        calls.push(claim_call(random, picture, 0));
        calls.push(claim_call(random, picture, 1));
        calls.push(conversion_call(random, picture));
    }
    calls.push(Record::Walk { kind: random.pick(&BAD_KINDS), start: 255, target: 0 });
    calls.push(Record::Walk { kind: 0, start: random.pick(&BAD_STARTS), target: 0 });
    calls.extend(claim_calls(random, picture));
    calls
}

/// A walk of that kind to something around the edges of a port.
pub fn walk_call(random: &mut Random, picture: &Picture, kind: u32) -> Record {
    let start = some_start(random, picture, kind);
    Record::Walk { kind, start, target: some_target(random, picture, kind) }
}

/// An address for kind 1, else an ID, around the edges of a port; often one around the video range, if a port
/// has VGA Enable.
pub fn some_target(random: &mut Random, picture: &Picture, kind: u32) -> u64 {
    if kind == 1 && has_video(picture) && random.percent(30) {
        return video_edge(random);
    }
    let aim = some_aim(random, picture);
    if kind == 1 {
        address_around(random, aim)
    } else {
        id_around(random, aim)
    }
}

/// The host, a device port, or sometimes where no walk can start; configuration requests come mostly
/// from the host.
pub fn some_start(random: &mut Random, picture: &Picture, kind: u32) -> u32 {
    let device_ports: Vec<usize> =
        (0..picture.ports.len()).filter(|&port| picture.is_device_port(port)).collect();
    let from_host = random.percent(if kind == 2 { 90 } else { 40 });
    if random.percent(3) {
        let any_port = random_port(random, picture) as u32;
        random.pick(&[any_port, picture.ports.len() as u32, 256])
    } else if from_host || device_ports.is_empty() {
        255
    } else {
        deepest_of_two(random, picture, &device_ports) as u32
    }
}

/// A claim by some port, or by one beyond the count.
fn claim_call(random: &mut Random, picture: &Picture, target_kind: u32) -> Record {
    let (port, aim) = some_port_and_aim(random, picture);
    let target = if target_kind == 1 { address_around(random, aim) } else { id_around(random, aim) };
    Record::Claim { port, target_kind, target }
}

/// A conversion by some port, or by one beyond the count.
fn conversion_call(random: &mut Random, picture: &Picture) -> Record {
    let (port, aim) = some_port_and_aim(random, picture);
    Record::Conversion { port, id: id_around(random, aim) }
}

/// A port of the picture.
fn random_port(random: &mut Random, picture: &Picture) -> usize {
    random.below(picture.ports.len() as u64) as usize
}

/// The deeper of two random ports of a list.
fn deepest_of_two(random: &mut Random, picture: &Picture, ports: &[usize]) -> usize {
    let (first, second) = (random.pick(ports), random.pick(ports));
    if picture.depth(first) >= picture.depth(second) {
        first
    } else {
        second
    }
}

/// The number of a port to ask, seldom one beyond the count, and the port to aim at: mostly the same.
fn some_port_and_aim<'a>(random: &mut Random, picture: &'a Picture) -> (u32, &'a Port) {
    let port = random_port(random, picture);
    if random.percent(3) {
        let beyond = random.pick(&[picture.ports.len() as u32, 64, 255, 256, u32::MAX]);
        return (beyond, &picture.ports[port]);
    }
    let aim = if random.percent(75) { &picture.ports[port] } else { some_aim(random, picture) };
    (port as u32, aim)
}

/// A port to aim at, rather a deep one.
fn some_aim<'a>(random: &mut Random, picture: &'a Picture) -> &'a Port {
    let all: Vec<usize> = (0..picture.ports.len()).collect();
    &picture.ports[deepest_of_two(random, picture, &all)]
}

/// An ID at or around an edge of the port, or something claimed, or any ID; seldom one over FFFFh.
fn id_around(random: &mut Random, port: &Port) -> u64 {
    if random.percent(2) {
        return random.pick(&LONG_IDS);
    }
    let secondary_units = random.pick(&[0, 1, port.num_sec_dev as u64, port.num_sec_dev as u64 + 1]);
    let edge = match random.below(9) {
        0 | 1 => port.own_id as u64,
        2 => (port.secondary as u64) << 8,
        3 => ((port.subordinate as u64) << 8) + 0x100,
        4 => (port.secondary_start as u64 + secondary_units) * 8,
        5 | 6 => some_vector_edge(random, port.rid.as_ref()),
        7 => (port.secondary as u64) << 8 | random.below(0x400),
        _ => random.bits(),
    };
    let around = random.pick(&[0, 0, 0, 1, 7, 8, 0xFFFF]);
    edge.wrapping_add(around) & 0xFFFF
}

/// An address at or around an edge of the port, or something claimed, or an edge of the space.
fn address_around(random: &mut Random, port: &Port) -> u64 {
    if port.vga_enable && random.percent(30) {
        return video_edge(random);
    }
    let edge = match random.below(9) {
        0 => port.memory.base,
        1 => port.memory.last,
        2 => port.prefetchable.base,
        3 => port.prefetchable.last,
        4 | 5 => some_vector_edge(random, port.low.as_ref()),
        6 | 7 => some_vector_edge(random, port.high.as_ref()),
        _ => random.pick(&[0, FOUR_GIB, u64::MAX, 0xA_0000]),
    };
    edge.wrapping_add(random.pick(&[0, 0, 0, 1, u64::MAX, 0xF_FFFF]))
}

/// The first target of an entry: of a set one mostly, else of any, of the one before the first or
/// after the last.
fn some_vector_edge(random: &mut Random, vector: Option<&Vector>) -> u64 {
    let Some(vector) = vector else { return random.bits() >> random.below(64) };
    let set: Vec<u64> = (0..vector.size).filter(|&entry| vector.is_set(entry)).collect();
    let entry = match random.below(8) {
        0 => 0,
        1 => vector.size,
        2 => random.below(vector.size),
        _ if set.is_empty() => 0,
        3 => set[0],
        4 => set[set.len() - 1] + 1,
        _ => random.pick(&set),
    };
    vector.start.wrapping_add(entry * vector.granularity)
}
