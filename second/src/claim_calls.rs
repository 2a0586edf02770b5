//! Claims, conversions and holders that a random picture is asked for: where several decoders of a port
//! meet, at own IDs, and with arguments that are refused.

use crate::batch::Record;
use crate::cases::VGA;
use crate::check::edges_of;
use crate::generate::{some_target, LONG_IDS};
use crate::picture::{Picture, Port, Target, FOUR_GIB};
use crate::random::Random;

/// Target kinds that there are not.
const BAD_TARGET_KINDS: [u32; 3] = [2, 3, u32::MAX];

/// A target that several decoders of a port claim, and the bits of these decoders.
#[derive(Clone, Copy)]
struct Meeting {
    port: u32,
    target: Target,
    decoders: u32,
}

/// Calls on a picture that reads.
pub fn claim_calls(random: &mut Random, picture: &Picture) -> Vec<Record> {
    let meetings = meetings(picture);
    let mut calls = Vec::new();
    let of_video: Vec<Meeting> =
        meetings.iter().copied().filter(|meeting| meeting.decoders & VGA != 0).collect();
    for meetings in [&meetings, &meetings, &of_video, &of_video] {
        if let Some(Meeting { port, target, .. }) = some_meeting(random, meetings) {
            let (target_kind, value) = kind_and_value(target);
            calls.push(Record::Claim { port, target_kind, target: value });
            calls.push(holders_call(target));
        }
    }
    let port = random.below(picture.ports.len() as u64) as usize;
    calls.push(holders_call(Target::Id(picture.ports[port].own_id)));
    let target_kind = random.below(2) as u32;
    calls.push(Record::Holders { target_kind, target: some_target(random, picture, target_kind) });
    calls.extend(refused_calls(random, picture));
    calls
}

/// Who holds the target?
pub fn holders_call(target: Target) -> Record {
    let (target_kind, target) = kind_and_value(target);
    Record::Holders { target_kind, target }
}

/// The target kind and the number of a target, as the calls have them.
fn kind_and_value(target: Target) -> (u32, u64) {
    match target {
        Target::Id(id) => (0, id as u64),
        Target::Address(address) => (1, address),
    }
}

/// Where several decoders of one port meet: the first target of every piece that they claim together.
fn meetings(picture: &Picture) -> Vec<Meeting> {
    let mut meetings = Vec::new();
    for (port, what) in picture.ports.iter().enumerate() {
        for target in first_targets(what) {
            let decoders = what.decoders(target).bits();
            if decoders.count_ones() > 1 {
                meetings.push(Meeting { port: port as u32, target, decoders });
            }
        }
    }
    meetings
}

/// The first targets of all pieces that the decoders of a port claim, and some others.
fn first_targets(port: &Port) -> Vec<Target> {
    let mut targets = vec![Target::Id((port.secondary as u16) << 8), Target::Address(FOUR_GIB)];
    if let Some(rid) = &port.rid {
        let first = |entry: u64| Target::Id((rid.start + entry * rid.granularity) as u16);
        targets.extend((0..rid.size).filter(|&entry| rid.is_set(entry)).map(first));
    }
    targets.extend(edges_of(port).into_iter().map(Target::Address));
    targets
}

/// One of the sets of decoders that meet anywhere, and one of its meetings.
fn some_meeting(random: &mut Random, meetings: &[Meeting]) -> Option<Meeting> {
    let mut sets: Vec<u32> = meetings.iter().map(|meeting| meeting.decoders).collect();
    sets.sort_unstable();
    sets.dedup();
    if sets.is_empty() {
        return None;
    }
    let set = random.pick(&sets);
    let of_set: Vec<Meeting> = meetings.iter().copied().filter(|meeting| meeting.decoders == set).collect();
    Some(random.pick(&of_set))
}

/// A claim, a conversion and holders, each with one argument that is refused.
fn refused_calls(random: &mut Random, picture: &Picture) -> [Record; 3] {
    let count = picture.ports.len() as u32;
    let port = random.below(count as u64) as u32;
    let beyond = random.pick(&[count, 64, u32::MAX]);
    let (target, long_id) = (some_target(random, picture, 0), random.pick(&LONG_IDS));
    let bad_kind = random.pick(&BAD_TARGET_KINDS);
    let claim = match random.below(3) {
        0 => Record::Claim { port: beyond, target_kind: random.below(2) as u32, target },
        1 => Record::Claim { port, target_kind: bad_kind, target },
        _ => Record::Claim { port, target_kind: 0, target: long_id },
    };
    let conversion = match random.percent(50) {
        true => Record::Conversion { port: beyond, id: target },
        false => Record::Conversion { port, id: long_id },
    };
    let holders = match random.percent(70) {
        true => Record::Holders { target_kind: bad_kind, target },
        false => Record::Holders { target_kind: 0, target: long_id },
    };
    [claim, conversion, holders]
}

/// Claims, conversion and holders asked of a picture that does not read; some would be refused anyway.
pub fn claim_calls_on_nothing(random: &mut Random) -> Vec<Record> {
    let target_kind = random.pick(&[0, 1, 2, u32::MAX]);
    let target = random.pick(&[0, 0x1_0000]);
    vec![
        Record::Claim { port: random.pick(&[0, 99]), target_kind: random.pick(&[0, 1, 2]), target: 0 },
        Record::Conversion { port: random.pick(&[0, 99]), id: random.pick(&[0, 0x1_0000]) },
        Record::Holders { target_kind, target },
    ]
}
