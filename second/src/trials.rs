//! Trials for the pictures of a random batch: patches, each with calls that suit it.

use crate::batch::Record;
use crate::generate::{some_start, walk_call, BAD_KINDS, BAD_STARTS};
use crate::judge::Judge;
use crate::patch::put_in;
use crate::patch_damage::damaged_patch;
use crate::patch_draft::{NewVectors, PatchDraft};
use crate::patches::{new_vectors, old_vectors, ports_with_vectors, repairing_vectors, Readable};
use crate::picture::{Picture, Port, Refusal, Target, Vector};
use crate::random::Random;
use crate::redirects::{redirect_calls, redirecting_ports};

/// How many damaged patches each picture that reads is tried with.
const DAMAGED: usize = 4;

/// How many walks from ports with redirect a trial has that are not about what its patch changes.
const REDIRECTED: usize = 3;

/// Writes trials on a picture: one with a good patch, some with damaged ones, and one with a patch that
/// makes something sound. On a picture that does not read, one trial.
pub fn write_trials(random: &mut Random, bytes: &[u8], judge: &Judge, batch: &mut Vec<u8>) {
    let Ok(picture) = judge.reading() else { return write_trial_on_nothing(random, batch) };
    let of = Readable { bytes, picture };
    let new = new_vectors(random, of);
    write_good_trial(random, of, &new, batch);
    for _ in 0..DAMAGED {
        let patch = damaged_patch(random, of);
        write_damaged_trial(random, of, patch, batch);
    }
    match judge.check() {
        Ok(()) => write_restoring_trial(random, of, &new, batch),
        Err(found) => write_repairing_trial(random, of, &found, batch),
    }
}

/// A trial on a picture that does not read, with a patch that would be good or would not.
fn write_trial_on_nothing(random: &mut Random, batch: &mut Vec<u8>) {
    let port = random.pick(&[0, 1, 64, 255]);
    let good = PatchDraft::of(&[]).bytes();
    let one_port = PatchDraft::of(&[NewVectors { port, bytes: vec![0; 32] }]).bytes();
    let patch = random.pick(&[Vec::new(), good.clone(), good, one_port, vec![0; 9]]);
    Record::Patch(patch).write(batch);
    write_all(&[Record::TrialReport, Record::TrialCheck, bad_walk(random)], batch);
    Record::Part { port, mechanism: random.pick(&[0, 2, 3]) }.write(batch);
}

/// A trial with a good patch, with walks to what it changes and parts of all kinds.
fn write_good_trial(random: &mut Random, of: Readable, new: &[NewVectors], batch: &mut Vec<u8>) {
    let patch = PatchDraft::of(new).bytes();
    let redirected = redirected_after(&mut random.apart(), of, &patch);
    let walks = walks_after(random, of, &patch, 6);
    Record::Patch(patch).write(batch);
    write_all(&[Record::TrialReport, Record::TrialCheck], batch);
    write_all(&walks, batch);
    write_all(&redirected, batch);
    if random.percent(20) {
        bad_walk(random).write(batch);
    }
    for _ in 0..4 {
        some_part(random, of, new).write(batch);
    }
}

/// Writes trials on a picture for redirect: one with a good patch, and one in which a starting port lets go.
pub fn write_redirect_trials(random: &mut Random, of: Readable, batch: &mut Vec<u8>) {
    let new = new_vectors(random, of);
    write_good_trial(random, of, &new, batch);
    write_letting_go(random, of, batch);
}

/// A trial in which a port with redirect and vectors lets go of all that it claims by them, with walks from there
/// to some of it; none if there is no such port.
fn write_letting_go(random: &mut Random, of: Readable, batch: &mut Vec<u8>) {
    let mut starts = redirecting_ports(of.picture);
    starts.retain(|start| ports_with_vectors(of).contains(start));
    if starts.is_empty() {
        return;
    }
    let start = random.pick(&starts);
    let mut new = old_vectors(of, start);
    new.bytes.fill(0);
    let patch = PatchDraft::of(&[new]).bytes();
    let judge = Judge::of_trial(of.bytes, &patch);
    let after = judge.reading().expect("the patch is good");
    let mut addresses = changed_addresses(&of.picture.ports[start], &after.ports[start]);
    random.shuffle(&mut addresses);
    Record::Patch(patch).write(batch);
    for target in addresses.into_iter().take(2) {
        Record::TrialWalk { kind: 1, start: start as u32, target }.write(batch);
    }
}

/// A trial with a damaged patch; by accident it may be good still.
fn write_damaged_trial(random: &mut Random, of: Readable, patch: Vec<u8>, batch: &mut Vec<u8>) {
    Record::Patch(patch).write(batch);
    let report_or_check = random.pick(&[Record::TrialReport, Record::TrialCheck, Record::TrialCheck]);
    let walk = match random.percent(50) {
        true => bad_walk(random),
        false => in_trial(walk_call(random, of.picture, 0)),
    };
    let part = some_part(random, of, &[]);
    write_all(&[report_or_check, walk, part], batch);
}

/// Of a sound picture: one with other vectors is lent, and a patch that puts the old ones in again. Either
/// of the two comes first.
fn write_restoring_trial(random: &mut Random, of: Readable, new: &[NewVectors], batch: &mut Vec<u8>) {
    if ports_with_vectors(of).is_empty() || new.is_empty() {
        return;
    }
    let changed = put_in(of.bytes, &PatchDraft::of(new).bytes()).expect("the patch is good");
    let old: Vec<NewVectors> = new.iter().map(|new| old_vectors(of, new.port as usize)).collect();
    let mut lent = [Record::Picture(changed), Record::Patch(PatchDraft::of(&old).bytes())];
    if random.percent(50) {
        lent.reverse();
    }
    write_all(&lent, batch);
    write_all(&[Record::TrialCheck, some_part(random, of, &old)], batch);
}

/// Of a picture that the check refuses for a target: a patch that takes this cause away.
fn write_repairing_trial(random: &mut Random, of: Readable, found: &Refusal, batch: &mut Vec<u8>) {
    let new = repairing_vectors(random, of, found);
    let Some(target) = found.target else { return };
    let (kind, target) = match target {
        Target::Id(id) => (random.pick(&[0, 2]), id as u64),
        Target::Address(address) => (1, address),
    };
    let start = some_start(random, of.picture, kind);
    Record::Patch(PatchDraft::of(&new).bytes()).write(batch);
    write_all(&[Record::TrialCheck, Record::TrialWalk { kind, start, target }], batch);
}

/// Appends records to a batch.
fn write_all(records: &[Record], batch: &mut Vec<u8>) {
    records.iter().for_each(|record| record.write(batch));
}

/// A walk on the picture as a walk in the trial.
fn in_trial(call: Record) -> Record {
    match call {
        Record::Walk { kind, start, target } => Record::TrialWalk { kind, start, target },
        other => other,
    }
}

/// A walk that is refused in any picture.
fn bad_walk(random: &mut Random) -> Record {
    match random.below(3) {
        0 => Record::TrialWalk { kind: random.pick(&BAD_KINDS), start: 255, target: 0 },
        1 => Record::TrialWalk { kind: 0, start: random.pick(&BAD_STARTS), target: 0 },
        _ => Record::TrialWalk { kind: random.pick(&[0, 2]), start: 255, target: 0x1_0000 },
    }
}

/// So many walks, mostly to and around what a good patch changes.
fn walks_after(random: &mut Random, of: Readable, patch: &[u8], count: usize) -> Vec<Record> {
    let judge = Judge::of_trial(of.bytes, patch);
    let after = judge.reading().expect("the patch is good");
    let changed = changed_targets(of.picture, after);
    (0..count)
        .map(|_| {
            if changed.is_empty() || random.percent(20) {
                let kind = random.below(3) as u32;
                return in_trial(walk_call(random, after, kind));
            }
            let target = random.pick(&changed);
            walk_around(random, after, target)
        })
        .collect()
}

/// Walks from ports with redirect, if there are any: a few to whatever is there after a good patch, one to what
/// the patch changes, and one to what it changes at the starting port itself.
fn redirected_after(random: &mut Random, of: Readable, patch: &[u8]) -> Vec<Record> {
    let judge = Judge::of_trial(of.bytes, patch);
    let after = judge.reading().expect("the patch is good");
    let starts = redirecting_ports(after);
    let changed_at = |port: usize| changed_addresses(&of.picture.ports[port], &after.ports[port]);
    let anywhere: Vec<u64> = (0..after.ports.len()).flat_map(changed_at).collect();
    let at_start: Vec<(usize, u64)> = starts
        .iter()
        .flat_map(|&start| changed_at(start).into_iter().map(move |address| (start, address)))
        .collect();
    let mut calls = redirect_calls(random, after);
    random.shuffle(&mut calls);
    calls.truncate(REDIRECTED);
    let mut push = |start: usize, target| calls.push(Record::Walk { kind: 1, start: start as u32, target });
    if !starts.is_empty() && !anywhere.is_empty() {
        push(random.pick(&starts), random.pick(&anywhere));
    }
    if !at_start.is_empty() {
        let (start, address) = random.pick(&at_start);
        push(start, address);
    }
    calls.into_iter().map(in_trial).collect()
}

/// A walk to a target, just before it or just behind its smallest granule, or where the video range begins if
/// the target is 0.
fn walk_around(random: &mut Random, picture: &Picture, target: Target) -> Record {
    let (kind, target) = match target {
        Target::Id(id) => {
            let around = random.pick(&[0, 0, 7, 8, 0xFFFF]);
            (random.pick(&[0, 0, 2]), id.wrapping_add(around) as u64)
        }
        Target::Address(address) => {
            (1, address.wrapping_add(random.pick(&[0, 0, 0xA_0000, 0xF_FFFF, 0x10_0000, u64::MAX])))
        }
    };
    Record::TrialWalk { kind, start: some_start(random, picture, kind), target }
}

/// The first target of each entry that is set in one picture and clear in the other.
fn changed_targets(before: &Picture, after: &Picture) -> Vec<Target> {
    let mut targets = Vec::new();
    for (old, new) in before.ports.iter().zip(&after.ports) {
        targets.extend(changed_entries(&old.rid, &new.rid).into_iter().map(|id| Target::Id(id as u16)));
        targets.extend(changed_addresses(old, new).into_iter().map(Target::Address));
    }
    targets
}

/// The first address of each entry of a port's memory vectors that is set in one picture and clear in the other.
fn changed_addresses(old: &Port, new: &Port) -> Vec<u64> {
    [changed_entries(&old.low, &new.low), changed_entries(&old.high, &new.high)].concat()
}

/// The first target of each entry in which two vectors of the same setting differ.
fn changed_entries(old: &Option<Vector>, new: &Option<Vector>) -> Vec<u64> {
    let (Some(old), Some(new)) = (old, new) else { return Vec::new() };
    let differs = |&entry: &u64| old.is_set(entry) != new.is_set(entry);
    let first = |entry: u64| new.start.wrapping_add(entry * new.granularity);
    (0..new.size).filter(differs).map(first).collect()
}

/// A part of a port in the patch, or of any port; seldom of a port or a mechanism that there is not.
fn some_part(random: &mut Random, of: Readable, new: &[NewVectors]) -> Record {
    let count = of.picture.ports.len() as u32;
    let mut port = random.below(count as u64) as u32;
    if !new.is_empty() && random.percent(60) {
        port = random.pick(new).port;
    }
    if random.percent(6) {
        port = random.pick(&[count, 64, 255, 256, 256 + port, 0x1_0000 + port, u32::MAX]);
    }
    let mechanism = match random.percent(6) {
        true => random.pick(&[3, 4, 255, 256, 257, u32::MAX]),
        false => random.below(3) as u32,
    };
    Record::Part { port, mechanism }
}
