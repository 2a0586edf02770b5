//! The calls on a picture for number 18: configuration requests for own IDs, what the ports around say of the
//! ID, and a trial that puts the vectors of one of them in.

use crate::batch::Record;
use crate::claim_calls::holders_call;
use crate::draft::ALL_VECTORS;
use crate::judge::Judge;
use crate::patch_draft::PatchDraft;
use crate::patches::{old_vectors, Readable};
use crate::picture::{Picture, Target};
use crate::random::Random;
use crate::stopped::{stopped, Stopped};

/// How many own IDs are asked for at most.
const OWN_IDS: usize = 6;

/// Writes the picture of a turn with its calls.
pub fn write_stopped(random: &mut Random, turn: u64, batch: &mut Vec<u8>) {
    let about = stopped(random, turn);
    let bytes = about.draft.bytes();
    let judge = Judge::new(&bytes);
    let picture = judge.reading().expect("a picture for number 18 reads");
    let mut records = vec![Record::Picture(bytes.clone()), Record::Report, Record::Check];
    records.extend(requests_for_own_ids(random, picture));
    records.extend(calls_on_the_id(random, picture, &about));
    records.extend(trial(Readable { bytes: &bytes, picture }, &about));
    records.iter().for_each(|record| record.write(batch));
}

/// A configuration request from the host for an ID.
fn request(id: u16) -> Record {
    Record::Walk { kind: 2, start: 255, target: id as u64 }
}

/// Configuration requests from the host for the own IDs of all ports, or of some.
fn requests_for_own_ids(random: &mut Random, picture: &Picture) -> Vec<Record> {
    let mut own_ids: Vec<u16> = picture.ports.iter().map(|port| port.own_id).collect();
    if own_ids.len() > OWN_IDS {
        random.shuffle(&mut own_ids);
        own_ids.truncate(OWN_IDS);
    }
    own_ids.into_iter().map(request).collect()
}

/// Who holds the ID, where it goes, and what the parent makes of it and of IDs around it.
fn calls_on_the_id(random: &mut Random, picture: &Picture, about: &Stopped) -> Vec<Record> {
    let (id, child) = (about.id, about.child);
    let parent = picture.ports[child].parent.expect("a child has a parent") as u32;
    let around = id.wrapping_add(random.pick(&[0xFFFF, 7, 8, 0x100]));
    vec![
        holders_call(Target::Id(id)),
        Record::Claim { port: child as u32, target_kind: 0, target: id as u64 },
        Record::Conversion { port: parent, id: id as u64 },
        Record::Conversion { port: parent, id: around as u64 },
        Record::Walk { kind: 0, start: 255, target: id as u64 },
        request(id),
    ]
}

/// The same picture as a trial: a picture is lent in which the vectors of the child are clear, or those of
/// the parent if it claims the ID by them alone, and the patch has them. The request is for the port below
/// the child, if there is one.
fn trial(of: Readable, about: &Stopped) -> Vec<Record> {
    let parent = of.picture.ports[about.child].parent.expect("a child has a parent");
    let above = of.picture.ports[parent].decoders(Target::Id(about.id));
    let port = if above.rid && !above.bus { parent } else { about.child };
    let below = of.picture.ports_at(Some(about.child));
    let target = below.first().map_or(about.id, |&port| of.picture.ports[port].own_id);
    let mut lent = about.draft.clone();
    ALL_VECTORS.iter().for_each(|&which| lent.ports[port].bytes_mut(which).fill(0));
    vec![
        Record::Picture(lent.bytes()),
        Record::Report,
        Record::Patch(PatchDraft::of(&[old_vectors(of, port)]).bytes()),
        Record::TrialReport,
        Record::TrialCheck,
        Record::TrialWalk { kind: 2, start: 255, target: target as u64 },
    ]
}
