//! The line that answers each step of a story.

use std::collections::HashMap;

use crate::history::Change;
use crate::judge::Judge;
use crate::store::Store;
use crate::story::{packed, Step, Stories, Story};

/// Packet kind, start and target of the walk that is asked of every version read back.
const WALK: (u32, u32, u64) = (0, 255, 0x0108);

/// The lines for all steps of a stream of stories.
pub fn story_answers(stream: &[u8]) -> Result<Vec<String>, String> {
    let mut lines = Vec::new();
    for story in Stories::of(stream) {
        lines.extend(answers_of_story(&story?));
    }
    Ok(lines)
}

/// The lines for the steps of one story.
pub fn answers_of_story(story: &Story) -> Vec<String> {
    let mut store = Store::of(story);
    let mut judged = HashMap::new();
    story.steps.iter().map(|step| take_step(&mut store, &mut judged, step)).collect()
}

/// Takes a step and answers it. What was said of a version is kept, since the check takes long.
fn take_step(store: &mut Store, judged: &mut HashMap<Vec<u8>, String>, step: &Step) -> String {
    match step {
        Step::Add(run) => {
            let (number, now) = store.add(run);
            format!("add {number} {now} {:016x}", hash_of_changes(&store.room))
        }
        Step::WindBack(k) => {
            let (number, now) = store.wind_back(*k);
            format!("back {number} {now}")
        }
        Step::Version { k, out_len } => {
            let (number, out) = store.version(*k, *out_len);
            let line = format!("version {number} {:016x}", hash(&out));
            if number != 0 {
                return line;
            }
            let bytes = out[..store.first.len()].to_vec();
            line + judged.entry(bytes).or_insert_with_key(|bytes| judged_text(bytes))
        }
        Step::SetKept(kept) => {
            store.kept = *kept;
            format!("kept {kept}")
        }
    }
}

/// What check and walk say of a version that was read back.
fn judged_text(version: &[u8]) -> String {
    let judge = Judge::new(version);
    let (mut checked, mut walked) = ([0; 40], [0; 40]);
    let (kind, start, target) = WALK;
    let check = judge.check_call(&mut checked);
    let walk = judge.walk_call(&mut walked, kind, start, target);
    format!(" check {check} {:016x} walk {walk} {:016x}", hash(&checked), hash(&walked))
}

/// The hash of what all changes of a room say.
pub fn hash_of_changes(changes: &[Change]) -> u64 {
    hash(&changes.iter().flat_map(packed).collect::<Vec<u8>>())
}

/// FNV-1a of 64 bits.
pub fn hash(bytes: &[u8]) -> u64 {
    bytes
        .iter()
        .fold(0xcbf2_9ce4_8422_2325, |hash: u64, byte| (hash ^ *byte as u64).wrapping_mul(0x0100_0000_01b3))
}
