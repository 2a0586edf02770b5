//! First pictures of stories that read: small ones of both editions, sound or wild, and now and then a large one.

use crate::draft::{Draft, DraftPort};
use crate::generate::sound_draft;
use crate::picture::records_of;
use crate::random::Random;
use crate::samples::{sample, SAMPLE_NAMES};
use crate::wild::{add_noise, wild};

/// How long a small picture is at most, and how many ports it has; the check of it does not take long.
const SMALL: usize = 1_024;
const FEW_PORTS: usize = 4;

/// A picture that reads.
pub fn some_first(random: &mut Random) -> Vec<u8> {
    match random.below(100) {
        0..=2 => large_first(random),
        3..=16 => drawn(random),
        _ => small_first(random),
    }
}

/// Is the picture small?
pub fn is_small(picture: &[u8]) -> bool {
    picture.len() <= SMALL && records_of(picture).len() <= FEW_PORTS
}

/// A full picture of 64 ports.
fn large_first(random: &mut Random) -> Vec<u8> {
    let name = random.pick(&SAMPLE_NAMES);
    sample(name, random.bits()).expect("every name has a sample").bytes()
}

/// The first picture drawn that is small.
fn small_first(random: &mut Random) -> Vec<u8> {
    loop {
        let picture = drawn(random);
        if is_small(&picture) {
            return picture;
        }
    }
}

/// A sound picture, or a wild one, often with a port that has nothing; with noise or without.
fn drawn(random: &mut Random) -> Vec<u8> {
    let mut draft = match random.percent(60) {
        true => wild_with_a_silent_port(random),
        false => sound_draft(random),
    };
    if random.percent(30) {
        add_noise(random, &mut draft);
    }
    draft.bytes()
}

/// A wild picture, in half of the cases with a port that claims nothing and has no vectors.
fn wild_with_a_silent_port(random: &mut Random) -> Draft {
    let mut draft = wild(random);
    if random.percent(50) {
        let port = random.below(draft.ports.len() as u64) as usize;
        let DraftPort { kind, parent, own_id, .. } = draft.ports[port];
        draft.ports[port] = DraftPort::silent(kind, parent, own_id);
    }
    draft
}
