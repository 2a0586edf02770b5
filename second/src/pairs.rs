//! Pairs of a picture and a patch, by turns one for each form of the sentence of a trial.

use crate::generate::{random_of, sound_draft};
use crate::judge::Judge;
use crate::pairs_accepted::ACCEPTED;
use crate::pairs_refused::REFUSED;
use crate::patches::{ports_with_vectors, Readable};
use crate::random::Random;
use crate::wild::wild;

/// A picture and a patch that are lent together.
#[derive(Clone, Debug, PartialEq, Eq)]
pub struct Pair {
    pub picture: Vec<u8>,
    pub patch: Vec<u8>,
}

/// One way to draw a pair.
pub type Turn = fn(&mut Random) -> Pair;

/// The longest of the small pictures.
const SMALL: usize = 2_048;

/// So many pairs: by turns one for each cause of the numbers 30 to 32, and one for each number that a
/// patch that reads can give.
pub fn pairs(seed: u64, count: u64) -> impl Iterator<Item = Pair> {
    let turns = [&REFUSED[..], &ACCEPTED[..]].concat();
    (0..count).map(move |index| turns[index as usize % turns.len()](&mut random_of(seed, index)))
}

/// A small picture that reads, sound or not, with two ports or more that have vectors.
pub fn small_picture(random: &mut Random) -> Vec<u8> {
    match random.percent(30) {
        true => small(random, |random| wild(random).bytes()),
        false => small_sound_picture(random),
    }
}

/// A small sound picture with two ports or more that have vectors.
pub fn small_sound_picture(random: &mut Random) -> Vec<u8> {
    small(random, |random| sound_draft(random).bytes())
}

/// The first picture drawn that is small and has two ports with vectors.
fn small(random: &mut Random, draw: fn(&mut Random) -> Vec<u8>) -> Vec<u8> {
    loop {
        let bytes = draw(random);
        if bytes.len() > SMALL {
            continue;
        }
        let judge = Judge::new(&bytes);
        let picture = judge.reading().expect("what is drawn reads");
        if ports_with_vectors(Readable { bytes: &bytes, picture }).len() >= 2 {
            return bytes;
        }
    }
}
