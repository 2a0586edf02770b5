//! The trial check against the check, both proved: patches that hold the picture's own vectors, so that all answers are equal.

use std::hint::black_box;
use std::time::Instant;

use crate::proved;

/// How many samples are taken of each call.
const ROUNDS: usize = 60;

/// Where the vectors of a port begin in a picture that reads, and for the last port also where they end.
fn start(picture: &[u8], port: usize) -> usize {
    let at = 16 + 56 * port + 52;
    if port == usize::from(picture[2]) {
        return picture.len();
    }
    u32::from_le_bytes(picture[at..at + 4].try_into().expect("four bytes")) as usize
}

/// A patch of every `step`-th port, with the vectors that the picture has.
pub fn patch(picture: &[u8], step: usize) -> Vec<u8> {
    let ports: Vec<usize> = (0..usize::from(picture[2])).step_by(step).collect();
    let (mut rows, mut vectors) = (Vec::new(), Vec::new());
    for &port in &ports {
        rows.extend((port as u32).to_le_bytes());
        rows.extend(((8 + 8 * ports.len() + vectors.len()) as u32).to_le_bytes());
        vectors.extend(&picture[start(picture, port)..start(picture, port + 1)]);
    }
    let total = 8 + rows.len() + vectors.len();
    [&(ports.len() as u32).to_le_bytes(), &(total as u32).to_le_bytes(), &rows[..], &vectors[..]].concat()
}

/// The nanoseconds of a check, or of a trial check where there is a patch.
fn sample(picture: &[u8], patch: Option<&[u8]>, times: usize) -> f64 {
    let begin = Instant::now();
    for _ in 0..times {
        black_box(answer(black_box(picture), patch));
    }
    begin.elapsed().as_nanos() as f64 / times as f64
}

/// The 40 bytes of a check, or of a trial check.
fn answer(picture: &[u8], patch: Option<&[u8]>) -> [u8; 40] {
    let mut bytes = [0; 40];
    match patch {
        None => proved::check(picture, &mut bytes),
        Some(patch) => proved::trial_check(picture, patch, &mut bytes),
    };
    bytes
}

/// The best nanoseconds of the check, and of the trial check with each patch, by turns.
pub fn best_of(picture: &[u8], patches: &[Vec<u8>]) -> Vec<f64> {
    let lent: Vec<Option<&[u8]>> =
        std::iter::once(None).chain(patches.iter().map(|patch| Some(&patch[..]))).collect();
    assert!(
        lent.iter().all(|patch| answer(picture, *patch) == answer(picture, None)),
        "a trial answers otherwise"
    );
    let times = (500_000.0 / sample(picture, None, 1)).ceil().max(1.0) as usize;
    let mut best = vec![f64::INFINITY; lent.len()];
    for _ in 0..ROUNDS {
        for (i, patch) in lent.iter().enumerate() {
            best[i] = best[i].min(sample(picture, *patch, times));
        }
    }
    best
}
