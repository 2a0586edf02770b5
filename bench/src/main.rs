//! The clock: the proved calls and the port's, side by side in one run.
//!
//!     bench times NAME PICTURE ..        a row for each picture and kind of call
//!     bench trials NAME PICTURE ..       the trial check against the check
//!     bench growth                       check of pictures that grow in ports, and in entries
//!     bench picture PORTS CODE           one of these pictures on standard output
//!     bench count SIDE KIND PICTURE N    all calls of a kind N times over, to be counted by callgrind

mod calls;
mod growing;
mod plain;
mod proved;
mod trials;

use std::hint::black_box;
use std::io::Write;
use std::process::ExitCode;
use std::time::Instant;

use calls::{Kind, Side, Work, KINDS};

/// How many samples are taken of each side, and how long one lasts at least.
const ROUNDS: usize = 60;
const SAMPLE_NANOSECONDS: f64 = 500_000.0;

/// The nanoseconds of a call when all calls of a kind are made so many times over.
fn sample(work: &Work, kind: Kind, side: Side, times: usize) -> f64 {
    let begin = Instant::now();
    for _ in 0..times {
        black_box(black_box(work).all(kind, side));
    }
    begin.elapsed().as_nanos() as f64 / (times * work.calls(kind)) as f64
}

/// The best nanoseconds of a call on each side, its samples taken by turns: what else the machine does only ever adds.
fn best_of(work: &Work, kind: Kind) -> (f64, f64) {
    assert!(
        work.all(kind, Side::Proved) == work.all(kind, Side::Plain),
        "the two sides do not answer the same"
    );
    let once = sample(work, kind, Side::Plain, 1) * work.calls(kind) as f64;
    let times = (SAMPLE_NANOSECONDS / once).ceil().max(1.0) as usize;
    let mut best = (f64::INFINITY, f64::INFINITY);
    for _ in 0..ROUNDS {
        best.0 = best.0.min(sample(work, kind, Side::Proved, times));
        best.1 = best.1.min(sample(work, kind, Side::Plain, times));
    }
    best
}

/// Nanoseconds in a unit that suits them.
fn shown(nanoseconds: f64) -> String {
    match nanoseconds {
        n if n < 1_000.0 => format!("{n:.0} ns"),
        n if n < 1_000_000.0 => format!("{:.2} µs", n / 1_000.0),
        n => format!("{:.2} ms", n / 1_000_000.0),
    }
}

fn read(path: &str) -> Vec<u8> {
    std::fs::read(path).unwrap_or_else(|error| panic!("{path}: {error}"))
}

fn times(pictures: &[String]) {
    println!("| picture | call | proved | plain Rust | ratio |");
    println!("|---|---|---|---|---|");
    for pair in pictures.chunks_exact(2) {
        let work = Work::of(read(&pair[1]));
        for (kind, name) in KINDS {
            let (proved, plain) = best_of(&work, kind);
            let ratio = proved / plain;
            println!("| {} | {name} | {} | {} | {ratio:.2} |", pair[0], shown(proved), shown(plain));
        }
    }
}

fn trials(pictures: &[String]) {
    println!("| picture | check | trial, every other port | ratio | trial, all ports | ratio |");
    println!("|---|---|---|---|---|---|");
    for pair in pictures.chunks_exact(2) {
        let picture = read(&pair[1]);
        let best = trials::best_of(&picture, &[trials::patch(&picture, 2), trials::patch(&picture, 1)]);
        let (half, all) = (best[1] / best[0], best[2] / best[0]);
        let [check, other, every] = [0, 1, 2].map(|i| shown(best[i]));
        println!("| {} | {check} | {other} | {half:.2} | {every} | {all:.2} |", pair[0]);
    }
}

fn growth() {
    println!("| ports | entries of each | check, proved | plain Rust | ratio |");
    println!("|---|---|---|---|---|");
    let by_ports = [2, 4, 8, 16, 32, 64].map(|ports| (ports, 2));
    let by_entries = [0, 1, 2, 3, 4].map(|code| (64, code));
    for (ports, code) in by_ports.into_iter().chain(by_entries) {
        let work = Work::of(growing::flat(ports, code));
        let (proved, plain) = best_of(&work, Kind::Check);
        let ratio = proved / plain;
        println!("| {ports} | {} | {} | {} | {ratio:.2} |", 256 << code, shown(proved), shown(plain));
    }
}

fn picture(ports: &str, code: &str) {
    let bytes = growing::flat(ports.parse().expect("no number"), code.parse().expect("no number"));
    std::io::stdout().write_all(&bytes).expect("nothing takes the picture");
}

fn count(side: &str, kind: &str, picture: &str, times: &str) {
    let work = Work::of(read(picture));
    let side = if side == "proved" { Side::Proved } else { Side::Plain };
    let (kind, _) = KINDS.into_iter().find(|(_, name)| *name == kind).expect("no such call");
    for _ in 0..times.parse().expect("no number") {
        black_box(work.all(kind, side));
    }
    println!("{}", work.calls(kind));
}

fn main() -> ExitCode {
    let words: Vec<String> = std::env::args().skip(1).collect();
    match words.iter().map(String::as_str).collect::<Vec<_>>().as_slice() {
        ["times", ..] => times(&words[1..]),
        ["trials", ..] => trials(&words[1..]),
        ["growth"] => growth(),
        ["picture", ports, code] => picture(ports, code),
        ["count", side, kind, picture, n] => count(side, kind, picture, n),
        _ => return ExitCode::from(2),
    }
    ExitCode::SUCCESS
}
