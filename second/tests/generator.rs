//! The generator gives what it says, and the candidates of the check suffice.

use std::collections::{BTreeMap, BTreeSet};
use std::sync::OnceLock;

use second::batch::{answers, differences, Lent, Record, Records};
use second::check::candidate_addresses;
use second::draft::{Draft, DraftPort, NO_PARENT, ROOT};
use second::edges::reading_edges;
use second::generate::{generate, hand_written, sound_draft};
use second::judge::Judge;
use second::picture::{read, Picture, Port, VIDEO_RANGE};
use second::random::Random;
use second::samples::{sample, SAMPLE_NAMES};
use second::walk::{walk_configuration, End};
use second::wild::{add_noise, wild};

#[test]
fn sound_pictures_are_sound_with_noise_or_without() {
    for seed in 0..150 {
        let random = &mut Random::new(seed);
        let mut draft = sound_draft(random);
        assert_eq!(Judge::new(&draft.bytes()).check(), Ok(()), "seed {seed}");
        add_noise(random, &mut draft);
        assert_eq!(Judge::new(&draft.bytes()).check(), Ok(()), "seed {seed} with noise");
    }
}

#[test]
fn noise_changes_nothing_that_is_read() {
    let mut noisy = 0;
    for seed in 0..100 {
        let random = &mut Random::new(seed);
        let mut draft = if seed % 2 == 0 { wild(random) } else { sound_draft(random) };
        let before = read(&draft.bytes());
        let quiet = draft.ports.clone();
        add_noise(random, &mut draft);
        assert_eq!(read(&draft.bytes()), before, "seed {seed}");
        noisy += quiet.iter().zip(&draft.ports).filter(|(a, b)| a.bridge_control != b.bridge_control).count();
    }
    assert!(noisy > 200, "{noisy}");
}

/// How the video range stands at a port of a sound picture.
fn video_of(port: &Port, has_parent: bool) -> &'static str {
    match (port.vga_enable && port.memory_space, has_parent, port.claims_address(0)) {
        (true, true, false) => "below a port",
        (true, true, true) => "with the first MiB below a port",
        (true, false, false) => "at the root",
        (true, false, true) => "with the first MiB at the root",
        _ if port.vga_enable => "without Memory Space Enable",
        _ => "not at all",
    }
}

#[test]
fn sound_pictures_hand_out_the_video_range() {
    let mut counts = Counts::default();
    for seed in 0..200 {
        let judge = Judge::new(&sound_draft(&mut Random::new(seed)).bytes());
        let picture = judge.reading().expect("a sound picture reads");
        for (number, port) in picture.ports.iter().enumerate() {
            counts.add(video_of(port, port.parent.is_some()));
            let deep = picture.depth(number) > 3 && port.claims_address(VIDEO_RANGE.base);
            counts.add(if deep && !port.claims_address(0) { "deep" } else { "other" });
        }
    }
    counts.have(10, &["below a port", "with the first MiB below a port", "at the root", "deep"]);
    counts.have(10, &["with the first MiB at the root", "without Memory Space Enable", "not at all"]);
}

#[test]
fn no_walk_is_doubled_in_a_sound_picture() {
    for seed in 1_000..1_060 {
        let random = &mut Random::new(seed);
        let judge = Judge::new(&sound_draft(random).bytes());
        for _ in 0..300 {
            let kind = random.below(3) as u32;
            let shift = if kind == 1 { random.below(64) } else { random.between(48, 60) };
            if let Ok(walk) = judge.walk(kind, random.pick(&[255, 255, 0, 5, 9]), random.bits() >> shift) {
                assert!(!matches!(walk.end, End::Doubled { .. }), "seed {seed}");
                assert!(walk.path.len() <= 31);
            }
        }
    }
}

#[test]
fn wild_pictures_read() {
    for seed in 0..300 {
        let draft = wild(&mut Random::new(seed));
        assert_eq!(Judge::new(&draft.bytes()).reading().err(), None, "seed {seed}");
    }
}

#[test]
fn samples_are_full_and_sound() {
    for name in SAMPLE_NAMES {
        let draft = sample(name, 1).expect("every name has a sample");
        assert_eq!(Judge::new(&draft.bytes()).report(), "ports 64\nclear\n", "{name}");
    }
}

#[test]
fn the_longest_picture_has_65_536_bytes_and_reads() {
    let readable = |picture: &Vec<u8>| Judge::new(picture).reading().is_ok();
    let longest = reading_edges().into_iter().filter(readable).map(|picture| picture.len()).max();
    assert_eq!(longest, Some(65_536));
}

/// The ports that claim an address.
fn claimers(picture: &Picture, address: u64) -> Vec<usize> {
    (0..picture.ports.len()).filter(|&port| picture.ports[port].claims_address(address)).collect()
}

#[test]
fn the_last_candidate_not_above_an_address_is_claimed_by_the_same_ports() {
    for seed in 0..120 {
        let random = &mut Random::new(seed);
        let draft = if seed % 2 == 0 { wild(random) } else { sound_draft(random) };
        let judge = Judge::new(&draft.bytes());
        let picture = judge.reading().expect("the picture reads");
        let candidates = candidate_addresses(picture);
        for _ in 0..500 {
            let near = random.pick(&candidates).wrapping_add(random.bits() >> random.below(64));
            let beside = random.pick(&candidates).wrapping_sub(random.below(2));
            for address in [near, beside] {
                let above = candidates.partition_point(|&candidate| candidate <= address);
                let candidate = candidates[above - 1];
                assert_eq!(claimers(picture, address), claimers(picture, candidate), "{address:x}h");
            }
        }
    }
}

#[test]
fn the_edges_of_the_video_range_are_candidates_where_it_is_claimed() {
    let root = |own_id| DraftPort::silent(ROOT, NO_PARENT, own_id);
    let candidates = |port: DraftPort| {
        let judge = Judge::new(&Draft::of(vec![port]).bytes());
        let picture = judge.reading().expect("the picture reads");
        let candidates = candidate_addresses(picture);
        [0, 0xA_0000, 0xB_FFFF, 0xC_0000].map(|address| candidates.contains(&address))
    };
    assert_eq!(candidates(root(0).video()), [true, true, false, true]);
    assert_eq!(candidates(root(0).video().with_memory_space(false)), [true, false, false, false]);
    assert_eq!(candidates(root(0).memory(0, 0)), [true, false, false, false]);
    assert_eq!(candidates(root(0).memory(0, 0).video()), [true, true, false, true]);
}

#[test]
fn the_same_seed_gives_the_same_batch() {
    assert_eq!(generate(5, 20), generate(5, 20));
    assert_ne!(generate(5, 20), generate(6, 20));
}

/// The seeds of the batches that tests/differential.sh takes, and how many pictures of each are looked at; for
/// every five of these there is one more for number 18 and one for redirect.
const SEEDS: [u64; 2] = [1, 2];
const PICTURES: u64 = 250;
const DRAWN: usize = SEEDS.len() * (PICTURES + 2 * (PICTURES / 5)) as usize;

/// The records of a batch with the answers to its calls.
fn answered(seed: u64) -> Vec<(Record, Option<String>)> {
    let batch = generate(seed, PICTURES);
    let mut lent = Lent::of(Vec::new(), Vec::new());
    let records = Records::of(&batch).map(|record| record.expect("the batch is whole"));
    records.map(|record| (record.clone(), lent.take(&record))).collect()
}

/// The records of these batches with the answers to their calls, worked out once for all tests.
fn records_with_answers() -> &'static [(Record, Option<String>)] {
    static ANSWERED: OnceLock<Vec<(Record, Option<String>)>> = OnceLock::new();
    ANSWERED.get_or_init(|| {
        let batches = SEEDS.map(|seed| std::thread::spawn(move || answered(seed)));
        batches.into_iter().flat_map(|batch| batch.join().expect("it is answered")).collect()
    })
}

/// The calls among them with their answers.
fn calls_with_answers() -> impl Iterator<Item = (&'static Record, &'static String)> {
    records_with_answers().iter().filter_map(|(record, answer)| Some((record, answer.as_ref()?)))
}

#[test]
fn all_numbers_and_ends_occur() {
    let mut checked = BTreeSet::new();
    let mut ended = BTreeSet::new();
    for (call, line) in calls_with_answers() {
        let (number, bytes) = line.split_once(' ').unwrap_or((line, ""));
        match call {
            Record::Check => checked.insert(number.parse::<u32>().unwrap()),
            Record::Walk { kind, .. } => ended.insert((*kind.min(&3), bytes[2..4].to_string())),
            _ => false,
        };
    }
    assert_eq!(checked, (0..=15).chain([18]).collect());
    for (kind, end) in [(0, 1), (0, 2), (0, 3), (0, 4), (0, 5), (1, 1), (1, 3), (1, 4), (1, 5)] {
        assert!(ended.contains(&(kind, format!("{end:02}"))), "kind {kind} end {end}");
    }
    for end in 0..=5 {
        assert!(ended.contains(&(2, format!("{end:02}"))), "kind 2 end {end}");
    }
}

#[test]
fn all_numbers_of_trials_occur() {
    let (mut checked, mut walked, mut parted) = (BTreeSet::new(), BTreeSet::new(), BTreeSet::new());
    for (call, line) in calls_with_answers() {
        let mut words = line.split(' ');
        let number: u32 = words.next().and_then(|word| word.parse().ok()).unwrap_or(0);
        match call {
            Record::TrialCheck => checked.insert(number),
            Record::TrialWalk { kind, .. } if number == 0 => walked.insert((*kind, line[4..6].to_string())),
            Record::Part { .. } => parted.insert((number, words.next().unwrap_or("").to_string())),
            _ => false,
        };
    }
    assert_eq!(checked, (0..=15).chain([18]).chain(30..=32).collect());
    for (kind, ends) in [(0, 1..=5), (2, 1..=5), (1, 3..=5)] {
        ends.for_each(|end| assert!(walked.contains(&(kind, format!("{end:02}"))), "kind {kind} end {end}"));
    }
    for answer in [(0, "picture"), (0, "patch"), (16, ""), (30, ""), (31, ""), (32, "")] {
        assert!(parted.contains(&(answer.0, answer.1.to_string())), "{answer:?}");
    }
}

/// How often each thing was counted.
#[derive(Default)]
struct Counts(BTreeMap<String, usize>);

impl Counts {
    /// Counts a thing once more.
    fn add(&mut self, thing: impl Into<String>) {
        *self.0.entry(thing.into()).or_default() += 1;
    }

    /// Each of these things was counted at least so often.
    fn have(&self, least: usize, things: &[&str]) {
        for thing in things {
            let count = self.0.get(*thing).copied().unwrap_or(0);
            assert!(count >= least, "{thing}: {count}");
        }
    }
}

/// The sets of decoders that can claim an ID together, and those that can claim an address.
const OF_IDS: [&str; 3] = ["bus", "rid", "bus rid"];
const OF_ADDRESSES: [&str; 9] =
    ["mem", "pref", "low", "high", "mem pref", "mem low", "pref low", "mem pref low", "pref high"];

/// The sets that can claim an address of the video range, with VGA Enable.
const OF_VIDEO: [&str; 8] = [
    "vga",
    "mem vga",
    "pref vga",
    "low vga",
    "mem pref vga",
    "mem low vga",
    "pref low vga",
    "mem pref low vga",
];

/// The ports of a text with why each of them holds the target: `2 by bus 3 by own rid`.
fn ports_with_words(text: &str) -> Vec<(u8, String)> {
    let mut ports: Vec<(u8, String)> = Vec::new();
    for word in text.split([' ', '/']) {
        match (word.parse(), ports.last_mut()) {
            (Ok(port), _) => ports.push((port, String::new())),
            (_, Some((_, words))) if word != "by" && word != "port" => *words += &format!(" {word}"),
            _ => {}
        }
    }
    ports.into_iter().map(|(port, words)| (port, words.trim_start().to_string())).collect()
}

#[test]
fn every_set_of_decoders_occurs_in_claims() {
    let mut values = [BTreeMap::new(), BTreeMap::new()];
    for (call, line) in calls_with_answers() {
        if let (Record::Claim { target_kind: kind @ (0 | 1), .. }, Some(value)) =
            (call, line.strip_prefix("0 "))
        {
            *values[*kind as usize].entry(value).or_insert(0) += 1;
        }
    }
    let [ids, addresses] = values;
    assert!(ids.keys().copied().eq(["00000000", "00000001", "00000002", "00000003"]));
    let memory = [0, 4, 8, 12, 16, 20, 24, 28, 32, 40, 64, 68, 72, 76, 80, 84, 88, 92];
    let memory = memory.map(|bits: u32| format!("{bits:08x}"));
    assert!(addresses.keys().copied().eq(memory.iter()));
    assert!(ids.values().chain(addresses.values()).all(|&count| count >= 20), "{ids:?} {addresses:?}");
}

#[test]
fn every_set_of_decoders_occurs_among_holders() {
    let (mut words_of_ports, mut answers) = (Counts::default(), Counts::default());
    for (call, line) in calls_with_answers() {
        if !matches!(call, Record::Holders { .. }) {
            continue;
        }
        let ports = ports_with_words(line);
        match ports.len() {
            _ if line.starts_with("refused") => {
                answers.add(line.split(' ').take(2).collect::<Vec<_>>().join(" "))
            }
            0 | 1 => answers.add(if line == "nobody" { "nobody" } else { "one" }),
            _ => answers.add("several"),
        }
        ports.into_iter().for_each(|(_, words)| words_of_ports.add(words));
    }
    words_of_ports.have(20, &OF_IDS);
    words_of_ports.have(20, &OF_ADDRESSES);
    words_of_ports.have(20, &OF_VIDEO);
    words_of_ports.have(5, &["own", "own bus", "own rid", "own bus rid"]);
    answers.have(100, &["nobody", "one", "several", "refused 16"]);
    answers.have(2, &["refused 1", "refused 2", "refused 3", "refused 4", "refused 5"]);
    answers.have(2, &["refused 6", "refused 7", "refused 8", "refused 9", "refused 10"]);
}

/// What the lines of 11 to 14 and 18 say, of pictures and of trials: `12 mem low` for each port of a pair and for
/// one that is alone, `12 mem, mem low` for a pair, and `itself own rid` for a port with itself.
fn words_of_lines() -> Counts {
    let mut counts = Counts::default();
    for (call, line) in calls_with_answers() {
        let Some((what, ports)) = line.split_once(" ports ") else { continue };
        let number = what.split(' ').nth(1).expect("a refusal has a number");
        if !matches!(call, Record::Report | Record::TrialReport)
            || !matches!(number, "11" | "12" | "13" | "14" | "18")
        {
            continue;
        }
        match ports_with_words(ports).as_slice() {
            [(first, words), (second, _)] if first == second => counts.add(format!("itself {words}")),
            [(_, first), (_, second)] => {
                counts.add(format!("{number} {first}, {second}"));
                [first, second].iter().for_each(|words| counts.add(format!("{number} {words}")));
            }
            [(_, words)] => counts.add(format!("{number} {words}")),
            other => panic!("{line}: {other:?}"),
        }
    }
    counts
}

#[test]
fn every_set_of_decoders_occurs_in_the_lines_of_11_to_14_and_18() {
    let counts = words_of_lines();
    let of = |number: u32, sets: &[&str]| {
        sets.iter().for_each(|set| counts.have(2, &[&format!("{number} {set}")]));
    };
    of(11, &["own", "own bus", "own rid"]);
    of(11, &OF_IDS);
    of(12, &OF_ADDRESSES);
    of(13, &["own"]);
    of(13, &OF_IDS);
    of(14, &OF_ADDRESSES);
    counts.have(20, &["18 bus", "18 rid", "18 bus rid"]);
    of(12, &OF_VIDEO);
    counts.have(10, &["12 vga, vga", "14 vga"]);
    counts.have(2, &["12 vga, mem", "12 vga, mem vga", "12 low vga, vga"]);
    counts.have(10, &["itself own bus", "itself own rid", "itself own bus rid"]);
    counts.have(2, &["11 own, own", "11 own, bus", "11 bus, own", "11 own, rid", "11 rid, own"]);
    counts.have(
        2,
        &["11 bus, rid", "11 rid, bus", "11 own, own rid", "11 rid, bus rid", "11 bus rid, bus rid"],
    );
    counts.have(2, &["11 own, own bus", "11 bus, own rid", "11 bus, bus rid", "11 bus rid, own rid"]);
    counts.have(
        2,
        &["12 mem, pref", "12 pref, mem", "12 mem, low", "12 low, mem", "12 pref, low", "12 low, pref"],
    );
    counts.have(2, &["12 pref, high", "12 high, pref high", "12 mem low, mem pref", "12 pref high, pref"]);
    counts.have(2, &["12 high, high", "12 pref high, high", "12 low, mem pref"]);
}

#[test]
fn walks_go_to_the_edges_of_the_video_range() {
    let mut counts = Counts::default();
    for (call, line) in calls_with_answers() {
        let (kind, target) = match *call {
            Record::Walk { kind: 1, target, .. } => ("walk", target),
            Record::TrialWalk { kind: 1, target, .. } => ("trial", target),
            Record::Claim { target_kind: 1, target, .. } => ("claim", target),
            _ => continue,
        };
        counts.add(format!("{kind} {target:x}"));
        if kind == "walk" && target == VIDEO_RANGE.base {
            counts.add(format!("end {}", &line[4..6]));
        }
    }
    for target in ["0", "9ffff", "a0000", "bffff", "c0000"] {
        counts.have(30, &[&format!("walk {target}"), &format!("claim {target}")]);
        counts.have(10, &[&format!("trial {target}")]);
    }
    counts.have(30, &["end 01", "end 03", "end 04", "end 05"]);
}

/// Does a configuration request from the host for the own ID of every port end at that port's Function?
fn every_port_is_found(judge: &Judge) -> bool {
    let picture = judge.reading().expect("the picture reads");
    let end_of = |id: u16| walk_configuration(picture, None, id).end;
    (0..picture.ports.len()).all(|port| end_of(picture.ports[port].own_id) == End::Function { port })
}

/// The checks among the records and what they give, each with the judge of the picture or of the trial.
fn judged_checks() -> Vec<(&'static str, &'static str, Judge)> {
    let (mut picture, mut patch) = (&[][..], &[][..]);
    let mut checks = Vec::new();
    for (record, answer) in records_with_answers() {
        let number = answer.as_ref().and_then(|line| line.split(' ').next()).unwrap_or("");
        match record {
            Record::Picture(bytes) => picture = bytes,
            Record::Patch(bytes) => patch = bytes,
            Record::Check => checks.push(("picture", number, Judge::new(picture))),
            Record::TrialCheck => checks.push(("trial", number, Judge::of_trial(picture, patch))),
            _ => {}
        }
    }
    checks
}

#[test]
fn in_a_clear_picture_or_trial_every_port_is_found() {
    let mut counts = Counts::default();
    for (what, number, judge) in judged_checks() {
        if number == "0" {
            assert!(every_port_is_found(&judge), "{what}: {}", judge.report());
            counts.add(what);
        } else if number == "18" && !every_port_is_found(&judge) {
            counts.add(format!("{what}, one not found"));
        }
    }
    counts.have(100, &["picture", "trial"]);
    counts.have(20, &["picture, one not found", "trial, one not found"]);
}

#[test]
fn every_picture_is_asked_with_arguments_that_are_refused() {
    let mut counts = Counts::default();
    let mut count = 0;
    for (record, _) in records_with_answers() {
        match *record {
            Record::Picture(ref bytes) => count = bytes.get(2).copied().unwrap_or(0) as u32,
            Record::Check => counts.add("check"),
            Record::Claim { target_kind, .. } if target_kind > 1 => {
                counts.add(format!("claim kind {target_kind}"))
            }
            Record::Claim { port, .. } if port == count => counts.add("claim count"),
            Record::Claim { port, .. } if port > 63 => counts.add(format!("claim port {port}")),
            Record::Claim { target: 0x1_0000, target_kind: 0, .. } => counts.add("claim 10000h"),
            Record::Conversion { port, .. } if port == count => counts.add("conversion count"),
            Record::Conversion { port, .. } if port > 63 => counts.add(format!("conversion port {port}")),
            Record::Conversion { id: 0x1_0000, .. } => counts.add("conversion 10000h"),
            Record::Holders { target_kind, .. } if target_kind > 1 => {
                counts.add(format!("holders kind {target_kind}"))
            }
            Record::Holders { target: 0x1_0000, target_kind: 0 } => counts.add("holders 10000h"),
            _ => {}
        }
    }
    counts.have(10, &["claim kind 2", "claim kind 3", "claim kind 4294967295"]);
    counts.have(10, &["claim count", "claim port 64", "claim port 4294967295", "claim 10000h"]);
    counts.have(
        10,
        &["conversion count", "conversion port 64", "conversion port 4294967295", "conversion 10000h"],
    );
    counts.have(10, &["holders kind 2", "holders kind 3", "holders kind 4294967295", "holders 10000h"]);
    assert_eq!(counts.0["check"], DRAWN);
}

#[test]
fn every_picture_is_asked_for_claims_conversions_and_holders() {
    let mut asked = Vec::new();
    for (call, _) in calls_with_answers() {
        match call {
            Record::Check => asked.push([0; 3]),
            Record::Claim { .. } => asked.last_mut().expect("a check comes first")[0] += 1,
            Record::Conversion { .. } => asked.last_mut().expect("a check comes first")[1] += 1,
            Record::Holders { .. } => asked.last_mut().expect("a check comes first")[2] += 1,
            _ => {}
        }
    }
    assert_eq!(asked.len(), DRAWN);
    assert!(asked.iter().flatten().all(|&count| count > 0));
}

#[test]
fn a_batch_is_read_as_it_was_written() {
    let batch = hand_written();
    let mut again = Vec::new();
    for record in Records::of(&batch) {
        record.expect("the batch is whole").write(&mut again);
    }
    assert_eq!(batch, again);
    assert!(answers(&batch[..batch.len() - 1]).is_err());
    assert!(answers(b"Z").is_err());
}

#[test]
fn a_difference_is_found_with_its_picture_and_call() {
    let mut batch = Vec::new();
    Record::Picture(vec![7; 3]).write(&mut batch);
    Record::Report.write(&mut batch);
    Record::Check.write(&mut batch);
    let found = differences(&batch, "a\nb\n", "a\nc\n", 5).expect("as many lines as calls");
    assert_eq!(found.len(), 1);
    assert_eq!((found[0].picture.as_slice(), &found[0].call), ([7; 3].as_slice(), &Record::Check));
    assert_eq!((found[0].expected.as_str(), found[0].actual.as_str()), ("b", "c"));
    assert_eq!(differences(&batch, "a\nb\n", "a\n", 5).expect("a missing line differs").len(), 1);
    assert!(differences(&batch, "a\nb\n", "a\nb\nc\n", 5).is_err());
}
