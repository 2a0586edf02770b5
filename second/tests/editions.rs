//! Both editions: what is read alike in them, what ACS Control changes, and that the generator draws both and
//! spoils both.

use std::collections::BTreeMap;

use second::draft::{Draft, DraftPort, NO_PARENT, REQUEST_REDIRECT, ROOT};
use second::edges::reading_edges;
use second::generate::{pictures, refused_picture, sound_draft};
use second::judge::Judge;
use second::pairs::pairs;
use second::picture::{edition_of, read, Edition, Picture};
use second::random::Random;
use second::spoil::{chain_at_the_edge, spoil};
use second::stopped::stopped;
use second::wild::{add_noise, wild};

/// A random draft, wild or sound.
fn some_draft(seed: u64) -> Draft {
    let random = &mut Random::new(seed);
    if seed % 2 == 0 {
        wild(random)
    } else {
        sound_draft(random)
    }
}

/// The draft in this edition.
fn in_edition(edition: Edition, draft: &Draft) -> Draft {
    Draft { edition, ..draft.clone() }
}

/// The picture without any redirect.
fn without_redirect(mut picture: Picture) -> Picture {
    picture.ports.iter_mut().for_each(|port| port.request_redirect = false);
    picture
}

#[test]
fn both_editions_read_alike_but_for_redirect() {
    let mut redirecting = 0;
    for seed in 0..200 {
        let draft = some_draft(seed);
        let [one, two] = [Edition::One, Edition::Two].map(|edition| in_edition(edition, &draft).bytes());
        assert_eq!(two.len(), one.len() + 4 * draft.ports.len());
        let [one, two] = [one, two].map(|bytes| read(&bytes).expect("it reads"));
        redirecting += two.ports.iter().filter(|port| port.request_redirect).count();
        assert!(one.ports.iter().all(|port| !port.request_redirect), "seed {seed}");
        assert_eq!(without_redirect(two), one, "seed {seed}");
    }
    assert!(redirecting > 200, "{redirecting}");
}

#[test]
fn both_editions_are_checked_alike() {
    for seed in 0..100 {
        let draft = some_draft(seed);
        let judges =
            [Edition::One, Edition::Two].map(|edition| Judge::new(&in_edition(edition, &draft).bytes()));
        assert_eq!(judges[0].report(), judges[1].report(), "seed {seed}");
    }
}

#[test]
fn of_acs_control_bit_2_alone_is_read() {
    for bit in 0..16 {
        let port = |acs_control| DraftPort { acs_control, ..DraftPort::silent(ROOT, NO_PARENT, 8) };
        let read = |acs_control| {
            read(&Draft::in_edition(Edition::Two, vec![port(acs_control)]).bytes()).expect("it reads")
        };
        assert_eq!(read(0) == read(1 << bit), bit != 2, "bit {bit}");
        assert_eq!(read(0xFFFF) == read(!(1 << bit)), bit != 2, "bit {bit}");
        assert_eq!(read(1 << bit).ports[0].request_redirect, bit == 2, "bit {bit}");
    }
    assert_eq!(REQUEST_REDIRECT, 4);
}

#[test]
fn the_edition_is_read_of_both_bytes() {
    assert_eq!([&[][..], &[2], &[2, 0], &[2, 1], &[0, 2]].map(edition_of), {
        [None, Some(Edition::Two), Some(Edition::Two), None, None]
    });
    assert_eq!([&[1][..], &[1, 0, 9], &[3, 0], &[0]].map(edition_of), {
        [Some(Edition::One), Some(Edition::One), None, None]
    });
}

/// How many of these pictures are of edition 2, in a hundred.
fn percent_of_edition_2(pictures: impl Iterator<Item = Vec<u8>>) -> usize {
    let editions: Vec<Option<Edition>> = pictures.map(|picture| edition_of(&picture)).collect();
    100 * editions.iter().filter(|edition| **edition == Some(Edition::Two)).count() / editions.len()
}

#[test]
fn every_family_is_of_both_editions() {
    let seeds = || (0..200).map(Random::new);
    let drawn = |name: &str, percent: usize| assert!((35..=65).contains(&percent), "{name}: {percent}");
    drawn("wild", percent_of_edition_2(seeds().map(|mut random| wild(&mut random).bytes())));
    drawn("sound", percent_of_edition_2(seeds().map(|mut random| sound_draft(&mut random).bytes())));
    drawn("chains", percent_of_edition_2(seeds().map(|mut random| chain_at_the_edge(&mut random))));
    let of_18 = (0..200).map(|turn| stopped(&mut Random::new(turn), turn).draft.bytes());
    drawn("number 18", percent_of_edition_2(of_18));
    drawn("texts", percent_of_edition_2(pictures(1, 150)));
    drawn("pairs", percent_of_edition_2(pairs(1, 120).map(|pair| pair.picture)));
}

#[test]
fn every_value_of_acs_control_that_is_easily_mistaken_is_drawn() {
    let mut counts: BTreeMap<(u16, bool), usize> = BTreeMap::new();
    for seed in 0..200 {
        let draft = some_draft(seed);
        let judge = Judge::new(&draft.bytes());
        let picture = judge.reading().expect("it reads");
        for (number, port) in draft.ports.iter().enumerate().filter(|_| draft.edition == Edition::Two) {
            *counts.entry((port.acs_control, picture.is_device_port(number))).or_default() += 1;
        }
    }
    for value in [0, 1 << 1, 1 << 2, 1 << 3, 0xE, !REQUEST_REDIRECT, 0xFFFF] {
        for is_device_port in [true, false] {
            let count = counts.get(&(value, is_device_port)).copied().unwrap_or(0);
            assert!(count >= 10, "{value:04x} at a device port {is_device_port}: {count}");
        }
    }
}

#[test]
fn noise_stands_in_acs_control_and_changes_nothing() {
    let mut noisy = 0;
    for seed in 0..60 {
        let mut draft = in_edition(Edition::Two, &some_draft(seed));
        let (before, quiet) = (read(&draft.bytes()), draft.ports.clone());
        add_noise(&mut Random::new(seed), &mut draft);
        assert_eq!(read(&draft.bytes()), before, "seed {seed}");
        noisy += quiet.iter().zip(&draft.ports).filter(|(a, b)| a.acs_control != b.acs_control).count();
    }
    assert!(noisy > 50, "{noisy}");
}

/// The number that a picture is refused with by reading; 0 if it reads.
fn number_of(picture: &[u8]) -> u8 {
    read(picture).map_or_else(|refusal| refusal.number, |_| 0)
}

#[test]
fn spoiled_pictures_of_both_editions_give_all_numbers() {
    let mut counts: BTreeMap<(Option<Edition>, u8), usize> = BTreeMap::new();
    for seed in 0..6_000 {
        let random = &mut Random::new(seed);
        let mut picture = wild(random).bytes();
        let edition = edition_of(&picture);
        spoil(random, &mut picture);
        *counts.entry((edition, number_of(&picture))).or_default() += 1;
    }
    for edition in [Edition::One, Edition::Two] {
        for number in [0, 1, 2, 3, 4, 5, 6, 8, 9, 10] {
            let count = counts.get(&(Some(edition), number)).copied().unwrap_or(0);
            assert!(count >= 20, "{edition:?}, number {number}: {count}");
        }
    }
}

/// What stands at a byte of a record of edition 2 that is number 8's alone.
fn bytes_not_zero(picture: &[u8]) -> Vec<usize> {
    let records = (0..picture[2] as usize).map(|port| Edition::Two.record_start(port));
    records.flat_map(|at| [at + 58, at + 59]).filter(|&at| picture[at] != 0).collect()
}

#[test]
fn each_byte_after_acs_control_is_damaged_alone() {
    let mut counts = [0; 2];
    for seed in 0..6_000 {
        let random = &mut Random::new(seed);
        let mut picture = wild(random).bytes();
        spoil(random, &mut picture);
        if edition_of(&picture) != Some(Edition::Two) || number_of(&picture) != 8 {
            continue;
        }
        if let [at] = bytes_not_zero(&picture)[..] {
            let mut mended = picture.clone();
            mended[at] = 0;
            if number_of(&mended) == 0 {
                counts[(at - 16) % 60 - 58] += 1;
            }
        }
    }
    assert!(counts.iter().all(|&count| count >= 5), "{counts:?}");
}

#[test]
fn pictures_refused_by_each_number_are_found_in_both_editions() {
    for number in 1..=10 {
        let mut editions = Vec::new();
        for seed in 0..10 {
            let picture = refused_picture(&mut Random::new(seed), number);
            if number_of(&picture) == number {
                editions.push(edition_of(&picture));
            }
        }
        let of = |edition| editions.iter().any(|of| *of == Some(edition));
        assert!(number == 2 || of(Edition::One) && of(Edition::Two), "number {number}: {editions:?}");
    }
}

#[test]
fn the_edges_of_reading_are_there_in_both_editions() {
    let edges = reading_edges();
    for edition in [Edition::One, Edition::Two] {
        let numbers: Vec<u8> = edges
            .iter()
            .filter(|picture| edition_of(picture) == Some(edition))
            .map(|picture| number_of(picture))
            .collect();
        for number in [0, 1, 3, 4, 5, 6, 7, 8, 9, 10] {
            assert!(numbers.contains(&number), "{edition:?}, number {number}");
        }
        let longest = edges
            .iter()
            .filter(|picture| edition_of(picture) == Some(edition) && number_of(picture) == 0)
            .map(Vec::len)
            .max();
        assert_eq!(longest, Some(65_536), "{edition:?}");
    }
    let lengths_of_number_1 = |edition| {
        let is_short = |picture: &&Vec<u8>| edition_of(picture) == Some(edition) && number_of(picture) == 1;
        edges.iter().filter(is_short).map(Vec::len).filter(|length| *length <= 76).max()
    };
    assert_eq!(lengths_of_number_1(Edition::One), Some(71));
    assert_eq!(lengths_of_number_1(Edition::Two), Some(75));
}
