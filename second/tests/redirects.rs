//! Redirect: the walk held against its definition, what the generator shows of it, and how it is counted.

use std::collections::BTreeMap;

use second::batch::{answers, Lent, Record, Records};
use second::check::candidate_addresses;
use second::draft::{Draft, DraftPort, DOWNSTREAM, NO_PARENT, ROOT, UPSTREAM};
use second::generate::{generate, sound_draft};
use second::judge::Judge;
use second::picture::{Edition, Picture, Target};
use second::random::Random;
use second::redirects::{redirect_calls, redirecting_ports, situations, Situation, ALL_SITUATIONS};
use second::tally::tally;
use second::towers::towers;
use second::walk::{walk_configuration, walk_packet, End};
use second::wild::wild;

/// A picture of edition 2, wild, sound or of towers, and the same in edition 1.
fn some_pictures(seed: u64) -> [Judge; 2] {
    let random = &mut Random::new(seed);
    let draft = match seed % 3 {
        0 => wild(random),
        1 => sound_draft(random),
        _ => towers(random),
    };
    [Edition::Two, Edition::One].map(|edition| Judge::new(&Draft { edition, ..draft.clone() }.bytes()))
}

#[test]
fn a_redirected_packet_goes_up_and_then_as_from_the_host() {
    let (mut redirected, mut claimed, mut differing) = (0, 0, 0);
    for seed in 0..150 {
        let [two, one] = some_pictures(seed);
        let [two, one] = [&two, &one].map(|judge| judge.reading().expect("it reads"));
        let random = &mut Random::new(seed);
        let addresses = candidate_addresses(two);
        for start in redirecting_ports(two) {
            for _ in 0..30 {
                let target = Target::Address(random.pick(&addresses));
                let walk = walk_packet(two, Some(start), target);
                if two.ports[start].claims(target) {
                    assert_eq!((walk.end, walk.path.len()), (End::Unsupported { port: start }, 0));
                    claimed += 1;
                    continue;
                }
                let from_the_host = walk_packet(two, None, target);
                assert_eq!(walk.end, from_the_host.end, "seed {seed}");
                assert_eq!(walk.path, [two.way_up(start), from_the_host.path].concat(), "seed {seed}");
                assert!(walk.path.len() <= 31, "seed {seed}");
                redirected += 1;
                differing += (walk != walk_packet(one, Some(start), target)) as u32;
            }
        }
    }
    assert!(redirected > 3_000 && claimed > 500 && differing > 1_000, "{redirected} {claimed} {differing}");
}

#[test]
fn all_other_packets_go_as_in_edition_1() {
    for seed in 0..100 {
        let [two, one] = some_pictures(seed);
        let [two, one] = [&two, &one].map(|judge| judge.reading().expect("it reads"));
        let random = &mut Random::new(seed);
        let addresses = candidate_addresses(two);
        let device_ports = (0..two.ports.len()).filter(|&port| two.is_device_port(port)).map(Some);
        for start in device_ports.chain([None]) {
            for _ in 0..10 {
                let id = random.pick(&two.ports).own_id ^ random.pick(&[0, 0, 1, 8, 0x100]);
                let by_id = |picture| walk_packet(picture, start, Target::Id(id));
                assert_eq!(by_id(two), by_id(one), "seed {seed}");
                assert_eq!(walk_configuration(two, start, id), walk_configuration(one, start, id));
                let address = Target::Address(random.pick(&addresses));
                let redirects = start.is_some_and(|port| two.ports[port].request_redirect);
                if !redirects {
                    assert_eq!(walk_packet(two, start, address), walk_packet(one, start, address));
                }
            }
        }
    }
}

#[test]
fn the_way_up_ends_at_the_root_port() {
    let [judge, _] = some_pictures(2);
    let picture = judge.reading().expect("it reads");
    for port in 0..picture.ports.len() {
        let way = picture.way_up(port);
        assert_eq!((way[0], way.len()), (port, picture.depth(port)));
        assert!(way.windows(2).all(|pair| picture.ports[pair[0]].parent == Some(pair[1])));
        assert_eq!(picture.ports[way[way.len() - 1]].parent, None);
    }
}

/// A switch with devices at ports 2, which redirects, 3 and 4, and root port 5. All MiB have one way down but 7,
/// which ports 3 and 4 have, and 8, which both root ports have. Of 9 and 10 the root port 0 has nothing.
fn switch() -> Vec<DraftPort> {
    let mib = |port: DraftPort, first, last| port.memory(first, last);
    let low = |own_id| DraftPort::silent(DOWNSTREAM, 1, own_id);
    vec![
        mib(DraftPort::silent(ROOT, NO_PARENT, 0), 1, 8),
        mib(DraftPort::silent(UPSTREAM, 0, 1), 1, 9),
        mib(low(2), 1, 1).redirecting(),
        mib(low(3), 6, 7).prefetchable(10, 10),
        mib(low(4), 7, 7),
        mib(DraftPort::silent(ROOT, NO_PARENT, 5), 8, 8).prefetchable(12, 12),
    ]
}

#[test]
fn what_happens_to_packets_is_told() {
    use Situation::*;
    let judge = Judge::new(&Draft::in_edition(Edition::Two, switch()).bytes());
    let picture = judge.reading().expect("it reads");
    assert_eq!(redirecting_ports(picture), [2]);
    for (mib, wanted) in [
        (1, &[Claimed][..]),
        (2, &[PastAClaim, PastOneHolder, PastAClaim, SameTree]),
        (6, &[PastOneHolder, PastAClaim, PastOneHolder, PastAClaim, SameTree, Beside]),
        (7, &[PastTwoHolders, PastAClaim, PastOneHolder, PastAClaim, SameTree, DoubledBelow]),
        (8, &[PastAClaim, PastOneHolder, PastAClaim, DoubledAtTheRoot]),
        (9, &[PastAClaim, PastOneHolder, Host]),
        (10, &[PastOneHolder, Host]),
        (11, &[Host]),
        (12, &[OtherTree]),
    ] {
        assert_eq!(situations(picture, 2, mib << 20), wanted, "MiB {mib}");
    }
}

#[test]
fn towers_read_and_redirect() {
    let mut depths = BTreeMap::new();
    for seed in 0..200 {
        let draft = towers(&mut Random::new(seed));
        assert_eq!(draft.edition, Edition::Two);
        let judge = Judge::new(&draft.bytes());
        let picture = judge.reading().expect("it reads");
        for port in redirecting_ports(picture) {
            *depths.entry(picture.depth(port)).or_insert(0) += 1;
        }
    }
    for depth in (1..=15).step_by(2) {
        assert!(depths.get(&depth).is_some_and(|&count| count >= 5), "{depths:?}");
    }
}

/// What happens to the address packets of a batch from ports with redirect, in pictures and in trials; and how
/// many ID packets and configuration requests come from such ports.
#[derive(Default)]
struct Shown {
    situations: BTreeMap<(&'static str, Situation), usize>,
    others: BTreeMap<u32, usize>,
}

impl Shown {
    /// Of a batch.
    fn of(batch: &[u8]) -> Shown {
        let mut shown = Shown::default();
        let mut lent = Lent::of(Vec::new(), Vec::new());
        let mut judge = Judge::new(&[]);
        for record in Records::of(batch) {
            let record = record.expect("the batch is whole");
            lent.lend(&record);
            match &record {
                Record::Picture(bytes) => judge = Judge::new(bytes),
                Record::Walk { kind: kind @ (0 | 2), start, .. } if redirects(&judge, *start) => {
                    *shown.others.entry(*kind).or_default() += 1;
                }
                _ => shown.add(&lent, &record),
            }
        }
        shown
    }

    /// Adds what happens to the packet of a walk by address.
    fn add(&mut self, lent: &Lent, record: &Record) {
        let what = if record.is_of_trial() { "trial" } else { "picture" };
        let Some((judge, start, address)) = lent.address_walk(record) else { return };
        if redirects(judge, start) {
            let picture = judge.reading().expect("it reads");
            for situation in situations(picture, start as usize, address) {
                *self.situations.entry((what, situation)).or_default() += 1;
            }
        }
    }
}

/// Does the picture read, and is this a device port of it with redirect?
fn redirects(judge: &Judge, start: u32) -> bool {
    let ports = |picture: &Picture| redirecting_ports(picture).contains(&(start as usize));
    judge.reading().is_ok_and(ports)
}

#[test]
fn some_tens_of_pictures_show_all_that_can_happen() {
    let mut in_trials = BTreeMap::new();
    for seed in 1..=3 {
        let shown = Shown::of(&generate(seed, 40));
        for situation in ALL_SITUATIONS {
            let count = |what| shown.situations.get(&(what, situation)).copied().unwrap_or(0);
            assert!(count("picture") >= 2, "seed {seed}, {situation:?}: {}", count("picture"));
            *in_trials.entry(situation).or_insert(0) += count("trial");
        }
        assert!([0, 2].iter().all(|kind| shown.others[kind] >= 20), "seed {seed}: {:?}", shown.others);
    }
    assert!(in_trials.values().all(|&count| count >= 2), "{in_trials:?}");
}

/// The address packets of trials in a batch from ports with redirect, by whether the starting port claims the
/// address in the picture and in the trial.
fn claims_in_trials(batch: &[u8]) -> BTreeMap<[bool; 2], usize> {
    let mut counts = BTreeMap::new();
    let mut lent = Lent::of(Vec::new(), Vec::new());
    for record in Records::of(batch) {
        let record = record.expect("the batch is whole");
        lent.lend(&record);
        let Record::TrialWalk { kind, start, target } = record else { continue };
        let walks = [Record::Walk { kind, start, target }, record].map(|walk| {
            let (judge, ..) = lent.address_walk(&walk)?;
            redirects(judge, start).then(|| !judge.is_redirected(start, target))
        });
        if let [Some(before), Some(after)] = walks {
            *counts.entry([before, after]).or_default() += 1;
        }
    }
    counts
}

#[test]
fn trials_turn_the_claim_of_the_starting_port_over() {
    let counts = claims_in_trials(&generate(1, 60));
    for claims in [[false, false], [false, true], [true, false], [true, true]] {
        assert!(counts.get(&claims).is_some_and(|&count| count >= 3), "{counts:?}");
    }
}

#[test]
fn no_port_with_redirect_is_asked_for_nothing() {
    let [two, one] = some_pictures(2);
    let calls = |judge: &Judge| redirect_calls(&mut Random::new(1), judge.reading().expect("it reads"));
    assert!(calls(&two).len() > 3);
    assert_eq!(calls(&one), []);
}

#[test]
fn a_tally_counts_redirected_walks_and_editions() {
    let walk = |kind, start, mib: u64| Record::Walk { kind, start, target: mib << 20 };
    let pictures = [Edition::Two, Edition::One].map(|edition| Draft::in_edition(edition, switch()).bytes());
    let [two, one] = pictures.map(Record::Picture);
    let asked =
        [walk(1, 2, 1), walk(1, 2, 11), walk(1, 3, 11), walk(1, 255, 11), walk(0, 2, 0), walk(1, 1, 11)];
    let patch = Record::Patch([0u32, 8].map(u32::to_le_bytes).concat());
    let tried = Record::TrialWalk { kind: 1, start: 2, target: 11 << 20 };
    let records = [&[two][..], &asked, &[patch, tried.clone(), one, walk(1, 2, 11), tried]].concat();
    let mut batch = Vec::new();
    records.iter().for_each(|record| record.write(&mut batch));
    Record::Picture(vec![3]).write(&mut batch);
    let lines = answers(&batch).expect("the batch is whole").join("\n");
    let counts: Vec<(String, u64)> =
        tally(&batch, &lines).expect("as many lines as calls").into_iter().collect();
    let wanted = [
        ("picture: edition 1", 1),
        ("picture: edition 2", 1),
        ("picture: neither edition", 1),
        ("trial walk by address, redirected: number  0 end 03 crossings 03", 1),
        ("trial walk by address: number  0 end 03 crossings 03", 1),
        ("walk by ID: number  0 end 02 crossings 03", 1),
        ("walk by address, redirected: number  0 end 03 crossings 03", 1),
        ("walk by address: number  0 end 03 crossings 00", 1),
        ("walk by address: number  0 end 03 crossings 03", 2),
        ("walk by address: number  0 end 04 crossings 00", 1),
        ("walk by address: number 16 end 00 crossings 00", 1),
    ];
    assert_eq!(counts, wanted.map(|(what, count)| (what.to_string(), count)));
}
