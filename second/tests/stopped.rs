//! Number 18: what its turns draw, the pictures that are filled as they come, and that every port is found
//! where the check finds nothing.

use second::batch::{answers, Record, Records};
use second::claims::Conversion;
use second::draft::{Draft, DraftPort, VectorShape, Which, DOWNSTREAM, NO_PARENT, ROOT, UPSTREAM};
use second::generate::{ports_and_taste, sound_draft};
use second::judge::Judge;
use second::picture::{Picture, Refusal, Target};
use second::random::Random;
use second::sound::fill_as_it_comes;
use second::stopped::{all_turns, stopped, Aim, Stopped, Turn, Way};
use second::stopped_calls::write_stopped;
use second::stopped_draw::draw;
use second::walk::{walk_configuration, End};

/// How many pictures of each turn are looked at.
const PICTURES: u64 = 12;

/// The pictures of a turn.
fn drawn(turn: Turn) -> impl Iterator<Item = (Stopped, Judge)> {
    (0..PICTURES).map(move |seed| {
        let about = draw(&mut Random::new(seed), turn);
        let judge = Judge::new(&about.draft.bytes());
        (about, judge)
    })
}

/// The parent of a port.
fn parent_of(picture: &Picture, port: usize) -> usize {
    picture.ports[port].parent.expect("the port is no root port")
}

/// The ports whose own IDs a configuration request from the host does not get to.
fn not_found(picture: &Picture) -> Vec<usize> {
    let is_found = |port: usize| {
        walk_configuration(picture, None, picture.ports[port].own_id).end == End::Function { port }
    };
    (0..picture.ports.len()).filter(|&port| !is_found(port)).collect()
}

#[test]
fn each_turn_that_is_to_be_stopped_gets_18_in_its_way() {
    let turns: Vec<Turn> = all_turns().into_iter().filter(|turn| turn.aim == Aim::Stopped).collect();
    assert_eq!(turns.len(), 47);
    for turn in turns {
        for (Stopped { child, id, .. }, judge) in drawn(turn) {
            let picture = judge.reading().expect("the picture reads");
            let Err(Refusal { number, target, ports }) = judge.check() else { panic!("{turn:?}: clear") };
            assert_eq!((number, target, ports.len()), (18, Some(Target::Id(id)), 1), "{turn:?}");
            assert_eq!(ports[0].port as usize, child, "{turn:?}");
            let holding = ports[0].holding.expect("18 says why");
            assert_eq!((holding.own, holding.decoders.bits()), (false, turn.below), "{turn:?}");
            let parent = &picture.ports[parent_of(picture, child)];
            assert_eq!(parent.decoders(Target::Id(id)).bits(), turn.above, "{turn:?}");
            let unsupported = turn.way == Way::OtherDevice;
            assert_eq!(parent.conversion(id) == Conversion::Unsupported, unsupported, "{turn:?}");
        }
    }
}

#[test]
fn where_18_alone_is_given_the_port_below_is_not_found() {
    for turn in all_turns().into_iter().filter(|turn| turn.aim == Aim::Stopped) {
        for (Stopped { child, .. }, judge) in drawn(turn) {
            let picture = judge.reading().expect("the picture reads");
            assert_eq!(not_found(picture), picture.ports_at(Some(child)), "{turn:?}");
        }
    }
}

#[test]
fn each_turn_beside_it_is_clear_and_finds_every_port() {
    let is_beside = |turn: &Turn| !matches!(turn.aim, Aim::Stopped | Aim::Twice | Aim::Behind(_));
    let turns: Vec<Turn> = all_turns().into_iter().filter(is_beside).collect();
    assert_eq!(turns.len(), 29);
    for turn in turns {
        for (Stopped { child, id, .. }, judge) in drawn(turn) {
            assert_eq!(judge.check(), Ok(()), "{turn:?}");
            let picture = judge.reading().expect("the picture reads");
            assert!(picture.ports[child].claims_id(id), "{turn:?}");
            assert_eq!(
                picture.ports[parent_of(picture, child)].conversion(id),
                Conversion::Type1,
                "{turn:?}"
            );
            assert_eq!(not_found(picture), [], "{turn:?}");
        }
    }
}

#[test]
fn of_two_ports_that_claim_the_id_the_lower_is_named() {
    let turns: Vec<Turn> = all_turns().into_iter().filter(|turn| turn.aim == Aim::Twice).collect();
    assert_eq!(turns.len(), 2);
    for turn in turns {
        for (Stopped { child, id, .. }, judge) in drawn(turn) {
            let picture = judge.reading().expect("the picture reads");
            let [below] = picture.ports_at(Some(child))[..] else { panic!("{turn:?}: not one port below") };
            assert_eq!(judge.report(), format!("refused 18 id {id:04x} ports {child} by rid\n"), "{turn:?}");
            assert!(picture.ports[below].claims_id(id) && picture.ports[child].stops(id), "{turn:?}");
            assert!(child < below, "{turn:?}");
        }
    }
}

#[test]
fn an_earlier_number_is_given_where_18_applies_too() {
    let mut numbers = Vec::new();
    for turn in all_turns() {
        let Aim::Behind(number) = turn.aim else { continue };
        for (Stopped { child, id, .. }, judge) in drawn(turn) {
            assert_eq!(judge.check().map_err(|refusal| refusal.number), Err(number), "{turn:?}");
            let picture = judge.reading().expect("the picture reads");
            assert!(picture.ports[child].claims_id(id), "{turn:?}");
            assert!(picture.ports[parent_of(picture, child)].stops(id), "{turn:?}");
        }
        numbers.push(number);
    }
    assert_eq!(numbers, [11, 12, 13, 14, 15]);
}

#[test]
fn a_picture_filled_as_it_comes_is_clear_or_gets_18() {
    let mut stopped = 0;
    for seed in 0..150 {
        let random = &mut Random::new(seed);
        let (ports, taste) = ports_and_taste(random);
        let judge = Judge::new(&fill_as_it_comes(random, ports, &taste).bytes());
        match judge.check() {
            Ok(()) => assert_eq!(not_found(judge.reading().expect("it reads")), [], "seed {seed}"),
            Err(refusal) => {
                assert_eq!(refusal.number, 18, "seed {seed}");
                stopped += 1;
            }
        }
    }
    assert!(stopped > 30, "{stopped}");
}

#[test]
fn every_port_of_a_sound_picture_is_found() {
    for seed in 2_000..2_150 {
        let judge = Judge::new(&sound_draft(&mut Random::new(seed)).bytes());
        assert_eq!(judge.check(), Ok(()), "seed {seed}");
        assert_eq!(not_found(judge.reading().expect("it reads")), [], "seed {seed}");
    }
}

/// A root port, an upstream port with this Secondary Start, a downstream port with buses 4 and 5, and an
/// upstream port below that with own ID 0400h, on its bus Secondary.
fn four_in_a_row(start: u16) -> Vec<u8> {
    let none = VectorShape { size_code: 0, granularity_code: 0, start: 0x80 };
    let middle = DraftPort::silent(UPSTREAM, 0, 0x0100).buses(2, 5).vector(Which::Rid, none, &[]);
    Draft::of(vec![
        DraftPort::silent(ROOT, NO_PARENT, 0x0008).buses(1, 5),
        middle.secondary_range(start, 0),
        DraftPort::silent(DOWNSTREAM, 1, 0x0200).buses(4, 5),
        DraftPort::silent(UPSTREAM, 2, 0x0400),
    ])
    .bytes()
}

#[test]
fn a_middle_port_takes_the_request_for_an_own_id_where_18_is_all_that_is_wrong() {
    // unit 80h is 0400h: port 1 makes the request Type 0, and no port below it has that own ID
    let judge = Judge::new(&four_in_a_row(0x80));
    assert_eq!(judge.report(), "refused 18 id 0400 ports 2 by bus\n");
    let picture = judge.reading().expect("it reads");
    assert_eq!(walk_configuration(picture, None, 0x0400).end, End::Unsupported { port: 1 });
    assert_eq!(not_found(picture), [3]);
    // unit 81h is 0408h, which port 2 claims as well, and nobody has as its own
    assert_eq!(Judge::new(&four_in_a_row(0x81)).report(), "refused 18 id 0408 ports 2 by bus\n");
    assert_eq!(not_found(Judge::new(&four_in_a_row(0x81)).reading().expect("it reads")), []);
    // unit 60h is on bus 3, which nobody claims below port 1
    let judge = Judge::new(&four_in_a_row(0x60));
    assert_eq!(judge.report(), "ports 4\nclear\n");
    assert_eq!(not_found(judge.reading().expect("it reads")), []);
}

#[test]
fn the_40_bytes_of_18_are_as_those_of_13() {
    let mut buffer = [0xAA; 41];
    assert_eq!(Judge::new(&four_in_a_row(0x83)).check_call(&mut buffer), 18);
    assert_eq!(buffer[..8], [18, 0, 2, 255, 0, 0, 0, 0]);
    assert_eq!(buffer[8..16], [0x18, 0x04, 0, 0, 0, 0, 0, 0]);
    assert_eq!(buffer[16..], [&[255; 24][..], &[0xAA]].concat());
}

#[test]
fn the_first_turns_show_every_way() {
    let mut seen = Vec::new();
    for turn in 0..8 {
        let about = stopped(&mut Random::new(turn), turn);
        let judge = Judge::new(&about.draft.bytes());
        assert_eq!(judge.check().map_err(|refusal| refusal.number), Err(18), "turn {turn}");
        let picture = judge.reading().expect("it reads");
        seen.push(picture.ports[parent_of(picture, about.child)].conversion(about.id));
    }
    assert!(seen.contains(&Conversion::Type0) && seen.contains(&Conversion::Unsupported), "{seen:?}");
}

#[test]
fn the_picture_of_a_turn_is_asked_for_own_ids_and_tried() {
    for turn in 0..40 {
        let mut batch = Vec::new();
        write_stopped(&mut Random::new(turn), turn, &mut batch);
        let records: Vec<Record> = Records::of(&batch).map(|record| record.expect("it is whole")).collect();
        let lines = answers(&batch).expect("it is whole");
        let calls: Vec<&Record> = records.iter().filter(|record| record.is_call()).collect();
        let answer = |wanted: &Record| calls.iter().position(|call| *call == wanted).map(|at| &lines[at]);
        assert_eq!(answer(&Record::TrialReport), answer(&Record::Report), "turn {turn}");
        assert_eq!(answer(&Record::TrialCheck), answer(&Record::Check), "turn {turn}");
        assert!(calls.len() <= 20, "turn {turn}: {}", calls.len());
    }
}
