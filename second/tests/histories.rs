//! Settings histories: each rule of the paper by hand-written stories, the stream, and what the random stories show.

use std::collections::{BTreeMap, BTreeSet};

use second::generate::random_of;
use second::history::{changed, held, Change, Layout, RECORD, VECTORS};
use second::picture::{edition_of, Edition};
use second::store::{Store, FILLER};
use second::stories::{stories, story};
use second::story::{Step, Stories, Story};
use second::story_answers::{answers_of_story, hash, story_answers};
use second::story_cases::{hand_written_stories, story_cases, StoryCase};

/// All cases under a heading give the lines written beside their steps, and there are so many cases.
fn heading_holds(heading: &str, count: usize) {
    let is_under = |case: &StoryCase| case.name.split(':').next() == Some(heading);
    let cases: Vec<StoryCase> = story_cases().into_iter().filter(is_under).collect();
    assert_eq!(cases.len(), count, "{heading}");
    for case in cases {
        assert_eq!(answers_of_story(&case.story()), case.lines(), "{}", case.name);
    }
}

/// One test for each heading.
macro_rules! headings {
    ($($test:ident: $heading:literal, $count:literal;)*) => {
        $(#[test]
        fn $test() {
            heading_holds($heading, $count);
        })*
    };
}

headings! {
    a_version_is_the_first_picture_with_its_changes_made: "versions", 4;
    a_change_names_a_byte_by_the_first_picture_s_layout: "layout", 6;
    adding_refuses_in_the_paper_s_order: "refusals", 2;
    the_room_is_filled_and_not_overfilled: "room", 4;
    winding_back_drops_the_later_changes: "winding back", 1;
    pictures_that_do_not_read: "unreadable", 11;
}

#[test]
fn the_hash_is_fnv_1a_of_64_bits() {
    assert_eq!(hash(b""), 0xcbf2_9ce4_8422_2325);
    assert_eq!(hash(b"a"), 0xaf63_dc4c_8601_ec8c);
    assert_eq!(hash(b"foobar"), 0x8594_4171_f739_67e8);
}

/// A story of every step, and its bytes as README.md says them.
fn short_story() -> (Story, Vec<u8>) {
    let change = Change { port: 0x0403_0201, part: 1, at: 0x100, old: 0xAB, new: 0xCD };
    let steps = vec![
        Step::Add(vec![change]),
        Step::WindBack(5),
        Step::Version { k: 6, out_len: 3 },
        Step::SetKept(258),
    ];
    let packed = [1, 2, 3, 4, 1, 0, 0, 0, 0, 1, 0, 0, 0xAB, 0xCD, 0, 0];
    let bytes = [
        &[2, 0, 0, 0, 0x77, 0x88][..],
        &[1, 0, 0, 0],
        &packed,
        &[7, 0, 0, 0],
        &[4, 0, 0, 0],
        &[1, 1, 0, 0, 0],
        &packed,
        &[2, 5, 0, 0, 0],
        &[3, 6, 0, 0, 0, 3, 0, 0, 0],
        &[4, 2, 1, 0, 0],
    ];
    (Story { first: vec![0x77, 0x88], room: vec![change], kept: 7, steps }, bytes.concat())
}

#[test]
fn a_stream_is_written_and_read_byte_by_byte() {
    let (story, bytes) = short_story();
    let mut stream = Vec::new();
    story.write(&mut stream);
    assert_eq!(stream, bytes);
    let twice = [bytes.clone(), bytes].concat();
    let read: Result<Vec<Story>, String> = Stories::of(&twice).collect();
    assert_eq!(read, Ok(vec![story.clone(), story]));
}

#[test]
fn each_step_has_one_line_of_its_own_form() {
    let (_, stream) = short_story();
    let change = [1, 2, 3, 4, 1, 0, 0, 0, 0, 1, 0, 0, 0xAB, 0xCD];
    let lines = [
        format!("add 1 3735928559 {:016x}", hash(&change)),
        "back 0 5".to_string(),
        format!("version 1 {:016x}", hash(&[FILLER; 3])),
        "kept 258".to_string(),
    ];
    assert_eq!(story_answers(&stream).as_deref(), Ok(&lines[..]));
    assert_eq!(story_answers(&[]), Ok(Vec::new()));
}

#[test]
fn a_stream_that_is_none_is_an_error() {
    let (_, stream) = short_story();
    for length in 1..stream.len() {
        assert!(story_answers(&stream[..length]).is_err(), "{length}");
    }
    let with = |at: usize, byte: u8| {
        let mut other = stream.clone();
        other[at] = byte;
        story_answers(&other)
    };
    let first_op = 6 + 4 + 16 + 8;
    assert_eq!(with(first_op, 5), Err("there is no step 5".to_string()));
    assert_eq!(with(first_op, 0), Err("there is no step 0".to_string()));
    assert_eq!(with(24, 1), Err("the last two bytes of a change are not zero".to_string()));
    assert!(with(30, 5).is_err());
}

#[test]
fn the_hand_written_stream_holds_all_hand_written_stories() {
    let stream = hand_written_stories();
    let lines: Vec<String> = story_cases().iter().flat_map(|case| answers_of_story(&case.story())).collect();
    assert_eq!(story_answers(&stream), Ok(lines));
    assert!(story_cases().len() >= 28);
}

#[test]
fn the_same_seed_gives_the_same_stories() {
    assert_eq!(stories(5, 40), stories(5, 40));
    assert_ne!(stories(5, 40), stories(6, 40));
    assert!(stories(5, 40).starts_with(&stories(5, 30)));
}

/// How often each thing was seen.
#[derive(Default)]
struct Counts(BTreeMap<String, u64>);

impl Counts {
    fn add(&mut self, what: impl Into<String>) {
        *self.0.entry(what.into()).or_default() += 1;
    }

    /// One more if it is so.
    fn add_if(&mut self, is_so: bool, what: &str) {
        if is_so {
            self.add(what);
        }
    }

    fn of(&self, what: &str) -> u64 {
        self.0.get(what).copied().unwrap_or(0)
    }

    /// Each of these was seen so often.
    fn have(&self, least: u64, all: &[&str]) {
        for what in all {
            assert!(self.of(what) >= least, "{what}: {}", self.of(what));
        }
    }
}

/// The stories of a seed.
fn some_stories(seed: u64, count: u64) -> impl Iterator<Item = Story> {
    (0..count).map(move |index| story(&mut random_of(seed, index), index))
}

/// Takes the steps of a story; before each, the store as it stands is shown.
fn follow(story: &Story, mut show: impl FnMut(&Store, &Step)) {
    let mut store = Store::of(story);
    for step in &story.steps {
        show(&store, step);
        match step {
            Step::Add(run) => drop(store.add(run)),
            Step::WindBack(k) => drop(store.wind_back(*k)),
            Step::Version { .. } => {}
            Step::SetKept(kept) => store.kept = *kept,
        }
    }
}

#[test]
fn three_hundred_stories_give_every_number() {
    let lines = story_answers(&stories(1, 300)).expect("the stream is whole");
    let mut counts = Counts::default();
    for line in lines.iter().filter(|line| !line.starts_with("kept")) {
        let words: Vec<&str> = line.split(' ').collect();
        counts.add(words[..2].join(" "));
        if let ["version", "0", _, "check", check, _, "walk", walk, _] = words[..] {
            counts.add(format!("check {check}"));
            counts.add(format!("walk {walk}"));
        }
    }
    for number in 1..=10 {
        counts.have(3, &[&format!("add {number}"), &format!("version {number}")]);
    }
    counts.have(
        100,
        &["add 37", "add 38", "add 39", "version 0", "version 23", "version 40", "back 0", "back 40"],
    );
    counts.have(20, &["check 0", "check 6", "check 8", "check 10", "check 11", "walk 0", "walk 6"]);
    counts.have(1, &["check 9", "check 13", "check 14"]);
    let calls = counts.0.keys().filter(|what| !what.starts_with("check") && !what.starts_with("walk"));
    assert_eq!(calls.count(), 11 + 3 + 2 + 11 + 2, "{:?}", counts.0.keys());
    let refused: u64 = (37..=39).map(|number| counts.of(&format!("add {number}"))).sum();
    assert!(counts.of("add 0") > 2 * refused, "{}", counts.of("add 0"));
}

#[test]
fn the_streams_keep_the_limits_of_the_c_side() {
    let (mut steps, mut longest) = (0, 0);
    for story in some_stories(1, 600) {
        let mut stream = Vec::new();
        story.write(&mut stream);
        assert!(stream.len() < 8_000_000 && story.first.len() <= 70_000 && story.room.len() <= 4_096);
        for step in &story.steps {
            match step {
                Step::Add(run) => assert!(run.len() <= 4_096),
                Step::Version { out_len, .. } => assert!(*out_len <= 140_000),
                _ => {}
            }
        }
        steps += story.steps.len();
        longest = longest.max(story.room.len());
    }
    assert!((600 * 12..600 * 35).contains(&steps), "{steps}");
    assert!(longest > 300, "{longest}");
}

#[test]
fn stories_begin_with_every_kind_of_picture_and_room() {
    let mut counts = Counts::default();
    for story in some_stories(1, 300) {
        let room = story.room.len() as u32;
        counts.add_if(story.room.is_empty(), "no room");
        counts.add_if(story.kept > room, "overfull");
        let Ok(layout) = Layout::of(&story.first) else { continue };
        counts.add(match edition_of(&story.first) {
            Some(Edition::Two) => "edition 2",
            _ => "edition 1",
        });
        let has = |port: u32| layout.part(port, VECTORS).is_some_and(|bytes| !bytes.is_empty());
        counts.add_if((0..layout.count() as u32).any(has), "with vectors");
        counts.add_if((0..layout.count() as u32).any(|port| !has(port)), "without vectors");
        counts.add_if(layout.count() > 30, "many ports");
        let strange = held(&story.room, story.kept).iter().any(|change| layout.place(change).is_none());
        counts.add_if(strange, "a kept record that names no byte");
    }
    counts.have(50, &["edition 1", "edition 2", "with vectors", "without vectors"]);
    counts.have(5, &["no room", "overfull", "many ports", "a kept record that names no byte"]);
}

/// Counts what a run shows, and what is wrong with it.
fn count_run(counts: &mut Counts, store: &Store, layout: &Layout, run: &[Change]) {
    let (room, kept) = (store.room.len(), store.kept as usize);
    let before = |index: usize| {
        changed(&store.first, layout, &[held(&store.room, store.kept), &run[..index]].concat())
    };
    let is_strange: Vec<bool> = run.iter().map(|change| layout.place(change).is_none()).collect();
    let is_wrong =
        |index: usize| layout.place(&run[index]).is_some_and(|at| before(index)[at] != run[index].old);
    let wrong: Vec<usize> = (0..run.len()).filter(|&index| is_wrong(index)).collect();
    counts.add_if(run.is_empty(), "empty run");
    counts.add_if(kept > room, "onto more than the room holds");
    counts.add_if(!run.is_empty() && kept + run.len() == room, "exactly full");
    counts.add_if(kept + run.len() == room + 1, "one too many");
    if let Some(strange) = is_strange.iter().position(|&strange| strange) {
        counts.add_if(strange > 0 && strange + 1 == run.len(), "strange in the last change only");
        counts.add_if(wrong.iter().any(|&index| index < strange), "strange behind a wrong old byte");
        counts.add_if(kept + run.len() > room, "strange and too many");
        return;
    }
    counts.add_if(!wrong.is_empty() && kept + run.len() > room, "wrong and too many");
    counts.add_if(run.len() > 1 && wrong == [run.len() - 1], "wrong in the last change only");
    for index in wrong {
        let place = layout.place(&run[index]).expect("it is not strange");
        let old = run[index].old;
        counts.add_if(
            old == store.first[place] && before(0)[place] != old,
            "wrong old byte of the first picture",
        );
        counts.add_if(old == before(0)[place], "wrong old byte of the version kept");
        counts.add_if(old.abs_diff(before(index)[place]) == 1, "old byte off by one");
    }
    let places: BTreeSet<usize> = run.iter().filter_map(|change| layout.place(change)).collect();
    counts.add_if(places.len() < run.len(), "a byte twice in a run");
    let kept_places = held(&store.room, store.kept).iter().filter_map(|change| layout.place(change));
    counts
        .add_if(kept_places.into_iter().any(|place| places.contains(&place)), "a byte again in a later run");
    let dropped =
        store.room.iter().skip(kept).zip(run).any(|(old, new)| old != &Change::default() && old != new);
    counts.add_if(dropped, "over what was dropped");
}

#[test]
fn runs_of_every_kind_are_added() {
    let mut counts = Counts::default();
    for story in some_stories(1, 300) {
        let Ok(layout) = Layout::of(&story.first) else { continue };
        follow(&story, |store, step| {
            if let Step::Add(run) = step {
                count_run(&mut counts, store, &layout, run);
            }
        });
    }
    counts.have(20, &["empty run", "onto more than the room holds", "exactly full", "one too many"]);
    counts.have(
        20,
        &["strange in the last change only", "strange behind a wrong old byte", "strange and too many"],
    );
    counts.have(20, &["wrong and too many", "wrong in the last change only", "old byte off by one"]);
    counts.have(20, &["wrong old byte of the first picture", "wrong old byte of the version kept"]);
    counts.have(100, &["a byte twice in a run", "a byte again in a later run", "over what was dropped"]);
}

/// What a change names, or why it names no byte.
fn naming(layout: &Layout, change: &Change) -> String {
    let Change { port, part, at, .. } = *change;
    let count = layout.count() as u32;
    match layout.part(port, part).map(|bytes| bytes.len() as u32) {
        None if port == count && part <= 1 => "port one past the last".to_string(),
        None if part <= 1 => format!("port {port:x}"),
        None => format!("part {part:x}"),
        Some(0) if at == 0 => "first byte of no vectors".to_string(),
        Some(length) if at == length => format!("one past part {part}"),
        Some(length) if at > length => format!("byte {at:x}"),
        Some(length) if at == length - 1 => format!("last of part {part}"),
        Some(_) if part == RECORD => format!("record {at}"),
        Some(_) if at == 0 => "first of part 1".to_string(),
        Some(_) => "inside part 1".to_string(),
    }
}

#[test]
fn changes_name_every_kind_of_byte() {
    let mut counts = Counts::default();
    for story in some_stories(1, 300) {
        let Ok(layout) = Layout::of(&story.first) else { continue };
        let runs = story.steps.iter().filter_map(|step| match step {
            Step::Add(run) => Some(run),
            _ => None,
        });
        runs.flatten().for_each(|change| counts.add(naming(&layout, change)));
    }
    for at in 0..55 {
        counts.have(5, &[&format!("record {at}")]);
    }
    counts.have(100, &["last of part 0", "first of part 1", "last of part 1", "inside part 1"]);
    counts.have(
        10,
        &["port one past the last", "first byte of no vectors", "one past part 0", "one past part 1"],
    );
    counts.have(
        2,
        &["port 40", "port ff", "port 100", "port ffffffff", "part 2", "part ffffffff", "byte ffffffff"],
    );
}

#[test]
fn versions_and_windings_of_every_kind_are_asked_for() {
    let mut counts = Counts::default();
    for story in some_stories(1, 300) {
        let length = story.first.len() as u32;
        follow(&story, |Store { room, kept, .. }, step| match *step {
            Step::WindBack(k) => {
                counts.add_if(k == *kept, "back to the last");
                counts.add_if(k == 0, "back to the first");
                counts.add_if(k > 0 && k < *kept, "back in between");
                counts.add_if(Some(k) == kept.checked_add(1), "back to one above");
                counts.add_if(k == u32::MAX, "back to the greatest number");
            }
            Step::Version { k, out_len } => {
                counts.add_if(k == *kept, "the last version");
                counts.add_if(k == 0, "the first version");
                counts.add_if(k > 0 && k < *kept, "a version in between");
                counts.add_if(Some(k) == kept.checked_add(1), "one above the last");
                counts.add_if(*kept as usize > room.len(), "a version of an overfull room");
                counts.add_if(*kept > 20, "a version of a long history");
                counts.add_if(out_len == 0, "no buffer");
                counts.add_if(Some(out_len) == length.checked_sub(1), "one byte short");
                counts.add_if(out_len > length, "a longer buffer");
            }
            Step::SetKept(set) => counts.add_if(set as usize > room.len(), "overfull"),
            Step::Add(_) => {}
        });
    }
    counts.have(20, &["back to the last", "back to the first", "back in between", "back to one above"]);
    counts.have(20, &["back to the greatest number", "overfull", "a version of an overfull room"]);
    counts.have(50, &["the last version", "the first version", "a version in between", "one above the last"]);
    counts.have(50, &["a version of a long history", "no buffer", "one byte short", "a longer buffer"]);
}

#[test]
fn every_byte_of_a_version_is_that_of_the_last_change_that_names_it() {
    let mut compared = 0;
    for story in some_stories(2, 150) {
        let Ok(layout) = Layout::of(&story.first) else { continue };
        follow(&story, |store, step| {
            let Step::Version { k, .. } = *step else { return };
            let (number, out) = store.version(k, story.first.len() as u32);
            if number != 0 {
                return;
            }
            let newest_first: Vec<&Change> = store.room[..k as usize].iter().rev().collect();
            for (place, byte) in out.iter().enumerate() {
                let last = newest_first.iter().find(|change| layout.place(change) == Some(place));
                assert_eq!(*byte, last.map_or(story.first[place], |change| change.new));
            }
            compared += 1;
        });
    }
    assert!(compared > 300, "{compared}");
}
