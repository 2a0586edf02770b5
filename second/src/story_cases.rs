//! Hand-written stories of settings histories, each step with the line that the papers give. Rooms and versions are
//! written out here byte by byte; only their hashes are worked out.

use crate::cases::{one_port_picture, root, shape};
use crate::draft::{Draft, Which};
use crate::history::{Change, RECORD, VECTORS};
use crate::picture::Edition;
use crate::spoil::long_chain;
use crate::store::{FILLER, UNTOUCHED};
use crate::story::{Step, Story};
use crate::story_answers::{hash, hash_of_changes};

/// A story with the line for each of its steps.
pub struct StoryCase {
    pub name: &'static str,
    first: Vec<u8>,
    room: Vec<Change>,
    kept: u32,
    told: Vec<Told>,
}

/// A step, and the line that answers it.
type Told = (Step, String);

impl StoryCase {
    /// The story without its lines.
    pub fn story(&self) -> Story {
        let steps = self.told.iter().map(|(step, _)| step.clone()).collect();
        Story { first: self.first.clone(), room: self.room.clone(), kept: self.kept, steps }
    }

    /// The lines.
    pub fn lines(&self) -> Vec<&str> {
        self.told.iter().map(|(_, line)| line.as_str()).collect()
    }
}

/// All of them as a stream.
pub fn hand_written_stories() -> Vec<u8> {
    let mut stream = Vec::new();
    story_cases().iter().for_each(|case| case.story().write(&mut stream));
    stream
}

/// All of them; what stands before the colon is the heading.
pub fn story_cases() -> Vec<StoryCase> {
    [version_cases(), layout_cases(), refusal_cases(), room_cases(), wind_back_cases(), unreadable_cases()]
        .into_iter()
        .flatten()
        .collect()
}

/// A story that begins with a room of so many zeros, none of them kept.
fn fresh(name: &'static str, first: Vec<u8>, room: usize, told: Vec<Told>) -> StoryCase {
    StoryCase { name, first, room: vec![Change::default(); room], kept: 0, told }
}

/// A change of a byte of a record.
fn record(port: u32, at: u32, old: u8, new: u8) -> Change {
    Change { port, part: RECORD, at, old, new }
}

/// A change of a byte of the vectors.
fn vectors(port: u32, at: u32, old: u8, new: u8) -> Change {
    Change { port, part: VECTORS, at, old, new }
}

/// These changes, and zeros behind them up to so many.
fn room(changes: &[Change], length: usize) -> Vec<Change> {
    let mut room = changes.to_vec();
    room.resize(length, Change::default());
    room
}

/// A run is added: so many are kept now, and the room is this.
fn adds(run: &[Change], now: u32, room: Vec<Change>) -> Told {
    (Step::Add(run.to_vec()), format!("add 0 {now} {:016x}", hash_of_changes(&room)))
}

/// A run is refused, and the room stays this.
fn refuses(run: &[Change], number: u32, room: Vec<Change>) -> Told {
    (Step::Add(run.to_vec()), format!("add {number} {UNTOUCHED} {:016x}", hash_of_changes(&room)))
}

/// Winding back to k is done.
fn winds(k: u32) -> Told {
    (Step::WindBack(k), format!("back 0 {k}"))
}

/// Winding back to k is refused.
fn winds_not(k: u32) -> Told {
    (Step::WindBack(k), format!("back 40 {UNTOUCHED}"))
}

/// The caller's number kept is set.
fn keeps(kept: u32) -> Told {
    (Step::SetKept(kept), format!("kept {kept}"))
}

/// What check and walk say of a version.
type Judged = ([u8; 40], [u8; 40]);

/// Version k is these bytes, in a buffer that is so much longer.
fn reads(k: u32, version: &[u8], longer: usize, (check, walk): Judged) -> Told {
    let out = [version, &vec![FILLER; longer]].concat();
    let said = format!("check {} {:016x} walk {} {:016x}", check[0], hash(&check), walk[0], hash(&walk));
    let line = format!("version 0 {:016x} {said}", hash(&out));
    (Step::Version { k, out_len: out.len() as u32 }, line)
}

/// Version k into a buffer of so many bytes is refused.
fn reads_not(k: u32, out_len: u32, number: u32) -> Told {
    let out = vec![FILLER; out_len as usize];
    (Step::Version { k, out_len }, format!("version {number} {:016x}", hash(&out)))
}

/// The 40 bytes: number; end, port, second port, crossings, Function number; path.
fn answer(number: u8, fields: [u8; 5], path: &[u8]) -> [u8; 40] {
    let mut bytes = [255; 40];
    bytes[0] = number;
    bytes[1..6].copy_from_slice(&fields);
    bytes[6..8].fill(0);
    bytes[8..8 + path.len()].copy_from_slice(path);
    bytes
}

/// Nothing is wrong, and ID 0108h ends at the device of a root port.
fn clear_to(port: u8) -> Judged {
    (answer(0, [0, 255, 255, 0, 0], &[]), answer(0, [1, port, 255, 1, 0], &[port]))
}

/// Nothing is wrong, and nobody holds ID 0108h, so that it ends at the host.
fn clear_to_host() -> Judged {
    (answer(0, [0, 255, 255, 0, 0], &[]), answer(0, [3, 255, 255, 0, 0], &[]))
}

/// The version does not read: this number at this port.
fn unreadable(number: u8, port: u8) -> Judged {
    (answer(number, [0, port, 255, 0, 0], &[]), answer(number, [0, port, 255, 0, 0], &[]))
}

/// A picture with other bytes at some places.
fn with(picture: &[u8], bytes: &[(usize, u8)]) -> Vec<u8> {
    let mut changed = picture.to_vec();
    bytes.iter().for_each(|&(at, byte)| changed[at] = byte);
    changed
}

/// The paper's picture of one port: 72 bytes, its record from 16 on, buses 1 to 1 at 22 and 23, no vectors.
fn one() -> Vec<u8> {
    one_port_picture()
}

/// Edition 2, two root ports: records from 16 and 76 on. Port 0 has no vectors; port 1 has a RID vector of 32 bytes
/// from 136 on, whose entry 1 is for 0108h. 168 bytes.
fn two() -> Vec<u8> {
    let second = root(0x0010).vector(Which::Rid, shape(0, 0, 0x20), &[]);
    Draft::in_edition(Edition::Two, vec![root(0x0008), second]).bytes()
}

/// Edition 1, three root ports: records from 16, 72 and 128 on. Port 0 has a RID vector of 32 bytes from 184 on,
/// port 1 none, port 2 a RID vector from 216 on and a MEM Low vector from 248 on. 280 bytes.
fn three() -> Vec<u8> {
    let first = root(0x0000).vector(Which::Rid, shape(0, 0, 0x20), &[]);
    let third = root(0x0010).vector(Which::Rid, shape(0, 0, 0x400), &[]);
    Draft::of(vec![first, root(0x0008), third.vector(Which::Low, shape(0, 0, 0x100), &[])]).bytes()
}

/// Edition 1, two root ports: records from 16 and 72 on. Port 0 has a RID vector of 32 bytes from 128 on, whose entry 1
/// is for 0108h; port 1 has none, and A0h as the start of it. 160 bytes.
fn handed_over() -> Vec<u8> {
    Draft::of(vec![root(0x0008).vector(Which::Rid, shape(0, 0, 0x20), &[]), root(0x0010)]).bytes()
}

/// Edition 1, a root port that has a MEM Low vector of 512 bytes from 72 on, and no memory space. 584 bytes.
fn long_vector() -> Vec<u8> {
    Draft::of(vec![root(0x0008).vector(Which::Low, shape(4, 0, 0), &[])]).bytes()
}

/// Edition 1, a root port that has a RID vector of 32 bytes from 72 on, whose entry 1 is for 0108h, a MEM Low vector
/// from 104 on and a MEM High vector from 136 on, and no memory space. 168 bytes.
fn all_vectors() -> Vec<u8> {
    let port =
        root(0x0008).vector(Which::Rid, shape(0, 0, 0x20), &[]).vector(Which::Low, shape(0, 0, 0), &[]);
    Draft::of(vec![port.vector(Which::High, shape(0, 0, 16), &[])]).bytes()
}

/// Edition 1, two root ports that both are 0008h: records from 16 and 72 on. 128 bytes.
fn one_id_twice() -> Vec<u8> {
    Draft::of(vec![root(0x0008), root(0x0008)]).bytes()
}

/// What a version is.
fn version_cases() -> Vec<StoryCase> {
    vec![each_version(), twice_in_a_run(), buffers(), unsound()]
}

/// Secondary 2 above Subordinate 1 claims nothing; 2 to 2 is another bus; 1 to 2 has bus 1 again.
fn each_version() -> StoryCase {
    let run = [record(0, 6, 1, 2), record(0, 7, 1, 2), record(0, 6, 2, 1)];
    let one = one();
    fresh(
        "versions: each is the first picture with so many changes made",
        one.clone(),
        4,
        vec![
            reads(0, &one, 0, clear_to(0)),
            adds(&run[..1], 1, room(&run[..1], 4)),
            adds(&run[1..], 3, room(&run, 4)),
            reads(0, &one, 0, clear_to(0)),
            reads(1, &with(&one, &[(22, 2)]), 0, clear_to_host()),
            reads(2, &with(&one, &[(22, 2), (23, 2)]), 0, clear_to_host()),
            reads(3, &with(&one, &[(23, 2)]), 0, clear_to(0)),
        ],
    )
}

/// Buses 1 to 3 and 1 to 5 have bus 1 as well.
fn twice_in_a_run() -> StoryCase {
    let one = one();
    let twice = [record(0, 7, 1, 3), record(0, 7, 3, 5)];
    let same = record(0, 7, 1, 1);
    fresh(
        "versions: a byte twice in one run, and a change that changes nothing",
        one.clone(),
        3,
        vec![
            adds(&twice, 2, room(&twice, 3)),
            reads(1, &with(&one, &[(23, 3)]), 0, clear_to(0)),
            reads(2, &with(&one, &[(23, 5)]), 0, clear_to(0)),
            winds(0),
            adds(&[same], 1, room(&[same, twice[1]], 3)),
            reads(1, &one, 0, clear_to(0)),
        ],
    )
}

/// Buffers of all lengths around 72.
fn buffers() -> StoryCase {
    let one = one();
    fresh(
        "versions: the rest of a longer buffer stays, a shorter one is 23, and 40 comes before it",
        one.clone(),
        1,
        vec![
            reads(0, &one, 1, clear_to(0)),
            reads(0, &one, 100, clear_to(0)),
            reads_not(0, 71, 23),
            reads_not(0, 0, 23),
            reads_not(1, 72, 40),
            reads_not(1, 71, 40),
            reads_not(u32::MAX, 0, 40),
        ],
    )
}

/// The first picture reads, and the check gives 11 for it; version 1 makes port 1 the Function 0010h.
fn unsound() -> StoryCase {
    let first = one_id_twice();
    let change = record(1, 2, 0x08, 0x10);
    let overlap = (answer(11, [0, 0, 1, 0, 0], &[8, 0, 0, 0, 0, 0, 0, 0]), clear_to_host().1);
    fresh(
        "versions: the first picture need not pass the check",
        first.clone(),
        1,
        vec![
            reads(0, &first, 0, overlap),
            adds(&[change], 1, vec![change]),
            reads(1, &with(&first, &[(74, 0x10)]), 0, clear_to_host()),
            reads(0, &first, 0, overlap),
        ],
    )
}

/// What a change names: the layout is the first picture's.
fn layout_cases() -> Vec<StoryCase> {
    vec![
        bounds_of_edition_2(),
        bounds_of_edition_1(),
        another_layout(),
        another_start(),
        whole_numbers(),
        three_vectors(),
    ]
}

/// The first and last bytes of each part in edition 2, and what lies past them.
fn bounds_of_edition_2() -> StoryCase {
    let two = two();
    let good = [record(1, 0, 0, 3), record(1, 59, 0, 1), vectors(1, 0, 0, 2), vectors(1, 31, 0, 0x80)];
    let strange = [
        record(1, 60, 0, 1),
        record(1, u32::MAX, 0, 1),
        record(2, 0, 0, 1),
        record(64, 0, 0, 1),
        record(256, 0, 0, 1),
        record(u32::MAX, 0, 0, 1),
        vectors(0, 0, 0, 1),
        vectors(1, 32, 0, 1),
        vectors(1, u32::MAX, 0, 1),
        vectors(2, 0, 0, 1),
        Change { part: 2, ..record(1, 0, 0, 1) },
        Change { part: 256, ..record(1, 0, 0, 1) },
        Change { part: u32::MAX, ..record(1, 0, 0, 1) },
    ];
    let mut told = vec![reads(0, &two, 0, clear_to_host()), adds(&good, 4, room(&good, 5))];
    told.extend(strange.iter().map(|change| refuses(&[*change], 37, room(&good, 5))));
    told.extend([
        reads(1, &with(&two, &[(76, 3)]), 0, unreadable(6, 1)),
        reads(3, &with(&two, &[(76, 3), (135, 1), (136, 2)]), 0, unreadable(6, 1)),
        reads(4, &with(&two, &[(76, 3), (135, 1), (136, 2), (167, 0x80)]), 0, unreadable(6, 1)),
        winds(0),
        adds(&good[2..], 2, room(&[good[2], good[3], good[2], good[3]], 5)),
        reads(2, &with(&two, &[(136, 2), (167, 0x80)]), 0, clear_to(1)),
    ]);
    fresh("layout: parts of edition 2", two, 5, told)
}

/// Edition 1: a record of 56 bytes, and all vectors of a port as one part.
fn bounds_of_edition_1() -> StoryCase {
    let three = three();
    let good = [vectors(2, 31, 0, 0x80), vectors(2, 32, 0, 1), vectors(2, 63, 0, 7), vectors(0, 0, 0, 2)];
    let full = [good[0], good[1], good[2], good[3], record(0, 55, 0, 1)];
    let changed = with(&three, &[(247, 0x80), (248, 1), (279, 7), (184, 2)]);
    fresh(
        "layout: parts of edition 1",
        three,
        5,
        vec![
            refuses(&[record(0, 56, 0, 1)], 37, room(&[], 5)),
            refuses(&[vectors(0, 32, 0, 1)], 37, room(&[], 5)),
            refuses(&[vectors(1, 0, 0, 1)], 37, room(&[], 5)),
            refuses(&[vectors(2, 64, 0, 1)], 37, room(&[], 5)),
            adds(&good, 4, room(&good, 5)),
            reads(4, &changed, 0, clear_to(0)),
            adds(&full[4..], 5, full.to_vec()),
            reads(5, &with(&changed, &[(71, 1)]), 0, unreadable(10, 0)),
        ],
    )
}

/// Six changes hand the vector of port 0 over to port 1. The version reads so, but the layout stays.
fn another_layout() -> StoryCase {
    let first = handed_over();
    let run = [
        record(0, 28, 1, 0),
        record(0, 32, 1, 0),
        record(1, 28, 0, 1),
        record(1, 32, 0, 1),
        record(1, 35, 0, 1),
        record(1, 52, 0xA0, 0x80),
    ];
    let places = [(44, 0), (48, 0), (100, 1), (104, 1), (107, 1), (124, 0x80)];
    let set = vectors(0, 0, 0, 2);
    let seven = [&run[..], &[set]].concat();
    fresh(
        "layout: that of the first picture, whatever a version says of itself",
        first.clone(),
        8,
        vec![
            adds(&run, 6, room(&run, 8)),
            reads(1, &with(&first, &places[..1]), 0, unreadable(8, 0)),
            reads(2, &with(&first, &places[..2]), 0, unreadable(10, 1)),
            reads(6, &with(&first, &places), 0, clear_to_host()),
            refuses(&[vectors(1, 0, 0, 2)], 37, room(&run, 8)),
            adds(&[set], 7, room(&seven, 8)),
            reads(7, &with(&with(&first, &places), &[(128, 2)]), 0, clear_to(1)),
        ],
    )
}

/// Port 1 has 88h as the start of its vectors, byte 128 of the picture. While it is another, 10 is given for port 1.
fn another_start() -> StoryCase {
    let two = two();
    let run =
        [record(1, 52, 0x88, 0x90), vectors(1, 0, 0, 2), vectors(1, 0, 2, 6), record(1, 52, 0x90, 0x88)];
    fresh(
        "layout: vectors stay where they are when their start is changed",
        two.clone(),
        4,
        vec![
            adds(&run[..2], 2, room(&run[..2], 4)),
            reads(2, &with(&two, &[(128, 0x90), (136, 2)]), 0, unreadable(10, 1)),
            adds(&run[2..], 4, run.to_vec()),
            reads(3, &with(&two, &[(128, 0x90), (136, 6)]), 0, unreadable(10, 1)),
            reads(4, &with(&two, &[(136, 6)]), 0, clear_to(1)),
        ],
    )
}

/// Each change refused would meet its old byte if a number of it were cut to 8, 16 or 24 bits: byte 0 of the record or
/// of the vectors.
fn whole_numbers() -> StoryCase {
    let first = long_vector();
    let run = [vectors(0, 256, 0, 3), vectors(0, 511, 0, 4), vectors(0, 0, 0, 5)];
    let mut told = Vec::new();
    for cut in [0x100, 0x1_0000, 0x100_0000] {
        told.extend([
            refuses(&[record(cut, 0, 0, 1)], 37, room(&[], 3)),
            refuses(&[vectors(cut, 0, 0, 1)], 37, room(&[], 3)),
            refuses(&[Change { part: cut, ..record(0, 0, 0, 1) }], 37, room(&[], 3)),
            refuses(&[Change { part: cut + 1, ..record(0, 0, 0, 1) }], 37, room(&[], 3)),
            refuses(&[record(0, cut, 0, 1)], 37, room(&[], 3)),
        ]);
    }
    told.extend([
        refuses(&[vectors(0, 512, 0, 1)], 37, room(&[], 3)),
        refuses(&[vectors(0, 0x1_0000, 0, 1)], 37, room(&[], 3)),
        refuses(&[vectors(0, 0x100_0000, 0, 1)], 37, room(&[], 3)),
        adds(&run, 3, run.to_vec()),
        reads(1, &with(&first, &[(328, 3)]), 0, clear_to_host()),
        reads(2, &with(&first, &[(328, 3), (583, 4)]), 0, clear_to_host()),
        reads(3, &with(&first, &[(328, 3), (583, 4), (72, 5)]), 0, clear_to_host()),
    ]);
    fresh("layout: no number of a change is cut", first, 3, told)
}

/// The bytes at the ends of the three vectors of a port.
fn three_vectors() -> StoryCase {
    let first = all_vectors();
    let run = [vectors(0, 95, 0, 0x80), vectors(0, 64, 0, 1), vectors(0, 63, 0, 0x80), vectors(0, 0, 0, 2)];
    let places = [(167, 0x80), (136, 1), (135, 0x80), (72, 2)];
    fresh(
        "layout: the vectors of all mechanisms are one part",
        first.clone(),
        4,
        vec![
            refuses(&[vectors(0, 96, 0, 1)], 37, room(&[], 4)),
            adds(&run, 4, run.to_vec()),
            reads(1, &with(&first, &places[..1]), 0, clear_to_host()),
            reads(2, &with(&first, &places[..2]), 0, clear_to_host()),
            reads(3, &with(&first, &places[..3]), 0, clear_to_host()),
            reads(4, &with(&first, &places), 0, clear_to(0)),
        ],
    )
}

/// The numbers of adding, and their order.
fn refusal_cases() -> Vec<StoryCase> {
    let (good, next) = (record(0, 7, 1, 3), record(0, 7, 3, 5));
    let (wrong, strange) = (record(0, 7, 9, 3), record(1, 0, 0, 1));
    vec![
        fresh(
            "refusals: 38 compares with the version just before the change",
            one(),
            4,
            vec![
                refuses(&[record(0, 7, 0, 3)], 38, room(&[], 4)),
                refuses(&[record(0, 7, 2, 3)], 38, room(&[], 4)),
                refuses(&[good, good], 38, room(&[], 4)),
                adds(&[good], 1, room(&[good], 4)),
                refuses(&[good], 38, room(&[good], 4)),
                refuses(&[next, next], 38, room(&[good], 4)),
                reads(1, &with(&one(), &[(23, 3)]), 0, clear_to(0)),
                adds(&[next, record(0, 7, 5, 1), good], 4, vec![good, next, record(0, 7, 5, 1), good]),
            ],
        ),
        fresh(
            "refusals: 37 over the whole run before 38, 38 before 39",
            one(),
            2,
            vec![
                refuses(&[wrong, strange], 37, room(&[], 2)),
                refuses(&[good, next, strange], 37, room(&[], 2)),
                refuses(&[good, strange], 37, room(&[], 2)),
                refuses(&[good, next, wrong], 38, room(&[], 2)),
                refuses(&[good, next, record(0, 7, 5, 1)], 39, room(&[], 2)),
                reads_not(1, 72, 40),
                adds(&[good, next], 2, vec![good, next]),
            ],
        ),
    ]
}

/// Rooms: full, none at all, with other things in them, and numbers kept above what they hold.
fn room_cases() -> Vec<StoryCase> {
    let (good, next, last) = (record(0, 7, 1, 3), record(0, 7, 3, 5), record(0, 7, 5, 7));
    let full = || vec![good, next];
    vec![
        fresh(
            "room: exactly full, and an empty run",
            one(),
            2,
            vec![
                adds(&[], 0, room(&[], 2)),
                adds(&[good], 1, room(&[good], 2)),
                refuses(&[next, last], 39, room(&[good], 2)),
                adds(&[next], 2, full()),
                adds(&[], 2, full()),
                refuses(&[last], 39, full()),
            ],
        ),
        fresh("room: none at all", one(), 0, vec![adds(&[], 0, vec![]), refuses(&[good], 39, vec![])]),
        strange_room(),
        StoryCase {
            name: "room: more kept than it holds",
            first: one(),
            room: full(),
            kept: 3,
            told: overfull(),
        },
    ]
}

/// A room that nobody filled by adding.
fn strange_room() -> StoryCase {
    let (good, next) = (record(0, 7, 1, 3), record(0, 7, 3, 5));
    let kept = [Change { port: 9, ..good }, record(0, 7, 9, 3), Change { part: 2, ..good }];
    let with_fourth = |fourth: Change| [&kept[..], &[fourth]].concat();
    StoryCase {
        name: "room: a kept record that names no byte changes nothing, and old bytes there do not count",
        first: one(),
        room: with_fourth(good),
        kept: 3,
        told: vec![
            reads(1, &one(), 0, clear_to(0)),
            reads(3, &with(&one(), &[(23, 3)]), 0, clear_to(0)),
            refuses(&[good], 38, with_fourth(good)),
            adds(&[next], 4, with_fourth(next)),
            reads(4, &with(&one(), &[(23, 5)]), 0, clear_to(0)),
        ],
    }
}

/// A room of two changes, of which three are kept, and then as many as can be said.
fn overfull() -> Vec<Told> {
    let full = || vec![record(0, 7, 1, 3), record(0, 7, 3, 5)];
    let mut told = Vec::new();
    for kept in [3, u32::MAX] {
        told.extend([
            keeps(kept),
            refuses(&[record(0, 56, 0, 1)], 37, full()),
            refuses(&[record(0, 7, 3, 7)], 38, full()),
            refuses(&[record(0, 7, 5, 7)], 39, full()),
            refuses(&[], 39, full()),
            reads_not(0, 72, 40),
            reads_not(2, 72, 40),
            reads_not(0, 0, 40),
        ]);
    }
    told.extend([winds(3), winds_not(4), winds(2), reads(2, &with(&one(), &[(23, 5)]), 0, clear_to(0))]);
    told
}

/// Winding back, and adding anew over what was dropped.
fn wind_back_cases() -> Vec<StoryCase> {
    let old = [record(0, 7, 1, 3), record(0, 7, 3, 5), record(0, 6, 1, 2)];
    let new = record(0, 7, 3, 9);
    vec![fresh(
        "winding back: later changes are dropped, and their room is used again",
        one(),
        4,
        vec![
            adds(&old, 3, room(&old, 4)),
            winds_not(4),
            winds_not(u32::MAX),
            winds(3),
            winds(1),
            reads_not(2, 72, 40),
            winds_not(2),
            refuses(&[record(0, 7, 5, 9)], 38, room(&old, 4)),
            adds(&[new], 2, vec![old[0], new, old[2], Change::default()]),
            reads(1, &with(&one(), &[(23, 3)]), 0, clear_to(0)),
            reads(2, &with(&one(), &[(23, 9)]), 0, clear_to(0)),
            reads_not(3, 72, 40),
            keeps(3),
            reads(3, &with(&one(), &[(22, 2), (23, 9)]), 0, clear_to_host()),
            winds(0),
            reads(0, &one(), 0, clear_to(0)),
            winds(0),
            winds_not(1),
        ],
    )]
}

/// First pictures that do not read, one for each of the numbers, and versions that do not.
fn unreadable_cases() -> Vec<StoryCase> {
    let one = one();
    let firsts = [
        (1, one[..71].to_vec()),
        (2, with(&one, &[(0, 3)])),
        (3, with(&one, &[(2, 0)])),
        (4, with(&one, &[(4, 0x49)])),
        (5, with(&one, &[(8, 0x11)])),
        (6, with(&one, &[(16, 3)])),
        (7, Draft::of(long_chain(17, 0)).bytes()),
        (8, with(&one, &[(24, 1)])),
        (9, Draft::of(vec![root(0).vector(Which::Rid, shape(0, 3, 1), &[])]).bytes()),
        (10, with(&one, &[(68, 0x49)])),
    ];
    let mut cases: Vec<StoryCase> =
        firsts.into_iter().map(|(number, first)| refused(number, first)).collect();
    let run = [record(0, 0, 0, 3), record(0, 52, 0x48, 0x49), record(0, 0, 3, 0), record(0, 52, 0x49, 0x48)];
    cases.push(fresh(
        "unreadable: a version need not read, and check and walk say so",
        one.clone(),
        4,
        vec![
            adds(&run, 4, run.to_vec()),
            reads(1, &with(&one, &[(16, 3)]), 0, unreadable(6, 0)),
            reads(2, &with(&one, &[(16, 3), (68, 0x49)]), 0, unreadable(6, 0)),
            reads(3, &with(&one, &[(68, 0x49)]), 0, unreadable(10, 0)),
            reads(4, &one, 0, clear_to(0)),
        ],
    ));
    cases
}

/// A first picture that does not read: its number comes before all others, and winding back does not look at it.
fn refused(number: u32, first: Vec<u8>) -> StoryCase {
    let good = record(0, 7, 1, 3);
    let length = first.len() as u32;
    fresh(
        "unreadable: a first picture that is refused",
        first,
        1,
        vec![
            refuses(&[], number, room(&[], 1)),
            refuses(&[good, good], number, room(&[], 1)),
            refuses(&[record(99, 0, 0, 0)], number, room(&[], 1)),
            reads_not(0, length, number),
            reads_not(1, 0, number),
            winds(0),
            winds_not(1),
        ],
    )
}
