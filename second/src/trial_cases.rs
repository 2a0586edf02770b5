//! Hand-written cases of trials: pictures with patches written number by number, and the answers that
//! the papers give.

use crate::batch::Record;
use crate::cases::{
    checks, claims_address, claims_id, converts, line, root, shape, up, walk_refused, walks, Case, MEM, NONE,
    NOT_CLAIMED,
};
use crate::claim_cases::{holds_address, holds_id};
use crate::draft::{Draft, DraftPort, Which};
use Which::{High, Low, Rid};

/// A call and the line that answers it.
type Call = (Record, String);

/// A patch as it is written: count, total, number and offset of each port, then the vectors.
pub fn patch(count: u32, total: u32, ports: &[(u32, u32)], vectors: Vec<u8>) -> Vec<u8> {
    let mut bytes = [count.to_le_bytes(), total.to_le_bytes()].concat();
    for (port, offset) in ports {
        bytes.extend(port.to_le_bytes());
        bytes.extend(offset.to_le_bytes());
    }
    bytes.extend(vectors);
    bytes
}

/// So many bytes, with these bits set, counted from the first byte's lowest.
pub fn bits(length: usize, set: &[usize]) -> Vec<u8> {
    let mut bytes = vec![0; length];
    set.iter().for_each(|bit| bytes[bit / 8] |= 1 << (bit % 8));
    bytes
}

/// So many bytes of clear entries.
fn clear(length: usize) -> Vec<u8> {
    bits(length, &[])
}

/// Four root ports with all entries clear: vectors of 0, 32 + 64 + 32, 0 + 32 + 0 and 128 + 0 + 32 bytes,
/// which begin at 240, 240, 368 and 400; the picture has 560.
fn four_ports() -> Vec<DraftPort> {
    vec![
        root(0),
        root(1)
            .vector(Rid, shape(0, 0, 0x20), &[])
            .vector(Low, shape(1, 0, 0x100), &[])
            .vector(High, shape(0, 0, 16), &[])
            .with_memory_space(true),
        root(2).vector(Low, shape(0, 0, 0x100), &[]).with_memory_space(true),
        root(3)
            .vector(Rid, shape(2, 0, 0x20), &[])
            .vector(High, shape(0, 0, 16), &[])
            .with_memory_space(true),
    ]
}

/// The same as bytes.
fn four() -> Vec<u8> {
    Draft::of(four_ports()).bytes()
}

/// The four ports, of which 1 and 3 both claim 0128h.
fn four_colliding() -> Vec<u8> {
    let mut ports = four_ports();
    ports[1].flip_entry(Rid, 5);
    ports[3].flip_entry(Rid, 5);
    Draft::of(ports).bytes()
}

/// A call on the picture as the same call on the trial.
fn in_trial((call, expected): Call) -> Call {
    let call = match call {
        Record::Check => Record::TrialCheck,
        Record::Walk { kind, start, target } => Record::TrialWalk { kind, start, target },
        other => other,
    };
    (call, expected)
}

/// The trial prints this line.
pub fn prints(line: &str) -> Call {
    (Record::TrialReport, line.to_string())
}

/// The trial's check gives this number, these ports and this least target.
pub fn finds(number: u8, port: u8, second: u8, target: Option<u64>) -> Call {
    in_trial(checks(number, port, second, target))
}

/// A walk in the trial: end, port, second port and Function number, with this path.
pub fn goes(kind: u32, start: u32, target: u64, end: [u8; 4], path: &[u8]) -> Call {
    in_trial(walks(kind, start, target, end, path))
}

/// A walk in the trial is refused with a number that names no port.
fn goes_nowhere(kind: u32, start: u32, target: u64, number: u8) -> Call {
    in_trial(walk_refused(kind, start, target, number, 255))
}

/// A port's vector lies there.
pub fn lies(port: u32, mechanism: u32, answer: &str) -> Call {
    (Record::Part { port, mechanism }, answer.to_string())
}

/// A trial on a picture given as bytes.
pub fn trial(name: &'static str, picture: Vec<u8>, patch: Vec<u8>, calls: Vec<Call>) -> Case {
    Case { name, picture, patch: Some(patch), calls }
}

/// A trial that is clear, with further calls.
pub fn clear_trial(name: &'static str, ports: Vec<DraftPort>, patch: Vec<u8>, calls: Vec<Call>) -> Case {
    let report = prints(&format!("ports {}/clear", ports.len()));
    let first = vec![report, finds(0, 255, 255, None)];
    trial(name, Draft::of(ports).bytes(), patch, [first, calls].concat())
}

/// All calls give this number, which names no port, those that would be 16 too.
fn all_refused(number: u8) -> Vec<Call> {
    let answer = number.to_string();
    vec![
        prints(&format!("refused {number}")),
        (Record::TrialCheck, line(number, [0, 255, 255, 0, 0], &[])),
        goes_nowhere(0, 255, 0x0100, number),
        goes_nowhere(3, 300, 0x1_0000, number),
        lies(1, 0, &answer),
        lies(4, 0, &answer),
        lies(1, 3, &answer),
    ]
}

/// A patch to the four ports that is refused.
fn refused(number: u8, name: &'static str, patch: Vec<u8>) -> Case {
    trial(name, four(), patch, all_refused(number))
}

/// Trials before any patch was lent; these come first of all cases.
pub fn cases_before_a_patch() -> Vec<Case> {
    let picture = four();
    vec![Case { name: "item 2, no patch: none yet", picture, patch: None, calls: all_refused(30) }]
}

/// All others.
pub fn trial_cases() -> Vec<Case> {
    [
        accepted_cases(),
        not_enabled_cases(),
        collision_cases(),
        memory_collision_cases(),
        escape_cases(),
        repair_cases(),
        header_cases(),
        port_cases(),
        offset_cases(),
        length_cases(),
        order_cases(),
        part_cases(),
        long_patch_cases(),
        decoder_cases(),
    ]
    .into_iter()
    .flatten()
    .collect()
}

/// Patches that change nothing, or nothing that collides.
fn accepted_cases() -> Vec<Case> {
    vec![
        clear_trial(
            "item 2, accepted: count 0 changes nothing",
            four_ports(),
            patch(0, 8, &[], vec![]),
            vec![goes(0, 255, 0x0100, [3, 255, 255, 0], &[]), goes_nowhere(3, 255, 0, 16)],
        ),
        clear_trial(
            "item 2, accepted: a port without vectors",
            four_ports(),
            patch(1, 16, &[(0, 16)], vec![]),
            vec![goes(0, 255, 0x0100, [3, 255, 255, 0], &[])],
        ),
        clear_trial(
            "item 2, accepted: one port",
            four_ports(),
            patch(1, 144, &[(1, 16)], bits(128, &[0, 256, 768])),
            walks_to_port_1(),
        ),
        clear_trial(
            "item 2, accepted: the last port",
            four_ports(),
            patch(1, 176, &[(3, 16)], bits(160, &[1_023, 1_279])),
            vec![
                goes(0, 255, 0x20F8, [1, 3, 255, 0], &[3]),
                goes(0, 255, 0x2100, [3, 255, 255, 0], &[]),
                goes(1, 255, 0x10_FFFF_FFFF, [1, 3, 255, 0], &[3]),
                goes(1, 255, 0x11_0000_0000, [3, 255, 255, 0], &[]),
            ],
        ),
        clear_trial("item 2, accepted: all ports", four_ports(), all_ports(), walks_to_all_ports()),
    ]
}

/// A vector that is supported and not enabled takes its bytes in the patch, and claims nothing.
fn not_enabled_cases() -> Vec<Case> {
    let mut not_enabled = root(8);
    not_enabled.support(Rid, 0, 32);
    not_enabled.set_start(Rid, 0x20);
    vec![
        clear_trial(
            "item 2, accepted: supported and not enabled",
            vec![not_enabled.clone()],
            patch(1, 48, &[(0, 16)], vec![0xFF; 32]),
            vec![goes(0, 255, 0x0100, [3, 255, 255, 0], &[]), lies(0, 0, "0 patch 16 32")],
        ),
        trial(
            "item 2, number 32: supported and not enabled, without its bytes",
            Draft::of(vec![not_enabled]).bytes(),
            patch(1, 16, &[(0, 16)], vec![]),
            all_refused(32),
        ),
    ]
}

/// Walks after port 1 was given the first entry of each of its vectors; one on the picture, which stays as
/// it was; and what is 16 still.
fn walks_to_port_1() -> Vec<Call> {
    vec![
        goes(0, 255, 0x00FF, [3, 255, 255, 0], &[]),
        goes(0, 255, 0x0100, [1, 1, 255, 0], &[1]),
        goes(0, 255, 0x0107, [1, 1, 255, 0], &[1]),
        goes(0, 255, 0x0108, [3, 255, 255, 0], &[]),
        goes(0, 3, 0x0100, [1, 1, 255, 0], &[3, 1]),
        goes(0, 1, 0x0100, [4, 1, 255, 0], &[]),
        goes(2, 255, 0x0100, [4, 1, 255, 0], &[1]),
        goes(1, 255, 0x1000_0000, [1, 1, 255, 0], &[1]),
        goes(1, 255, 0x1010_0000, [3, 255, 255, 0], &[]),
        goes(1, 255, 0x1_0000_0000, [1, 1, 255, 0], &[1]),
        goes(1, 2, 0x1_0FFF_FFFF, [1, 1, 255, 0], &[2, 1]),
        goes(1, 255, 0x1_1000_0000, [3, 255, 255, 0], &[]),
        walks(0, 255, 0x0100, [3, 255, 255, 0], &[]),
        goes_nowhere(3, 255, 0, 16),
        goes_nowhere(0, 4, 0, 16),
        goes_nowhere(0, 300, 0, 16),
        goes_nowhere(2, 255, 0x1_0100, 16),
    ]
}

/// New vectors for all four ports: RID 0 and Low 3 of port 1, Low 4 of port 2, RID 1 and High 0 of port 3.
fn all_ports() -> Vec<u8> {
    let set = [0, 256 + 3, 1_024 + 4, 1_280 + 1, 1_280 + 1_024];
    patch(4, 360, &[(0, 40), (1, 40), (2, 168), (3, 200)], bits(320, &set))
}

/// Walks to each of these entries.
fn walks_to_all_ports() -> Vec<Call> {
    vec![
        goes(0, 255, 0x0100, [1, 1, 255, 0], &[1]),
        goes(0, 255, 0x0108, [1, 3, 255, 0], &[3]),
        goes(1, 255, 0x1030_0000, [1, 1, 255, 0], &[1]),
        goes(1, 255, 0x1040_0000, [1, 2, 255, 0], &[2]),
        goes(1, 0, 0x1_0000_0000, [1, 3, 255, 0], &[0, 3]),
    ]
}

/// Patches whose RID vectors collide, with one another, with the picture's or with an own ID.
fn collision_cases() -> Vec<Case> {
    let mut one_set = four_ports();
    one_set[3].flip_entry(Rid, 5);
    let one_set = Draft::of(one_set).bytes();
    let owner = Draft::of(vec![root(0x0100).vector(Rid, shape(0, 0, 0x20), &[])]).bytes();
    let at_0128 =
        || vec![prints("refused 11 id 0128 ports 1 by rid 3 by rid"), finds(11, 1, 3, Some(0x0128))];
    let doubled = vec![goes(0, 255, 0x0128, [5, 1, 3, 0], &[]), goes(0, 2, 0x0128, [5, 1, 3, 0], &[2])];
    vec![
        trial(
            "item 2, accepted: two new RID vectors collide",
            four(),
            patch(2, 312, &[(1, 24), (3, 152)], bits(288, &[5, 1_024 + 5])),
            [at_0128(), doubled].concat(),
        ),
        trial(
            "item 2, accepted: a new RID vector and an old one",
            one_set,
            patch(1, 144, &[(1, 16)], bits(128, &[5])),
            at_0128(),
        ),
        trial(
            "item 2, accepted: a port would claim its own ID",
            owner,
            patch(1, 48, &[(0, 16)], bits(32, &[0])),
            vec![prints("refused 11 id 0100 ports 0 by own rid 0 by own rid"), finds(11, 0, 0, Some(0x0100))],
        ),
    ]
}

/// Patches whose memory vectors collide.
fn memory_collision_cases() -> Vec<Case> {
    let low = patch(2, 184, &[(1, 24), (2, 152)], bits(160, &[256 + 7, 1_024 + 7]));
    let high = patch(2, 312, &[(1, 24), (3, 152)], bits(288, &[1_023, 1_024 + 1_279]));
    vec![
        trial(
            "item 2, accepted: two new Low vectors collide",
            four(),
            low,
            vec![
                prints("refused 12 addr 0000000010700000 ports 1 by low 2 by low"),
                finds(12, 1, 2, Some(0x1070_0000)),
                goes(1, 255, 0x1070_0000, [5, 1, 2, 0], &[]),
            ],
        ),
        trial(
            "item 2, accepted: the last entries of two new High vectors",
            four(),
            high,
            vec![
                prints("refused 12 addr 00000010f0000000 ports 1 by high 3 by high"),
                finds(12, 1, 3, Some(0x10_F000_0000)),
            ],
        ),
    ]
}

/// A root port and a port below it, sound: each with a RID vector and a Low vector.
fn parent_and_child() -> Vec<u8> {
    let parent = root(8).vector(Rid, shape(0, 0, 0x20), &[0, 1]).secondary_range(0x20, 0);
    let child = up(0, 0x0100).vector(Rid, shape(0, 0, 0x21), &[]);
    let low = |port: DraftPort, entries: &[u64]| {
        port.vector(Low, shape(0, 0, 0x100), entries).with_memory_space(true)
    };
    Draft::of(vec![low(parent, &[0, 1]), low(child, &[0])]).bytes()
}

/// Patches by which a port holds what its parent does not claim.
fn escape_cases() -> Vec<Case> {
    let one = |port, set: &[usize]| patch(1, 80, &[(port, 16)], bits(64, set));
    let case = |name, patch, line: &str| trial(name, parent_and_child(), patch, vec![prints(line)]);
    let both = patch(2, 152, &[(0, 24), (1, 88)], bits(128, &[0, 9, 256 + 9, 512 + 256 + 9]));
    vec![
        case("item 2, accepted: as it was", one(1, &[256]), "ports 2/clear"),
        case("item 2, accepted: an ID that the parent claims", one(1, &[0]), "ports 2/clear"),
        case("item 2, accepted: an ID outside", one(1, &[1]), "refused 13 id 0110 ports 1 by rid"),
        case("item 2, accepted: the parent lets go", one(0, &[1, 256]), "refused 13 id 0100 ports 1 by own"),
        case(
            "item 2, accepted: an address outside",
            one(1, &[256 + 2]),
            "refused 14 addr 0000000010200000 ports 1 by low",
        ),
        case(
            "item 2, accepted: the parent lets memory go",
            one(0, &[0, 256 + 1]),
            "refused 14 addr 0000000010000000 ports 1 by low",
        ),
        case("item 2, accepted: both move together", both, "ports 2/clear"),
    ]
}

/// Patches that make an unsound picture sound.
fn repair_cases() -> Vec<Case> {
    let calls = vec![
        (Record::Report, "refused 11 id 0128 ports 1 by rid 3 by rid".to_string()),
        prints("ports 4/clear"),
        finds(0, 255, 255, None),
        walks(0, 255, 0x0128, [5, 1, 3, 0], &[]),
        goes(0, 255, 0x0128, [1, 1, 255, 0], &[1]),
    ];
    let moved = vec![
        prints("ports 4/clear"),
        goes(0, 255, 0x0128, [1, 3, 255, 0], &[3]),
        goes(0, 255, 0x0130, [1, 1, 255, 0], &[1]),
    ];
    vec![
        trial(
            "item 2, accepted: one of two lets go",
            four_colliding(),
            patch(1, 176, &[(3, 16)], clear(160)),
            calls,
        ),
        trial(
            "item 2, accepted: one of two moves",
            four_colliding(),
            patch(1, 144, &[(1, 16)], bits(128, &[6])),
            moved,
        ),
        trial(
            "item 2, accepted: other ports do not help",
            four_colliding(),
            patch(2, 56, &[(0, 24), (2, 24)], clear(32)),
            vec![prints("refused 11 id 0128 ports 1 by rid 3 by rid")],
        ),
    ]
}

/// Number 30, and both sides of its borders.
fn header_cases() -> Vec<Case> {
    let case = |name, patch| refused(30, name, patch);
    let good = |total| patch(1, total, &[(1, 16)], clear(128));
    vec![
        case("item 2, number 30: no bytes", vec![]),
        case("item 2, number 30: 4 bytes", vec![0; 4]),
        case("item 2, number 30: 7 bytes", vec![0, 0, 0, 0, 7, 0, 0]),
        case("item 2, number 30: total 7 of 8", patch(0, 7, &[], vec![])),
        case("item 2, number 30: total 9 of 8", patch(0, 9, &[], vec![])),
        case("item 2, number 30: total 8 of 9", patch(0, 8, &[], vec![0])),
        case("item 2, number 30: total 0", patch(0, 0, &[], vec![])),
        case("item 2, number 30: total one less", good(143)),
        case("item 2, number 30: total one more", good(145)),
        case("item 2, number 30: total of the vectors alone", good(128)),
        case("item 2, number 30: total with an upper bit", good(0x1_0000 + 144)),
        case("item 2, number 30: total with the top bit", good(0x8000_0000 + 144)),
        case("item 2, number 30: one port in 8 bytes", patch(1, 8, &[], vec![])),
        case("item 2, number 30: one port in 15 bytes", patch(1, 15, &[], vec![0; 7])),
        case("item 2, number 30: two ports in 23 bytes", patch(2, 23, &[(0, 24)], vec![0; 7])),
        case("item 2, number 30: 8 x count is 2^32", patch(0x2000_0000, 8, &[], vec![])),
        case("item 2, number 30: 8 + 8 x count is 2^32", patch(0x1FFF_FFFF, 8, &[], vec![])),
        case("item 2, number 30: the largest count", patch(u32::MAX, 8, &[], vec![])),
        case("item 2, number 30: 8 + 8 x count wraps to 16", patch(0x2000_0001, 16, &[(0, 16)], vec![])),
        case("item 2, number 30: the top bit of the count", patch(0x8000_0001, 16, &[(0, 16)], vec![])),
        case("item 2, number 30: count cut to 16 bits", patch(0x1_0001, 144, &[(1, 16)], clear(128))),
    ]
}

/// Number 31; without the wrong number each of these would be accepted.
fn port_cases() -> Vec<Case> {
    let case = |name, patch| refused(31, name, patch);
    let as_port_1 = |port| patch(1, 144, &[(port, 16)], clear(128));
    let alone = |port| patch(1, 16, &[(port, 16)], vec![]);
    vec![
        case("item 2, number 31: twice", patch(2, 280, &[(1, 24), (1, 152)], clear(256))),
        case("item 2, number 31: twice without vectors", patch(2, 24, &[(0, 24), (0, 24)], vec![])),
        case("item 2, number 31: falling", patch(2, 312, &[(3, 24), (1, 184)], clear(288))),
        case(
            "item 2, number 31: twice with another between",
            patch(3, 160, &[(0, 32), (1, 32), (0, 160)], clear(128)),
        ),
        case(
            "item 2, number 31: falling at the end",
            patch(3, 192, &[(0, 32), (2, 32), (1, 64)], clear(160)),
        ),
        case("item 2, number 31: beyond by one", alone(4)),
        case("item 2, number 31: beyond after a good one", patch(2, 152, &[(1, 24), (4, 152)], clear(128))),
        case("item 2, number 31: port 64", alone(64)),
        case("item 2, number 31: port 255", alone(255)),
        case("item 2, number 31: port 256", alone(256)),
        case("item 2, number 31: 256 + 1", as_port_1(257)),
        case("item 2, number 31: 65,536 + 1", as_port_1(0x1_0001)),
        case("item 2, number 31: 2^31 + 1", as_port_1(0x8000_0001)),
        case("item 2, number 31: 2^32 - 255", as_port_1(0xFFFF_FF01)),
        case("item 2, number 31: 2^32 - 1", alone(u32::MAX)),
        case("item 2, number 31: falling from 2^32 - 1", patch(2, 24, &[(u32::MAX, 24), (0, 24)], vec![])),
        case(
            "item 2, number 31: a count that takes vectors for a port",
            patch(3, 312, &[(1, 24), (3, 152)], clear(288)),
        ),
    ]
}

/// Number 32: offsets.
fn offset_cases() -> Vec<Case> {
    let case = |name, patch| refused(32, name, patch);
    let at = |offset| patch(1, 144, &[(1, offset)], clear(128));
    let second_at = |offset| patch(2, 312, &[(1, 24), (3, offset)], clear(288));
    let first_at = |offset| patch(2, 312, &[(1, offset), (3, 152)], clear(288));
    vec![
        case("item 2, number 32: one below", at(15)),
        case("item 2, number 32: one above", at(17)),
        case("item 2, number 32: 0", at(0)),
        case("item 2, number 32: 8 below", at(8)),
        case("item 2, number 32: 8 above", at(24)),
        case("item 2, number 32: at the end", at(144)),
        case("item 2, number 32: with an upper bit", at(0x1_0010)),
        case("item 2, number 32: with the top bit", at(0x8000_0010)),
        case("item 2, number 32: where the picture has it", at(240)),
        case("item 2, number 32: 0 of a port without vectors", patch(1, 16, &[(0, 0)], vec![])),
        case("item 2, number 32: of a port without vectors", patch(1, 16, &[(0, 17)], vec![])),
        case("item 2, number 32: second one below", second_at(151)),
        case("item 2, number 32: second one above", second_at(153)),
        case("item 2, number 32: second without High, or RID", second_at(120)),
        case("item 2, number 32: second without Low", second_at(88)),
        case("item 2, number 32: second where the first is", second_at(24)),
        case("item 2, number 32: first wrong, second good", first_at(16)),
        case("item 2, number 32: swapped", patch(2, 312, &[(1, 152), (3, 24)], clear(288))),
        case("item 2, number 32: laid out the other way", patch(2, 312, &[(1, 184), (3, 24)], clear(288))),
        case("item 2, number 32: a gap", patch(2, 313, &[(1, 24), (3, 153)], clear(289))),
    ]
}

/// Number 32: vectors that do not end at the total.
fn length_cases() -> Vec<Case> {
    let case = |name, patch| refused(32, name, patch);
    let long = |bytes: usize| patch(1, 16 + bytes as u32, &[(1, 16)], clear(bytes));
    vec![
        case("item 2, number 32: one byte short", long(127)),
        case("item 2, number 32: one byte long", long(129)),
        case("item 2, number 32: no vectors", long(0)),
        case("item 2, number 32: without High", long(96)),
        case("item 2, number 32: sizes of another port", long(160)),
        case("item 2, number 32: count 0, total 9", patch(0, 9, &[], vec![0])),
        case("item 2, number 32: count 0, total 16", patch(0, 16, &[], vec![0; 8])),
        case("item 2, number 32: a port without vectors and a byte", patch(1, 17, &[(0, 16)], vec![0])),
        case("item 2, number 32: a count too small", patch(1, 312, &[(1, 24), (3, 152)], clear(288))),
    ]
}

/// Two faults at once, of which the first counts.
fn order_cases() -> Vec<Case> {
    let mut one_byte_more = four();
    one_byte_more.push(0);
    one_byte_more[4..8].copy_from_slice(&561u32.to_le_bytes());
    let mut edition_3 = four();
    edition_3[0] = 3;
    let at_the_end = || vec![prints("refused 10 ports 255"), finds(10, 255, 255, None), lies(9, 9, "10")];
    let mut colliding = all_refused(30);
    colliding.push((Record::Report, "refused 11 id 0128 ports 1 by rid 3 by rid".to_string()));
    let bad_total = patch(1, 17, &[(4, 16)], vec![]);
    let bad_port = patch(2, 152, &[(1, 0), (4, 152)], clear(128));
    let later_port = patch(3, 32, &[(0, 0), (1, 0), (9, 0)], vec![]);
    vec![
        refused(30, "item 2, order: 30 before 31", patch(2, 16, &[(9, 16)], vec![])),
        refused(30, "item 2, order: 30 before 31, by the total", bad_total),
        refused(30, "item 2, order: 30 before 32", patch(1, 17, &[(1, 0)], vec![])),
        refused(31, "item 2, order: 31 at a later port than 32", bad_port),
        refused(31, "item 2, order: 31 at the last port", later_port),
        refused(31, "item 2, order: 31 before the length", patch(1, 17, &[(4, 16)], vec![0])),
        refused(31, "item 2, order: 31 of two, 32 of the first", patch(2, 24, &[(3, 0), (3, 0)], vec![])),
        trial("item 2, order: 10 before 30", one_byte_more.clone(), vec![], at_the_end()),
        trial("item 2, order: 10 with a good patch", one_byte_more, all_ports(), at_the_end()),
        trial("item 2, order: 2 before 31", edition_3, patch(1, 16, &[(9, 16)], vec![]), all_refused(2)),
        trial("item 2, order: 1 with a good patch", vec![], patch(0, 8, &[], vec![]), all_refused(1)),
        trial("item 2, order: 30 before 11", four_colliding(), vec![], colliding),
        trial("item 2, order: 32 before 11", four_colliding(), patch(0, 9, &[], vec![0]), all_refused(32)),
    ]
}

/// Where vectors lie, in the picture and in the patch.
fn part_cases() -> Vec<Case> {
    let in_picture = [
        [(0, "240 0"), (1, "240 0"), (2, "240 0")],
        [(0, "240 32"), (1, "272 64"), (2, "336 32")],
        [(0, "368 0"), (1, "368 32"), (2, "400 0")],
        [(0, "400 128"), (1, "528 0"), (2, "528 32")],
    ];
    let in_patch = [
        [(0, "40 0"), (1, "40 0"), (2, "40 0")],
        [(0, "40 32"), (1, "72 64"), (2, "136 32")],
        [(0, "168 0"), (1, "168 32"), (2, "200 0")],
        [(0, "200 128"), (1, "328 0"), (2, "328 32")],
    ];
    let all_in = |slice: &str, table: [[(u32, &str); 3]; 4]| -> Vec<Call> {
        let row = |(port, row): (usize, [(u32, &str); 3])| {
            row.map(|(mechanism, place)| lies(port as u32, mechanism, &format!("0 {slice} {place}")))
        };
        table.into_iter().enumerate().flat_map(row).collect()
    };
    let mixed = vec![
        lies(0, 2, "0 patch 24 0"),
        lies(1, 0, "0 picture 240 32"),
        lies(1, 1, "0 picture 272 64"),
        lies(1, 2, "0 picture 336 32"),
        lies(2, 0, "0 picture 368 0"),
        lies(3, 0, "0 patch 24 128"),
        lies(3, 1, "0 patch 152 0"),
        lies(3, 2, "0 patch 152 32"),
    ];
    let two = patch(2, 184, &[(0, 24), (3, 24)], clear(160));
    let none = || patch(0, 8, &[], vec![]);
    vec![
        trial("item 2, parts: none in the patch", four(), none(), all_in("picture", in_picture)),
        trial("item 2, parts: all in the patch", four(), all_ports(), all_in("patch", in_patch)),
        trial("item 2, parts: some in the patch", four(), two, mixed),
        trial("item 2, parts: number 16", four(), none(), beyond()),
        trial("item 2, parts: number 16 with all ports", four(), all_ports(), beyond()),
    ]
}

/// Ports and mechanisms that there are not.
fn beyond() -> Vec<Call> {
    let ports = [4, 64, 255, 256, 257, 0x1_0000, u32::MAX].map(|port| lies(port, 0, "16"));
    let mechanisms = [3, 255, 256, 257, 0x1_0000, u32::MAX].map(|mechanism| lies(1, mechanism, "16"));
    [&ports[..], &mechanisms[..], &[lies(4, 3, "16")]].concat()
}

/// Patches of 64 ports, and patches longer than any picture.
fn long_patch_cases() -> Vec<Case> {
    let ports: Vec<DraftPort> = (0..64).map(|port| root(port).vector(Rid, shape(0, 0, 0x20), &[])).collect();
    let entries: Vec<(u32, u32)> = (0..64).map(|port| (port, 520 + 32 * port)).collect();
    let full = patch(64, 2_568, &entries, bits(2_048, &[62 * 256 + 9, 63 * 256 + 9]));
    let rising: Vec<(u32, u32)> = (0..8_749).map(|port| (port, 70_000)).collect();
    vec![
        trial(
            "item 2, accepted: all of 64 ports",
            Draft::of(ports).bytes(),
            full,
            vec![
                prints("refused 11 id 0148 ports 62 by rid 63 by rid"),
                lies(0, 0, "0 patch 520 32"),
                lies(63, 0, "0 patch 2536 32"),
                lies(63, 2, "0 patch 2568 0"),
                lies(64, 0, "16"),
            ],
        ),
        refused(32, "item 2, number 32: 70,000 bytes and no port", patch(0, 70_000, &[], clear(69_992))),
        refused(30, "item 2, number 30: 70,000 bytes, another total", patch(0, 65_536, &[], clear(69_992))),
        refused(
            31,
            "item 2, number 31: as many ports as go into 70,000",
            patch(8_749, 70_000, &rising, vec![]),
        ),
        refused(30, "item 2, number 30: one port more", patch(8_750, 70_000, &rising, vec![])),
    ]
}

/// Two root ports, sound: one with bus 1 and MiB 100h, one with own ID 0200h and the first GiB from 4 GiB
/// on. Each has three vectors, all clear: RID from 0100h, Low from MiB 100h, High from 4 GiB.
fn two_ports() -> Vec<u8> {
    let with_vectors = |port: DraftPort| {
        let port = port.vector(Rid, shape(0, 0, 0x20), &[]);
        port.vector(Low, shape(0, 0, 0x100), &[]).vector(High, shape(0, 0, 16), &[])
    };
    let first = root(0).buses(1, 1).memory(0x100, 0x100);
    let second = root(0x0200).prefetchable(0x1000, 0x13FF);
    Draft::of(vec![with_vectors(first), with_vectors(second)]).bytes()
}

/// The decoders of a trial are those of the picture with the patch; claims are of the picture alone.
fn decoder_cases() -> Vec<Case> {
    let first = |set: &[usize]| patch(1, 112, &[(0, 16)], bits(96, set));
    let second = |set: &[usize]| patch(1, 112, &[(1, 16)], bits(96, set));
    let both = |set: &[usize]| patch(2, 216, &[(0, 24), (1, 120)], bits(192, set));
    let ids = |name, patch, line: &str| {
        trial(name, two_ports(), patch, vec![prints(&format!("refused 11 id {line}"))])
    };
    let addresses = |name, patch, line: &str| {
        trial(name, two_ports(), patch, vec![prints(&format!("refused 12 addr 00000{line}"))])
    };
    vec![
        ids("item 3, trials: bus and rid", second(&[3]), "0118 ports 0 by bus 1 by rid"),
        ids("item 3, trials: bus rid and rid", both(&[3, 768 + 3]), "0118 ports 0 by bus rid 1 by rid"),
        ids("item 3, trials: rid and own", first(&[32]), "0200 ports 0 by rid 1 by own"),
        ids("item 3, trials: rid and own rid", both(&[32, 768 + 32]), "0200 ports 0 by rid 1 by own rid"),
        ids("item 3, trials: itself by rid", second(&[32]), "0200 ports 1 by own rid 1 by own rid"),
        addresses("item 3, trials: mem and low", second(&[256]), "00010000000 ports 0 by mem 1 by low"),
        addresses(
            "item 3, trials: mem low and low",
            both(&[256, 768 + 256]),
            "00010000000 ports 0 by mem low 1 by low",
        ),
        addresses("item 3, trials: high and pref", first(&[514]), "00120000000 ports 0 by high 1 by pref"),
        addresses(
            "item 3, trials: high and pref high",
            both(&[514, 768 + 514]),
            "00120000000 ports 0 by high 1 by pref high",
        ),
        trial("item 3, trials: the picture's claims stay", two_ports(), second(&[3, 32, 256]), claims_stay()),
    ]
}

/// Claims, conversions and holders of the two ports, whatever patch is lent.
fn claims_stay() -> Vec<Call> {
    vec![
        prints("refused 11 id 0118 ports 0 by bus 1 by rid"),
        (Record::Report, "ports 2/clear".to_string()),
        claims_id(1, 0x0118, NONE),
        claims_id(1, 0x0200, NONE),
        claims_address(0, 0x1000_0000, MEM),
        claims_address(1, 0x1000_0000, NONE),
        converts(1, 0x0118, NOT_CLAIMED),
        holds_id(0x0118, "port 0 by bus"),
        holds_id(0x0200, "port 1 by own"),
        holds_address(0x1000_0000, "port 0 by mem"),
    ]
}
