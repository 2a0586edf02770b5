//! Hand-written cases of edition 2: records of 60 bytes, what follows their size, and numbers 1 to 10 in both
//! editions. Those of redirect are in a file of their own.

use crate::batch::Record;
use crate::cases::{
    case, chain, checks, claim_refused, claims_address, claims_id, conversion_refused, down,
    one_port_picture, raw_case, reports, root, shape, up, walk_refused, walks, Case, LOW, MEM, NONE, RID,
};
use crate::draft::{Draft, DraftPort, Which};
use crate::picture::Edition;
use Which::{High, Low, Rid};

/// All cases of edition 2 but those of redirect.
pub fn edition_cases() -> Vec<Case> {
    [
        one_port_cases(),
        length_cases(),
        long_cases(),
        edition_field_cases(),
        count_and_total_cases(),
        offset_cases(),
        past_the_end_cases(),
        family_cases(),
        acs_control_cases(),
        zero_bytes_cases(),
        edition_1_bytes_cases(),
        start_cases(),
        layout_cases(),
        vector_cases(),
        order_cases(),
        order_of_ports_cases(),
    ]
    .into_iter()
    .flatten()
    .collect()
}

/// A picture of edition 2.
pub fn edition_2(ports: Vec<DraftPort>) -> Vec<u8> {
    Draft::in_edition(Edition::Two, ports).bytes()
}

/// A case of a drafted picture of edition 2.
pub fn case_2(name: &'static str, ports: Vec<DraftPort>, calls: Vec<(Record, String)>) -> Case {
    raw_case(name, edition_2(ports), calls)
}

/// The one-port picture of the paper in edition 2, byte by byte: 76 = 4Ch bytes.
fn one_port_of_edition_2() -> Vec<u8> {
    let mut picture = vec![
        0x02, 0x00, 0x01, 0x00, 0x4C, 0x00, 0x00, 0x00, 0x10, 0x00, 0x00, 0x00, 0x4C, 0x00, 0x00, 0x00, 0x00,
        0xFF, 0x08, 0x00, 0x02, 0x00, 0x01, 0x01, 0x00, 0xE0, 0x00, 0xE0, 0xF0, 0xFF, 0x00, 0x00,
    ];
    picture.extend([0; 36]);
    picture.extend([0x4C, 0x00, 0x00, 0x00]);
    picture.extend([0; 4]);
    picture
}

/// The picture with these bytes from there on.
fn with(mut picture: Vec<u8>, at: usize, bytes: &[u8]) -> Vec<u8> {
    picture[at..at + bytes.len()].copy_from_slice(bytes);
    picture
}

/// The picture cut or stretched to a length, with a total that says so if there is room for it.
fn of_length(mut picture: Vec<u8>, length: usize) -> Vec<u8> {
    picture.resize(length, 0);
    if length < 8 {
        return picture;
    }
    with(picture, 4, &(length as u32).to_le_bytes())
}

/// A case of a picture that is refused with this line.
fn refused(name: &'static str, picture: Vec<u8>, line: &str) -> Case {
    raw_case(name, picture, vec![reports(line)])
}

/// The one-port picture: it reads, and goes as that of edition 1 does.
fn one_port_cases() -> Vec<Case> {
    let calls = vec![
        reports("ports 1/clear"),
        checks(0, 255, 255, None),
        claims_address(0, 0xE000_0000, MEM),
        walks(1, 255, 0xE00F_FFFF, [1, 0, 255, 0], &[0]),
        walks(0, 255, 0x0008, [2, 0, 255, 0], &[]),
        walks(0, 0, 0x0008, [2, 0, 255, 0], &[0]),
        walks(1, 0, 0, [3, 255, 255, 0], &[0]),
        walks(1, 0, 0xE000_0000, [4, 0, 255, 0], &[]),
        walk_refused(1, 1, 0, 16, 255),
    ];
    vec![raw_case("item 8, one port: 76 bytes", one_port_of_edition_2(), calls)]
}

/// Number 1: 72 to 75 bytes are too few in edition 2, and in it alone.
fn length_cases() -> Vec<Case> {
    let mut cases = Vec::new();
    for length in [2, 3, 16, 71, 72, 73, 74, 75] {
        let cut = of_length(one_port_of_edition_2(), length);
        cases.push(refused("item 8, number 1: too few bytes of edition 2", cut, "refused 1"));
        let zeros = with(vec![0; length], 0, &[2, 0]);
        cases.push(refused("item 8, number 1: zeros of edition 2", zeros, "refused 1"));
    }
    for length in 72..=75 {
        for edition in [[0, 0], [3, 0], [2, 1], [0, 2], [1, 2]] {
            let cut = with(of_length(one_port_of_edition_2(), length), 0, &edition);
            cases.push(refused("item 8, number 1: not in another edition", cut, "refused 2"));
        }
    }
    cases.push(refused("item 8, number 1: one byte of edition 2", vec![2], "refused 1"));
    let called_2 = with(one_port_picture(), 0, &[2]);
    cases.push(refused("item 8, number 1: one port of edition 1 called 2", called_2, "refused 1"));
    let edition_1_cut = with(of_length(one_port_picture(), 71), 0, &[3, 0]);
    cases.push(refused("item 8, number 1: 71 bytes of edition 3", edition_1_cut, "refused 1"));
    let calls = vec![
        reports("refused 1"),
        checks(1, 255, 255, None),
        walk_refused(3, 254, 0x1_0000, 1, 255),
        claim_refused(99, 2, 0x1_0000, 1),
        conversion_refused(99, 0x1_0000, 1),
    ];
    cases.push(raw_case("item 8, number 1: all calls", of_length(one_port_of_edition_2(), 75), calls));
    cases.push(refused(
        "item 8, number 1: 77 bytes are not too few",
        one_byte_more(),
        "refused 10 ports 255",
    ));
    cases
}

/// A byte follows the one-port picture, and the total says so.
fn one_byte_more() -> Vec<u8> {
    of_length(one_port_of_edition_2(), 77)
}

/// Number 1: the longest length is the same in both editions.
fn long_cases() -> Vec<Case> {
    let stretched = |length| of_length(one_port_of_edition_2(), length);
    vec![
        refused("item 8, number 1: 65,537 bytes", stretched(65_537), "refused 1"),
        refused("item 8, number 1: 65,536 bytes are not too many", stretched(65_536), "refused 10 ports 255"),
    ]
}

/// Number 2: neither edition. A field of which one byte is 2 is not edition 2.
fn edition_field_cases() -> Vec<Case> {
    let mut cases = Vec::new();
    for edition in [0u16, 3, 4, 0x0100, 0x0101, 0x0102, 0x0200, 0x0201, 0x0202, 0x8002, 0xFFFF] {
        for good in [one_port_picture(), one_port_of_edition_2()] {
            let picture = with(good, 0, &edition.to_le_bytes());
            let calls = vec![reports("refused 2"), checks(2, 255, 255, None)];
            cases.push(raw_case("item 8, number 2: neither edition", picture, calls));
        }
    }
    cases
}

/// Numbers 3 and 4 in edition 2.
fn count_and_total_cases() -> Vec<Case> {
    let good = one_port_of_edition_2;
    let mut cases = Vec::new();
    for count in [0u16, 65, 256, 257, 0xFFFF] {
        let picture = with(good(), 2, &count.to_le_bytes());
        cases.push(refused("item 8, number 3: counts in edition 2", picture, "refused 3"));
    }
    for total in [0u32, 72, 75, 77, 0x1_004C] {
        let picture = with(good(), 4, &total.to_le_bytes());
        cases.push(refused("item 8, number 4: totals in edition 2", picture, "refused 4"));
    }
    let most = (0..64).map(root).collect();
    cases.push(case_2("item 8, one port: 64 ports", most, vec![reports("ports 64/clear")]));
    cases
}

/// Number 5: where the records and the vectors begin; each edition with the offset of the other.
fn offset_cases() -> Vec<Case> {
    let five = |name, picture| refused(name, picture, "refused 5");
    let good = one_port_of_edition_2;
    let two = |edition| Draft::in_edition(edition, vec![root(0), root(1)]).bytes();
    let in_76 = with(of_length(one_port_picture(), 76), 12, &[76]);
    vec![
        five("item 8, number 5: records at 17", with(good(), 8, &[17])),
        five("item 8, number 5: records at 20", with(good(), 8, &[20])),
        five("item 8, number 5: vectors at 72 in edition 2", with(good(), 12, &[72])),
        five("item 8, number 5: vectors at 75", with(good(), 12, &[75])),
        five("item 8, number 5: vectors at 77", with(good(), 12, &[77])),
        five("item 8, number 5: vectors at 76 with an upper bit", with(good(), 12, &[76, 0, 1])),
        five("item 8, number 5: vectors at 76 in edition 1", in_76),
        five("item 8, number 5: edition 2 called 1", with(good(), 0, &[1])),
        five("item 8, number 5: two ports of edition 2 called 1", with(two(Edition::Two), 0, &[1])),
        five("item 8, number 5: two ports of edition 1 called 2", with(two(Edition::One), 0, &[2])),
    ]
}

/// Number 5: two records of 60 bytes end at 136, two of 56 at 128.
fn past_the_end_cases() -> Vec<Case> {
    let two_ports = |edition: u8, vectors: u8, length| {
        let header = with(of_length(one_port_of_edition_2(), length), 0, &[edition, 0, 2, 0]);
        with(header, 12, &[vectors])
    };
    let mut cases = Vec::new();
    for length in [76, 127, 128, 132, 135] {
        let picture = two_ports(2, 136, length);
        cases.push(refused("item 8, number 5: past the end in edition 2", picture, "refused 5"));
    }
    for length in [76, 127] {
        let picture = two_ports(1, 128, length);
        cases.push(refused("item 8, number 5: past the end in edition 1", picture, "refused 5"));
    }
    // the second record is all zeros: a root port whose parent is 0
    let zeros = two_ports(2, 136, 136);
    cases.push(refused("item 8, number 5: not past the end", zeros, "refused 6 ports 1"));
    cases
}

/// Numbers 6 and 7 in edition 2: the second record begins at 76.
fn family_cases() -> Vec<Case> {
    let two = || edition_2(vec![root(0), root(1)]);
    let pictures = [
        ("item 8, number 6: kind at 76", with(two(), 76, &[3]), "refused 6 ports 1"),
        ("item 8, number 6: parent at 77", with(two(), 77, &[0]), "refused 6 ports 1"),
        ("item 8, number 6: parent at 17", with(two(), 17, &[0]), "refused 6 ports 0"),
    ];
    let six = |name, ports, line| case_2(name, ports, vec![reports(line)]);
    let mut cases: Vec<Case> = pictures.map(|(name, picture, line)| refused(name, picture, line)).into();
    cases.push(six(
        "item 8, number 6: a later child",
        vec![root(0), up(0, 1), root(2), up(0, 3)],
        "refused 6 ports 3",
    ));
    cases.push(six("item 8, number 7: 17 ports on a chain", chain(0, 17, 1), "refused 7 ports 16"));
    cases.push(six(
        "item 8, number 7: 16 ports on a chain",
        chain(0, 16, 1),
        "refused 13 id 0000 ports 1 by own",
    ));
    cases
}

/// Any value of ACS Control reads, and changes nothing that is claimed or checked.
fn acs_control_cases() -> Vec<Case> {
    let values = (0..16).map(|bit| 1u16 << bit).chain([0, 0xFFFB, 0xFFFF]);
    let mut cases = Vec::new();
    for acs_control in values {
        let bytes = acs_control.to_le_bytes();
        let picture = with(one_port_of_edition_2(), 16 + 56, &bytes);
        let calls = vec![
            reports("ports 1/clear"),
            checks(0, 255, 255, None),
            claims_address(0, 0xE000_0000, MEM),
            claims_address(0, 0xE010_0000, NONE),
            walks(1, 255, 0xE000_0000, [1, 0, 255, 0], &[0]),
            walks(1, 0, 0xE000_0000, [4, 0, 255, 0], &[]),
        ];
        cases.push(raw_case("item 8, ACS Control: any value reads", picture, calls));
    }
    cases
}

/// Number 8: each bit of the two bytes after ACS Control, alone and together, with ACS Control or without.
fn zero_bytes_cases() -> Vec<Case> {
    let mut cases = Vec::new();
    for value in (0..16).map(|bit| 1u16 << bit).chain([0x1234, 0xFF00, 0x00FF, 0xFFFF]) {
        for acs_control in [0, 0xFFFF] {
            let picture = with(one_port_of_edition_2(), 16 + 56, &u16::to_le_bytes(acs_control));
            let picture = with(picture, 16 + 58, &value.to_le_bytes());
            let calls = vec![
                reports("refused 8 ports 0"),
                checks(8, 0, 255, None),
                walk_refused(1, 0, 0, 8, 0),
                claim_refused(0, 1, 0, 8),
            ];
            cases.push(raw_case("item 8, number 8: bytes after ACS Control", picture, calls));
        }
    }
    for port in [0u8, 1, 2, 3] {
        for at in [58, 59] {
            let four = edition_2((0..4).map(root).collect());
            let picture = with(four, 16 + 60 * port as usize + at, &[0x80]);
            let calls = vec![reports(&format!("refused 8 ports {port}")), checks(8, port, 255, None)];
            cases.push(raw_case("item 8, number 8: at each port", picture, calls));
        }
    }
    cases
}

/// In edition 1 nothing is looked at there: the bytes at 58 are the next port's own ID, or a vector's.
fn edition_1_bytes_cases() -> Vec<Case> {
    let vector = root(0x0008).vector(Low, shape(0, 0, 0x100), &[16, 31]).with_memory_space(true);
    vec![
        case(
            "item 8, edition 1: an own ID at 58",
            vec![root(0), root(0x1234)],
            vec![reports("ports 2/clear"), walks(0, 255, 0x1234, [2, 1, 255, 0], &[])],
        ),
        case(
            "item 8, edition 1: a vector at 58",
            vec![vector],
            vec![
                reports("ports 1/clear"),
                claims_address(0, 0x1100_0000, LOW),
                claims_address(0, 0x11F0_0000, LOW),
                claims_address(0, 0x1110_0000, NONE),
            ],
        ),
    ]
}

/// Number 9 in edition 2.
fn start_cases() -> Vec<Case> {
    let misplaced = || root(1).vector(Low, shape(0, 4, 8), &[]);
    let by_ari = || root(2).with_ari().vector(Rid, shape(0, 0, 31), &[]);
    let nine = |name, ports, line| case_2(name, ports, vec![reports(line)]);
    vec![
        nine("item 8, number 9: a start", vec![root(0), misplaced(), by_ari()], "refused 9 ports 1"),
        nine("item 8, number 9: with ARI", vec![root(0), root(1), by_ari()], "refused 9 ports 2"),
    ]
}

/// Number 10: starts and the end follow the size of records.
fn layout_cases() -> Vec<Case> {
    let three = || edition_2(vec![root(0), root(1).vector(Low, shape(0, 0, 0), &[]), root(2)]);
    let start_of = |port: usize| 16 + 60 * port + 52;
    let shorter = of_length(three(), 227);
    vec![
        refused(
            "item 8, number 10: 72 in edition 2",
            with(one_port_of_edition_2(), 16 + 52, &[72]),
            "refused 10 ports 0",
        ),
        // 196, 196 and 228 are good; 184 is where three records of edition 1 end
        refused(
            "item 8, number 10: as of edition 1",
            with(three(), start_of(0), &[184]),
            "refused 10 ports 0",
        ),
        refused(
            "item 8, number 10: the second port",
            with(three(), start_of(1), &[192]),
            "refused 10 ports 1",
        ),
        refused("item 8, number 10: the last port", with(three(), start_of(2), &[196]), "refused 10 ports 2"),
        refused("item 8, number 10: a byte more", one_byte_more(), "refused 10 ports 255"),
        refused("item 8, number 10: a byte less", shorter, "refused 10 ports 255"),
        raw_case("item 8, one port: three ports with a vector", three(), vec![reports("ports 3/clear")]),
    ]
}

/// Vectors lie behind the longer records: set entries are found at their bytes, and the registers too.
fn vector_cases() -> Vec<Case> {
    let first = root(0x0008).vector(Rid, shape(0, 5, 0), &[1]).vector(Low, shape(0, 0, 0x100), &[0, 255]);
    let second = root(0x0010).vector(High, shape(0, 0, 16), &[3]).buses(2, 2).memory(0x300, 0x300);
    let ports = vec![first.with_memory_space(true), second];
    let calls = vec![
        reports("ports 2/clear"),
        claims_id(0, 0x00FF, NONE),
        claims_id(0, 0x0100, RID),
        claims_id(0, 0x01FF, RID),
        claims_id(0, 0x0200, NONE),
        claims_address(0, 0x1000_0000, LOW),
        claims_address(0, 0x1010_0000, NONE),
        claims_address(0, 0x1FF0_0000, LOW),
        claims_address(1, 0x3000_0000, MEM),
        walks(1, 255, 0x1_3000_0000, [1, 1, 255, 0], &[1]),
        walks(1, 255, 0x1_4000_0000, [3, 255, 255, 0], &[]),
        walks(0, 255, 0x0200, [1, 1, 255, 0], &[1]),
    ];
    vec![case_2("item 8, vectors: behind longer records", ports, calls)]
}

/// Two faults at once, of which the lower number counts: 1 to 5.
fn order_cases() -> Vec<Case> {
    let good = one_port_of_edition_2;
    let no_port = |picture| with(picture, 2, &[0, 0]);
    let other_total = |picture| with(picture, 4, &[72]);
    let other_offset = |picture| with(picture, 12, &[72]);
    let other_kind = |picture| with(picture, 16, &[3]);
    let not_zero = |picture| with(picture, 16 + 58, &[1]);
    let short = with(good()[..75].to_vec(), 2, &[0, 0]);
    vec![
        refused("item 8, order: 1 before 3", short, "refused 1"),
        refused("item 8, order: 2 before 3", with(no_port(good()), 0, &[3]), "refused 2"),
        refused("item 8, order: 2 before 8", with(not_zero(good()), 0, &[3]), "refused 2"),
        refused("item 8, order: 3 before 4", no_port(other_total(good())), "refused 3"),
        refused("item 8, order: 4 before 5", other_total(other_offset(good())), "refused 4"),
        refused("item 8, order: 4 before 8", other_total(not_zero(good())), "refused 4"),
        refused("item 8, order: 5 before 6", other_offset(other_kind(good())), "refused 5"),
        refused("item 8, order: 5 before 8", other_offset(not_zero(good())), "refused 5"),
        refused("item 8, order: 6 before 8", other_kind(not_zero(good())), "refused 6 ports 0"),
    ]
}

/// Two faults at once at different ports, 6 to 10: the lower number counts, and then the lower port.
fn order_of_ports_cases() -> Vec<Case> {
    let not_zero = |port: DraftPort| DraftPort { after_acs_control: 0x0100, ..port };
    let low_bits = |port: DraftPort| DraftPort { memory_base: 0xFFF1, ..port };
    let misplaced = || root(0).vector(Low, shape(0, 4, 8), &[]);
    let mut long = chain(0, 17, 1);
    long[0] = not_zero(long[0].clone());
    let wrong_start = with(edition_2(vec![root(0), not_zero(root(1))]), 16 + 52, &[0]);
    let order = |name, ports, line| case_2(name, ports, vec![reports(line)]);
    vec![
        order("item 8, order: 6 at a later port", vec![not_zero(root(0)), down(0, 1)], "refused 6 ports 1"),
        order("item 8, order: 7 at a later port", long, "refused 7 ports 16"),
        order("item 8, order: 8 before 9", vec![misplaced(), not_zero(root(1))], "refused 8 ports 1"),
        refused("item 8, order: 8 before 10", wrong_start, "refused 8 ports 1"),
        order(
            "item 8, order: bytes after ACS Control first",
            vec![root(0), not_zero(root(1)), low_bits(root(2))],
            "refused 8 ports 1",
        ),
        order(
            "item 8, order: a memory register first",
            vec![root(0), low_bits(root(1)), not_zero(root(2))],
            "refused 8 ports 1",
        ),
        order("item 8, order: 8 before 11", vec![root(0), root(0), not_zero(root(1))], "refused 8 ports 2"),
    ]
}
