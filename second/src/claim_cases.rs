//! Hand-written cases of decoders by name: claims, holders, and the lines of numbers 11 to 14, with the
//! answers that the papers give.

use crate::batch::Record;
use crate::cases::{
    case, chain_of_three, checks, claim_refused, claims_address, claims_id, conversion_refused, converts,
    down, downstream_3_to_5, one_port_picture, parent_and_child, raw_case, reports, root, shape, up, Case,
    BUS, HIGH, LOW, MEM, NONE, NOT_CLAIMED, PREF, RID, TYPE_0, TYPE_1, UNSUPPORTED,
};
use crate::draft::{Draft, DraftPort, Which};
use Which::{High, Low, Rid};

/// A call and the line that answers it.
type Call = (Record, String);

/// These ports hold this ID.
pub fn holds_id(target: u64, line: &str) -> Call {
    (Record::Holders { target_kind: 0, target }, line.to_string())
}

/// These ports hold this address.
pub fn holds_address(target: u64, line: &str) -> Call {
    (Record::Holders { target_kind: 1, target }, line.to_string())
}

/// Holders are refused by this line.
fn holders_refused(target_kind: u32, target: u64, line: &str) -> Call {
    (Record::Holders { target_kind, target }, line.to_string())
}

/// All cases of decoders.
pub fn claim_cases() -> Vec<Case> {
    [
        decoder_cases(),
        switched_off_cases(),
        not_enabled_cases(),
        own_cases(),
        order_cases(),
        refused_cases(),
        unreadable_cases(),
        pairs_of_ids(),
        own_and_claimed_cases(),
        pairs_below_4_gib(),
        pairs_above_4_gib(),
        escape_of_ids_cases(),
        escape_of_addresses_cases(),
        conversion_cases(),
    ]
    .into_iter()
    .flatten()
    .collect()
}

/// A root port whose six decoders claim alone and in every way that they can together. The bus pair has
/// buses 1 and 2, the RID vector 2 and 3; Memory has MiB 100h to 103h, Prefetchable 102h to 1010h, which is
/// past 4 GiB, the Low vector FFh, 101h, 103h and 105h, the High vector 1000h to 10FFh.
fn every_decoder() -> DraftPort {
    root(0x0008)
        .buses(1, 2)
        .vector(Rid, shape(0, 5, 0), &[2, 3])
        .memory(0x100, 0x103)
        .prefetchable(0x102, 0x1010)
        .vector(Low, shape(0, 0, 0xFF), &[0, 2, 4, 6])
        .vector(High, shape(0, 0, 16), &[0])
}

/// IDs with the decoders of that port that claim them, and the program's line.
const IDS: [(u64, u32, &str); 10] = [
    (0x0000, NONE, "nobody"),
    (0x0008, NONE, "port 0 by own"),
    (0x00FF, NONE, "nobody"),
    (0x0100, BUS, "port 0 by bus"),
    (0x01FF, BUS, "port 0 by bus"),
    (0x0200, BUS | RID, "port 0 by bus rid"),
    (0x02FF, BUS | RID, "port 0 by bus rid"),
    (0x0300, RID, "port 0 by rid"),
    (0x03FF, RID, "port 0 by rid"),
    (0x0400, NONE, "nobody"),
];

/// Addresses with the decoders of that port that claim them, and the program's line.
const ADDRESSES: [(u64, u32, &str); 18] = [
    (0x0FEF_FFFF, NONE, "nobody"),
    (0x0FF0_0000, LOW, "port 0 by low"),
    (0x1000_0000, MEM, "port 0 by mem"),
    (0x1010_0000, MEM | LOW, "port 0 by mem low"),
    (0x1020_0000, MEM | PREF, "port 0 by mem pref"),
    (0x102F_FFFF, MEM | PREF, "port 0 by mem pref"),
    (0x1030_0000, MEM | PREF | LOW, "port 0 by mem pref low"),
    (0x103F_FFFF, MEM | PREF | LOW, "port 0 by mem pref low"),
    (0x1040_0000, PREF, "port 0 by pref"),
    (0x1050_0000, PREF | LOW, "port 0 by pref low"),
    (0x1060_0000, PREF, "port 0 by pref"),
    (0xFFFF_FFFF, PREF, "port 0 by pref"),
    (0x1_0000_0000, PREF | HIGH, "port 0 by pref high"),
    (0x1_010F_FFFF, PREF | HIGH, "port 0 by pref high"),
    (0x1_0110_0000, HIGH, "port 0 by high"),
    (0x1_0FFF_FFFF, HIGH, "port 0 by high"),
    (0x1_1000_0000, NONE, "nobody"),
    (u64::MAX, NONE, "nobody"),
];

/// Every decoder alone, and every set of them that can claim a target together.
fn decoder_cases() -> Vec<Case> {
    let ids = IDS.iter().flat_map(|&(id, decoders, line)| [claims_id(0, id, decoders), holds_id(id, line)]);
    let addresses = ADDRESSES.iter().flat_map(|&(address, decoders, line)| {
        [claims_address(0, address, decoders), holds_address(address, line)]
    });
    let calls = [reports("ports 1/clear")].into_iter().chain(ids).chain(addresses).collect();
    vec![case("item 3, decoders: alone and together", vec![every_decoder()], calls)]
}

/// The same port with Memory Space Enable off, and without a bus pair: the others claim as before.
fn switched_off_cases() -> Vec<Case> {
    vec![
        case(
            "item 3, decoders: Memory Space Enable off",
            vec![every_decoder().with_memory_space(false)],
            vec![
                claims_id(0, 0x0200, BUS | RID),
                claims_address(0, 0x1000_0000, NONE),
                claims_address(0, 0x1030_0000, NONE),
                claims_address(0, 0x0FF0_0000, NONE),
                claims_address(0, 0x1_0000_0000, NONE),
                holds_address(0x1030_0000, "nobody"),
                holds_address(0x1_0000_0000, "nobody"),
            ],
        ),
        case(
            "item 3, decoders: no bus pair",
            vec![every_decoder().buses(0, 0)],
            vec![claims_id(0, 0x0100, NONE), claims_id(0, 0x0200, RID), holds_id(0x0200, "port 0 by rid")],
        ),
    ]
}

/// The same port with a vector that is not enabled.
fn not_enabled_cases() -> Vec<Case> {
    let off = |name, which, calls| {
        let mut port = every_decoder();
        port.set_enabled(which, false);
        case(name, vec![port], calls)
    };
    vec![
        off(
            "item 3, decoders: RID not enabled",
            Rid,
            vec![claims_id(0, 0x0200, BUS), claims_id(0, 0x0300, NONE), holds_id(0x0200, "port 0 by bus")],
        ),
        off(
            "item 3, decoders: Low not enabled",
            Low,
            vec![
                claims_address(0, 0x0FF0_0000, NONE),
                claims_address(0, 0x1030_0000, MEM | PREF),
                claims_address(0, 0x1_0000_0000, PREF | HIGH),
                holds_address(0x1030_0000, "port 0 by mem pref"),
            ],
        ),
        off(
            "item 3, decoders: High not enabled",
            High,
            vec![
                claims_address(0, 0x1_0110_0000, NONE),
                claims_address(0, 0x1_0000_0000, PREF),
                claims_address(0, 0x1030_0000, MEM | PREF | LOW),
                holds_address(0x1_0000_0000, "port 0 by pref"),
            ],
        ),
    ]
}

/// An own ID is held and not claimed, unless a decoder claims it.
fn own_cases() -> Vec<Case> {
    vec![
        case(
            "item 3, own: no claim",
            chain_of_three(downstream_3_to_5()),
            vec![
                claims_id(0, 0x0008, NONE),
                claims_id(0, 0x0100, BUS),
                claims_id(1, 0x0100, NONE),
                claims_id(2, 0x0200, NONE),
                holds_id(0x0008, "port 0 by own"),
                holds_id(0x0100, "port 0 by bus/port 1 by own"),
                holds_id(0x0200, "port 0 by bus/port 1 by bus/port 2 by own"),
                holds_id(0x0300, "port 0 by bus/port 1 by bus/port 2 by bus"),
                holds_id(0x0600, "nobody"),
                holds_address(0x0200, "nobody"),
            ],
        ),
        case(
            "item 3, own: claimed too",
            vec![
                root(0x0300).buses(3, 3),
                root(0x0300).vector(Rid, shape(0, 0, 0x60), &[0]),
                root(0x0300).buses(3, 3).vector(Rid, shape(0, 0, 0x60), &[0]),
            ],
            vec![
                claims_id(0, 0x0300, BUS),
                claims_id(1, 0x0300, RID),
                claims_id(2, 0x0300, BUS | RID),
                holds_id(0x0300, "port 0 by own bus/port 1 by own rid/port 2 by own bus rid"),
                holds_id(0x0307, "port 0 by bus/port 1 by rid/port 2 by bus rid"),
                holds_id(0x0308, "port 0 by bus/port 2 by bus"),
            ],
        ),
    ]
}

/// Twelve root ports, of which all but 1, 3, 5 and 7 hold 0500h: port 10 comes after 9, and not after 1.
fn order_cases() -> Vec<Case> {
    let port = |number: u16| match number {
        1 | 3 | 5 | 7 => root(number),
        4 | 11 => root(number).vector(Rid, shape(0, 5, 0), &[5]),
        10 => root(0x0500),
        _ => root(number).buses(5, 5),
    };
    let line = "port 0 by bus/port 2 by bus/port 4 by rid/port 6 by bus/port 8 by bus/port 9 by bus\
                /port 10 by own/port 11 by rid";
    let last = (0..64).map(|number| if number == 63 { root(63).memory(9, 9) } else { root(number) });
    vec![
        case("item 3, holders: in port order", (0..12).map(port).collect(), vec![holds_id(0x0500, line)]),
        case(
            "item 3, holders: the last of 64",
            last.collect(),
            vec![
                holds_address(0x90_0000, "port 63 by mem"),
                holds_id(63, "port 63 by own"),
                claims_address(63, 0x90_0000, MEM),
                claim_refused(64, 1, 0x90_0000, 16),
                conversion_refused(64, 63, 16),
            ],
        ),
    ]
}

/// Number 16: ports, target kinds and IDs that there are not, each by itself and together.
fn refused_cases() -> Vec<Case> {
    let ports = [1, 64, 255, 256, 257, 0x1_0000, u32::MAX];
    let kinds = [2, 3, 255, 256, 257, 0x1_0000, u32::MAX];
    let long_ids = [0x1_0000, 0x1_0008, 0x1_0100, 0x1_0000_0000, 0x1_0000_0100, u64::MAX];
    let mut calls = vec![
        claim_refused(1, 2, 0x1_0000, 16),
        claims_address(0, 0x1_0000, NONE),
        holds_address(0x1_0008, "nobody"),
        holds_address(u64::MAX, "nobody"),
        claims_id(0, 0xFFFF, NONE),
        holds_id(0xFFFF, "nobody"),
        converts(0, 0xFFFF, NOT_CLAIMED),
    ];
    calls.extend(ports.iter().flat_map(|&port| [0, 1].map(|kind| claim_refused(port, kind, 0x0100, 16))));
    calls.extend(ports.map(|port| conversion_refused(port, 0x0100, 16)));
    calls.extend(kinds.map(|kind| claim_refused(0, kind, 0x0100, 16)));
    calls.extend(kinds.map(|kind| claim_refused(0, kind, 0xE000_0000, 16)));
    calls.extend(kinds.map(|kind| holders_refused(kind, 0x0100, "refused 16")));
    calls.extend(kinds.map(|kind| holders_refused(kind, 0xE000_0000, "refused 16")));
    calls.extend(long_ids.map(|id| claim_refused(0, 0, id, 16)));
    calls.extend(long_ids.map(|id| conversion_refused(0, id, 16)));
    calls.extend(long_ids.map(|id| holders_refused(0, id, "refused 16")));
    vec![raw_case("item 3, number 16: arguments", one_port_picture(), calls)]
}

/// Numbers 1 to 10 come before 16, and name what the report does.
fn unreadable_cases() -> Vec<Case> {
    let refused = |name, picture: Vec<u8>, number: u8, line: &str| {
        let calls = vec![
            reports(line),
            claim_refused(0, 0, 0x0100, number),
            claim_refused(99, 2, 0x1_0000, number),
            conversion_refused(0, 0x0100, number),
            conversion_refused(99, 0x1_0000, number),
            holds_id(0x0100, line),
            holds_address(0xE000_0000, line),
            holders_refused(0, 0x1_0000, line),
            holders_refused(2, 0, line),
        ];
        raw_case(name, picture, calls)
    };
    let mut edition_3 = one_port_picture();
    edition_3[0] = 3;
    let mut one_byte_more = Draft::of(vec![root(0)]).bytes();
    one_byte_more.push(0);
    one_byte_more[4] += 1;
    let later_child = Draft::of(vec![root(0), up(0, 1), root(2), up(0, 3)]).bytes();
    let mut wrong_start = Draft::of(vec![root(0).vector(Low, shape(0, 4, 8), &[])]).bytes();
    let start_9 = wrong_start.clone();
    wrong_start[16 + 52] ^= 1;
    wrong_start[16 + 42] &= 0x7F;
    vec![
        refused("item 3, reading first: no bytes", vec![], 1, "refused 1"),
        refused("item 3, reading first: edition 3", edition_3, 2, "refused 2"),
        refused("item 3, reading first: a later child", later_child, 6, "refused 6 ports 3"),
        refused("item 3, reading first: a start", start_9, 9, "refused 9 ports 0"),
        refused("item 3, reading first: vectors elsewhere", wrong_start, 10, "refused 10 ports 0"),
        refused("item 3, reading first: the end", one_byte_more, 10, "refused 10 ports 255"),
    ]
}

/// Number 11: two ports that hold 0300h, each in its own way.
fn pairs_of_ids() -> Vec<Case> {
    let bus = |own_id| root(own_id).buses(3, 3);
    let rid = |own_id| root(own_id).vector(Rid, shape(0, 0, 0x60), &[0]);
    let both = |own_id| rid(own_id).buses(3, 3);
    let silent = root(0);
    let pair = |name, first: DraftPort, second: DraftPort, line: &str| {
        let calls = vec![
            reports(&format!("refused 11 id 0300 ports {line}")),
            checks(11, 0, 2, Some(0x0300)),
            holds_id(0x0300, &format!("port {}", line.replace(" 2 by", "/port 2 by"))),
        ];
        case(name, vec![first, silent.clone(), second], calls)
    };
    vec![
        pair("item 3, number 11: own and own", root(0x0300), root(0x0300), "0 by own 2 by own"),
        pair("item 3, number 11: own and bus", root(0x0300), bus(1), "0 by own 2 by bus"),
        pair("item 3, number 11: bus and own", bus(1), root(0x0300), "0 by bus 2 by own"),
        pair("item 3, number 11: own and rid", root(0x0300), rid(1), "0 by own 2 by rid"),
        pair("item 3, number 11: rid and own", rid(1), root(0x0300), "0 by rid 2 by own"),
        pair("item 3, number 11: bus and rid", bus(1), rid(2), "0 by bus 2 by rid"),
        pair("item 3, number 11: rid and bus", rid(1), bus(2), "0 by rid 2 by bus"),
        pair("item 3, number 11: both and own", both(1), root(0x0300), "0 by bus rid 2 by own"),
        pair("item 3, number 11: bus and both", bus(1), both(2), "0 by bus 2 by bus rid"),
        pair("item 3, number 11: both and rid", both(1), rid(2), "0 by bus rid 2 by rid"),
        pair("item 3, number 11: both and both", both(1), both(2), "0 by bus rid 2 by bus rid"),
        pair("item 3, number 11: bus and own rid", bus(1), rid(0x0300), "0 by bus 2 by own rid"),
        pair("item 3, number 11: rid and own bus", rid(1), bus(0x0300), "0 by rid 2 by own bus"),
        pair("item 3, number 11: own and own rid", root(0x0300), rid(0x0300), "0 by own 2 by own rid"),
        pair("item 3, number 11: rid and all three", rid(1), both(0x0300), "0 by rid 2 by own bus rid"),
    ]
}

/// Number 11: a port with itself, below a switch and in the page's own words.
fn own_and_claimed_cases() -> Vec<Case> {
    let switch = |child: DraftPort| {
        let above = root(0x0008).buses(1, 4);
        vec![above, up(0, 0x0100).buses(2, 4), child]
    };
    let itself = |name, child: DraftPort, by: &str| {
        let line = format!("refused 11 id 0200 ports 2 by {by} 2 by {by}");
        case(name, switch(child), vec![reports(&line), checks(11, 2, 2, Some(0x0200))])
    };
    let rid = |port: DraftPort| port.vector(Rid, shape(0, 0, 0x40), &[0]);
    let four = vec![
        root(0x0008).buses(1, 4),
        up(0, 0x0100).buses(2, 4),
        down(1, 0x0200).buses(3, 3),
        down(1, 0x0300).vector(Rid, shape(0, 0, 0x60), &[0]),
    ];
    vec![
        itself("item 3, number 11: itself by bus", down(1, 0x0200).buses(2, 2), "own bus"),
        itself("item 3, number 11: itself by rid", rid(down(1, 0x0200)), "own rid"),
        itself("item 3, number 11: itself by both", rid(down(1, 0x0200).buses(2, 2)), "own bus rid"),
        case(
            "item 3, number 11: as the page has it",
            four,
            vec![
                reports("refused 11 id 0300 ports 2 by bus 3 by own rid"),
                checks(11, 2, 3, Some(0x0300)),
                holds_id(0x0300, "port 0 by bus/port 1 by bus/port 2 by bus/port 3 by own rid"),
            ],
        ),
    ]
}

/// Number 12: two root ports that hold an address, each in its own way.
fn pair_at(name: &'static str, ports: [DraftPort; 2], address: u64, line: &str) -> Case {
    let calls = vec![
        reports(&format!("refused 12 addr {address:016x} ports {line}")),
        checks(12, 0, 1, Some(address)),
        holds_address(address, &format!("port {}", line.replace(" 1 by", "/port 1 by"))),
    ];
    case(name, ports.to_vec(), calls)
}

/// Number 12 below 4 GiB.
fn pairs_below_4_gib() -> Vec<Case> {
    let mem = |port: DraftPort| port.memory(0xE05, 0xE05);
    let pref = |port: DraftPort| port.prefetchable_type_0(0xE05, 0xE05);
    let low = |port: DraftPort| port.vector(Low, shape(0, 0, 0xE00), &[5]).with_memory_space(true);
    let pair = |name, ports, line| pair_at(name, ports, 0xE050_0000, line);
    let (a, b) = (|| root(0), || root(1));
    let all_three = "0 by mem pref low 1 by mem pref low";
    vec![
        pair("item 3, number 12: mem and pref", [mem(a()), pref(b())], "0 by mem 1 by pref"),
        pair("item 3, number 12: pref and mem", [pref(a()), mem(b())], "0 by pref 1 by mem"),
        pair("item 3, number 12: mem and low", [mem(a()), low(b())], "0 by mem 1 by low"),
        pair("item 3, number 12: low and mem low", [low(a()), low(mem(b()))], "0 by low 1 by mem low"),
        pair("item 3, number 12: pref and low", [pref(a()), low(b())], "0 by pref 1 by low"),
        pair("item 3, number 12: mem pref and mem", [mem(pref(a())), mem(b())], "0 by mem pref 1 by mem"),
        pair("item 3, number 12: pref low and pref", [low(pref(a())), pref(b())], "0 by pref low 1 by pref"),
        pair("item 3, number 12: all three twice", [a(), b()].map(|port| low(pref(mem(port)))), all_three),
    ]
}

/// Number 12 above 4 GiB.
fn pairs_above_4_gib() -> Vec<Case> {
    let pref = |port: DraftPort| port.prefetchable(0x2000, 0x2000);
    let high = |port: DraftPort| port.vector(High, shape(0, 0, 32), &[0]).with_memory_space(true);
    let pair = |name, ports, line| pair_at(name, ports, 0x2_0000_0000, line);
    let (a, b) = (|| root(0), || root(1));
    vec![
        pair("item 3, number 12: pref and high", [pref(a()), high(b())], "0 by pref 1 by high"),
        pair("item 3, number 12: high and high", [high(a()), high(b())], "0 by high 1 by high"),
        pair("item 3, number 12: both and high", [high(pref(a())), high(b())], "0 by pref high 1 by high"),
        pair("item 3, number 12: pref and both", [pref(a()), high(pref(b()))], "0 by pref 1 by pref high"),
    ]
}

/// Number 13: a port that holds an ID that its parent does not claim, in each way.
fn escape_of_ids_cases() -> Vec<Case> {
    let escape = |name, child: DraftPort, line: &str| {
        let line = format!("refused 13 id {line}");
        case(name, vec![root(0x0008).buses(1, 1), child], vec![reports(&line)])
    };
    let child = || up(0, 0x0100);
    let rid = |port: DraftPort| port.vector(Rid, shape(0, 0, 0x60), &[0]);
    vec![
        escape("item 3, number 13: own", up(0, 0x0200), "0200 ports 1 by own"),
        escape("item 3, number 13: bus", child().buses(3, 3), "0300 ports 1 by bus"),
        escape("item 3, number 13: rid", rid(child()), "0300 ports 1 by rid"),
        escape("item 3, number 13: both", rid(child().buses(3, 3)), "0300 ports 1 by bus rid"),
    ]
}

/// Number 14: a port that holds an address that its parent does not claim, in each way.
fn escape_of_addresses_cases() -> Vec<Case> {
    let mem = |port: DraftPort| port.memory(3, 3);
    let pref = |port: DraftPort| port.prefetchable(3, 3);
    let low = |port: DraftPort| port.vector(Low, shape(0, 0, 0), &[3]).with_memory_space(true);
    let high = root(0).vector(High, shape(0, 0, 16), &[0]).with_memory_space(true);
    let escape = |name, child: DraftPort, address: u64, by: &str| {
        let line = format!("refused 14 addr {address:016x} ports 1 by {by}");
        case(name, parent_and_child(root(0).memory(1, 1), child), vec![reports(&line)])
    };
    let below = |name, child, by| escape(name, child, 0x30_0000, by);
    let above = |name, child, by| escape(name, child, 0x1_0000_0000, by);
    vec![
        below("item 3, number 14: mem", mem(root(0)), "mem"),
        below("item 3, number 14: pref", pref(root(0)), "pref"),
        below("item 3, number 14: low", low(root(0)), "low"),
        below("item 3, number 14: mem pref", mem(pref(root(0))), "mem pref"),
        below("item 3, number 14: mem low", mem(low(root(0))), "mem low"),
        below("item 3, number 14: pref low", pref(low(root(0))), "pref low"),
        below("item 3, number 14: all three", mem(pref(low(root(0)))), "mem pref low"),
        above("item 3, number 14: high", high.clone(), "high"),
        above("item 3, number 14: pref high", high.prefetchable(0x1000, 0x1000), "pref high"),
    ]
}

/// What a conversion writes, of a port that has a bus pair, a RID vector and a Secondary range.
fn conversion_cases() -> Vec<Case> {
    let port = root(0x0008).buses(1, 2).vector(Rid, shape(0, 5, 0), &[2, 3]).secondary_range(0x61, 0);
    vec![case(
        "item 3, conversions: every value",
        vec![port],
        vec![
            converts(0, 0x0008, NOT_CLAIMED),
            converts(0, 0x0400, NOT_CLAIMED),
            converts(0, 0x0308, TYPE_0),
            converts(0, 0x0100, TYPE_0),
            converts(0, 0x0108, UNSUPPORTED),
            converts(0, 0x0200, TYPE_1),
            converts(0, 0x0300, TYPE_1),
        ],
    )]
}
