//! Hand-written cases of the video range: VGA Enable, its edges, and what it meets in the first MiB.

use crate::batch::Record;
use crate::cases::{
    case, chain, checks, claims_address, claims_id, down, parent_and_child, reports, root, shape, up, walks,
    Case, LOW, MEM, NONE, PREF, VGA,
};
use crate::claim_cases::{holds_address, holds_id};
use crate::draft::{Draft, DraftPort, Which};
use crate::trial_cases::{bits, clear_trial, finds, goes, patch, prints, trial};
use Which::{High, Low};

/// A call and the line that answers it.
type Call = (Record, String);

/// All cases of the video range.
pub fn vga_cases() -> Vec<Case> {
    [
        bridge_control_cases(),
        edge_cases(),
        switched_off_cases(),
        first_mib_cases(),
        pair_cases(),
        pair_order_cases(),
        escape_cases(),
        escape_order_cases(),
        no_escape_cases(),
        walk_cases(),
        doubled_cases(),
        trial_cases_of_video(),
        trial_escape_cases(),
    ]
    .into_iter()
    .flatten()
    .collect()
}

/// A port with VGA Enable and Memory Space Enable.
fn video(port: DraftPort) -> DraftPort {
    port.video()
}

/// A port whose Memory Base and Limit are 0: it claims the first MiB.
fn mem(port: DraftPort) -> DraftPort {
    port.memory(0, 0)
}

/// A port whose Prefetchable Base and Limit are 0, of type 0.
fn pref(port: DraftPort) -> DraftPort {
    port.prefetchable_type_0(0, 0)
}

/// A port whose Low vector has its first MiB set.
fn low(port: DraftPort) -> DraftPort {
    port.vector(Low, shape(0, 0, 0), &[0]).with_memory_space(true)
}

/// Every single bit of Bridge Control, and all of them, with Memory Space Enable: bit 3 alone counts, and any
/// value reads.
fn bridge_control_cases() -> Vec<Case> {
    let with = |value: u16| {
        let mut port = root(0).with_memory_space(true);
        port.bridge_control = value;
        let decoders = if value & 8 == 8 { VGA } else { NONE };
        let line = if value & 8 == 8 { "port 0 by vga" } else { "nobody" };
        let calls = vec![
            reports("ports 1/clear"),
            claims_address(0, 0xA_0000, decoders),
            claims_address(0, 0xB_FFFF, decoders),
            holds_address(0xA_0000, line),
        ];
        case("item 4, Bridge Control: which bits count", vec![port], calls)
    };
    let single = (0..16).map(|bit| with(1 << bit));
    single.chain([0, 0x0018, 0xFFE7, 0xFFF7, 0xFFFF].map(with)).collect()
}

/// Both edges; the same low bits further up; and IDs, which are no addresses.
fn edge_cases() -> Vec<Case> {
    let nobody = [0, 1, 0x9_FFFF, 0xC_0000, 0xF_FFFF, 0x10_0000, 0x1A_0000, 0xA000_0000];
    let above = [0x1_000A_0000, 0xA_0000_0000, 0xFFFF_FFFF_000A_0000, u64::MAX];
    let outside = nobody
        .into_iter()
        .chain(above)
        .flat_map(|address| [claims_address(0, address, NONE), holds_address(address, "nobody")]);
    let inside = [0xA_0000, 0xA_0001, 0xA_FFFF, 0xB_0000, 0xB_FFFF]
        .into_iter()
        .flat_map(|address| [claims_address(0, address, VGA), holds_address(address, "port 0 by vga")]);
    let ids = [claims_id(0, 0xA000, NONE), claims_id(0, 0x000A, NONE), holds_id(0xA000, "nobody")];
    let calls = [reports("ports 1/clear")].into_iter().chain(outside).chain(inside).chain(ids);
    vec![case("item 4, edges: claims", vec![video(root(0x0008))], calls.collect())]
}

/// Without Memory Space Enable nothing is claimed; without VGA Enable the others claim as before.
fn switched_off_cases() -> Vec<Case> {
    let all = || video(mem(pref(low(root(0)))));
    let mut no_vga = all();
    no_vga.set_vga(false);
    let off = |name, port: DraftPort, address, decoders, line| {
        case(name, vec![port], vec![claims_address(0, address, decoders), holds_address(address, line)])
    };
    vec![
        off(
            "item 4, off: no Memory Space Enable",
            video(root(0)).with_memory_space(false),
            0xA_0000,
            NONE,
            "nobody",
        ),
        off(
            "item 4, off: no Memory Space Enable for all decoders",
            all().with_memory_space(false),
            0xA_0000,
            NONE,
            "nobody",
        ),
        off("item 4, off: no VGA Enable", no_vga, 0xA_0000, MEM | PREF | LOW, "port 0 by mem pref low"),
    ]
}

/// A port whose own decoders overlap in the first MiB: these claim all of it, and vga the video range.
fn first_mib_cases() -> Vec<Case> {
    let overlap = |name, port: DraftPort, others: u32, words: &str| {
        let around = [0, 0x9_FFFF, 0xC_0000, 0xF_FFFF].into_iter().flat_map(|address| {
            [claims_address(0, address, others), holds_address(address, &format!("port 0 by {words}"))]
        });
        let line = format!("port 0 by {words} vga");
        let inside = [0xA_0000, 0xB_FFFF]
            .into_iter()
            .flat_map(|address| [claims_address(0, address, others | VGA), holds_address(address, &line)]);
        let first = [reports("ports 1/clear"), claims_address(0, 0x20_0000, NONE)];
        case(name, vec![video(port)], first.into_iter().chain(around).chain(inside).collect())
    };
    let wide = || root(0).memory(0, 1);
    let type_1 = || root(0).prefetchable(0, 0);
    let coarse = || root(0).vector(Low, shape(0, 4, 0), &[0, 1]);
    vec![
        overlap("item 4, first MiB: mem", mem(root(0)), MEM, "mem"),
        overlap("item 4, first MiB: mem of two MiB", wide(), MEM, "mem"),
        overlap("item 4, first MiB: pref", pref(root(0)), PREF, "pref"),
        overlap("item 4, first MiB: pref of type 1", type_1(), PREF, "pref"),
        overlap("item 4, first MiB: low", low(root(0)), LOW, "low"),
        overlap("item 4, first MiB: mem pref", mem(pref(root(0))), MEM | PREF, "mem pref"),
        overlap("item 4, first MiB: mem low", mem(low(root(0))), MEM | LOW, "mem low"),
        overlap("item 4, first MiB: pref low", pref(low(root(0))), PREF | LOW, "pref low"),
        overlap("item 4, first MiB: all of them", mem(pref(low(root(0)))), MEM | PREF | LOW, "mem pref low"),
        case(
            "item 4, first MiB: low granules of 16 MiB",
            vec![video(coarse())],
            vec![claims_address(0, 0xA_0000, LOW | VGA), claims_address(0, 0x10A_0000, LOW)],
        ),
        case(
            "item 4, first MiB: a High vector from 0 on claims nothing of it",
            vec![video(root(0).vector(High, shape(0, 0, 0), &[0]))],
            vec![claims_address(0, 0xA_0000, VGA), holds_address(0xA_0000, "port 0 by vga")],
        ),
    ]
}

/// Number 12: two root ports that hold an address, each in its own way, so that the walk to it is doubled.
fn pair(name: &'static str, ports: [DraftPort; 2], address: u64, line: &str) -> Case {
    let calls = vec![
        reports(&format!("refused 12 addr {address:016x} ports {line}")),
        checks(12, 0, 1, Some(address)),
        holds_address(address, &format!("port {}", line.replace(" 1 by", "/port 1 by"))),
        walks(1, 255, address, [5, 0, 1, 0], &[]),
    ];
    case(name, ports.to_vec(), calls)
}

/// Number 12 where the video range begins.
fn pair_cases() -> Vec<Case> {
    let (a, b) = (|| root(0), || root(1));
    let at = |name, ports, line| pair(name, ports, 0xA_0000, line);
    let all = |port| video(mem(pref(low(port))));
    vec![
        at("item 4, number 12: vga twice", [video(a()), video(b())], "0 by vga 1 by vga"),
        at("item 4, number 12: mem and vga", [mem(a()), video(b())], "0 by mem 1 by vga"),
        at("item 4, number 12: vga and mem", [video(a()), mem(b())], "0 by vga 1 by mem"),
        at("item 4, number 12: vga and pref", [video(a()), pref(b())], "0 by vga 1 by pref"),
        at("item 4, number 12: low and vga", [low(a()), video(b())], "0 by low 1 by vga"),
        at("item 4, number 12: vga and mem vga", [video(a()), video(mem(b()))], "0 by vga 1 by mem vga"),
        at("item 4, number 12: low vga and vga", [video(low(a())), video(b())], "0 by low vga 1 by vga"),
        at("item 4, number 12: all and vga", [all(a()), video(b())], "0 by mem pref low vga 1 by vga"),
    ]
}

/// Number 12: what is looked for, and which address is the least.
fn pair_order_cases() -> Vec<Case> {
    let (a, b) = (|| video(root(0)), || video(root(1)));
    let with = |name, ports, line| case(name, ports, vec![reports(line)]);
    let clash = "refused 12 addr 00000000000a0000 ports";
    vec![
        pair("item 4, order: 0 before it", [mem(a()), mem(b())], 0, "0 by mem 1 by mem"),
        pair("item 4, order: 0 by low and pref", [low(a()), pref(b())], 0, "0 by low 1 by pref"),
        pair(
            "item 4, order: it before the second MiB",
            [a().memory(1, 1), b().memory(1, 1)],
            0xA_0000,
            "0 by vga 1 by vga",
        ),
        pair(
            "item 4, order: the second MiB",
            [a().memory(1, 1), root(1).memory(1, 2)],
            0x10_0000,
            "0 by mem 1 by mem",
        ),
        with(
            "item 4, order: 11 before it",
            vec![a(), b().buses(0, 1)],
            "refused 11 id 0000 ports 0 by own 1 by bus",
        ),
        with(
            "item 4, order: no Memory Space Enable at one",
            vec![a(), b().with_memory_space(false)],
            "ports 2/clear",
        ),
        with(
            "item 4, order: 12 before 13, 14 and 15",
            later_numbers_too(),
            &format!("{clash} 2 by vga 3 by vga"),
        ),
        with(
            "item 4, order: the first pair over all places",
            two_places(),
            &format!("{clash} 0 by vga 3 by vga"),
        ),
    ]
}

/// Ports 2 and 3 below a switch have VGA Enable; their parent does not, and does not claim their own IDs.
fn later_numbers_too() -> Vec<DraftPort> {
    vec![root(0x0008).buses(1, 4), up(0, 0x0100), video(down(1, 0x0500)), video(down(1, 0x0508))]
}

/// VGA Enable at two ports below a switch, and at two root ports, the first of which is above the switch.
fn two_places() -> Vec<DraftPort> {
    let mut ports = display_switch(true);
    ports.insert(3, video(root(0x0010)));
    ports
}

/// A sound switch with a display card below port 2, and with VGA Enable at port 3 too if so wanted.
fn display_switch(twice: bool) -> Vec<DraftPort> {
    let other = down(1, 0x0208).buses(4, 4);
    vec![
        video(root(0x0008).buses(1, 4)),
        video(up(0, 0x0100).buses(2, 4)),
        video(down(1, 0x0200).buses(3, 3)),
        if twice { video(other) } else { other },
    ]
}

/// Number 14: a port with VGA Enable whose parent does not claim the video range.
fn escape_cases() -> Vec<Case> {
    let escape = |name, parent: DraftPort, child: DraftPort, address: u64, by: &str| {
        let line = format!("refused 14 addr {address:016x} ports 1 by {by}");
        let calls = vec![reports(&line), checks(14, 1, 255, Some(address))];
        case(name, parent_and_child(parent, child), calls)
    };
    let open = || root(0).with_memory_space(true);
    let closed = || video(mem(root(0))).with_memory_space(false);
    let mut bit_4 = open();
    bit_4.bridge_control = 0x0010;
    let card = || video(root(0));
    vec![
        escape("item 4, number 14: no VGA Enable above", open(), card(), 0xA_0000, "vga"),
        escape("item 4, number 14: bit 4 above", bit_4, card(), 0xA_0000, "vga"),
        escape("item 4, number 14: no Memory Space Enable above", closed(), card(), 0xA_0000, "vga"),
        escape("item 4, number 14: the second MiB above", root(0).memory(1, 1), card(), 0xA_0000, "vga"),
        escape("item 4, number 14: mem vga below vga", card(), mem(card()), 0, "mem"),
        escape("item 4, number 14: mem below vga", card(), mem(root(0)), 0, "mem"),
        escape("item 4, number 14: pref low vga below vga", card(), pref(low(card())), 0, "pref low"),
    ]
}

/// Number 14: the least address, and the lowest port.
fn escape_order_cases() -> Vec<Case> {
    let open = |port: DraftPort| port.with_memory_space(true);
    let case_of = |name, ports, line: &str| case(name, ports, vec![reports(&format!("refused 14 {line}"))]);
    let chain_of = |middle, last| {
        let first = video(root(0x0008).buses(1, 5));
        vec![first, DraftPort { kind: 1, parent: 0, own_id: 0x0100, ..middle }, last]
    };
    let middle = || root(0).buses(2, 5);
    let mut both = display_switch(false);
    both[1].set_vga(false);
    let mut pages = both.clone();
    pages[3] = mem(pages[3].clone());
    pages[2].set_vga(false);
    vec![
        case_of(
            "item 4, number 14: before the second MiB",
            parent_and_child(open(root(0)), video(root(0)).memory(1, 1)),
            "addr 00000000000a0000 ports 1 by vga",
        ),
        case_of(
            "item 4, number 14: the second MiB",
            parent_and_child(video(root(0)), video(root(0)).memory(1, 1)),
            "addr 0000000000100000 ports 1 by mem",
        ),
        case_of(
            "item 4, number 14: only the port between has none",
            chain_of(open(middle()), video(down(1, 0x0200))),
            "addr 00000000000a0000 ports 2 by vga",
        ),
        case_of("item 4, number 14: below a switch", both, "addr 00000000000a0000 ports 2 by vga"),
        case_of("item 4, number 14: 0 by another port", pages, "addr 0000000000000000 ports 3 by mem"),
    ]
}

/// No number 14: the parent claims what the child claims by whatever decoder.
fn no_escape_cases() -> Vec<Case> {
    let fine = |name, parent: DraftPort, child: DraftPort| {
        case(name, parent_and_child(parent, child), vec![reports("ports 2/clear")])
    };
    let card = || video(root(0));
    vec![
        fine("item 4, no number 14: vga below vga", card(), card()),
        fine("item 4, no number 14: vga below mem", mem(root(0)), card()),
        fine("item 4, no number 14: vga below pref", pref(root(0)), card()),
        fine("item 4, no number 14: vga below low", low(root(0)), card()),
        fine("item 4, no number 14: mem vga below pref", pref(root(0)), mem(card())),
        fine("item 4, no number 14: no Memory Space Enable below", root(0), card().with_memory_space(false)),
        fine("item 4, no number 14: vga above alone", card(), root(0)),
    ]
}

/// Walks to the display card, from the host and from devices, and to both sides of its range.
fn walk_cases() -> Vec<Case> {
    let mut no_card = display_switch(false);
    no_card[2].set_vga(false);
    let first_mib = parent_and_child(mem(root(0)), video(root(0)));
    vec![
        case("item 4, walks: to the display card", display_switch(false), walks_to_the_card()),
        case(
            "item 4, walks: VGA Enable above nothing",
            no_card,
            vec![
                reports("ports 4/clear"),
                walks(1, 255, 0xA_0000, [4, 1, 255, 0], &[0, 1]),
                walks(1, 3, 0xA_0000, [4, 1, 255, 0], &[3]),
                walks(1, 2, 0xB_FFFF, [4, 1, 255, 0], &[2]),
            ],
        ),
        case(
            "item 4, walks: vga below the first MiB",
            first_mib,
            vec![
                walks(1, 255, 0x9_FFFF, [4, 0, 255, 0], &[0]),
                walks(1, 255, 0xA_0000, [4, 1, 255, 0], &[0, 1]),
                walks(1, 255, 0xC_0000, [4, 0, 255, 0], &[0]),
            ],
        ),
        case(
            "item 4, walks: 31 crossings",
            [chain(0, 15, 1), chain(15, 16, 2).into_iter().map(video).collect()].concat(),
            vec![walks(1, 14, 0xA_0000, [4, 30, 255, 0], &down_the_second_chain())],
        ),
    ]
}

/// From below port 14 up to the root, and down to port 30.
fn down_the_second_chain() -> Vec<u8> {
    (0..15).rev().chain(15..31).collect()
}

/// Who holds the edges, and where packets for them go.
fn walks_to_the_card() -> Vec<Call> {
    let on_the_way = "port 0 by vga/port 1 by vga/port 2 by vga";
    vec![
        reports("ports 4/clear"),
        checks(0, 255, 255, None),
        holds_address(0x9_FFFF, "nobody"),
        holds_address(0xA_0000, on_the_way),
        holds_address(0xB_FFFF, on_the_way),
        holds_address(0xC_0000, "nobody"),
        walks(1, 255, 0x9_FFFF, [3, 255, 255, 0], &[]),
        walks(1, 255, 0xA_0000, [1, 2, 255, 0], &[0, 1, 2]),
        walks(1, 255, 0xB_FFFF, [1, 2, 255, 0], &[0, 1, 2]),
        walks(1, 255, 0xC_0000, [3, 255, 255, 0], &[]),
        walks(1, 3, 0x9_FFFF, [3, 255, 255, 0], &[3, 1, 0]),
        walks(1, 3, 0xA_0000, [1, 2, 255, 0], &[3, 2]),
        walks(1, 3, 0xB_FFFF, [1, 2, 255, 0], &[3, 2]),
        walks(1, 3, 0xC_0000, [3, 255, 255, 0], &[3, 1, 0]),
        walks(1, 2, 0x9_FFFF, [3, 255, 255, 0], &[2, 1, 0]),
        walks(1, 2, 0xA_0000, [4, 2, 255, 0], &[]),
        walks(1, 2, 0xC_0000, [3, 255, 255, 0], &[2, 1, 0]),
        walks(0, 255, 0xA000, [3, 255, 255, 0], &[]),
    ]
}

/// Two display cards below one switch.
fn doubled_cases() -> Vec<Case> {
    let below_low = vec![video(root(0)), low(root(1))];
    vec![
        case(
            "item 4, doubled: two cards below a switch",
            display_switch(true),
            vec![
                reports("refused 12 addr 00000000000a0000 ports 2 by vga 3 by vga"),
                checks(12, 2, 3, Some(0xA_0000)),
                walks(1, 255, 0xA_0000, [5, 2, 3, 0], &[0, 1]),
                walks(1, 255, 0xB_FFFF, [5, 2, 3, 0], &[0, 1]),
                walks(1, 255, 0xC_0000, [3, 255, 255, 0], &[]),
                walks(1, 3, 0xA_0000, [4, 3, 255, 0], &[]),
                holds_address(0xA_0000, "port 0 by vga/port 1 by vga/port 2 by vga/port 3 by vga"),
            ],
        ),
        case(
            "item 4, doubled: a card and a Low granule",
            below_low,
            vec![
                walks(1, 255, 0x9_FFFF, [1, 1, 255, 0], &[1]),
                walks(1, 255, 0xA_0000, [5, 0, 1, 0], &[]),
                walks(1, 255, 0xB_FFFF, [5, 0, 1, 0], &[]),
                walks(1, 255, 0xC_0000, [1, 1, 255, 0], &[1]),
                walks(1, 0, 0xC_0000, [1, 1, 255, 0], &[0, 1]),
            ],
        ),
    ]
}

/// A display card below port 0, and a Low vector from 0 on with these entries at port 1.
fn card_and_vector(entries: &[u64]) -> Vec<DraftPort> {
    vec![video(root(0)), root(1).vector(Low, shape(0, 0, 0), entries).with_memory_space(true)]
}

/// Trials: the vectors are the patch's, VGA Enable is the picture's.
fn trial_cases_of_video() -> Vec<Case> {
    let setting = |entries: &[usize]| patch(1, 48, &[(1, 16)], bits(32, entries));
    let to_the_card = |start: u32, path: &[u8]| goes(1, start, 0xA_0000, [1, 0, 255, 0], path);
    vec![
        clear_trial(
            "item 4, trials: a patch that changes nothing",
            card_and_vector(&[]),
            patch(0, 8, &[], vec![]),
            vec![to_the_card(255, &[0]), to_the_card(1, &[1, 0])],
        ),
        clear_trial(
            "item 4, trials: the second MiB",
            card_and_vector(&[]),
            setting(&[1]),
            vec![to_the_card(255, &[0]), goes(1, 0, 0x10_0000, [1, 1, 255, 0], &[0, 1])],
        ),
        trial(
            "item 4, trials: a new entry over the range",
            Draft::of(card_and_vector(&[])).bytes(),
            setting(&[0]),
            vec![
                prints("refused 12 addr 00000000000a0000 ports 0 by vga 1 by low"),
                finds(12, 0, 1, Some(0xA_0000)),
                goes(1, 255, 0xA_0000, [5, 0, 1, 0], &[]),
                goes(1, 255, 0x9_FFFF, [1, 1, 255, 0], &[1]),
                walks(1, 255, 0xA_0000, [1, 0, 255, 0], &[0]),
                reports("ports 2/clear"),
            ],
        ),
        clear_trial(
            "item 4, trials: the card's own port in the patch",
            vec![video(root(0).vector(Low, shape(0, 0, 0), &[])), root(1)],
            patch(1, 48, &[(0, 16)], bits(32, &[1])),
            vec![to_the_card(255, &[0]), goes(1, 1, 0x10_0000, [1, 0, 255, 0], &[1, 0])],
        ),
        clear_trial(
            "item 4, trials: an entry over the range is cleared",
            card_and_vector(&[0]),
            setting(&[]),
            vec![reports("refused 12 addr 00000000000a0000 ports 0 by vga 1 by low"), to_the_card(255, &[0])],
        ),
    ]
}

/// Number 14 in trials: the parent's or the child's entry 0 is the patch's.
fn trial_escape_cases() -> Vec<Case> {
    let clear = |port: DraftPort| port.vector(Low, shape(0, 0, 0), &[]).with_memory_space(true);
    let picture = |parent, child| Draft::of(parent_and_child(parent, child)).bytes();
    let of_port = |port, entries: &[usize]| patch(1, 48, &[(port, 16)], bits(32, entries));
    vec![
        trial(
            "item 4, trials: the parent's entry is cleared",
            picture(low(root(0)), video(root(0))),
            of_port(0, &[]),
            vec![
                reports("ports 2/clear"),
                prints("refused 14 addr 00000000000a0000 ports 1 by vga"),
                finds(14, 1, 255, Some(0xA_0000)),
            ],
        ),
        trial(
            "item 4, trials: the parent's entry is set",
            picture(clear(root(0)), video(root(0))),
            of_port(0, &[0]),
            vec![reports("refused 14 addr 00000000000a0000 ports 1 by vga"), prints("ports 2/clear")],
        ),
        trial(
            "item 4, trials: the child's entry is set",
            picture(video(root(0)), video(clear(root(0)))),
            of_port(1, &[0]),
            vec![
                reports("ports 2/clear"),
                prints("refused 14 addr 0000000000000000 ports 1 by low"),
                finds(14, 1, 255, Some(0)),
            ],
        ),
    ]
}
