//! Decoders by name: what each switch of a port takes away, what the calls write, what the program `claims`
//! prints, and how answers are counted.

use std::io::Write;
use std::process::{Command, Output, Stdio};

use second::batch::{answers, Record};
use second::cases::one_port_picture;
use second::check::candidate_addresses;
use second::claims::{Conversion, Decoders, Holding};
use second::draft::{Draft, DraftPort, Which, NO_PARENT, ROOT};
use second::judge::Judge;
use second::picture::{Picture, Target};
use second::random::Random;
use second::tally::tally;
use second::wild::wild;

/// The bits of the seven decoders.
const BUS: u32 = 1;
const RID: u32 = 2;
const MEM: u32 = 4;
const PREF: u32 = 8;
const LOW: u32 = 16;
const HIGH: u32 = 32;
const VGA: u32 = 64;

/// A way to switch something of a port off, and the decoders that claim nothing then.
type Switch = (fn(&mut DraftPort), u32);

/// All of them.
const SWITCHES: [Switch; 8] = [
    (|port| (port.secondary, port.subordinate) = (0, 0), BUS),
    (|port| port.set_enabled(Which::Rid, false), RID),
    (|port| (port.memory_base, port.memory_limit) = (0xFFF0, 0), MEM),
    (close_prefetchable, PREF),
    (|port| port.set_enabled(Which::Low, false), LOW),
    (|port| port.set_enabled(Which::High, false), HIGH),
    (|port| port.set_vga(false), VGA),
    (|port| port.set_memory_space(false), MEM | PREF | LOW | HIGH | VGA),
];

/// Prefetchable of type 0, with its base above its limit.
fn close_prefetchable(port: &mut DraftPort) {
    port.prefetchable_base = 0xFFF0;
    port.prefetchable_limit = 0;
}

/// The bits of the decoders of each port that claim a target.
fn bits(judge: &Judge, target: Target) -> Vec<u32> {
    let ports = &judge.reading().expect("the picture reads").ports;
    ports.iter().map(|port| port.decoders(target).bits()).collect()
}

/// An ID around the ports' own IDs and buses, or an address at an edge of theirs.
fn some_target(random: &mut Random, picture: &Picture, addresses: &[u64]) -> Target {
    let port = random.pick(&picture.ports);
    let buses = [port.own_id, (port.secondary as u16) << 8, (port.subordinate as u16) << 8, 0];
    match random.percent(30) {
        true => Target::Id(random.pick(&buses) | random.below(256) as u16),
        false => Target::Address(random.pick(addresses)),
    }
}

#[test]
fn a_decoder_that_is_switched_off_is_the_only_one_to_go() {
    let mut seen = 0;
    for seed in 0..120 {
        let random = &mut Random::new(seed);
        let draft = wild(random);
        let judge = Judge::new(&draft.bytes());
        let picture = judge.reading().expect("the picture reads");
        let addresses = candidate_addresses(picture);
        for (switch_off, gone) in SWITCHES {
            let mut other = draft.clone();
            other.ports.iter_mut().for_each(switch_off);
            let other = Judge::new(&other.bytes());
            for _ in 0..100 {
                let target = some_target(random, picture, &addresses);
                let before = bits(&judge, target);
                let after: Vec<u32> = before.iter().map(|bits| bits & !gone).collect();
                assert_eq!(bits(&other, target), after, "seed {seed}, {target:?}");
                seen |= before.iter().fold(0, |all, bits| all | 1u128 << bits);
            }
        }
    }
    let sets = [0, BUS, RID, BUS | RID, MEM, PREF, LOW, HIGH, MEM | PREF, MEM | LOW, PREF | LOW, PREF | HIGH];
    let with_video = [VGA, MEM | VGA, PREF | VGA, LOW | VGA, MEM | PREF | LOW | VGA];
    assert!(sets.iter().chain(&with_video).all(|set| seen >> set & 1 == 1), "{seen:b}");
}

#[test]
fn of_bridge_control_bit_3_alone_is_read() {
    for bit in 0..16 {
        let before = DraftPort::silent(ROOT, NO_PARENT, 0x0008).memory(0, 0);
        let mut after = before.clone();
        after.bridge_control ^= 1 << bit;
        let [before, after] = [before, after].map(|port| Judge::new(&Draft::of(vec![port]).bytes()));
        let is_same = before.reading().expect("it reads") == after.reading().expect("it reads");
        assert_eq!(is_same, bit != 3, "bit {bit}");
        let video = if bit == 3 { MEM | VGA } else { MEM };
        assert_eq!(bits(&after, Target::Address(0xA_0000)), [video], "bit {bit}");
        assert_eq!(bits(&before, Target::Address(0xA_0000)), [MEM], "bit {bit}");
    }
}

#[test]
fn each_decoder_has_its_bit_and_is_a_claim() {
    let none = Decoders::default();
    assert_eq!((none.bits(), none.any()), (0, false));
    for (decoders, bit) in [
        (Decoders { bus: true, ..none }, BUS),
        (Decoders { rid: true, ..none }, RID),
        (Decoders { mem: true, ..none }, MEM),
        (Decoders { pref: true, ..none }, PREF),
        (Decoders { low: true, ..none }, LOW),
        (Decoders { high: true, ..none }, HIGH),
        (Decoders { vga: true, ..none }, VGA),
    ] {
        assert_eq!((decoders.bits(), decoders.any()), (bit, true), "{decoders:?}");
    }
    let all = Decoders { bus: true, rid: true, mem: true, pref: true, low: true, high: true, vga: true };
    assert_eq!(all.bits(), 127);
}

#[test]
fn texts_are_picked_with_own_first_and_then_in_the_decoders_order() {
    let texts = ["own", "bus", "rid", "mem", "pref", "low", "high", "vga"];
    let all = Decoders { bus: true, rid: true, mem: true, pref: true, low: true, high: true, vga: true };
    assert_eq!(Holding { own: true, decoders: all }.those_of(texts), texts);
    assert_eq!(Holding { own: false, decoders: all }.those_of(texts), texts[1..]);
    let some = Decoders { rid: true, low: true, vga: true, ..Decoders::default() };
    assert_eq!(Holding { own: true, decoders: some }.those_of(texts), ["own", "rid", "low", "vga"]);
    assert!(Holding { own: false, decoders: Decoders::default() }.those_of(texts).is_empty());
}

#[test]
fn an_own_id_is_held_and_not_claimed() {
    let judge = Judge::new(&one_port_picture());
    let port = &judge.reading().expect("the picture reads").ports[0];
    assert!(port.holds(Target::Id(8)) && !port.claims(Target::Id(8)));
    assert!(!port.holds(Target::Address(8)));
    assert_eq!(port.conversion(8), Conversion::NotClaimed);
}

#[test]
fn a_refused_claim_or_conversion_writes_nothing() {
    for old in [0, 0xAAAA_AAAA, u32::MAX] {
        let judge = Judge::new(&one_port_picture());
        let mut value = old;
        assert_eq!(judge.claim_call(&mut value, 1, 0, 0x0100), 16);
        assert_eq!(judge.claim_call(&mut value, 0, 2, 0x0100), 16);
        assert_eq!(judge.claim_call(&mut value, 0, 0, 0x1_0100), 16);
        assert_eq!(judge.conversion_call(&mut value, 1, 0x0100), 16);
        assert_eq!(judge.conversion_call(&mut value, 0, 0x1_0100), 16);
        assert_eq!(Judge::new(&[]).claim_call(&mut value, 1, 2, 0x1_0000), 1);
        assert_eq!(Judge::new(&[]).conversion_call(&mut value, 1, 0x1_0000), 1);
        assert_eq!(value, old);
        assert_eq!((judge.claim_call(&mut value, 0, 0, 0x0100), value), (0, BUS));
        assert_eq!((judge.claim_call(&mut value, 0, 1, 0xE000_0000), value), (0, MEM));
        assert_eq!((judge.claim_call(&mut value, 0, 1, 0), value), (0, 0));
        assert_eq!((judge.conversion_call(&mut value, 0, 0x0100), value), (0, 1));
        assert_eq!((judge.conversion_call(&mut value, 0, 0x0108), value), (0, 3));
        assert_eq!((judge.conversion_call(&mut value, 0, 0x0008), value), (0, 0));
    }
}

#[test]
fn the_40_bytes_do_not_tell_decoders() {
    let root = |own_id| DraftPort::silent(ROOT, NO_PARENT, own_id);
    let call = |second: DraftPort| {
        let judge = Judge::new(&Draft::of(vec![root(0).memory(7, 7), second]).bytes());
        let mut buffer = [0xAA; 41];
        assert_eq!(judge.check_call(&mut buffer), 12);
        buffer
    };
    let by_memory = call(root(1).memory(7, 7));
    assert_eq!(by_memory[..8], [12, 0, 0, 1, 0, 0, 0, 0]);
    assert_eq!(by_memory[8..16], 0x70_0000u64.to_le_bytes());
    assert_eq!(by_memory[16..], [&[255; 24][..], &[0xAA]].concat());
    assert_eq!(call(root(1).prefetchable(7, 7)), by_memory);
    assert_eq!(call(root(1).memory(7, 7).prefetchable(7, 7)), by_memory);
}

#[test]
fn the_least_address_can_be_where_the_video_range_begins() {
    let root = |own_id| DraftPort::silent(ROOT, NO_PARENT, own_id).video();
    let judge = Judge::new(&Draft::of(vec![root(0), root(1)]).bytes());
    let mut buffer = [0xAA; 40];
    assert_eq!(judge.check_call(&mut buffer), 12);
    assert_eq!(buffer[..8], [12, 0, 0, 1, 0, 0, 0, 0]);
    assert_eq!(buffer[8..16], [0, 0, 0x0A, 0, 0, 0, 0, 0]);
    assert_eq!(buffer[16..], [255; 24]);
    assert_eq!(judge.claims(1, 0xA_0000), "port 0 by vga\nport 1 by vga\n");
    let mut value = u32::MAX;
    assert_eq!((judge.claim_call(&mut value, 0, 1, 0xB_FFFF), value), (0, VGA));
}

#[test]
fn every_line_of_claims_ends_with_a_newline() {
    let judge = Judge::new(&one_port_picture());
    assert_eq!(judge.claims(0, 0x0008), "port 0 by own\n");
    assert_eq!(judge.claims(1, 0xE000_0000), "port 0 by mem\n");
    assert_eq!(judge.claims(1, 0), "nobody\n");
    assert_eq!(judge.claims(0, 0x1_0000), "refused 16\n");
    assert_eq!(Judge::new(&[]).claims(0, 0), "refused 1\n");
    let video = DraftPort::silent(ROOT, NO_PARENT, 0x0008).memory(0, 0).video();
    let judge = Judge::new(&Draft::of(vec![video]).bytes());
    assert_eq!(judge.claims(1, 0xA_0000), "port 0 by mem vga\n");
    let root = |own_id| DraftPort::silent(ROOT, NO_PARENT, own_id).buses(3, 3);
    let judge = Judge::new(&Draft::of(vec![root(0), root(0x0300)]).bytes());
    assert_eq!(judge.claims(0, 0x0300), "port 0 by bus\nport 1 by own bus\n");
}

/// What the program prints with these words, and a picture on its standard input.
fn run(words: &[&str], picture: &[u8]) -> Output {
    let mut program = Command::new(env!("CARGO_BIN_EXE_second"))
        .args(words)
        .stdin(Stdio::piped())
        .stdout(Stdio::piped())
        .stderr(Stdio::piped())
        .spawn()
        .expect("the program is built");
    // A program that does not like its words may have ended before it reads.
    let _ = program.stdin.take().expect("it is piped").write_all(picture);
    program.wait_with_output().expect("the program ends")
}

#[test]
fn the_command_claims_prints_holders() {
    for (words, wanted) in [
        (["claims", "id", "0100"], "port 0 by bus\n"),
        (["claims", "id", "8"], "port 0 by own\n"),
        (["claims", "addr", "e00fffff"], "port 0 by mem\n"),
        (["claims", "addr", "E00FFFFF"], "port 0 by mem\n"),
        (["claims", "addr", "00000000e0100000"], "nobody\n"),
        (["claims", "addr", "10100"], "nobody\n"),
        (["claims", "addr", "ffffffffffffffff"], "nobody\n"),
        (["claims", "id", "10100"], "refused 16\n"),
    ] {
        let Output { status, stdout, .. } = run(&words, &one_port_picture());
        assert_eq!((status.code(), stdout), (Some(0), wanted.as_bytes().to_vec()), "{words:?}");
    }
    assert_eq!(run(&["claims", "id", "0"], &[]).stdout, b"refused 1\n");
}

#[test]
fn bad_arguments_of_claims_are_bad_usage() {
    for words in [
        &["claims"][..],
        &["claims", "id"],
        &["claims", "id", "0100", "0100"],
        &["claims", "ID", "0100"],
        &["claims", "config", "0100"],
        &["claims", "0", "0100"],
        &["claims", "id", ""],
        &["claims", "id", "xyz"],
        &["claims", "id", "+8"],
        &["claims", "id", "-8"],
        &["claims", "id", "03:00.0"],
        &["claims", "addr", "10000000000000000"],
    ] {
        let Output { status, stdout, stderr } = run(words, &one_port_picture());
        assert_eq!((status.code(), stdout.len()), (Some(2), 0), "{words:?}");
        assert!(!stderr.is_empty(), "{words:?}");
    }
}

#[test]
fn a_tally_counts_claims_by_decoders_conversions_by_value_and_holders() {
    let claim = |port, target_kind, target| Record::Claim { port, target_kind, target };
    let holders = |target_kind, target| Record::Holders { target_kind, target };
    let both = DraftPort::silent(ROOT, NO_PARENT, 0x0008).memory(7, 7).prefetchable(7, 8).buses(3, 4).video();
    let other = DraftPort::silent(ROOT, NO_PARENT, 0x0300);
    let picture = Record::Picture(Draft::of(vec![both, other]).bytes());
    let conversions =
        [0x0300, 0x0301, 0x0308, 0x0400, 8, 0x1_0000].map(|id| Record::Conversion { port: 0, id });
    let addresses = [0x70_0000, 0x80_0000, 0xA_0000].map(|address| claim(0, 1, address));
    let claims = [&addresses[..], &[claim(0, 0, 8), claim(2, 0, 8)]].concat();
    let asked = [holders(0, 8), holders(0, 0x0300), holders(0, 9), holders(2, 0), holders(0, 0x0301)];
    let mut batch = Vec::new();
    let records = [&[picture][..], &conversions, &claims, &asked].concat();
    records.iter().for_each(|record| record.write(&mut batch));
    let lines = answers(&batch).expect("the batch is whole").join("\n");
    let counts: Vec<(String, u64)> =
        tally(&batch, &lines).expect("as many lines as calls").into_iter().collect();
    let wanted = [
        ("claim: number  0 mem pref", 1),
        ("claim: number  0 none", 1),
        ("claim: number  0 pref", 1),
        ("claim: number  0 vga", 1),
        ("claim: number 16 ffffffff", 1),
        ("conversion: number  0 Type 0", 2),
        ("conversion: number  0 Type 1", 1),
        ("conversion: number  0 Unsupported Request", 1),
        ("conversion: number  0 not claimed", 1),
        ("conversion: number 16 ffffffff", 1),
        ("holders: nobody", 1),
        ("holders: one port", 2),
        ("holders: refused 16", 1),
        ("holders: several ports", 1),
        ("picture: edition 1", 1),
    ];
    assert_eq!(counts, wanted.map(|(what, count)| (what.to_string(), count)));
}
