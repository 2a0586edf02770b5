//! The sentence and the drawing, held against what docs/PICTURE.md writes out.

use second::draft::{Draft, DraftPort, VectorShape, Which, DOWNSTREAM, NO_PARENT, ROOT, UPSTREAM};
use second::explain::{explain, number_text, NUMBER_TEXTS};
use second::explain_trial::PATCH_TEXTS;
use second::generate::pictures;
use second::judge::Judge;
use second::picture::Edition;
use second::tree::tree;

/// A root port 00:01.0 that claims nothing.
fn root() -> DraftPort {
    DraftPort::silent(ROOT, NO_PARENT, 0x0008)
}

/// The bytes of a picture of these ports.
fn bytes(ports: &[DraftPort]) -> Vec<u8> {
    Draft::of(ports.to_vec()).bytes()
}

/// The same in edition 2.
fn bytes_2(ports: &[DraftPort]) -> Vec<u8> {
    Draft::in_edition(Edition::Two, ports.to_vec()).bytes()
}

/// A shape of 256 entries.
fn shape(granularity_code: u32, start: u64) -> VectorShape {
    VectorShape { size_code: 0, granularity_code, start }
}

/// The report's line is this one, and after the number's text the sentence goes on so.
fn says(picture: &[u8], line: &str, follows: &str) {
    let text = explain(picture);
    let number = line.split(' ').nth(1).expect("a refusal has a number").parse().expect("a number");
    let (first, rest) = number_text(number).split_at(1);
    assert_eq!(text, format!("{line}\n{}{rest}{follows}.\n", first.to_uppercase()));
}

#[test]
fn the_texts_are_those_of_the_repository() {
    let path = concat!(env!("CARGO_MANIFEST_DIR"), "/../tests/number-texts");
    let file = std::fs::read_to_string(path).expect("tests/number-texts is there");
    let of_patches = (30..).zip(PATCH_TEXTS);
    let ours: Vec<String> =
        NUMBER_TEXTS.into_iter().chain(of_patches).map(|(number, text)| format!("{number} {text}")).collect();
    let of_calls_alone = |line: &&str| {
        ["16 ", "17 ", "23 ", "37 ", "38 ", "39 ", "40 "].iter().any(|number| line.starts_with(number))
    };
    let lines: Vec<&str> = file.lines().filter(|line| !of_calls_alone(line)).collect();
    assert_eq!(lines, ours);
}

#[test]
fn a_clear_picture() {
    let text = explain(&bytes(&[root()]));
    let sentence = "Nothing was found wrong: no ID or address has two holders at one place, \
                    no port holds what its parent does not claim, \
                    and the host's configuration requests find every port.\n";
    assert_eq!(text, format!("ports 1\nclear\n{sentence}"));
}

#[test]
fn lengths_and_headers() {
    let good = bytes(&[root()]);
    says(&good[..71], "refused 1", ": it has 71 bytes");
    says(&good[..1], "refused 1", ": it has 1 byte");
    says(&[], "refused 1", ": it has 0 bytes");
    says(&vec![0; 65_537], "refused 1", ": it has more than 65,536");
    let with = |at: usize, value: u8| {
        let mut picture = good.clone();
        picture[at] = value;
        picture
    };
    says(&with(0, 2), "refused 1", ": it has 72 bytes");
    says(&with(0, 3), "refused 2", ": it is 3");
    says(&with(1, 1), "refused 2", ": it is 257");
    says(&with(2, 0), "refused 3", ": it has none");
    says(&with(2, 65), "refused 3", ": it has 65");
    says(&with(4, 73), "refused 4", ": the header says 73, and the picture has 72 bytes");
    says(&with(8, 17), "refused 5", "");
}

#[test]
fn lengths_and_headers_of_edition_2() {
    let good = bytes_2(&[root()]);
    assert_eq!(good.len(), 76);
    says(&good[..75], "refused 1", ": it has 75 bytes");
    let with = |at: usize, value: u8| {
        let mut picture = good.clone();
        picture[at] = value;
        picture
    };
    says(&with(0, 0), "refused 2", ": it is 0");
    says(&with(1, 1), "refused 2", ": it is 258");
    says(&with(2, 0), "refused 3", ": it has none");
    says(&with(4, 72), "refused 4", ": the header says 72, and the picture has 76 bytes");
    says(&with(12, 72), "refused 5", "");
    says(&with(0, 1), "refused 5", "");
}

#[test]
fn ports_that_break_a_rule_of_the_tree() {
    let above = [root(), DraftPort::silent(UPSTREAM, 0, 0x0100)];
    let third = |kind, parent| bytes(&[&above[..], &[DraftPort::silent(kind, parent, 0x0110)]].concat());
    let below_0 = "below port 0, 00:01.0)";
    let below_1 = "below port 1, 01:00.0, below port 0, 00:01.0)";
    for (kind, parent, follows) in [
        (1, 0, format!("switch upstream port, {below_0}, whose parent is a root port with a child already")),
        (1, 1, format!("switch upstream port, {below_1}, whose parent is a switch upstream port")),
        (2, 0, format!("switch downstream port, {below_0}, whose parent is a root port")),
        (2, 255, "switch downstream port, no parent)".to_string()),
        (2, 9, "switch downstream port, parent 9)".to_string()),
        (2, 2, "switch downstream port, parent 2)".to_string()),
        (0, 1, format!("root port, {below_1}")),
        (7, 255, "unknown kind 7, no parent)".to_string()),
        (7, 0, format!("unknown kind 7, {below_0}")),
    ] {
        says(&third(kind, parent), "refused 6 ports 2", &format!(": port 2 (01:02.0, {follows}"));
    }
}

#[test]
fn a_chain_that_is_too_long() {
    let mut ports = vec![root()];
    let mut follows = String::new();
    for port in 1..=16u8 {
        let kind = if port % 2 == 1 { UPSTREAM } else { DOWNSTREAM };
        follows = format!(", below port {}, {:02x}:01.0{follows}", port - 1, port - 1);
        ports.push(DraftPort::silent(kind, port - 1, (port as u16) << 8 | 8));
    }
    says(&bytes(&ports), "refused 7 ports 16", &format!(": port 16 (10:01.0{follows})"));
}

#[test]
fn every_cause_of_number_8() {
    let refused = |port: DraftPort, follows: &str| {
        says(&bytes(&[port]), "refused 8 ports 0", &format!(": port 0 (00:01.0, a root port){follows}"));
    };
    let mut unsupported = root();
    unsupported.set_enabled(Which::Rid, true);
    refused(unsupported.clone(), "; its RID vector is enabled but not supported");
    let mut reserved = root();
    reserved.support(Which::Rid, 1, 0);
    refused(reserved.clone(), "; its RID vector has size code 1");
    reserved.set_enabled(Which::Rid, true);
    refused(reserved.clone(), "; its RID vector has size code 1 and granularity code 0");
    let mut coarse = root();
    coarse.give_vector(Which::Low, shape(5, 0));
    refused(coarse, "; its MEM Low vector has size code 0 and granularity code 5");
    let mut low_bits = root();
    low_bits.memory_base = 0xE001;
    low_bits.memory_limit = 0xE000;
    low_bits.prefetchable_base = 0xFFF1;
    low_bits.prefetchable_limit = 0x0001;
    let registers = "; it has Memory Base e001 and Limit e000, Prefetchable Memory Base fff1 and Limit 0001";
    refused(low_bits.clone(), registers);
    low_bits.set_enabled(Which::High, true);
    refused(low_bits, &format!("; its MEM High vector is enabled but not supported{registers}"));
    // of a vector that is not supported the codes are not looked at
    unsupported.set_granularity(Which::Rid, 9);
    refused(unsupported, "; its RID vector is enabled but not supported");
}

#[test]
fn bytes_after_acs_control() {
    let refused = |ports: &[DraftPort], follows: &str| {
        says(&bytes_2(ports), "refused 8 ports 0", &format!(": port 0 (00:01.0, a root port){follows}"));
    };
    let with = |after_acs_control| DraftPort { acs_control: 0xFFFF, after_acs_control, ..root() };
    refused(&[with(0x1234)], "; the two bytes after its ACS Control hold 1234");
    refused(&[with(0x0001)], "; the two bytes after its ACS Control hold 0001");
    refused(&[with(0xAB00), with(0x0002)], "; the two bytes after its ACS Control hold ab00");
    let mut all = with(0x0100);
    all.set_enabled(Which::High, true);
    all.memory_base = 0xE001;
    let high = "; its MEM High vector is enabled but not supported";
    let registers = "; it has Memory Base e001 and Limit 0000, Prefetchable Memory Base fff0 and Limit 0000";
    refused(&[all.clone()], &format!("{high}{registers}; the two bytes after its ACS Control hold 0100"));
    // edition 1 does not have them
    let follows = format!(": port 0 (00:01.0, a root port){high}{registers}");
    says(&bytes(&[all]), "refused 8 ports 0", &follows);
    // causes of another port are not told
    let mut low_bits = root();
    low_bits.memory_base = 0xE001;
    refused(&[low_bits, with(0x1234)], registers);
}

#[test]
fn every_cause_of_number_9() {
    let refused = |port: DraftPort, follows: &str| {
        says(&bytes(&[port]), "refused 9 ports 0", &format!(": port 0 (00:01.0, a root port){follows}"));
    };
    let low = "; its MEM Low vector starts at 00800000 and has entries of 16 MiB";
    let high = "; its MEM High vector starts at 0000000110000000 and has entries of 512 MiB";
    let rid = "; its RID vector starts at 01:01.0 and has entries of 64 IDs";
    let ari = "; its RID vector starts at 01:01.0 and has entries of 8 IDs, in a port with ARI";
    refused(root().vector(Which::Low, shape(4, 8), &[]), low);
    refused(root().vector(Which::High, shape(1, 17), &[]), high);
    refused(root().vector(Which::Rid, shape(3, 33), &[]), rid);
    refused(root().with_ari().vector(Which::Rid, shape(0, 33), &[]), ari);
    let all = root().vector(Which::Rid, shape(3, 33), &[]).vector(Which::Low, shape(4, 8), &[]);
    refused(all.vector(Which::High, shape(1, 17), &[]), &format!("{rid}{low}{high}"));
}

#[test]
fn vectors_elsewhere() {
    let mut picture = bytes(&[root()]);
    picture[16 + 52] = 128;
    says(&picture, "refused 10 ports 0", ": those of port 0 (00:01.0, a root port) begin at byte 128");
    let mut picture = bytes(&[root()]);
    picture.push(0);
    picture[4] = 73;
    says(&picture, "refused 10 ports 255", ": the last ones do not, and the picture has 73 bytes");
    let mut picture = bytes_2(&[root()]);
    picture[16 + 52] = 72;
    says(&picture, "refused 10 ports 0", ": those of port 0 (00:01.0, a root port) begin at byte 72");
    let mut picture = bytes_2(&[root()]);
    picture.push(0);
    picture[4] = 77;
    says(&picture, "refused 10 ports 255", ": the last ones do not, and the picture has 77 bytes");
}

#[test]
fn what_the_check_finds() {
    let own = "port 0 (00:01.0, a root port) claims its own ID 00:01.0 (0008) through its bus range";
    let line = "refused 11 id 0008 ports 0 by own bus 0 by own bus";
    says(&bytes(&[root().buses(0, 1)]), line, &format!(": {own}"));
    let other = DraftPort::silent(ROOT, NO_PARENT, 0x0010);
    let holders = |manner: &str| {
        format!(
            "is held by port 0 (00:01.0, a root port) through its {manner} \
             and by port 1 (00:02.0, a root port) through its {manner}"
        )
    };
    let buses = bytes(&[root().buses(3, 3), other.clone().buses(3, 4)]);
    let line = "refused 11 id 0300 ports 0 by bus 1 by bus";
    says(&buses, line, &format!(": ID 03:00.0 (0300) {}", holders("bus range")));
    let memory = bytes(&[root().memory(0xE05, 0xE05), other.memory(0xE00, 0xE0F)]);
    let line = "refused 12 addr 00000000e0500000 ports 0 by mem 1 by mem";
    says(&memory, line, &format!(": address 00000000e0500000 {}", holders("memory window")));
}

#[test]
fn what_a_parent_does_not_claim() {
    let child = |own_id| DraftPort::silent(UPSTREAM, 0, own_id);
    let held = |own_id: &str, manner: &str| {
        format!("is held by port 1 ({own_id}, below port 0, 00:01.0) {manner}, and port 0 does not claim it")
    };
    let stray = bytes(&[root().buses(1, 1), child(0x0200)]);
    let follows = format!(": ID 02:00.0 (0200) {}", held("02:00.0", "as its own ID"));
    says(&stray, "refused 13 id 0200 ports 1 by own", &follows);
    let stray = bytes(&[root().buses(1, 1), child(0x0100).buses(2, 2)]);
    let follows = format!(": ID 02:00.0 (0200) {}", held("01:00.0", "through its bus range"));
    says(&stray, "refused 13 id 0200 ports 1 by bus", &follows);
    let stray = bytes(&[root().buses(1, 1), child(0x0100).memory(0xE05, 0xE05)]);
    let line = "refused 14 addr 00000000e0500000 ports 1 by mem";
    let follows = format!(": address 00000000e0500000 {}", held("01:00.0", "through its memory window"));
    says(&stray, line, &follows);
}

/// Two root ports that hold one target: behind the line's ports and the sentence's come these texts.
fn held_by_two(ports: [DraftPort; 2], line: &str, by: [&str; 2], target: &str, manners: [&str; 2]) {
    let line = format!("{line} ports 0 by {} 1 by {}", by[0], by[1]);
    let first = format!("port 0 (00:01.0, a root port) {}", manners[0]);
    let second = format!("port 1 (00:02.0, a root port) {}", manners[1]);
    says(&bytes(&ports), &line, &format!(": {target} is held by {first} and by {second}"));
}

#[test]
fn how_two_ports_hold_an_id() {
    let pair = |first: DraftPort, second: DraftPort, by, manners| {
        let second = DraftPort { own_id: 0x0010, ..second };
        held_by_two([first, second], "refused 11 id 0300", by, "ID 03:00.0 (0300)", manners);
    };
    let bus = || root().buses(3, 3);
    let rid = |port: DraftPort| port.vector(Which::Rid, shape(0, 0x60), &[0]);
    let (through_bus, through_rid) = ("through its bus range", "through its RID vector");
    pair(bus(), rid(root()), ["bus", "rid"], [through_bus, through_rid]);
    pair(rid(root()), bus(), ["rid", "bus"], [through_rid, through_bus]);
    let both = "through its bus range and through its RID vector";
    pair(rid(bus()), rid(root()), ["bus rid", "rid"], [both, through_rid]);
    pair(bus(), rid(bus()), ["bus", "bus rid"], [through_bus, both]);
}

#[test]
fn how_two_ports_hold_an_address() {
    let other = || DraftPort::silent(ROOT, NO_PARENT, 0x0010);
    let mem = |port: DraftPort| port.memory(0xE05, 0xE05);
    let pref = |port: DraftPort| port.prefetchable(0xE05, 0xE05);
    let low = |port: DraftPort| port.vector(Which::Low, shape(0, 0xE00), &[5]).with_memory_space(true);
    let below = |ports, by, manners| {
        let target = "address 00000000e0500000";
        held_by_two(ports, "refused 12 addr 00000000e0500000", by, target, manners);
    };
    let memory = "through its memory window";
    let window = "through its prefetchable window";
    let vector = "through its MEM Low vector";
    below([mem(root()), pref(other())], ["mem", "pref"], [memory, window]);
    below([low(root()), mem(other())], ["low", "mem"], [vector, memory]);
    let two = format!("{memory} and {vector}");
    below([low(root()), low(mem(other()))], ["low", "mem low"], [vector, &two]);
    let three = format!("{memory} and {window} and {vector}");
    below([low(pref(mem(root()))), pref(other())], ["mem pref low", "pref"], [&three, window]);
    let high = |port: DraftPort| port.vector(Which::High, shape(0, 32), &[0]).with_memory_space(true);
    let above = |ports, by, manners| {
        let target = "address 0000000200000000";
        held_by_two(ports, "refused 12 addr 0000000200000000", by, target, manners);
    };
    let vector = "through its MEM High vector";
    let two = format!("{window} and {vector}");
    let pref = |port: DraftPort| port.prefetchable(0x2000, 0x2000);
    above([high(root()), high(pref(other()))], ["high", "pref high"], [vector, &two]);
}

#[test]
fn how_the_video_range_is_held() {
    let other = || DraftPort::silent(ROOT, NO_PARENT, 0x0010);
    let low = |port: DraftPort| port.vector(Which::Low, shape(0, 0), &[0]).with_memory_space(true);
    let pair = |ports, by, manners| {
        let target = "address 00000000000a0000";
        held_by_two(ports, "refused 12 addr 00000000000a0000", by, target, manners);
    };
    let video = "through its video range";
    pair([root().video(), other().video()], ["vga", "vga"], [video, video]);
    pair([root().memory(0, 0), other().video()], ["mem", "vga"], ["through its memory window", video]);
    let two = format!("through its MEM Low vector and {video}");
    pair([low(root()).video(), other().video()], ["low vga", "vga"], [&two, video]);
    let four = format!(
        "through its memory window and through its prefetchable window and through its MEM Low vector and {video}"
    );
    let all = low(other().memory(0, 0).prefetchable(0, 0)).video();
    pair([root().video(), all], ["vga", "mem pref low vga"], [video, &four]);
    let lost = bytes(&[root().buses(1, 1), DraftPort::silent(UPSTREAM, 0, 0x0100).video()]);
    let follows = ": address 00000000000a0000 is held by port 1 (01:00.0, below port 0, 00:01.0) \
                   through its video range, and port 0 does not claim it";
    says(&lost, "refused 14 addr 00000000000a0000 ports 1 by vga", follows);
}

#[test]
fn own_ids_in_the_sentence() {
    let above = [root().buses(1, 4), DraftPort::silent(UPSTREAM, 0, 0x0100).buses(2, 4)];
    let rid = |port: DraftPort| port.vector(Which::Rid, shape(0, 0x60), &[0]);
    let first = DraftPort::silent(DOWNSTREAM, 1, 0x0200).buses(3, 3);
    let owner = DraftPort::silent(DOWNSTREAM, 1, 0x0300);
    let tree = "below port 1, 01:00.0, below port 0, 00:01.0)";
    let by_port_2 = format!("is held by port 2 (02:00.0, {tree} through its bus range");
    for (owner, by, manner) in [
        (owner.clone(), "own", "as its own ID"),
        (rid(owner.clone()), "own rid", "as its own ID and through its RID vector"),
    ] {
        let picture = bytes(&[&above[..], &[first.clone(), owner]].concat());
        let line = format!("refused 11 id 0300 ports 2 by bus 3 by {by}");
        let by_port_3 = format!("and by port 3 (03:00.0, {tree} {manner}");
        says(&picture, &line, &format!(": ID 03:00.0 (0300) {by_port_2} {by_port_3}"));
    }
    for (claims, by, manner) in [
        (rid(root()), "rid", "through its RID vector"),
        (root().buses(3, 3), "bus", "through its bus range"),
        (rid(root().buses(3, 3)), "bus rid", "through its bus range and through its RID vector"),
    ] {
        let picture = bytes(&[DraftPort { own_id: 0x0300, ..claims }]);
        let line = format!("refused 11 id 0300 ports 0 by own {by} 0 by own {by}");
        let sentence = format!(": port 0 (03:00.0, a root port) claims its own ID 03:00.0 (0300) {manner}");
        says(&picture, &line, &sentence);
    }
}

#[test]
fn own_ids_that_are_not_reached() {
    for (own_id, written, what) in [
        (0x0110, "01:02.0", "answers configuration requests for it with Unsupported Request"),
        (0x0200, "02:00.0", "passes configuration requests for it on as Type 1"),
    ] {
        let picture = bytes(&[root().buses(1, 2), DraftPort::silent(UPSTREAM, 0, own_id)]);
        let follows = format!(": port 1 ({written}, below port 0, 00:01.0), and port 0 {what}");
        says(&picture, "refused 15 ports 1", &follows);
    }
}

#[test]
fn what_a_parent_does_not_pass_on() {
    let above = [root().buses(1, 4), DraftPort::silent(UPSTREAM, 0, 0x0100).buses(2, 4)];
    let ranged = above[1].clone().vector(Which::Rid, shape(0, 0), &[]).secondary_range(0x60, 0);
    let child = |own_id| DraftPort::silent(DOWNSTREAM, 1, own_id);
    let rid = |port: DraftPort, unit| port.vector(Which::Rid, shape(0, 0), &[unit]);
    let (bus, vector) = ("through its bus range", "through its RID vector");
    let both = format!("{bus} and {vector}");
    for (child, id, by, manner) in [
        (child(0x0200).buses(3, 3), "03:00.0 (0300)", "id 0300 ports 2 by bus", bus),
        (rid(child(0x0200), 0x60), "03:00.0 (0300)", "id 0300 ports 2 by rid", vector),
        (rid(child(0x0200).buses(3, 4), 0x60), "03:00.0 (0300)", "id 0300 ports 2 by bus rid", &both),
        (rid(child(0x0207), 0x41), "02:01.0 (0208)", "id 0208 ports 2 by rid", vector),
    ] {
        let own_id = if child.own_id == 0x0200 { "02:00.0" } else { "02:00.7" };
        let picture = bytes(&[above[0].clone(), ranged.clone(), child]);
        let port = format!("port 2 ({own_id}, below port 1, 01:00.0, below port 0, 00:01.0)");
        let what = "port 1 makes configuration requests for it Type 0";
        let follows = format!(": ID {id} is claimed by {port} {manner}, and {what}");
        says(&picture, &format!("refused 18 {by}"), &follows);
    }
    let picture = bytes(&[above[0].clone(), rid(DraftPort::silent(UPSTREAM, 0, 0x0100), 0x22)]);
    let follows = ": ID 01:02.0 (0110) is claimed by port 1 (01:00.0, below port 0, 00:01.0) \
                   through its RID vector, \
                   and port 0 answers configuration requests for it with Unsupported Request";
    says(&picture, "refused 18 id 0110 ports 1 by rid", follows);
}

#[test]
fn the_drawing_of_the_page() {
    let down = |own_id| DraftPort::silent(DOWNSTREAM, 2, own_id).with_memory_space(true);
    let picture = bytes(&[
        root().buses(1, 4).memory(0xE00, 0xEFF),
        DraftPort::silent(ROOT, NO_PARENT, 0x0010),
        DraftPort::silent(UPSTREAM, 0, 0x0100).buses(2, 4).memory(0xE00, 0xEFF),
        down(0x0200).buses(3, 3).vector(Which::Low, shape(0, 0xE00), &[0, 255]),
        down(0x0208).buses(4, 4).with_ari().vector(Which::Rid, shape(0, 0x80), &[7, 8]),
    ]);
    let lines = [
        "-+-00:01.0-[01-04]  port 0, root port; memory e0000000-efffffff",
        " |  \\-01:00.0-[02-04]  port 2, switch upstream port; memory e0000000-efffffff",
        " |     +-02:00.0-[03]  port 3, switch downstream port, device port; MEM Low vector 2 of 256 set, from e0000000 by 1 MiB",
        " |     \\-02:01.0-[04]  port 4, switch downstream port, device port, ARI; RID vector 2 of 256 set, from 04:00.0 by 8 IDs",
        " \\-00:02.0-[]  port 1, root port, device port; memory space off",
    ];
    assert_eq!(tree(&picture), lines.join("\n") + "\n");
}

#[test]
fn windows_vectors_and_one_root_port() {
    let line = |port: DraftPort| tree(&bytes(&[port]));
    let begin = "---00:01.0-[]  port 0, root port, device port";
    let high = root().vector(Which::High, shape(7, 0x80), &[]);
    assert_eq!(
        line(high),
        format!(
            "{begin}; memory space off; MEM High vector 0 of 256 set, from 0000000800000000 by 32768 MiB\n"
        )
    );
    let type_0 = root().prefetchable_type_0(0xD00, 0xD00);
    assert_eq!(line(type_0), format!("{begin}; prefetchable d0000000-d00fffff\n"));
    let type_1 = root().prefetchable(0xD00, 0x1000);
    assert_eq!(line(type_1), format!("{begin}; prefetchable 00000000d0000000-00000001000fffff\n"));
    assert_eq!(line(root().with_memory_space(true).buses(5, 4)), format!("{begin}\n"));
    assert!(line(root().buses(0, 5)).starts_with("---00:01.0-[00-05]  port 0"));
}

#[test]
fn the_video_range_in_the_drawing() {
    let line = |port: DraftPort| tree(&bytes(&[port]));
    let begin = "---00:01.0-[]  port 0, root port, device port";
    let video = "; video 000a0000-000bffff";
    assert_eq!(line(root().video()), format!("{begin}{video}\n"));
    assert_eq!(line(root().video().with_memory_space(false)), format!("{begin}; memory space off\n"));
    let mut bit_4 = root().with_memory_space(true);
    bit_4.bridge_control = 0x0010;
    assert_eq!(line(bit_4), format!("{begin}\n"));
    let windows = root().memory(0, 0).prefetchable(0, 0).video();
    let before = "; memory 00000000-000fffff; prefetchable 0000000000000000-00000000000fffff";
    assert_eq!(line(windows), format!("{begin}{before}{video}\n"));
    let low = root().video().with_ari().vector(Which::Low, shape(0, 0), &[0]);
    let vector = "; MEM Low vector 1 of 256 set, from 00000000 by 1 MiB";
    assert_eq!(line(low.clone()), format!("{begin}, ARI{video}{vector}\n"));
    assert_eq!(line(low.with_memory_space(false)), format!("{begin}, ARI; memory space off{vector}\n"));
}

#[test]
fn redirect_in_the_drawing() {
    let below = |own_id| DraftPort::silent(DOWNSTREAM, 1, own_id);
    let ports = [
        root().redirecting(),
        DraftPort::silent(UPSTREAM, 0, 0x0100).redirecting(),
        below(0x0200).redirecting(),
        below(0x0208).with_ari().redirecting().memory(0xE00, 0xE00),
        DraftPort { acs_control: !4, ..below(0x0210) },
        DraftPort { acs_control: 0xFFFF, ..DraftPort::silent(ROOT, NO_PARENT, 0x0010) },
        DraftPort::silent(UPSTREAM, 4, 0x0400).redirecting(),
    ];
    let off = "; memory space off";
    let lines = [
        format!("-+-00:01.0-[]  port 0, root port{off}"),
        format!(" |  \\-01:00.0-[]  port 1, switch upstream port{off}"),
        format!(" |     +-02:00.0-[]  port 2, switch downstream port, device port, redirect{off}"),
        " |     +-02:01.0-[]  port 3, switch downstream port, device port, ARI, redirect; memory e0000000-e00fffff"
            .to_string(),
        format!(" |     \\-02:02.0-[]  port 4, switch downstream port{off}"),
        format!(" |        \\-04:00.0-[]  port 6, switch upstream port{off}"),
        format!(" \\-00:02.0-[]  port 5, root port, device port, redirect{off}"),
    ];
    let drawn = tree(&bytes_2(&ports));
    assert_eq!(drawn, lines.join("\n") + "\n");
    assert_eq!(tree(&bytes(&ports)), drawn.replace(", redirect", ""));
}

#[test]
fn a_picture_that_does_not_read_is_refused() {
    assert_eq!(tree(&[]), "refused 1\n");
    let mut picture = bytes(&[root()]);
    picture[16 + 52] = 128;
    assert_eq!(tree(&picture), "refused 10 ports 0\n");
}

#[test]
fn pictures_of_all_numbers_occur_and_one_seed_gives_the_same() {
    let drawn: Vec<Vec<u8>> = pictures(1, 150).collect();
    for number in (0..=15).chain([18]) {
        let is_given = |picture: &&Vec<u8>| match Judge::new(picture).check() {
            Ok(()) => number == 0,
            Err(refusal) => refusal.number == number,
        };
        assert!(drawn.iter().any(|picture| is_given(&picture)), "number {number}");
    }
    assert!(pictures(1, 20).eq(drawn.into_iter().take(20)));
}

/// What the texts of 150 pictures, as many as tests/differential.sh takes, have somewhere.
const PHRASES: [&str; 56] = [
    "it has none",
    "it has more than 65,536.",
    "the header says",
    "unknown kind",
    ", parent ",
    ", no parent",
    "whose parent is a root port",
    "whose parent is a switch upstream port",
    "whose parent is a switch downstream port",
    "with a child already",
    "RID vector is enabled but not supported",
    "MEM Low vector is enabled but not supported",
    "MEM High vector is enabled but not supported",
    "and granularity code",
    "Prefetchable Memory Base",
    "; the two bytes after its ACS Control hold ",
    "RID vector starts at",
    "MEM Low vector starts at",
    "MEM High vector starts at",
    ", in a port with ARI",
    "begin at byte",
    "the last ones do not, and",
    "is held by port",
    "claims its own ID",
    ") as its own ID",
    ") through its bus range",
    ") through its RID vector",
    ") through its memory window",
    ") through its prefetchable window",
    ") through its MEM Low vector",
    " through its MEM High vector",
    ") through its video range",
    " window and through its video range",
    " as its own ID and through its RID vector",
    " through its bus range and through its RID vector",
    " through its memory window and through its prefetchable window",
    " through its memory window and through its MEM Low vector",
    " through its prefetchable window and through its MEM High vector",
    "does not claim it",
    "on as Type 1",
    "with Unsupported Request",
    "is claimed by port",
    ") through its bus range, and port ",
    ") through its RID vector, and port ",
    "makes configuration requests for it Type 0",
    "memory space off",
    "; prefetchable ",
    "device port; video 000a0000-000bffff",
    "; video 000a0000-000bffff; ",
    ", device port, ARI; ",
    ", device port, redirect; ",
    ", device port, ARI, redirect; ",
    "; MEM High vector ",
    "\n |  ",
    "\n    ",
    "-[]  port",
];

#[test]
fn every_phrase_occurs() {
    let texts: String = pictures(1, 150).map(|picture| explain(&picture) + &tree(&picture)).collect();
    for phrase in PHRASES {
        assert!(texts.contains(phrase), "{phrase}");
    }
    let without_granularity =
        |part: &str| part.contains("has size code") && !part.contains("granularity code");
    assert!(texts.split([';', '\n']).any(without_granularity));
    let bytes_behind = |before: &str| {
        let parts =
            texts.lines().filter_map(|line| line.split_once("; the two bytes after its ACS Control hold "));
        parts.filter(|(front, _)| front.contains(before) && front.contains(')')).count()
    };
    assert!(bytes_behind("Prefetchable Memory Base") > 0 && bytes_behind(" vector ") > 0);
    let of_18 = |end: &str| texts.lines().any(|line| line.contains("is claimed by") && line.ends_with(end));
    assert!(of_18("makes configuration requests for it Type 0."));
    assert!(of_18("answers configuration requests for it with Unsupported Request."));
}
