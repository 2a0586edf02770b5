//! Hand-written cases with the answers that the papers give: the one-port picture and C1 to C12 of
//! the paper, the numbered decisions on open points, and the cases that a first build gets wrong. Those
//! of decoders by name, of trials, of the video range, of number 18 and of edition 2 are in files of their own.

use crate::batch::Record;
use crate::claim_cases::claim_cases;
use crate::draft::{Draft, DraftPort, VectorShape, Which, DOWNSTREAM, NO_PARENT, ROOT, UPSTREAM};
use crate::edition_cases::edition_cases;
use crate::redirect_cases::redirect_cases;
use crate::stopped_cases::stopped_cases;
use crate::trial_cases::{cases_before_a_patch, trial_cases};
use crate::vga_cases::vga_cases;
use Which::{High, Low, Rid};

/// What a claim writes for each decoder; for several of them their sum, and for none 0.
pub const NONE: u32 = 0;
pub const BUS: u32 = 1;
pub const RID: u32 = 2;
pub const MEM: u32 = 4;
pub const PREF: u32 = 8;
pub const LOW: u32 = 16;
pub const HIGH: u32 = 32;
pub const VGA: u32 = 64;

/// What a conversion writes.
pub const NOT_CLAIMED: u32 = 0;
pub const TYPE_0: u32 = 1;
pub const TYPE_1: u32 = 2;
pub const UNSUPPORTED: u32 = 3;

/// A picture with calls, and the line that answers each of them; a patch where one is lent.
pub struct Case {
    pub name: &'static str,
    pub picture: Vec<u8>,
    pub patch: Option<Vec<u8>>,
    pub calls: Vec<(Record, String)>,
}

/// A root port that claims nothing.
pub fn root(own_id: u16) -> DraftPort {
    DraftPort::silent(ROOT, NO_PARENT, own_id)
}

/// An upstream port that claims nothing.
pub fn up(parent: u8, own_id: u16) -> DraftPort {
    DraftPort::silent(UPSTREAM, parent, own_id)
}

/// A downstream port that claims nothing.
pub fn down(parent: u8, own_id: u16) -> DraftPort {
    DraftPort::silent(DOWNSTREAM, parent, own_id)
}

/// Size code, granularity code, start.
pub fn shape(size_code: u32, granularity_code: u32, start: u64) -> VectorShape {
    VectorShape { size_code, granularity_code, start }
}

/// Entries 0 to 255.
fn all_256() -> Vec<u64> {
    (0..256).collect()
}

/// A case of a drafted picture.
pub fn case(name: &'static str, ports: Vec<DraftPort>, calls: Vec<(Record, String)>) -> Case {
    raw_case(name, Draft::of(ports).bytes(), calls)
}

/// A case of a picture given byte by byte.
pub fn raw_case(name: &'static str, picture: Vec<u8>, calls: Vec<(Record, String)>) -> Case {
    Case { name, picture, patch: None, calls }
}

/// The report gives this line.
pub fn reports(line: &str) -> (Record, String) {
    (Record::Report, line.to_string())
}

/// The check gives this number, these ports (255 where none) and this least target.
pub fn checks(number: u8, port: u8, second: u8, target: Option<u64>) -> (Record, String) {
    let target = target.map_or([255; 8], u64::to_le_bytes);
    (Record::Check, line(number, [0, port, second, 0, 0], &target))
}

/// A walk from a start ends so: end, port, second port and Function number, with this path.
pub fn walks(kind: u32, start: u32, target: u64, end: [u8; 4], path: &[u8]) -> (Record, String) {
    let [end, port, second, function] = end;
    let fields = [end, port, second, path.len() as u8, function];
    (Record::Walk { kind, start, target }, line(0, fields, path))
}

/// A walk is refused with this number, and this port or 255.
pub fn walk_refused(kind: u32, start: u32, target: u64, number: u8, port: u8) -> (Record, String) {
    (Record::Walk { kind, start, target }, line(number, [0, port, 255, 0, 0], &[]))
}

/// The number and the 40 bytes: end, port, second port, crossings, Function number; then the path.
pub fn line(number: u8, fields: [u8; 5], path: &[u8]) -> String {
    let mut bytes = vec![number];
    bytes.extend(fields);
    bytes.extend([0, 0]);
    bytes.extend(path);
    bytes.resize(40, 255);
    let digits: String = bytes.iter().map(|byte| format!("{byte:02x}")).collect();
    format!("{number} {digits}")
}

/// These decoders of a port claim this ID.
pub fn claims_id(port: u32, target: u64, decoders: u32) -> (Record, String) {
    (Record::Claim { port, target_kind: 0, target }, format!("0 {decoders:08x}"))
}

/// These decoders of a port claim this address.
pub fn claims_address(port: u32, target: u64, decoders: u32) -> (Record, String) {
    (Record::Claim { port, target_kind: 1, target }, format!("0 {decoders:08x}"))
}

/// A claim is refused with this number.
pub fn claim_refused(port: u32, target_kind: u32, target: u64, number: u8) -> (Record, String) {
    (Record::Claim { port, target_kind, target }, format!("{number} ffffffff"))
}

/// A port converts a request for this ID so.
pub fn converts(port: u32, id: u64, conversion: u32) -> (Record, String) {
    (Record::Conversion { port, id }, format!("0 {conversion:08x}"))
}

/// A conversion is refused with this number.
pub fn conversion_refused(port: u32, id: u64, number: u8) -> (Record, String) {
    (Record::Conversion { port, id }, format!("{number} ffffffff"))
}

/// A root port, an upstream port and a downstream port in a row, sound, with a device at the end.
pub fn chain_of_three(downstream: DraftPort) -> Vec<DraftPort> {
    vec![root(0x0008).buses(1, 5), up(0, 0x0100).buses(2, 5), downstream]
}

/// A downstream port of that chain, with buses 3 to 5.
pub fn downstream_3_to_5() -> DraftPort {
    down(1, 0x0200).buses(3, 5)
}

/// Ports in one chain: root, upstream, downstream, upstream and so on, all claiming one range of memory.
pub fn chain(first_port: u8, length: u8, base_mib: u16) -> Vec<DraftPort> {
    (0..length)
        .map(|step| {
            let parent = (first_port + step).wrapping_sub(1);
            let port = match step {
                0 => root(first_port as u16),
                _ if step % 2 == 1 => up(parent, 0),
                _ => down(parent, 0),
            };
            port.memory(base_mib, base_mib)
        })
        .collect()
}

/// Every hand-written case.
pub fn all_cases() -> Vec<Case> {
    [
        cases_before_a_patch(),
        paper_cases(),
        answer_cases(),
        register_cases(),
        reading_cases(),
        walking_cases(),
        first_build_cases(),
        scan_cases(),
        claim_cases(),
        trial_cases(),
        vga_cases(),
        stopped_cases(),
        edition_cases(),
        redirect_cases(),
    ]
    .into_iter()
    .flatten()
    .collect()
}

/// The one-port picture of the paper, byte by byte.
pub fn one_port_picture() -> Vec<u8> {
    let mut picture = vec![
        0x01, 0x00, 0x01, 0x00, 0x48, 0x00, 0x00, 0x00, 0x10, 0x00, 0x00, 0x00, 0x48, 0x00, 0x00, 0x00, 0x00,
        0xFF, 0x08, 0x00, 0x02, 0x00, 0x01, 0x01, 0x00, 0xE0, 0x00, 0xE0, 0xF0, 0xFF, 0x00, 0x00,
    ];
    picture.extend([0; 36]);
    picture.extend([0x48, 0x00, 0x00, 0x00]);
    picture
}

/// Two root ports whose vectors of 256 entries are all set, so that set bits follow each vector.
fn two_full_ports() -> Vec<DraftPort> {
    let full = |own_id| {
        root(own_id)
            .vector(Rid, shape(0, 0, 0), &all_256())
            .vector(Low, shape(0, 0, 0), &all_256())
            .vector(High, shape(0, 0, 16), &all_256())
            .with_memory_space(true)
    };
    vec![full(0xFFFF), full(0xFFFE)]
}

/// A root port and an upstream port below it that is good as far as IDs go.
pub fn parent_and_child(parent: DraftPort, child: DraftPort) -> Vec<DraftPort> {
    let above = DraftPort { kind: ROOT, parent: NO_PARENT, own_id: 8, ..parent.buses(1, 1) };
    let below = DraftPort { kind: UPSTREAM, parent: 0, own_id: 0x0100, ..child };
    vec![above, below]
}

/// The examples of the paper itself.
fn paper_cases() -> Vec<Case> {
    let rid = |start, granularity, entries: &[u64]| {
        vec![root(0xFFFF).vector(Rid, shape(0, granularity, start), entries)]
    };
    let low =
        |entries: &[u64]| vec![root(0).vector(Low, shape(0, 4, 0x800), entries).with_memory_space(true)];
    let high = |entries: &[u64]| vec![root(0).vector(High, shape(0, 0, 16), entries).with_memory_space(true)];
    vec![
        raw_case(
            "one port",
            one_port_picture(),
            vec![
                reports("ports 1/clear"),
                checks(0, 255, 255, None),
                claims_address(0, 0xE000_0000, MEM),
                walks(1, 255, 0xE00F_FFFF, [1, 0, 255, 0], &[0]),
                walks(0, 255, 0x0008, [2, 0, 255, 0], &[]),
                walks(0, 0, 0x0008, [2, 0, 255, 0], &[0]),
            ],
        ),
        case("C1", rid(0, 0, &[255]), vec![claims_id(0, 2_047, RID), claims_id(0, 2_039, NONE)]),
        case("C2", rid(0, 0, &all_256()), vec![claims_id(0, 2_047, RID), claims_id(0, 2_048, NONE)]),
        case(
            "C2: set bits after each vector",
            two_full_ports(),
            vec![
                claims_id(0, 2_047, RID),
                claims_id(0, 2_048, NONE),
                claims_address(0, 0x0FFF_FFFF, LOW),
                claims_address(0, 0x1000_0000, NONE),
                claims_address(0, 0x10_FFFF_FFFF, HIGH),
                claims_address(0, 0x11_0000_0000, NONE),
            ],
        ),
        case("C3", rid(32, 3, &all_256()), vec![claims_id(0, 255, NONE), claims_id(0, 256, RID)]),
        case("C4: entry 0", rid(32, 3, &[0]), vec![claims_id(0, 319, RID), claims_id(0, 320, NONE)]),
        case("C4: entry 1", rid(32, 3, &[1]), vec![claims_id(0, 319, NONE), claims_id(0, 320, RID)]),
        case(
            "C5",
            low(&[127]),
            vec![claims_address(0, 0xFFFF_FFFF, LOW), claims_address(0, 0xFEFF_FFFF, NONE)],
        ),
        case(
            "C6",
            low(&all_256()),
            vec![claims_address(0, 0xFFFF_FFFF, LOW), claims_address(0, 0x1_0000_0000, NONE)],
        ),
        case(
            "C7",
            high(&[1]),
            vec![
                claims_address(0, 0x1_1000_0000, HIGH),
                claims_address(0, 0x1_0FFF_FFFF, NONE),
                claims_address(0, 0x1_2000_0000, NONE),
            ],
        ),
        case(
            "C8",
            vec![root(0).memory(0xE01, 0xE00)],
            vec![claims_address(0, 0xE000_0000, NONE), claims_address(0, 0xE010_0000, NONE)],
        ),
        case(
            "C9",
            vec![root(0).memory(0, 0)],
            vec![
                claims_address(0, 0, MEM),
                claims_address(0, 0xF_FFFF, MEM),
                claims_address(0, 0x10_0000, NONE),
            ],
        ),
        case(
            "C10",
            chain_of_three(downstream_3_to_5()),
            vec![
                reports("ports 3/clear"),
                converts(2, 0x0308, UNSUPPORTED),
                walks(2, 255, 0x0308, [4, 2, 255, 0], &[0, 1]),
            ],
        ),
        case(
            "C11",
            chain_of_three(downstream_3_to_5().with_ari()),
            vec![
                converts(2, 0x0308, TYPE_0),
                walks(2, 255, 0x0308, [1, 2, 255, 8], &[0, 1, 2]),
                walks(2, 255, 0x03FF, [1, 2, 255, 0xFF], &[0, 1, 2]),
            ],
        ),
        case(
            "C12",
            chain_of_three(downstream_3_to_5()),
            vec![
                converts(2, 0x0400, TYPE_1),
                walks(2, 255, 0x0400, [4, 2, 255, 0], &[0, 1, 2]),
                walks(2, 255, 0x0307, [1, 2, 255, 7], &[0, 1, 2]),
            ],
        ),
    ]
}

/// Ten ports of which 2 and 9 (below a switch) and 4 (at the root) all hold 0500h.
fn pairs_at_0500(own_of_2: u16) -> Vec<DraftPort> {
    vec![
        root(0x0001),
        up(0, 0x0002),
        down(1, own_of_2).buses(5, 5),
        root(0x0004),
        root(0x0500).buses(5, 5),
        root(0x0006),
        root(0x0007),
        root(0x0008),
        root(0x0009),
        down(1, 0x000A).buses(5, 5),
    ]
}

/// Open points 1 to 10: answers and calls.
fn answer_cases() -> Vec<Case> {
    let mut one_byte_more = Draft::of(vec![root(0)]).bytes();
    one_byte_more.push(0);
    one_byte_more[4] += 1;
    let mut edition_3 = one_port_picture();
    edition_3[0] = 3;
    let silent_roots = |count: u16| (0..count).map(root).collect::<Vec<_>>();
    let mut claims_own = silent_roots(4);
    claims_own.push(root(0x0308).buses(3, 3));
    let mut eight_and_nine = silent_roots(6);
    eight_and_nine[2].give_vector(Rid, shape(0, 3, 1));
    eight_and_nine[5].memory_base = 0xFFF1;
    vec![
        raw_case(
            "decision 1: the end of the vectors",
            one_byte_more,
            vec![reports("refused 10 ports 255"), checks(10, 255, 255, None)],
        ),
        raw_case(
            "decision 1: no port named",
            edition_3.clone(),
            vec![reports("refused 2"), checks(2, 255, 255, None)],
        ),
        case(
            "decision 2: a port claims its own ID",
            claims_own,
            vec![
                reports("refused 11 id 0308 ports 4 by own bus 4 by own bus"),
                checks(11, 4, 4, Some(0x0308)),
            ],
        ),
        raw_case(
            "decision 3: reading comes before 16",
            edition_3,
            vec![
                walk_refused(3, 254, 0x1_0000, 2, 255),
                claim_refused(99, 0, 0, 2),
                conversion_refused(99, 0x1_0000, 2),
            ],
        ),
        raw_case(
            "decision 3: number 16",
            one_port_picture(),
            vec![
                walk_refused(3, 255, 0, 16, 255),
                walk_refused(0, 255, 0x1_0000, 16, 255),
                walk_refused(2, 255, 0x1_0000_0000, 16, 255),
                walk_refused(1, 1, 0, 16, 255),
                claim_refused(1, 0, 0, 16),
                claim_refused(0, 0, 0x1_0000, 16),
                conversion_refused(1, 0, 16),
                conversion_refused(0, 0x1_0000, 16),
            ],
        ),
        raw_case(
            "decision 4: no ports at the host",
            one_port_picture(),
            vec![
                walks(0, 255, 0xFFFF, [3, 255, 255, 0], &[]),
                walks(2, 255, 0xFFFF, [3, 255, 255, 0], &[]),
                walks(1, 0, 0, [3, 255, 255, 0], &[0]),
            ],
        ),
        case(
            "decision 5: all ports before the next number",
            eight_and_nine,
            vec![reports("refused 8 ports 5"), checks(8, 5, 255, None)],
        ),
        case(
            "decision 6: the check's answer",
            vec![root(1), up(0, 0x0308)],
            vec![reports("refused 13 id 0308 ports 1 by own"), checks(13, 1, 255, Some(0x0308))],
        ),
        case(
            "decision 7: own ID before claim",
            vec![root(0x0308).buses(3, 3)],
            vec![
                walks(0, 255, 0x0308, [2, 0, 255, 0], &[]),
                walks(2, 255, 0x0308, [2, 0, 255, 0], &[]),
                walks(0, 0, 0x0308, [4, 0, 255, 0], &[]),
            ],
        ),
        case(
            "decision 8: 2, 9 before 4, 4",
            pairs_at_0500(0x0003),
            vec![reports("refused 11 id 0500 ports 2 by bus 9 by bus"), checks(11, 2, 9, Some(0x0500))],
        ),
        case(
            "decision 8: 2, 2 before both",
            pairs_at_0500(0x0500),
            vec![reports("refused 11 id 0500 ports 2 by own bus 2 by own bus")],
        ),
        case(
            "decision 9: doubled holders",
            vec![root(0x0308), root(1), root(2).buses(3, 3), root(3).buses(3, 4)],
            vec![walks(2, 255, 0x0308, [5, 0, 2, 0], &[]), walks(2, 255, 0x0309, [5, 2, 3, 0], &[])],
        ),
        case(
            "decision 9: doubled own IDs and claims",
            doubled_below_a_switch(),
            vec![walks(2, 255, 0x0200, [5, 3, 4, 0], &[0, 1]), walks(2, 255, 0x0400, [5, 2, 4, 0], &[0, 1])],
        ),
        raw_case(
            "decision 10: nothing is cut off",
            one_port_picture(),
            vec![
                walk_refused(0, 300, 8, 16, 255),
                walk_refused(0, 256, 8, 16, 255),
                walk_refused(0, 511, 8, 16, 255),
                walk_refused(256, 255, 8, 16, 255),
                walk_refused(0, 255, 0x1_0008, 16, 255),
            ],
        ),
    ]
}

/// One entry that two siblings share, and one that a parent lacks, on either side of every border that a
/// search by bytes, by eight bytes or to the vector's end can get wrong.
fn scan_cases() -> Vec<Case> {
    let high = |port: DraftPort, entries: Vec<u64>| {
        port.vector(High, shape(5, 0, 16), &entries).with_memory_space(true)
    };
    let address = |entry: u64| Some((16 + entry) << 28);
    let pair = |entry: u64| {
        let shared = vec![high(root(0), vec![entry]), high(root(1), vec![entry])];
        let all_but_one = (0..8_192).filter(|&other| other != entry).collect();
        let lacking = parent_and_child(high(root(0), all_but_one), high(root(0), (0..8_192).collect()));
        [
            case("item 5: one entry shared", shared, vec![checks(12, 0, 1, address(entry))]),
            case("item 5: one entry lacking above", lacking, vec![checks(14, 1, 255, address(entry))]),
        ]
    };
    [0, 1, 7, 8, 62, 63, 64, 65, 127, 128, 4_095, 8_127, 8_128, 8_190, 8_191]
        .into_iter()
        .flat_map(pair)
        .collect()
}

/// A switch whose ports 3 and 4 have own ID 0200h, while 2 and 4 claim bus 4, as does nobody's own.
fn doubled_below_a_switch() -> Vec<DraftPort> {
    vec![
        root(0x0008).buses(1, 5),
        up(0, 0x0100).buses(2, 5),
        down(1, 0x0210).buses(4, 4).vector(Rid, shape(0, 0, 64), &[0]),
        down(1, 0x0200),
        down(1, 0x0200).buses(4, 5),
    ]
}

/// Open points 12 to 16 and 20 to 22: registers.
fn register_cases() -> Vec<Case> {
    let ari = || root(0).with_ari();
    let mut no_vga = root(0).with_memory_space(true);
    no_vga.bridge_control = 0xFFF7;
    let mut reserved = root(0);
    reserved.capabilities = 0xF8F8_F800 | 0x0707_0700;
    reserved.rid_control_1 = 0xFFFF_FFFE;
    reserved.rid_control_2 = 0xFFFF_FFFF;
    reserved.low_control = 0xFFFF_FFFE;
    reserved.high_control_1 = 0xFFFF_FFFE;
    reserved.high_control_2 = 0xFFFF_FFFF;
    reserved.command = 0xFFFF;
    reserved.device_control_2 = 0xFFFF;
    let mut not_enabled = root(0).vector(Rid, shape(0, 15, 0x1FFF), &all_256());
    not_enabled.set_enabled(Rid, false);
    let mut not_enabled_reserved = root(0);
    not_enabled_reserved.support(Rid, 1, 64);
    let mut memory_off = root(0);
    memory_off.prefetchable_limit = 1;
    let edge_vectors = root(0)
        .vector(Rid, shape(0, 0, 0x1FFF), &all_256())
        .vector(Low, shape(0, 0, 0xFFF), &all_256())
        .vector(High, shape(0, 0, 0xF_FFFF_FFFF), &all_256())
        .with_memory_space(true);
    let high_from_0 = root(0).vector(High, shape(0, 0, 0), &(0..16).collect::<Vec<_>>());
    vec![
        case(
            "decision 12: ARI and granularity 0",
            vec![ari().vector(Rid, shape(0, 0, 32), &[0])],
            vec![reports("ports 1/clear")],
        ),
        case(
            "decision 12: ARI and Secondary Start",
            vec![ari().vector(Rid, shape(0, 5, 32), &[0]).secondary_range(0x21, 0)],
            vec![
                reports("ports 1/clear"),
                converts(0, 0x01F9, TYPE_0),
                walks(2, 255, 0x01F9, [1, 0, 255, 0xF9], &[0]),
            ],
        ),
        case(
            "decision 13: all of Bridge Control but VGA Enable",
            vec![no_vga],
            vec![reports("ports 1/clear"), claims_address(0, 0xA_0000, NONE)],
        ),
        case(
            "decision 14: entries past the space",
            vec![edge_vectors, root(1).prefetchable(4096, 4096)],
            vec![
                reports("ports 2/clear"),
                claims_id(0, 0xFFF8, RID),
                claims_id(0, 0, NONE),
                claims_address(0, 0xFFFF_FFFF, LOW),
                claims_address(0, 0x1_0000_0000, NONE),
                claims_address(0, u64::MAX, HIGH),
                claims_address(0, 0, NONE),
            ],
        ),
        case(
            "decision 14: High entries below 4 GiB",
            vec![high_from_0.with_memory_space(true)],
            vec![reports("ports 1/clear"), claims_address(0, 0, NONE), claims_address(0, 0xFFFF_FFFF, NONE)],
        ),
        case("decision 15: reserved bits", vec![reserved], vec![reports("ports 1/clear")]),
        case(
            "decision 16: supported, not enabled",
            vec![not_enabled],
            vec![reports("ports 1/clear"), claims_id(0, 0xFFFF, NONE)],
        ),
        case(
            "decision 16: its size still counts",
            vec![not_enabled_reserved],
            vec![reports("refused 8 ports 0")],
        ),
        case("decision 21: Memory Space Enable off", vec![memory_off], vec![reports("refused 8 ports 0")]),
        case(
            "decision 22: ARI rule of number 9",
            vec![ari().vector(Rid, shape(0, 0, 31), &[])],
            vec![reports("refused 9 ports 0")],
        ),
        case(
            "decision 22: ARI means nothing upstream",
            vec![
                root(0).buses(1, 1),
                up(0, 0x0100).with_ari().vector(Rid, shape(0, 0, 33), &[]).secondary_range(33, 0),
            ],
            vec![reports("ports 2/clear"), walks(2, 255, 0x0100, [2, 1, 255, 0], &[0])],
        ),
    ]
}

/// A picture of one port that breaks rule 5 in one of its ways.
fn broken_offset(at: usize, value: u8) -> Vec<u8> {
    let mut picture = one_port_picture();
    picture[at] = value;
    picture
}

/// Open points 17 to 20: reading.
fn reading_cases() -> Vec<Case> {
    let mut past_the_end = one_port_picture();
    past_the_end[2] = 2;
    past_the_end[12] = 128;
    let mut starts = Draft::of(vec![root(0), root(1), root(2)]).bytes();
    let start_of = |port: usize| 16 + 56 * port + 52;
    starts[start_of(1)] ^= 1;
    starts[start_of(2)] ^= 1;
    let refused = |line: &str| vec![reports(line)];
    let six = |name, ports: Vec<DraftPort>| {
        let line = format!("refused 6 ports {}", ports.len() - 1);
        case(name, ports, vec![reports(&line)])
    };
    vec![
        raw_case("decision 17: records", broken_offset(8, 17), refused("refused 5")),
        raw_case("decision 17: vectors", broken_offset(12, 71), refused("refused 5")),
        raw_case("decision 17: past the end", past_the_end, refused("refused 5")),
        six("decision 18: kind over 2", vec![root(0), DraftPort::silent(3, 255, 1)]),
        six("decision 18: root with a parent", vec![root(0), DraftPort::silent(ROOT, 0, 1)]),
        six("decision 18: parent is itself", vec![root(0), up(1, 1)]),
        six("decision 18: parent 255", vec![root(0), up(255, 1)]),
        six("decision 18: upstream below upstream", vec![root(0), up(0, 1), up(1, 2)]),
        six("decision 18: a second child", vec![root(0), up(0, 1), up(0, 2)]),
        six("decision 18: downstream below root", vec![root(0), down(0, 1)]),
        six("decision 18: downstream below downstream", vec![root(0), up(0, 1), down(1, 2), down(2, 3)]),
        case(
            "decision 19: 16 ports on a chain",
            chain(0, 16, 1),
            refused("refused 13 id 0000 ports 1 by own"),
        ),
        case("decision 19: 17 ports on a chain", chain(0, 17, 1), refused("refused 7 ports 16")),
        case("decision 19: 19 ports on a chain", chain(0, 19, 1), refused("refused 7 ports 16")),
        raw_case("decision 20: the lowest start", starts, refused("refused 10 ports 1")),
    ]
}

/// Open points 23 to 27: walking and converting.
fn walking_cases() -> Vec<Case> {
    let flattened = vec![
        root(0x0008).buses(1, 255),
        up(0, 0x0100).buses(2, 3).vector(Rid, shape(0, 5, 0), &[0, 255]).secondary_range(0x1FFF, 31),
        down(1, 0xFFF8),
        down(1, 0x0200),
    ];
    let by_pair_only =
        vec![root(0x0008).buses(1, 3).vector(Rid, shape(0, 0, 0), &[]).secondary_range(0x61, 0)];
    vec![
        case(
            "decision 23: what is crossed",
            chain_of_three(downstream_3_to_5()),
            vec![
                walks(2, 255, 0x0300, [1, 2, 255, 0], &[0, 1, 2]),
                walks(2, 255, 0x0310, [4, 2, 255, 0], &[0, 1]),
                walks(2, 255, 0x0108, [4, 0, 255, 0], &[]),
                walks(2, 2, 0x0300, [4, 2, 255, 0], &[]),
            ],
        ),
        case(
            "decision 24: own IDs under Type 0",
            vec![
                root(0x0008).buses(1, 5),
                up(0, 0x0100).buses(2, 5),
                down(1, 0x0200).buses(4, 4),
                down(1, 0x0201).buses(2, 2),
            ],
            vec![
                walks(2, 255, 0x0200, [2, 2, 255, 0], &[0, 1]),
                walks(2, 255, 0x0208, [4, 1, 255, 0], &[0, 1]),
            ],
        ),
        case(
            "decision 24: claims under Type 1",
            vec![
                root(0x0008).buses(1, 5),
                up(0, 0x0100).buses(2, 5),
                down(1, 0x0400).buses(4, 4),
                down(1, 0x0408),
            ],
            vec![
                walks(2, 255, 0x0400, [1, 2, 255, 0], &[0, 1, 2]),
                walks(2, 255, 0x0408, [4, 2, 255, 0], &[0, 1]),
                walks(2, 255, 0x0500, [4, 1, 255, 0], &[0, 1]),
            ],
        ),
        case(
            "decision 25: no wrap past unit 8,191",
            flattened,
            vec![
                converts(1, 0xFFF8, TYPE_0),
                converts(1, 0xFFF0, TYPE_1),
                converts(1, 0x0000, TYPE_1),
                walks(2, 255, 0xFFF8, [2, 2, 255, 0], &[0, 1]),
                walks(2, 255, 0x0200, [2, 3, 255, 0], &[0, 1]),
                walks(2, 255, 0x0300, [4, 1, 255, 0], &[0, 1]),
            ],
        ),
        case(
            "decision 25: an ID that only the pair claims",
            by_pair_only,
            vec![
                converts(0, 0x0308, TYPE_0),
                converts(0, 0x0300, TYPE_1),
                converts(0, 0x0100, TYPE_0),
                converts(0, 0x0108, UNSUPPORTED),
                converts(0, 0x0400, NOT_CLAIMED),
            ],
        ),
        case(
            "decision 26: bus pair from 0",
            vec![root(0xFFFF).buses(0, 1), root(0xFFFE).buses(0, 0), root(0xFFFD).buses(3, 2)],
            vec![
                reports("ports 3/clear"),
                claims_id(0, 0, BUS),
                claims_id(0, 0x01FF, BUS),
                claims_id(0, 0x0200, NONE),
                claims_id(1, 0, NONE),
                claims_id(2, 0x0300, NONE),
                claims_id(2, 0x0200, NONE),
            ],
        ),
        case(
            "decision 26: own decoders may overlap",
            vec![root(0)
                .memory(0, 0xFFF)
                .prefetchable(0, 0xF_FFFF)
                .vector(Low, shape(0, 0, 0), &[0])
                .buses(1, 1)
                .vector(Rid, shape(0, 5, 0), &[1])],
            vec![reports("ports 1/clear")],
        ),
        case(
            "decision 27: upstream without children",
            vec![root(0).buses(1, 2), up(0, 0x0100).buses(2, 2)],
            vec![
                reports("ports 2/clear"),
                walks(0, 255, 0x0200, [4, 1, 255, 0], &[0, 1]),
                walks(2, 255, 0x0200, [4, 1, 255, 0], &[0, 1]),
                walks(0, 255, 0x0101, [4, 0, 255, 0], &[0]),
                walk_refused(0, 1, 0x0200, 16, 255),
                walk_refused(0, 0, 0x0200, 16, 255),
            ],
        ),
    ]
}

/// Cases that a first build gets wrong.
fn first_build_cases() -> Vec<Case> {
    let top_mib = 0xFFF_FFFF_FFFF;
    let top = || root(1).prefetchable(top_mib, top_mib);
    let last_unit = |own_id| root(own_id).vector(Rid, shape(0, 0, 0x1FFF), &[0]);
    let high = |own_id, granularity, start, entries: &[u64]| {
        root(own_id).vector(High, shape(0, granularity, start), entries).with_memory_space(true)
    };
    let mut all_zero_prefetchable = root(0).with_memory_space(true);
    all_zero_prefetchable.prefetchable_base = 0;
    vec![
        case(
            "first build: 4 GiB is the edge of no register",
            vec![high(0, 5, 0, &[0]), high(1, 6, 0, &[0])],
            vec![
                reports("refused 12 addr 0000000100000000 ports 0 by high 1 by high"),
                checks(12, 0, 1, Some(0x1_0000_0000)),
            ],
        ),
        case(
            "first build: 4 GiB is the least address not claimed above",
            vec![root(1).buses(1, 1), DraftPort { kind: UPSTREAM, parent: 0, ..high(0x0100, 7, 0, &[0]) }],
            vec![reports("refused 14 addr 0000000100000000 ports 1 by high")],
        ),
        case(
            "first build: the last address",
            vec![root(0).memory(0, 0), top()],
            vec![
                reports("ports 2/clear"),
                claims_address(1, u64::MAX, PREF),
                claims_address(1, u64::MAX - 0xF_FFFF, PREF),
                claims_address(1, u64::MAX - 0x10_0000, NONE),
                claims_address(1, 0, NONE),
                walks(1, 255, u64::MAX, [1, 1, 255, 0], &[1]),
            ],
        ),
        case(
            "first build: overlap at the last MiB",
            vec![high(0, 0, 0xF_FFFF_FFFF, &[0]), top()],
            vec![reports("refused 12 addr fffffffffff00000 ports 0 by high 1 by pref")],
        ),
        case(
            "first build: High does not come round",
            vec![
                high(0, 0, 0xF_FFFF_FFFF, &all_256()),
                high(1, 0, 16, &[0]),
                high(2, 7, 0xF_FFFF_FF00, &[2, 3]),
            ],
            vec![
                reports("ports 3/clear"),
                claims_address(0, 0x1_0000_0000, NONE),
                claims_address(0, u64::MAX, HIGH),
                claims_address(2, u64::MAX, NONE),
            ],
        ),
        case(
            "first build: all-zero Prefetchable",
            vec![all_zero_prefetchable],
            vec![
                claims_address(0, 0, PREF),
                claims_address(0, 0xF_FFFF, PREF),
                claims_address(0, 0x10_0000, NONE),
            ],
        ),
        case(
            "first build: 31 crossings",
            [chain(0, 15, 1), chain(15, 16, 2)].concat(),
            vec![walks(
                1,
                14,
                0x20_0000,
                [4, 30, 255, 0],
                &[
                    14, 13, 12, 11, 10, 9, 8, 7, 6, 5, 4, 3, 2, 1, 0, 15, 16, 17, 18, 19, 20, 21, 22, 23, 24,
                    25, 26, 27, 28, 29, 30,
                ],
            )],
        ),
        case(
            "first build: overlap at FFFFh",
            vec![root(0xFFFF), last_unit(0)],
            vec![reports("refused 11 id ffff ports 0 by own 1 by rid"), checks(11, 0, 1, Some(0xFFFF))],
        ),
        case(
            "first build: overlap of the last unit",
            vec![last_unit(0), root(0x0001), last_unit(2)],
            vec![reports("refused 11 id fff8 ports 0 by rid 2 by rid")],
        ),
        case(
            "first build: overlap far apart in number",
            (0..10u16)
                .map(|port| match port {
                    2 => root(2).vector(Rid, shape(0, 0, 0x60), &[7]),
                    9 => root(9).buses(3, 3),
                    _ => root(port),
                })
                .collect(),
            vec![reports("refused 11 id 0338 ports 2 by rid 9 by bus")],
        ),
        case(
            "first build: overlap between granularities",
            vec![
                root(0).vector(Low, shape(0, 0, 0x10), &[3, 9]).with_memory_space(true),
                root(1).vector(Low, shape(0, 3, 0x10), &[1]).with_memory_space(true),
            ],
            vec![reports("refused 12 addr 0000000001900000 ports 0 by low 1 by low")],
        ),
        case(
            "first build: Prefetchable against High",
            vec![root(0).prefetchable(0x1030, 0x1031), high(1, 0, 16, &[0])],
            vec![reports("refused 12 addr 0000000103000000 ports 0 by pref 1 by high")],
        ),
        case(
            "first build: number 15 by itself",
            vec![root(0x0008).buses(1, 5), up(0, 0x0100).buses(2, 5), down(1, 0x0300)],
            vec![reports("refused 15 ports 2"), checks(15, 2, 255, None)],
        ),
        case(
            "first build: the end of a granule above",
            parent_and_child(
                root(0).vector(Low, shape(0, 0, 0), &[0, 1, 2, 3]).with_memory_space(true),
                root(0).memory(0, 7),
            ),
            vec![reports("refused 14 addr 0000000000400000 ports 1 by mem")],
        ),
        case(
            "first build: the end of a High granule above",
            parent_and_child(high(0, 1, 16, &[0, 1, 3]), root(0).prefetchable(0x1000, 0x1FFF)),
            vec![reports("refused 14 addr 0000000140000000 ports 1 by pref")],
        ),
        case(
            "first build: the end of a range above",
            parent_and_child(
                root(0).memory(0, 2).prefetchable_type_0(3, 4),
                root(0).vector(Low, shape(0, 4, 0), &[0]).with_memory_space(true),
            ),
            vec![reports("refused 14 addr 0000000000500000 ports 1 by low")],
        ),
        case(
            "first build: an escape behind the end of a RID granule",
            vec![
                root(8).vector(Rid, shape(0, 3, 0), &[8, 4, 5, 6]).secondary_range(64, 0),
                up(0, 0x0200).buses(1, 1),
            ],
            vec![reports("refused 13 id 01c0 ports 1 by bus")],
        ),
        case(
            "first build: a completion for a downstream port",
            chain_of_three(downstream_3_to_5()),
            vec![
                walks(0, 2, 0x0200, [2, 2, 255, 0], &[2]),
                walks(0, 2, 0x0100, [2, 1, 255, 0], &[2, 1]),
                walks(0, 2, 0x0008, [2, 0, 255, 0], &[2, 1, 0]),
                walks(0, 2, 0x0300, [4, 2, 255, 0], &[]),
            ],
        ),
    ]
}
