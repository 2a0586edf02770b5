//! The report in words: its lines, and one sentence more that says what the number means here.

use crate::claims::{Conversion, Holding};
use crate::draft::{Which, ALL_VECTORS};
use crate::judge::Judge;
use crate::picture::{header_fields, records_of, Kind, Named, Picture, Record, Refusal, Setting, Target};
use crate::words::{granularity_text, id_text, kind_text, start_text, vector_name};

/// The numbers that the check gives with their texts, as tests/number-texts has them.
pub const NUMBER_TEXTS: [(u8, &str); 17] = [
    (0, "nothing was found wrong"),
    (1, "the picture is shorter than 72 bytes (76 in edition 2) or longer than 65,536"),
    (2, "the picture's edition is neither 1 nor 2"),
    (3, "the picture has no port, or more than 64"),
    (4, "the total length in the header is not the picture's length"),
    (5, "the records or the vectors do not begin where they must, or the records go past the picture's end"),
    (6, "a port breaks a rule of the tree, by its kind, its parent or as a later child"),
    (7, "a port has more than 15 ports above it in its chain"),
    (
        8,
        "a port has a vector enabled that it does not support, a size or granularity that may not be, \
         wrong low bits in a memory register, or bytes after ACS Control that are not zero",
    ),
    (9, "an enabled vector starts where it may not"),
    (10, "a port's vectors do not begin where they must, or the last ones do not end where the picture ends"),
    (11, "an ID has two holders at one place, or a port claims its own ID"),
    (12, "an address has two holders at one place"),
    (13, "a port holds an ID that its parent does not claim"),
    (14, "a port holds an address that its parent does not claim"),
    (15, "a port's own ID is not both claimed and made Type 0 by its parent"),
    (18, "a port claims an ID that its parent makes Type 0 or refuses and does not pass on as Type 1"),
];

/// What follows the text of number 0.
const CLEAR: &str =
    ": no ID or address has two holders at one place, no port holds what its parent does not claim, and \
     the host's configuration requests find every port";

/// How a port holds a target: as its own ID, and through each decoder.
const MANNERS: [&str; 8] = [
    " as its own ID",
    " through its bus range",
    " through its RID vector",
    " through its memory window",
    " through its prefetchable window",
    " through its MEM Low vector",
    " through its MEM High vector",
    " through its video range",
];

/// What the report program prints with `explain`.
pub fn explain(bytes: &[u8]) -> String {
    let judge = Judge::new(bytes);
    let refusal = judge.check().err().unwrap_or(Refusal::bare(0));
    let text = with_upper_case(number_text(refusal.number));
    format!("{}{text}{}.\n", judge.report(), what_follows(bytes, &judge, &refusal))
}

/// The text of a number that the check gives.
pub fn number_text(number: u8) -> &'static str {
    let (_, text) = NUMBER_TEXTS.iter().find(|(given, _)| *given == number).expect("the check gives it");
    text
}

/// The text with its first letter upper case.
pub fn with_upper_case(text: &str) -> String {
    let (first, rest) = text.split_at(1);
    first.to_uppercase() + rest
}

/// What follows the number's text, up to the full stop.
fn what_follows(bytes: &[u8], judge: &Judge, refusal: &Refusal) -> String {
    match refusal.number {
        0 => CLEAR.to_string(),
        1 => length_text(bytes.len()),
        2..=5 => header_text(bytes, refusal.number),
        6..=10 => record_text(bytes, refusal),
        _ => match judge.reading() {
            Ok(picture) => check_text(bytes, picture, refusal),
            Err(_) => String::new(),
        },
    }
}

/// Number 1.
fn length_text(length: usize) -> String {
    match length {
        1 => ": it has 1 byte".to_string(),
        0..=65_536 => format!(": it has {length} bytes"),
        _ => ": it has more than 65,536".to_string(),
    }
}

/// Numbers 2 to 5.
fn header_text(bytes: &[u8], number: u8) -> String {
    match (number, header_fields(bytes)) {
        (2, (edition, _, _)) => format!(": it is {edition}"),
        (3, (_, 0, _)) => ": it has none".to_string(),
        (3, (_, count, _)) => format!(": it has {count}"),
        (4, (_, _, total)) => format!(": the header says {total}, and the picture has {} bytes", bytes.len()),
        _ => String::new(),
    }
}

/// Numbers 6 to 10, each of which names one port, or the end.
fn record_text(bytes: &[u8], refusal: &Refusal) -> String {
    let records = records_of(bytes);
    let port = refusal.ports[0].port as usize;
    match refusal.number {
        6 => format!(": {}", misplaced_port(&records, port)),
        7 => format!(": {}", port_in_tree(&records, port)),
        8 => format!(": {}{}", port_in_tree(&records, port), causes_of_8(&records[port])),
        9 => format!(": {}{}", port_in_tree(&records, port), causes_of_9(&records[port])),
        _ if port == 255 => format!(": the last ones do not, and the picture has {} bytes", bytes.len()),
        _ => {
            let start = records[port].vectors_start();
            format!(": those of {} begin at byte {start}", port_in_tree(&records, port))
        }
    }
}

/// The ports from this one up: `, below port 1, 01:00.0, below port 0, 00:01.0`.
fn below_text(records: &[Record], parent: usize) -> String {
    let record = &records[parent];
    let text = format!(", below port {parent}, {}", id_text(record.own_id()));
    match record.kind() {
        Some(Kind::Root) => text,
        _ => text + &below_text(records, record.parent() as usize),
    }
}

/// A port with the tree above it, which keeps the rules.
pub fn port_in_tree(records: &[Record], port: usize) -> String {
    let record = &records[port];
    let place = match record.kind() {
        Some(Kind::Root) => ", a root port".to_string(),
        _ => below_text(records, record.parent() as usize),
    };
    format!("port {port} ({}{place})", id_text(record.own_id()))
}

/// A port that breaks a rule of the tree. All lower ports keep them.
fn misplaced_port(records: &[Record], port: usize) -> String {
    let record = &records[port];
    let kind = match record.kind() {
        Some(kind) => kind_text(kind).to_string(),
        None => format!("unknown kind {}", record.kind_code()),
    };
    let place = match record.parent() {
        parent if (parent as usize) < port => below_text(records, parent as usize),
        255 => ", no parent".to_string(),
        parent => format!(", parent {parent}"),
    };
    format!("port {port} ({}, {kind}{place}){}", id_text(record.own_id()), parent_text(records, port))
}

/// Of an upstream or downstream port with a lower parent: what the parent is, and whether it had a
/// child before an upstream port.
fn parent_text(records: &[Record], port: usize) -> String {
    let parent = records[port].parent();
    let kind = records[port].kind();
    let Some(parent_kind) = records[..port].get(parent as usize).and_then(Record::kind) else {
        return String::new();
    };
    let has_child = records[..port].iter().any(|other| other.parent() == parent);
    let parent_is = format!(", whose parent is a {}", kind_text(parent_kind));
    match kind {
        Some(Kind::Upstream) if has_child => parent_is + " with a child already",
        Some(Kind::Upstream | Kind::Downstream) => parent_is,
        _ => String::new(),
    }
}

/// Every cause of number 8 at a port.
fn causes_of_8(record: &Record) -> String {
    let vectors = ALL_VECTORS.into_iter().zip(record.settings());
    let mut text: String = vectors.map(|(which, setting)| codes_text(which, &setting)).collect();
    if !record.range_bits_are_good() {
        let [base, limit, prefetchable_base, prefetchable_limit] = record.range_registers();
        text += &format!("; it has Memory Base {base:04x} and Limit {limit:04x}, ");
        text +=
            &format!("Prefetchable Memory Base {prefetchable_base:04x} and Limit {prefetchable_limit:04x}");
    }
    if record.after_acs_control() != 0 {
        text += &format!("; the two bytes after its ACS Control hold {:04x}", record.after_acs_control());
    }
    text
}

/// What is wrong with a vector's enable bit, size and granularity.
fn codes_text(which: Which, setting: &Setting) -> String {
    let name = vector_name(which);
    let mut text = String::new();
    if setting.enabled && !setting.supported {
        text += &format!("; its {name} is enabled but not supported");
    } else if !setting.codes_are_good() {
        text += &format!("; its {name} has size code {}", setting.size_code);
        if setting.enabled {
            text += &format!(" and granularity code {}", setting.granularity_code);
        }
    }
    text
}

/// Every cause of number 9 at a port.
fn causes_of_9(record: &Record) -> String {
    let mut text = String::new();
    for (which, setting) in ALL_VECTORS.into_iter().zip(record.settings()) {
        let breaks_ari = which == Which::Rid && !record.keeps_the_rule_of_ari();
        if breaks_ari || !setting.is_aligned() {
            text += &misplaced_start(which, &setting);
            text += if which == Which::Rid && record.ari() { ", in a port with ARI" } else { "" };
        }
    }
    text
}

/// Where a vector starts, and what its entries stand for.
fn misplaced_start(which: Which, setting: &Setting) -> String {
    let (name, start) = (vector_name(which), start_text(which, setting.start));
    let granularity = granularity_text(which, setting.granularity.expect("number 8 is behind us"));
    format!("; its {name} starts at {start} and has entries of {granularity}")
}

/// An ID or an address in words.
fn target_text(target: Target) -> String {
    match target {
        Target::Id(id) => format!("ID {} ({id:04x})", id_text(id)),
        Target::Address(address) => format!("address {address:016x}"),
    }
}

/// How a port holds the target, where one is named: ` as its own ID and through its RID vector`.
fn manner_text(holding: Option<Holding>) -> String {
    holding.map_or(Vec::new(), |holding| holding.those_of(MANNERS)).join(" and")
}

/// Numbers 11 to 15, and 18.
fn check_text(bytes: &[u8], picture: &Picture, refusal: &Refusal) -> String {
    let records = records_of(bytes);
    let in_tree = |named: &Named| port_in_tree(&records, named.port as usize);
    let holder = |named: &Named| in_tree(named) + &manner_text(named.holding);
    match (refusal.target, refusal.ports.as_slice()) {
        (Some(target), [named, other]) if named.port == other.port => {
            let claim = named.holding.map(|holding| Holding { own: false, ..holding });
            format!(": {} claims its own {}{}", in_tree(named), target_text(target), manner_text(claim))
        }
        (Some(target), [first, second]) => {
            format!(": {} is held by {} and by {}", target_text(target), holder(first), holder(second))
        }
        (Some(Target::Id(id)), [named]) if refusal.number == 18 => {
            let what = conversion_text(picture, named.port as usize, id);
            format!(": {} is claimed by {}, and {what}", target_text(Target::Id(id)), holder(named))
        }
        (Some(target), [named]) => {
            let parent = records[named.port as usize].parent();
            let target = target_text(target);
            format!(": {target} is held by {}, and port {parent} does not claim it", holder(named))
        }
        (_, ports) => {
            let port = ports[0].port as usize;
            let what = conversion_text(picture, port, picture.ports[port].own_id);
            format!(": {}, and {what}", in_tree(&ports[0]))
        }
    }
}

/// What the parent of a port that 15 or 18 names makes of configuration requests for the ID.
fn conversion_text(picture: &Picture, port: usize, id: u16) -> String {
    let parent = picture.ports[port].parent.expect("15 and 18 name no root port");
    let what = match picture.ports[parent].conversion(id) {
        Conversion::Type0 => "makes configuration requests for it Type 0",
        Conversion::Type1 => "passes configuration requests for it on as Type 1",
        Conversion::Unsupported => "answers configuration requests for it with Unsupported Request",
        Conversion::NotClaimed => unreachable!("number 13 is behind us"),
    };
    format!("port {parent} {what}")
}
