//! How often each number, end, crossing count, set of decoders and so on was given, and how many pictures there
//! are of each edition.

use std::collections::BTreeMap;

use crate::batch::{Lent, Record, Records};
use crate::picture::{edition_of, Edition};

/// The words for the bits of a claim, bit 0 first.
const DECODERS: [&str; 7] = ["bus", "rid", "mem", "pref", "low", "high", "vga"];

/// The words for the values of a conversion.
const CONVERSIONS: [&str; 4] = ["not claimed", "Type 0", "Type 1", "Unsupported Request"];

/// Counts the answers to a batch under what they were asked and what is counted of them.
pub fn tally(batch: &[u8], answers: &str) -> Result<BTreeMap<String, u64>, String> {
    let mut lines = answers.lines();
    let mut counts = BTreeMap::new();
    let mut lent = Lent::of(Vec::new(), Vec::new());
    for record in Records::of(batch) {
        let record = record?;
        lent.lend(&record);
        let counted = match (&record, heading(&record)) {
            (Record::Picture(bytes), _) => format!("picture: {}", edition_words(bytes)),
            (_, None) => continue,
            (call, Some(heading)) => {
                let line = lines.next().ok_or("there are fewer answers than calls")?;
                format!("{heading}{}: {}", redirected_words(&lent, call), gist(heading, line))
            }
        };
        *counts.entry(counted).or_default() += 1;
    }
    Ok(counts)
}

/// The edition of a picture.
fn edition_words(picture: &[u8]) -> &'static str {
    match edition_of(picture) {
        Some(Edition::One) => "edition 1",
        Some(Edition::Two) => "edition 2",
        None => "neither edition",
    }
}

/// What a walk that is redirected has behind its heading.
fn redirected_words(lent: &Lent, call: &Record) -> &'static str {
    match lent.address_walk(call) {
        Some((judge, start, address)) if judge.is_redirected(start, address) => ", redirected",
        _ => "",
    }
}

/// What the answers to a call are counted under; nothing for a record that asks nothing.
fn heading(record: &Record) -> Option<&'static str> {
    match record {
        Record::Picture(_) | Record::Patch(_) => None,
        Record::Report => Some("report"),
        Record::Check => Some("check"),
        Record::Walk { kind: 0, .. } => Some("walk by ID"),
        Record::Walk { kind: 1, .. } => Some("walk by address"),
        Record::Walk { kind: 2, .. } => Some("walk of a configuration request"),
        Record::Walk { .. } => Some("walk of no kind"),
        Record::Claim { .. } => Some("claim"),
        Record::Conversion { .. } => Some("conversion"),
        Record::Holders { .. } => Some("holders"),
        Record::TrialReport => Some("trial report"),
        Record::TrialCheck => Some("trial check"),
        Record::TrialWalk { kind: 0, .. } => Some("trial walk by ID"),
        Record::TrialWalk { kind: 1, .. } => Some("trial walk by address"),
        Record::TrialWalk { kind: 2, .. } => Some("trial walk of a configuration request"),
        Record::TrialWalk { .. } => Some("trial walk of no kind"),
        Record::Part { .. } => Some("part"),
    }
}

/// What is counted of an answer line: the first two words of a report and of a part, the number of a
/// check, number, end and crossings of a walk, the decoders of a claim, the value of a conversion, and
/// how many hold a target.
fn gist(heading: &str, line: &str) -> String {
    let (first, rest) = line.split_once(' ').unwrap_or((line, ""));
    match heading.strip_prefix("trial ").unwrap_or(heading) {
        "report" => match first {
            "refused" => first_two_words(line),
            _ => "clear".to_string(),
        },
        "check" => format!("number {first:>2}"),
        "claim" => value_gist(first, rest, decoders_words),
        "conversion" => value_gist(first, rest, conversion_words),
        "holders" => holders_gist(line),
        "part" => first_two_words(line),
        _ => format!("number {first:>2} end {} crossings {}", &rest[2..4], &rest[8..10]),
    }
}

/// The first two words of a line, or the one that it has.
fn first_two_words(line: &str) -> String {
    line.split(' ').take(2).collect::<Vec<_>>().join(" ")
}

/// The number of a claim or a conversion, and what was written: words for it with 0, else the digits.
fn value_gist(number: &str, digits: &str, words: fn(u32) -> String) -> String {
    match (number, u32::from_str_radix(digits, 16)) {
        ("0", Ok(value)) => format!("number  0 {}", words(value)),
        _ => format!("number {number:>2} {digits}"),
    }
}

/// The words for a set of decoders.
fn decoders_words(bits: u32) -> String {
    let is_set = |place: &usize| bits >> place & 1 == 1;
    let words: Vec<&str> = (0..DECODERS.len()).filter(is_set).map(|place| DECODERS[place]).collect();
    match words.is_empty() {
        true => "none".to_string(),
        false => words.join(" "),
    }
}

/// The word for a conversion.
fn conversion_words(code: u32) -> String {
    CONVERSIONS.get(code as usize).unwrap_or(&"of no kind").to_string()
}

/// How many ports hold a target, or the number that refuses.
fn holders_gist(line: &str) -> String {
    match line.split('/').count() {
        _ if line == "nobody" => "nobody".to_string(),
        _ if line.starts_with("refused") => first_two_words(line),
        1 => "one port".to_string(),
        _ => "several ports".to_string(),
    }
}
