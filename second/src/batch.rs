//! The batch protocol: a stream of little-endian records, each beginning with one letter, and one
//! answer line for each record but `P` and `Q`.

use std::cell::OnceCell;
use std::fmt;

use crate::judge::Judge;
use crate::patch::{part, Part, Slice};
use crate::picture::Refusal;
use crate::stream::Stream;

/// What one record of a batch lends or asks.
#[derive(Clone, Debug, PartialEq, Eq)]
pub enum Record {
    Picture(Vec<u8>),
    Patch(Vec<u8>),
    Report,
    Check,
    Walk { kind: u32, start: u32, target: u64 },
    Claim { port: u32, target_kind: u32, target: u64 },
    Conversion { port: u32, id: u64 },
    Holders { target_kind: u32, target: u64 },
    TrialReport,
    TrialCheck,
    TrialWalk { kind: u32, start: u32, target: u64 },
    Part { port: u32, mechanism: u32 },
}

impl Record {
    /// Does the record ask something, so that a line answers it?
    pub fn is_call(&self) -> bool {
        !matches!(self, Record::Picture(_) | Record::Patch(_))
    }

    /// Does it ask about picture and patch?
    pub fn is_of_trial(&self) -> bool {
        use Record::{Part, TrialCheck, TrialReport, TrialWalk};
        matches!(self, TrialReport | TrialCheck | TrialWalk { .. } | Part { .. })
    }

    /// Appends the record to a batch.
    pub fn write(&self, out: &mut Vec<u8>) {
        match self {
            Record::Picture(bytes) => write_lent(out, b'P', bytes),
            Record::Patch(bytes) => write_lent(out, b'Q', bytes),
            Record::Report => write_call(out, b'R', &[], None),
            Record::Check => write_call(out, b'C', &[], None),
            Record::Walk { kind, start, target } => write_call(out, b'W', &[*kind, *start], Some(*target)),
            Record::Claim { port, target_kind, target } => {
                write_call(out, b'L', &[*port, *target_kind], Some(*target));
            }
            Record::Conversion { port, id } => write_call(out, b'V', &[*port], Some(*id)),
            Record::Holders { target_kind, target } => write_call(out, b'H', &[*target_kind], Some(*target)),
            Record::TrialReport => write_call(out, b'X', &[], None),
            Record::TrialCheck => write_call(out, b'T', &[], None),
            Record::TrialWalk { kind, start, target } => {
                write_call(out, b'U', &[*kind, *start], Some(*target));
            }
            Record::Part { port, mechanism } => write_call(out, b'S', &[*port, *mechanism], None),
        }
    }
}

/// Appends a letter, a length and so many bytes.
fn write_lent(out: &mut Vec<u8>, letter: u8, bytes: &[u8]) {
    out.push(letter);
    out.extend((bytes.len() as u32).to_le_bytes());
    out.extend(bytes);
}

/// Appends a letter, numbers of 4 bytes, and the last one of 8 bytes if there is one.
fn write_call(out: &mut Vec<u8>, letter: u8, numbers: &[u32], last: Option<u64>) {
    out.push(letter);
    numbers.iter().for_each(|number| out.extend(number.to_le_bytes()));
    last.iter().for_each(|number| out.extend(number.to_le_bytes()));
}

impl fmt::Display for Record {
    /// The call in words.
    fn fmt(&self, out: &mut fmt::Formatter) -> fmt::Result {
        match self {
            Record::Picture(bytes) => write!(out, "picture of {} bytes", bytes.len()),
            Record::Patch(bytes) => write!(out, "patch of {} bytes", bytes.len()),
            Record::Report => write!(out, "report"),
            Record::Check => write!(out, "check"),
            Record::Walk { kind, start, target } => {
                write!(out, "walk kind {kind} start {start} target {target:x}h")
            }
            Record::Claim { port, target_kind, target } => {
                write!(out, "claim port {port} target kind {target_kind} target {target:x}h")
            }
            Record::Conversion { port, id } => write!(out, "conversion port {port} ID {id:x}h"),
            Record::Holders { target_kind, target } => {
                write!(out, "holders target kind {target_kind} target {target:x}h")
            }
            Record::TrialReport => write!(out, "trial report"),
            Record::TrialCheck => write!(out, "trial check"),
            Record::TrialWalk { kind, start, target } => {
                write!(out, "trial walk kind {kind} start {start} target {target:x}h")
            }
            Record::Part { port, mechanism } => write!(out, "part port {port} mechanism {mechanism}"),
        }
    }
}

/// The records of a batch one after the other; an error where the batch is cut short or no batch.
pub struct Records<'a>(Stream<'a>);

impl<'a> Records<'a> {
    /// The records of these bytes.
    pub fn of(batch: &'a [u8]) -> Records<'a> {
        Records(Stream::of(batch, "batch"))
    }
}

/// Takes one record.
fn take_record(stream: &mut Stream) -> Result<Record, String> {
    match stream.take(1)?[0] {
        b'P' => Ok(Record::Picture(stream.take_lent()?)),
        b'Q' => Ok(Record::Patch(stream.take_lent()?)),
        b'R' => Ok(Record::Report),
        b'C' => Ok(Record::Check),
        b'W' => {
            Ok(Record::Walk { kind: stream.take_4()?, start: stream.take_4()?, target: stream.take_8()? })
        }
        b'L' => Ok(Record::Claim {
            port: stream.take_4()?,
            target_kind: stream.take_4()?,
            target: stream.take_8()?,
        }),
        b'V' => Ok(Record::Conversion { port: stream.take_4()?, id: stream.take_8()? }),
        b'H' => Ok(Record::Holders { target_kind: stream.take_4()?, target: stream.take_8()? }),
        b'X' => Ok(Record::TrialReport),
        b'T' => Ok(Record::TrialCheck),
        b'U' => Ok(Record::TrialWalk {
            kind: stream.take_4()?,
            start: stream.take_4()?,
            target: stream.take_8()?,
        }),
        b'S' => Ok(Record::Part { port: stream.take_4()?, mechanism: stream.take_4()? }),
        letter => Err(format!("no record begins with byte {letter}")),
    }
}

impl Iterator for Records<'_> {
    type Item = Result<Record, String>;

    fn next(&mut self) -> Option<Self::Item> {
        self.0.next(take_record)
    }
}

/// What is lent from record to record, with its judges. Both slices are empty at first; a new one keeps
/// the other.
pub struct Lent {
    picture: Vec<u8>,
    patch: Vec<u8>,
    judge: Judge,
    trial: OnceCell<Judge>,
}

impl Lent {
    /// This picture and this patch.
    pub fn of(picture: Vec<u8>, patch: Vec<u8>) -> Lent {
        Lent { judge: Judge::new(&picture), picture, patch, trial: OnceCell::new() }
    }

    /// Goes on to the next record: what it lends takes the place of what was lent; a call is answered.
    pub fn take(&mut self, record: &Record) -> Option<String> {
        self.lend(record);
        match record {
            call if call.is_of_trial() => Some(self.answer_of_trial(call)),
            call if call.is_call() => Some(self.answer(call)),
            _ => None,
        }
    }

    /// What the record lends takes the place of what was lent; a call lends nothing.
    pub fn lend(&mut self, record: &Record) {
        match record {
            Record::Picture(bytes) => *self = Lent::of(bytes.clone(), std::mem::take(&mut self.patch)),
            Record::Patch(bytes) => {
                self.patch = bytes.clone();
                self.trial = OnceCell::new();
            }
            _ => {}
        }
    }

    /// The judge whom a walk by address asks, that of the picture or of the trial, with its start and address.
    pub fn address_walk(&self, call: &Record) -> Option<(&Judge, u32, u64)> {
        match *call {
            Record::Walk { kind: 1, start, target } => Some((&self.judge, start, target)),
            Record::TrialWalk { kind: 1, start, target } => Some((self.trial(), start, target)),
            _ => None,
        }
    }

    /// The judge of picture and patch.
    fn trial(&self) -> &Judge {
        self.trial.get_or_init(|| Judge::of_trial(&self.picture, &self.patch))
    }

    /// The answer line to a call about the picture.
    fn answer(&self, call: &Record) -> String {
        match call {
            Record::Report => one_line(&self.judge.report()),
            Record::Check => check_line(&self.judge),
            Record::Walk { kind, start, target } => walk_line(&self.judge, *kind, *start, *target),
            Record::Claim { port, target_kind, target } => {
                value_line(|value| self.judge.claim_call(value, *port, *target_kind, *target))
            }
            Record::Conversion { port, id } => {
                value_line(|value| self.judge.conversion_call(value, *port, *id))
            }
            Record::Holders { target_kind, target } => one_line(&self.judge.claims(*target_kind, *target)),
            other => unreachable!("{other} is no call about the picture"),
        }
    }

    /// The answer line to a call about picture and patch.
    fn answer_of_trial(&self, call: &Record) -> String {
        match call {
            Record::TrialReport => one_line(&self.trial().report()),
            Record::TrialCheck => check_line(self.trial()),
            Record::TrialWalk { kind, start, target } => walk_line(self.trial(), *kind, *start, *target),
            Record::Part { port, mechanism } => {
                part_line(part(&self.picture, &self.patch, *port, *mechanism))
            }
            other => unreachable!("{other} is no call about a trial"),
        }
    }
}

/// What a program prints, with `/` for each newline but the last.
fn one_line(text: &str) -> String {
    text.trim_end().replace('\n', "/")
}

/// The line of a check, or of a trial's.
fn check_line(judge: &Judge) -> String {
    call_line(|buffer| judge.check_call(buffer))
}

/// The line of a walk, or of a trial's.
fn walk_line(judge: &Judge, kind: u32, start: u32, target: u64) -> String {
    call_line(|buffer| judge.walk_call(buffer, kind, start, target))
}

/// The line of a controller call: the number, and the 40 bytes in hexadecimal.
fn call_line(call: impl FnOnce(&mut [u8]) -> u32) -> String {
    let mut buffer = [0; 40];
    let number = call(&mut buffer);
    let digits: String = buffer.iter().map(|byte| format!("{byte:02x}")).collect();
    format!("{number} {digits}")
}

/// The line of a claim or a conversion: the number, and what its 4 bytes hold after the call.
fn value_line(call: impl FnOnce(&mut u32) -> u32) -> String {
    let mut value = u32::MAX;
    let number = call(&mut value);
    format!("{number} {value:08x}")
}

/// The line of a part: a refusal's number alone, or 0, the slice, and where and how long it is there.
fn part_line(answer: Result<Part, Refusal>) -> String {
    match answer {
        Ok(Part { slice: Slice::Picture, at, length }) => format!("0 picture {at} {length}"),
        Ok(Part { slice: Slice::Patch, at, length }) => format!("0 patch {at} {length}"),
        Err(refusal) => refusal.number.to_string(),
    }
}

/// All answer lines to a batch; before the first picture and the first patch, each is empty.
pub fn answers(batch: &[u8]) -> Result<Vec<String>, String> {
    let mut lent = Lent::of(Vec::new(), Vec::new());
    let mut lines = Vec::new();
    for record in Records::of(batch) {
        lines.extend(lent.take(&record?));
    }
    Ok(lines)
}

/// Two answers that are not the same, with what was lent and the call that they answer.
pub struct Difference {
    pub picture: Vec<u8>,
    pub patch: Vec<u8>,
    pub call: Record,
    pub expected: String,
    pub actual: String,
}

/// The first differences between two lists of answers to a batch, at most so many.
pub fn differences(
    batch: &[u8],
    expected: &str,
    actual: &str,
    most: usize,
) -> Result<Vec<Difference>, String> {
    let mut expected = expected.lines();
    let mut actual = actual.lines();
    let (mut picture, mut patch) = (Vec::new(), Vec::new());
    let mut found = Vec::new();
    for record in Records::of(batch) {
        let call = match record? {
            Record::Picture(bytes) => {
                picture = bytes;
                continue;
            }
            Record::Patch(bytes) => {
                patch = bytes;
                continue;
            }
            call => call,
        };
        let line = |line: Option<&str>| line.unwrap_or("(no line)").to_string();
        let (expected, actual) = (line(expected.next()), line(actual.next()));
        if expected != actual && found.len() < most {
            let (picture, patch) = (picture.clone(), patch.clone());
            found.push(Difference { picture, patch, call, expected, actual });
        }
    }
    match (expected.next(), actual.next()) {
        (None, None) => Ok(found),
        _ => Err("there are more answer lines than calls in the batch".to_string()),
    }
}
