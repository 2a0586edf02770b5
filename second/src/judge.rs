//! The calls on a lent picture, or on picture and patch: check, walk, claim and conversion; and what the
//! programs `report` and `claims` print.

use std::cell::OnceCell;

use crate::check::check;
use crate::claims::{Conversion, Decoders};
use crate::patch::put_in;
use crate::picture::{read, Named, Picture, Refusal, Target};
use crate::walk::{is_redirected, walk_configuration, walk_packet, End, Walk};

/// The words for why a port holds a target: for its own ID, and for each decoder.
const WORDS: [&str; 8] = [" own", " bus", " rid", " mem", " pref", " low", " high", " vga"];

/// A lent picture, read once and checked at most once.
pub struct Judge {
    reading: Result<Picture, Refusal>,
    checked: OnceCell<Result<(), Refusal>>,
}

impl Judge {
    /// Reads the picture.
    pub fn new(picture: &[u8]) -> Judge {
        Judge { reading: read(picture), checked: OnceCell::new() }
    }

    /// The judge of a trial: of the picture with the patch put in. A refused patch counts as a picture
    /// that does not read.
    pub fn of_trial(picture: &[u8], patch: &[u8]) -> Judge {
        match put_in(picture, patch) {
            Ok(patched) => Judge::new(&patched),
            Err(refusal) => Judge { reading: Err(refusal), checked: OnceCell::new() },
        }
    }

    /// The picture if it reads, else the refusal.
    pub fn reading(&self) -> Result<&Picture, Refusal> {
        self.reading.as_ref().map_err(Refusal::clone)
    }

    /// Reads and checks: the lowest of the numbers 1 to 15 and 18 that applies.
    pub fn check(&self) -> Result<(), Refusal> {
        let picture = self.reading()?;
        self.checked.get_or_init(|| check(picture)).clone()
    }

    /// Reads and walks; numbers 1 to 10, then 16.
    pub fn walk(&self, kind: u32, start: u32, target: u64) -> Result<Walk, Refusal> {
        let picture = self.reading()?;
        let start = start_place(picture, start)?;
        match kind {
            2 => Ok(walk_configuration(picture, start, id_of(target)?)),
            _ => Ok(walk_packet(picture, start, target_of(kind, target)?)),
        }
    }

    /// Does the picture read, and is an address packet with this start redirected?
    pub fn is_redirected(&self, start: u32, address: u64) -> bool {
        let Ok(picture) = self.reading() else { return false };
        let redirected = |port| is_redirected(picture, port, Target::Address(address));
        start_place(picture, start).ok().flatten().is_some_and(redirected)
    }

    /// Reads, and the decoders of the port that claim the target; numbers 1 to 10, then 16.
    pub fn claim(&self, port: u32, target_kind: u32, target: u64) -> Result<Decoders, Refusal> {
        let picture = self.reading()?;
        let port = picture.ports.get(port as usize).ok_or(Refusal::bare(16))?;
        Ok(port.decoders(target_of(target_kind, target)?))
    }

    /// Reads, and the ports that hold the target, lowest first; numbers 1 to 10, then 16.
    pub fn holders(&self, target_kind: u32, target: u64) -> Result<Vec<Named>, Refusal> {
        let picture = self.reading()?;
        let target = target_of(target_kind, target)?;
        let holders = (0..picture.ports.len()).filter(|&port| picture.ports[port].holds(target));
        Ok(holders.map(|port| picture.holder(port, target)).collect())
    }

    /// Reads, and what the port makes of a configuration request for the ID; numbers 1 to 10, then 16.
    pub fn conversion(&self, port: u32, id: u64) -> Result<Conversion, Refusal> {
        let picture = self.reading()?;
        let port = picture.ports.get(port as usize).ok_or(Refusal::bare(16))?;
        Ok(port.conversion(id_of(id)?))
    }

    /// The controller's check call: the number; 40 bytes are written unless it is 17.
    pub fn check_call(&self, answer: &mut [u8]) -> u32 {
        answer_call(answer, || match self.check() {
            Ok(()) => refusal_bytes(&Refusal::bare(0)),
            Err(refusal) => refusal_bytes(&refusal),
        })
    }

    /// The controller's walk call: the number; 40 bytes are written unless it is 17.
    pub fn walk_call(&self, answer: &mut [u8], kind: u32, start: u32, target: u64) -> u32 {
        answer_call(answer, || match self.walk(kind, start, target) {
            Ok(walk) => walk_bytes(&walk),
            Err(refusal) => refusal_bytes(&refusal),
        })
    }

    /// The controller's claim call: the number; the decoders are written only with 0.
    pub fn claim_call(&self, decoders: &mut u32, port: u32, target_kind: u32, target: u64) -> u32 {
        value_call(decoders, self.claim(port, target_kind, target).map(|decoders| decoders.bits()))
    }

    /// The controller's conversion call: the number; the conversion is written only with 0.
    pub fn conversion_call(&self, decided: &mut u32, port: u32, id: u64) -> u32 {
        value_call(decided, self.conversion(port, id).map(|conversion| conversion.code()))
    }

    /// What the claims program prints.
    pub fn claims(&self, target_kind: u32, target: u64) -> String {
        match self.holders(target_kind, target) {
            Ok(holders) if holders.is_empty() => "nobody\n".to_string(),
            Ok(holders) => holders.iter().map(|named| format!("port {}\n", named_text(named))).collect(),
            Err(refusal) => report_of_refusal(&refusal),
        }
    }

    /// What the report program prints.
    pub fn report(&self) -> String {
        match (self.check(), self.reading()) {
            (Ok(()), Ok(picture)) => format!("ports {}\nclear\n", picture.ports.len()),
            (Err(refusal), _) | (_, Err(refusal)) => report_of_refusal(&refusal),
        }
    }
}

/// A target as an ID; number 16 for one over FFFFh.
fn id_of(target: u64) -> Result<u16, Refusal> {
    u16::try_from(target).map_err(|_| Refusal::bare(16))
}

/// A target of kind 0, an ID, or of kind 1, an address; number 16 for any other kind.
fn target_of(kind: u32, target: u64) -> Result<Target, Refusal> {
    match kind {
        0 => Ok(Target::Id(id_of(target)?)),
        1 => Ok(Target::Address(target)),
        _ => Err(Refusal::bare(16)),
    }
}

/// Where a packet starts: the root for 255, or below a device port; else number 16.
fn start_place(picture: &Picture, start: u32) -> Result<Option<usize>, Refusal> {
    if start == 255 {
        return Ok(None);
    }
    let port = start as usize;
    if port < picture.ports.len() && picture.is_device_port(port) {
        return Ok(Some(port));
    }
    Err(Refusal::bare(16))
}

/// Number 17 for a buffer under 40 bytes; else the 40 bytes are written and the rest is kept.
fn answer_call(answer: &mut [u8], bytes: impl FnOnce() -> [u8; 40]) -> u32 {
    if answer.len() < 40 {
        return 17;
    }
    answer[..40].copy_from_slice(&bytes());
    answer[0] as u32
}

/// The number 0 with a value written, or a refusal's with nothing written.
fn value_call(place: &mut u32, value: Result<u32, Refusal>) -> u32 {
    match value {
        Ok(value) => {
            *place = value;
            0
        }
        Err(refusal) => refusal.number as u32,
    }
}

/// The 40 bytes of a refusal; of number 0 where nothing is named. A least target stands in the
/// first 8 places of the path.
fn refusal_bytes(refusal: &Refusal) -> [u8; 40] {
    let mut bytes = [0; 40];
    bytes[0] = refusal.number;
    bytes[2] = refusal.ports.first().map_or(255, |named| named.port);
    bytes[3] = refusal.ports.get(1).map_or(255, |named| named.port);
    bytes[8..].fill(255);
    let least_target = match refusal.target {
        Some(Target::Id(id)) => Some(id as u64),
        Some(Target::Address(address)) => Some(address),
        None => None,
    };
    if let Some(target) = least_target {
        bytes[8..16].copy_from_slice(&target.to_le_bytes());
    }
    bytes
}

/// The 40 bytes of a finished walk.
fn walk_bytes(walk: &Walk) -> [u8; 40] {
    let (end, port, second, function) = match walk.end {
        End::Device { port, function } => (1, port, 255, function),
        End::Function { port } => (2, port, 255, 0),
        End::Host => (3, 255, 255, 0),
        End::Unsupported { port } => (4, port, 255, 0),
        End::Doubled { first, second } => (5, first, second, 0),
    };
    let mut bytes = [0; 40];
    bytes[1] = end;
    bytes[2] = port as u8;
    bytes[3] = second as u8;
    bytes[4] = walk.path.len() as u8;
    bytes[5] = function;
    bytes[8..].fill(255);
    for (place, &port) in walk.path.iter().enumerate() {
        bytes[8 + place] = port as u8;
    }
    bytes
}

/// The one line of a refusal.
pub fn report_of_refusal(refusal: &Refusal) -> String {
    let mut line = format!("refused {}", refusal.number);
    match refusal.target {
        Some(Target::Id(id)) => line += &format!(" id {id:04x}"),
        Some(Target::Address(address)) => line += &format!(" addr {address:016x}"),
        None => {}
    }
    if !refusal.ports.is_empty() {
        line += " ports";
    }
    for named in &refusal.ports {
        line += &format!(" {}", named_text(named));
    }
    line + "\n"
}

/// The number of a port and, where it holds a target, why: `3 by own rid`.
fn named_text(named: &Named) -> String {
    match named.holding {
        Some(holding) => format!("{} by{}", named.port, holding.those_of(WORDS).concat()),
        None => named.port.to_string(),
    }
}
