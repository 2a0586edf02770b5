//! What is timed: a call of one kind on a picture, or the next of a list of such calls, on either side.

use crate::{plain, proved};

/// The kinds of call.
#[derive(Clone, Copy, PartialEq)]
pub enum Kind {
    Check,
    Walk,
    Claim,
    Read,
}

pub const KINDS: [(Kind, &str); 4] =
    [(Kind::Check, "check"), (Kind::Walk, "walk"), (Kind::Claim, "claim"), (Kind::Read, "reading")];

/// The two sides.
#[derive(Clone, Copy, PartialEq)]
pub enum Side {
    Proved,
    Plain,
}

/// A picture with walks and claims that suit it.
pub struct Work {
    picture: Vec<u8>,
    walks: Vec<(u32, u32, u64)>,
    claims: Vec<(u32, u32, u64)>,
}

/// A row of numbers that only looks random.
struct Numbers(u64);

impl Numbers {
    fn next(&mut self) -> u64 {
        self.0 = self.0.wrapping_mul(6364136223846793005).wrapping_add(1442695040888963407);
        let mixed = self.0 ^ (self.0 >> 33);
        mixed.wrapping_mul(0xFF51_AFD7_ED55_8CCD) >> 16
    }

    fn id(&mut self, picture: &[u8]) -> u64 {
        let count = u64::from(picture[2]);
        match self.next() % 2 {
            0 => {
                let record = 16 + 56 * (self.next() % count) as usize;
                u64::from(picture[record + 2]) + 256 * u64::from(picture[record + 3])
            }
            _ => self.next() % 65_536,
        }
    }

    /// Half below 4 GiB, half in the 512 GiB above it, where the full pictures have their entries.
    fn address(&mut self) -> u64 {
        match self.next() % 2 {
            0 => self.next() % (1 << 32),
            _ => (1 << 32) + self.next() % (1 << 39),
        }
    }
}

impl Work {
    pub fn of(picture: Vec<u8>) -> Work {
        let mut numbers = Numbers(1);
        let mut answer = [0; 40];
        let count = u32::from(picture[2]);
        let starts: Vec<u32> =
            (0..count).filter(|&port| plain::walk(&picture, &mut answer, 1, port, 0) == 0).collect();
        let mut walks = Vec::new();
        let mut claims = Vec::new();
        for index in 0..96 {
            let kind = index % 3;
            let target = if kind == 1 { numbers.address() } else { numbers.id(&picture) };
            let from_host = kind == 2 || index % 2 == 0 || starts.is_empty();
            let start = if from_host { 255 } else { starts[numbers.next() as usize % starts.len()] };
            walks.push((kind, start, target));
            let port = numbers.next() as u32 % count;
            let of_address = index % 2;
            claims.push((port, of_address, if of_address == 1 { numbers.address() } else { numbers.id(&picture) }));
        }
        Work { picture, walks, claims }
    }

    /// How many calls `all` makes.
    pub fn calls(&self, kind: Kind) -> usize {
        match kind {
            Kind::Check | Kind::Read => 1,
            Kind::Walk => self.walks.len(),
            Kind::Claim => self.claims.len(),
        }
    }

    /// Makes all calls of a kind once, and mixes their answers into one number.
    pub fn all(&self, kind: Kind, side: Side) -> u64 {
        let mut mixed = 0u64;
        let mut mix = |answer: &[u8]| {
            answer.iter().for_each(|&byte| mixed = mixed.wrapping_mul(31).wrapping_add(u64::from(byte)))
        };
        let mut answer = [0; 40];
        match kind {
            Kind::Check => {
                match side {
                    Side::Proved => proved::check(&self.picture, &mut answer),
                    Side::Plain => plain::check(&self.picture, &mut answer),
                };
                mix(&answer);
            }
            Kind::Walk => {
                for &(kind, start, target) in &self.walks {
                    match side {
                        Side::Proved => proved::walk(&self.picture, &mut answer, kind, start, target),
                        Side::Plain => plain::walk(&self.picture, &mut answer, kind, start, target),
                    };
                    mix(&answer);
                }
            }
            Kind::Claim => {
                for &(port, kind, target) in &self.claims {
                    let mut decoders = 0;
                    let number = match side {
                        Side::Proved => proved::claim(&self.picture, port, kind, target, &mut decoders),
                        Side::Plain => plain::claim(&self.picture, port, kind, target, &mut decoders),
                    };
                    mix(&number.to_le_bytes());
                    mix(&decoders.to_le_bytes());
                }
            }
            Kind::Read => {
                let number = match side {
                    Side::Proved => proved::read(&self.picture),
                    Side::Plain => plain::read(&self.picture),
                };
                mix(&number.to_le_bytes());
            }
        }
        mixed
    }
}
