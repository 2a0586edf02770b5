//! Runs of changes for a store: good ones, with old bytes as the version before each holds them, and runs with a wrong
//! old byte or with a change that names no byte.

use crate::history::{changed, Change, Layout, RECORD, VECTORS};
use crate::random::Random;

/// Bytes of a record that decide on the tree, on claims, on the sizes of vectors and on where they start.
const TELLING_BYTES: [u32; 14] = [0, 1, 2, 6, 7, 8, 24, 28, 29, 30, 31, 52, 53, 54];

/// Ports that no picture of fewer ports has; some would be one if they were cut to 8 or 16 bits.
const FAR_PORTS: [u32; 7] = [64, 255, 256, 257, 0x1_0000, 0x8000_0000, u32::MAX];

/// Parts that there are not; some would be one if they were cut.
const FAR_PARTS: [u32; 5] = [2, 3, 256, 0x1_0001, u32::MAX];

/// What a run is drawn for: the first picture with its layout, and the changes that the room holds of those kept.
pub struct Scene<'a> {
    pub first: &'a [u8],
    pub layout: &'a Layout,
    pub held: &'a [Change],
}

impl Scene<'_> {
    /// The version before a change that comes behind these of a run.
    fn version_before(&self, run: &[Change]) -> Vec<u8> {
        changed(self.first, self.layout, &[self.held, run].concat())
    }

    /// Any port.
    fn some_port(&self, random: &mut Random) -> u32 {
        let count = self.layout.count() as u64;
        let any = random.below(count);
        random.pick(&[0, count - 1, any, any]) as u32
    }

    /// How many bytes a part of a port has.
    fn length(&self, port: u32, part: u32) -> u32 {
        self.layout.part(port, part).map_or(0, |bytes| bytes.len() as u32)
    }

    /// A change of any byte, its old and new byte still 0: of one that was changed before, or of any other.
    fn some_byte(&self, random: &mut Random, run: &[Change]) -> Change {
        let earlier = if random.percent(50) { run } else { self.held };
        if random.percent(30) && !earlier.is_empty() {
            let again = Change { old: 0, new: 0, ..random.pick(earlier) };
            if self.layout.place(&again).is_some() {
                return again;
            }
        }
        let port = self.some_port(random);
        let part = match self.length(port, VECTORS) {
            0 => RECORD,
            _ => random.pick(&[RECORD, VECTORS]),
        };
        Change { port, part, at: self.some_at(random, port, part), ..Change::default() }
    }

    /// Any byte of a part that has some: often the first or last, or one of a record that tells much.
    fn some_at(&self, random: &mut Random, port: u32, part: u32) -> u32 {
        let length = self.length(port, part);
        let any = random.below(length as u64) as u32;
        let telling = random.pick(&TELLING_BYTES);
        match part {
            RECORD => random.pick(&[length - 1, any, any, telling, telling]),
            _ => random.pick(&[0, length - 1, any]),
        }
    }

    /// A change that fits behind these of a run.
    fn good_change(&self, random: &mut Random, run: &[Change]) -> Change {
        let byte = self.some_byte(random, run);
        let place = self.layout.place(&byte).expect("the byte is there");
        let old = self.version_before(run)[place];
        Change { old, new: some_new(random, old, self.first[place]), ..byte }
    }

    /// A run of so many changes that fit.
    pub fn good_run(&self, random: &mut Random, length: usize) -> Vec<Change> {
        let mut run = Vec::new();
        while run.len() < length {
            run.push(self.good_change(random, &run));
        }
        run
    }

    /// A change that makes the picture one that does not read: a kind that there is not, a wrong start of
    /// vectors, or low bits of Memory Base.
    pub fn breaking_change(&self, random: &mut Random) -> Change {
        let (at, turned) = random.pick(&[(0, 0x80), (52, 0x01), (54, 0x40), (8, 0x01)]);
        let byte = Change { port: self.some_port(random), part: RECORD, at, ..Change::default() };
        let place = self.layout.place(&byte).expect("every record has the byte");
        let old = self.version_before(&[])[place];
        Change { old, new: old ^ turned, ..byte }
    }

    /// A run in which one old byte is wrong, the last or any; with changes behind it that would fit.
    pub fn wrong_old_run(&self, random: &mut Random) -> Vec<Change> {
        let length = random.between(0, 3) as usize;
        let mut run = self.good_run(random, length);
        run.push(self.wrong_change(random, &run));
        let behind = random.pick(&[0, 0, 0, 1, 2]);
        for _ in 0..behind {
            run.push(self.good_change(random, &run));
        }
        run
    }

    /// A change with a wrong old byte: as the first picture or the version kept has it, or a near miss.
    fn wrong_change(&self, random: &mut Random, run: &[Change]) -> Change {
        let stale = match random.below(4) {
            0 => self.stale_change(random, self.first, run),
            1 => self.stale_change(random, &self.version_before(&[]), run),
            _ => None,
        };
        stale.unwrap_or_else(|| self.near_miss(random, run))
    }

    /// A change of a byte that has become another since an older version, whose byte it says; if there is one.
    fn stale_change(&self, random: &mut Random, older: &[u8], run: &[Change]) -> Option<Change> {
        let now = self.version_before(run);
        let differs =
            |change: &Change| self.layout.place(change).is_some_and(|place| older[place] != now[place]);
        let all = [self.held, run].concat();
        let stale: Vec<Change> = all.into_iter().filter(differs).collect();
        if stale.is_empty() {
            return None;
        }
        let change = random.pick(&stale);
        let place = self.layout.place(&change).expect("the byte is there");
        Some(Change { old: older[place], new: random.bits() as u8, ..change })
    }

    /// A change whose old byte is one above or below, differs in a bit, or is the new one.
    fn near_miss(&self, random: &mut Random, run: &[Change]) -> Change {
        let change = self.good_change(random, run);
        let bit = 1 << random.below(8);
        let old = change.old;
        let misses = [old.wrapping_add(1), old.wrapping_sub(1), old ^ bit, change.new];
        match random.pick(&misses) {
            hit if hit == old => Change { old: old ^ bit, ..change },
            miss => Change { old: miss, ..change },
        }
    }

    /// A run in which one change names no byte, the last or any; sometimes behind one with a wrong old byte.
    pub fn strange_run(&self, random: &mut Random) -> Vec<Change> {
        let length = random.between(0, 3) as usize;
        let mut run = match random.percent(30) {
            true => self.wrong_old_run(random),
            false => self.good_run(random, length),
        };
        run.push(self.strange_change(random));
        if random.percent(25) {
            run.push(self.good_change(random, &run));
        }
        run
    }

    /// A change that names no byte: no such port, no such part, past the end of the part, or where a port has no
    /// vectors. Its old byte is the one that it would meet there if nobody looked.
    pub fn strange_change(&self, random: &mut Random) -> Change {
        let count = self.layout.count() as u32;
        let port = self.some_port(random);
        let part = random.pick(&[RECORD, VECTORS]);
        let byte = Change { port, part, at: random.pick(&[0, 1]), ..Change::default() };
        let far = random.pick(&FAR_PORTS);
        let past = random.pick(&past_the_end(self.length(port, part)));
        let bare: Vec<u32> = (0..count).filter(|&port| self.length(port, VECTORS) == 0).collect();
        let strange = match random.below(5) {
            0 => Change { port: random.pick(&[count, count + 1, far, far]), ..byte },
            1 => Change { part: random.pick(&FAR_PARTS), ..byte },
            2 if !bare.is_empty() => Change { port: random.pick(&bare), part: VECTORS, ..byte },
            _ => Change { at: past, ..byte },
        };
        let new = random.bits() as u8;
        Change { old: self.byte_met(&strange).unwrap_or(new), new, ..strange }
    }

    /// The byte of the version kept that a change meets if only its port and part are looked at.
    fn byte_met(&self, change: &Change) -> Option<u8> {
        let start = self.layout.part(change.port, change.part)?.start;
        self.version_before(&[]).get(start + change.at as usize).copied()
    }
}

/// A new byte: the old one, the first picture's, one bit turned over, none or all set, or any.
fn some_new(random: &mut Random, old: u8, first: u8) -> u8 {
    let turned = old ^ 1 << random.below(8);
    let any = random.bits() as u8;
    random.pick(&[old, first, turned, turned, turned, 0, 0xFF, any, any])
}

/// Numbers of bytes at and past the end of a part; some would be inside if they were cut.
fn past_the_end(length: u32) -> [u32; 7] {
    [length, length, length + 1, length + 4, 0x1_0000, 0x8000_0000, u32::MAX]
}
