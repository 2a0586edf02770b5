//! The caller of a settings history in a story: it lends the first picture and the room, and keeps the number.

use crate::history::{add, version, wind_back, Change};
use crate::story::Story;

/// What the caller's variable for the new number kept holds before each call.
pub const UNTOUCHED: u32 = 0xDEAD_BEEF;

/// What every byte of `out` is before a version is read back.
pub const FILLER: u8 = 0xA5;

/// What is lent to each call of a story.
pub struct Store {
    pub first: Vec<u8>,
    pub room: Vec<Change>,
    pub kept: u32,
}

impl Store {
    /// The store at the beginning of a story.
    pub fn of(story: &Story) -> Store {
        Store { first: story.first.clone(), room: story.room.clone(), kept: story.kept }
    }

    /// Adds a run: the number, and what the variable for the new number kept holds afterwards.
    pub fn add(&mut self, run: &[Change]) -> (u32, u32) {
        let mut now = UNTOUCHED;
        let number = add(&self.first, &mut self.room, self.kept, run, &mut now);
        self.take_over(number, now)
    }

    /// Winds back: the number, and what the variable for the new number kept holds afterwards.
    pub fn wind_back(&mut self, k: u32) -> (u32, u32) {
        let mut now = UNTOUCHED;
        let number = wind_back(self.kept, k, &mut now);
        self.take_over(number, now)
    }

    /// Reads a version back: the number, and all of `out` afterwards.
    pub fn version(&self, k: u32, out_len: u32) -> (u32, Vec<u8>) {
        let mut out = vec![FILLER; out_len as usize];
        (version(&self.first, &self.room, self.kept, k, &mut out), out)
    }

    /// After number 0 the caller keeps the new number.
    fn take_over(&mut self, number: u32, now: u32) -> (u32, u32) {
        if number == 0 {
            self.kept = now;
        }
        (number, now)
    }
}
