//! Number 18 by turns: every way in which a port can claim what its parent does not pass on as Type 1, what
//! lies just beside it and is clear, and numbers that come before it.

use crate::cases::{BUS, RID};
use crate::draft::Draft;
use crate::generate::ports_and_taste;
use crate::judge::Judge;
use crate::picture::{Refusal, Target};
use crate::random::Random;
use crate::sound::fill_as_it_comes;
use crate::stopped_draw::draw;

/// How the parent comes not to pass an ID on.
#[derive(Clone, Copy, Debug, PartialEq, Eq)]
pub enum Way {
    /// The Secondary range: some units at an upstream port, a bus with ARI, else one unit.
    UpstreamRange,
    AriRange,
    PlainRange,
    /// The bus Secondary of the bus pair: at an upstream port, with ARI, else device 0 and the others.
    UpstreamBus,
    AriBus,
    DeviceZero,
    OtherDevice,
}

pub const ALL_WAYS: [Way; 7] = [
    Way::UpstreamRange,
    Way::AriRange,
    Way::PlainRange,
    Way::UpstreamBus,
    Way::AriBus,
    Way::DeviceZero,
    Way::OtherDevice,
];

impl Way {
    /// Is it the Secondary range, and not the bus Secondary?
    pub fn is_range(self) -> bool {
        matches!(self, Way::UpstreamRange | Way::AriRange | Way::PlainRange)
    }

    /// Is the parent an upstream port?
    pub fn is_upstream(self) -> bool {
        matches!(self, Way::UpstreamRange | Way::UpstreamBus)
    }

    /// Has the parent ARI?
    pub fn has_ari(self) -> bool {
        matches!(self, Way::AriRange | Way::AriBus)
    }
}

/// What a picture is to show.
#[derive(Clone, Copy, Debug, PartialEq, Eq)]
pub enum Aim {
    /// Number 18 and nothing else.
    Stopped,
    /// The same, at the port below the child too, which claims the ID as well.
    Twice,
    /// Clear: RID decoding is not enabled at the parent.
    NotEnabled,
    /// Clear: the child claims the units just before and just behind the Secondary range.
    Beside,
    /// Clear: the same, and the child's own ID, which it does not claim, is in the Secondary range.
    Owned,
    /// Clear: the parent's bus pair has the bus as Secondary and claims nothing.
    PairClosed,
    /// This number, which comes before 18.
    Behind(u8),
}

/// One turn: the decoders by which the parent and the child claim the ID, the parent's first.
#[derive(Clone, Copy, Debug)]
pub struct Turn {
    pub way: Way,
    pub above: u32,
    pub below: u32,
    pub aim: Aim,
}

/// A picture with the port that it is about, and an ID that this port claims.
pub struct Stopped {
    pub draft: Draft,
    pub child: usize,
    pub id: u16,
}

/// One of so many turns is a picture of any size, filled as it comes.
const AS_IT_COMES_EVERY: u64 = 6;

/// How often such a picture is drawn anew until number 18 is given.
const TRIES: usize = 60;

/// The picture of a turn.
pub fn stopped(random: &mut Random, turn: u64) -> Stopped {
    if turn % AS_IT_COMES_EVERY == AS_IT_COMES_EVERY - 1 {
        return as_it_comes(random);
    }
    let turns = all_turns();
    let drawn_before = turn - turn / AS_IT_COMES_EVERY;
    draw(random, turns[drawn_before as usize % turns.len()])
}

/// A picture of any size that is filled as it comes, such that number 18 is given.
fn as_it_comes(random: &mut Random) -> Stopped {
    for _ in 0..TRIES {
        let (ports, taste) = ports_and_taste(random);
        let draft = fill_as_it_comes(random, ports, &taste);
        let found = Judge::new(&draft.bytes()).check();
        if let Err(Refusal { number: 18, target: Some(Target::Id(id)), ports }) = found {
            return Stopped { draft, child: ports[0].port as usize, id };
        }
    }
    draw(random, all_turns()[0])
}

/// All turns: number 18 alone, each way before any comes again, and after two rounds the earlier numbers and
/// two ports at once; then what is clear.
pub fn all_turns() -> Vec<Turn> {
    let ways: Vec<Vec<Turn>> = ALL_WAYS.iter().enumerate().map(|(index, &way)| faults(way, index)).collect();
    let longest = ways.iter().map(Vec::len).max().unwrap_or(0);
    let mut first: Vec<Turn> =
        (0..longest).flat_map(|round| ways.iter().filter_map(move |way| way.get(round).copied())).collect();
    let others = first.split_off(2 * ALL_WAYS.len());
    let earlier = first.iter().zip(11..=15).map(|(&turn, number)| Turn { aim: Aim::Behind(number), ..turn });
    let twice = [(Way::PlainRange, BUS), (Way::AriRange, RID)];
    let twice = twice.map(|(way, above)| Turn { way, above, below: RID, aim: Aim::Twice });
    let between = earlier.chain(twice).collect();
    [first, between, others, clear_turns()].concat()
}

/// Number 18 alone in one way, with all claims of parent and child that there are, from another one on each
/// time.
fn faults(way: Way, first: usize) -> Vec<Turn> {
    let above: &[u32] = if way.is_range() { &[BUS, RID, BUS | RID] } else { &[BUS, BUS | RID] };
    // A bus pair that claims another device of the bus claims device 0 as well.
    let below: &[u32] = if way == Way::OtherDevice { &[RID] } else { &[BUS, RID, BUS | RID] };
    let turn = |&above: &u32| below.iter().map(move |&below| Turn { way, above, below, aim: Aim::Stopped });
    let mut turns: Vec<Turn> = above.iter().flat_map(turn).collect();
    let count = turns.len();
    turns.rotate_left(first % count);
    turns
}

/// The pictures that are clear.
fn clear_turns() -> Vec<Turn> {
    let mut turns = Vec::new();
    for way in ALL_WAYS {
        if way.is_range() {
            let off = |below| Turn { way, above: BUS, below, aim: Aim::NotEnabled };
            turns.extend([BUS, RID, BUS | RID].map(off));
            for aim in [Aim::Beside, Aim::Owned] {
                turns.extend([BUS, RID].map(|above| Turn { way, above, below: RID, aim }));
            }
        } else {
            let closed = |below| Turn { way, above: RID, below, aim: Aim::PairClosed };
            turns.extend([BUS, RID].map(closed));
        }
    }
    turns
}
