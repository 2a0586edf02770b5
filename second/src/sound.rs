//! Sound pictures, built top-down: every place hands out the IDs and the memory that its port claims
//! to the ports there, in parts that do not overlap.

use crate::draft::{Draft, DraftPort, VectorShape, Which, UPSTREAM};
use crate::editions::in_either_edition;
use crate::picture::Edition;
use crate::pool::Pool;
use crate::random::Random;

const UNITS: u64 = 8_192;
const UNITS_OF_A_BUS: u64 = 32;
const LOW_END: u64 = 4_096;
const MEMORY_END: u64 = 1 << 44;
const MOST_BYTES: usize = 65_536;

/// How a picture is to be filled: chances in a hundred for each mechanism, and how pools are cut.
#[derive(Clone, Debug)]
pub struct Taste {
    pub bus_pair: u64,
    pub rid_vector: u64,
    pub registers: u64,
    pub low_vector: u64,
    pub high_vector: u64,
    /// Chance that what a place has of the video range is given to a port there.
    pub video: u64,
    pub ari: u64,
    /// Chance that an entry is set where it may be, at ports without children.
    pub density: u64,
    /// The largest size code used.
    pub size_code: u32,
    pub id_cell: u64,
    pub low_cell: u64,
    pub high_cell: u64,
    pub scattered: u64,
}

impl Taste {
    /// A random mixture.
    pub fn random(random: &mut Random) -> Taste {
        let chances = [0, 30, 60, 90, 100];
        let scattered = random.pick(&[0, 50, 100]);
        Taste {
            bus_pair: random.pick(&chances),
            rid_vector: random.pick(&chances),
            registers: random.pick(&chances),
            low_vector: random.pick(&chances),
            high_vector: random.pick(&chances),
            video: random.pick(&chances),
            ari: random.pick(&chances),
            density: random.pick(&[5, 50, 100]),
            size_code: random.pick(&[0, 0, 1, 2, 5]),
            id_cell: random.pick(&[1, 8, 32, 32, 64]),
            low_cell: random.pick(&[1, 2, 8, 16, 64]),
            high_cell: 256 << random.below(8),
            scattered,
        }
    }

    /// The plainest taste, which gives IDs to any form: bus pairs and ranges only.
    pub fn plain() -> Taste {
        Taste {
            bus_pair: 100,
            rid_vector: 0,
            registers: 100,
            low_vector: 0,
            high_vector: 0,
            video: 0,
            ari: 0,
            density: 100,
            size_code: 0,
            id_cell: 32,
            low_cell: 16,
            high_cell: 256,
            scattered: 0,
        }
    }
}

/// A picture being filled, with what each port claims so far.
struct Filling<'a> {
    random: &'a mut Random,
    taste: Taste,
    ports: Vec<DraftPort>,
    ids: Vec<Pool>,
    memory: Vec<Pool>,
    /// Which ports claim the video range by VGA Enable.
    video: Vec<bool>,
    bytes_left: usize,
    /// Ports get only IDs that the port above passes on as Type 1.
    holds_back: bool,
}

/// A filled picture, and whether each port passes on as Type 1 all that the ports below it claim.
struct Filled {
    draft: Draft,
    passes_on: bool,
}

/// Fills silent ports soundly: as it comes, and if a port then claims what the one above does not pass on as
/// Type 1, once more with that held back.
pub fn fill(random: &mut Random, ports: Vec<DraftPort>, taste: &Taste) -> Draft {
    match fill_by_taste(random, ports.clone(), taste, false) {
        Filled { draft, passes_on: true } => draft,
        _ => fill_by_taste(random, ports, taste, true).draft,
    }
}

/// Fills silent ports such that nothing is wrong but, often, what number 18 is given for.
pub fn fill_as_it_comes(random: &mut Random, ports: Vec<DraftPort>, taste: &Taste) -> Draft {
    fill_by_taste(random, ports, taste, false).draft
}

/// Fills silent ports; the plain taste is the last resort. Ports are dropped from the end where even that
/// finds no IDs for all.
fn fill_by_taste(random: &mut Random, mut ports: Vec<DraftPort>, taste: &Taste, holds_back: bool) -> Filled {
    loop {
        for attempt in 0..4 {
            let taste = if attempt < 3 { taste.clone() } else { Taste::plain() };
            if let Some(filled) = try_to_fill(random, ports.clone(), taste, holds_back) {
                return filled;
            }
        }
        ports.pop();
    }
}

/// Fills silent ports, if the IDs suffice.
fn try_to_fill(random: &mut Random, ports: Vec<DraftPort>, taste: Taste, holds_back: bool) -> Option<Filled> {
    let count = ports.len();
    let bytes_left = MOST_BYTES - Edition::Two.record_start(count);
    let ids = vec![Pool::default(); count];
    let memory = vec![Pool::default(); count];
    let video = vec![false; count];
    let mut filling = Filling { random, taste, ports, ids, memory, video, bytes_left, holds_back };
    filling.hand_out_at(None)?;
    for port in 0..count {
        filling.hand_out_at(Some(port))?;
    }
    let passes_on = (0..count).all(|port| filling.passes_on(port));
    Some(Filled { draft: in_either_edition(filling.random, filling.ports), passes_on })
}

impl Filling<'_> {
    /// The ports at a place.
    fn ports_at(&self, place: Option<usize>) -> Vec<usize> {
        let parent = place.map_or(255, |port| port as u8);
        (0..self.ports.len()).filter(|&port| self.ports[port].parent == parent).collect()
    }

    /// A port and all below it.
    fn weight(&self, port: usize) -> u64 {
        1 + self.ports_at(Some(port)).into_iter().map(|child| self.weight(child)).sum::<u64>()
    }

    /// Hands out IDs and memory to the ports at a place.
    fn hand_out_at(&mut self, place: Option<usize>) -> Option<()> {
        let children = self.ports_at(place);
        if children.is_empty() {
            return Some(());
        }
        let weights: Vec<u64> = children.iter().map(|&child| self.weight(child)).collect();
        self.hand_out_ids(place, &children, &weights)?;
        self.hand_out_memory(place, &children, &weights);
        Some(())
    }

    /// Own IDs first, from what is Type 0 at the place's port; the rest is shared out to be claimed, or what
    /// of it is passed on.
    fn hand_out_ids(&mut self, place: Option<usize>, children: &[usize], weights: &[u64]) -> Option<()> {
        let (pool, reached) = match place {
            None => (Pool::of(vec![(0, UNITS)]), Pool::of(vec![(0, UNITS)])),
            Some(port) => (self.ids[port].clone(), self.type_0_units(port)),
        };
        let own_units = self.hand_out_own_ids(children, &reached)?;
        let rest = match place {
            Some(port) if self.holds_back => pool.without(&self.stopped_units(port)),
            _ => pool.without(&own_units),
        };
        let scattered = self.random.percent(self.taste.scattered);
        let shares = rest.share(self.random, weights, self.taste.id_cell, scattered);
        for ((&child, &weight), share) in children.iter().zip(weights).zip(&shares) {
            self.claim_ids(child, weight, share)?;
        }
        Some(())
    }

    /// Gives each port an own ID in one of the reached units, up to 8 in one; gives the units used.
    fn hand_out_own_ids(&mut self, children: &[usize], reached: &Pool) -> Option<Pool> {
        let mut units = reached.blocks();
        let fewest = children.len().div_ceil(8);
        if units.len() < fewest {
            return None;
        }
        if self.random.percent(50) {
            self.random.shuffle(&mut units);
        }
        let most = if self.random.percent(70) { fewest } else { children.len().min(units.len()) };
        units.truncate(self.random.between(fewest as u64, most as u64) as usize);
        let mut own_ids: Vec<u64> = units.iter().flat_map(|unit| unit * 8..unit * 8 + 8).collect();
        self.random.shuffle(&mut own_ids);
        for (&child, &own_id) in children.iter().zip(&own_ids) {
            self.ports[child].own_id = own_id as u16;
        }
        Some(Pool::of(own_ids[..children.len()].iter().map(|id| (id / 8, id / 8 + 1)).collect()))
    }

    /// The units that the port claims and makes Type 0.
    fn type_0_units(&self, port: usize) -> Pool {
        let registers = &self.ports[port];
        let upstream = registers.kind == UPSTREAM;
        let ari = !upstream && registers.device_control_2 >> 5 & 1 == 1;
        let mut ranges = Vec::new();
        if registers.is_enabled(Which::Rid) {
            let start = (registers.rid_control_2 >> 3 & 0x1FFF) as u64;
            let more = (registers.capabilities >> 3 & 0x1F) as u64;
            let bus_start = start / UNITS_OF_A_BUS * UNITS_OF_A_BUS;
            ranges.push(match (upstream, ari) {
                (true, _) => (start, start + more + 1),
                (false, true) => (bus_start, bus_start + UNITS_OF_A_BUS),
                (false, false) => (start, start + 1),
            });
        }
        if registers.secondary <= registers.subordinate && registers.subordinate > 0 {
            let first = registers.secondary as u64 * UNITS_OF_A_BUS;
            ranges.push((first, first + if upstream || ari { UNITS_OF_A_BUS } else { 1 }));
        }
        Pool::of(ranges).intersection(&self.ids[port])
    }

    /// The units for which the port makes configuration requests Type 0, or answers them with Unsupported
    /// Request.
    fn stopped_units(&self, port: usize) -> Pool {
        let registers = &self.ports[port];
        let first = registers.secondary as u64 * UNITS_OF_A_BUS;
        let claims = registers.secondary <= registers.subordinate && registers.subordinate > 0;
        let secondary_bus = (first, if claims { first + UNITS_OF_A_BUS } else { first });
        self.type_0_units(port).union(&Pool::of(vec![secondary_bus]))
    }

    /// Does the port pass on as Type 1 all that the ports below it claim?
    fn passes_on(&self, port: usize) -> bool {
        let stopped = self.stopped_units(port);
        self.ports_at(Some(port)).into_iter().all(|child| self.ids[child].intersection(&stopped).is_empty())
    }

    /// Lets the port claim part of its share of IDs, by bus pair, RID vector or both; several tries
    /// until those below can be reached and served.
    fn claim_ids(&mut self, port: usize, weight: u64, share: &Pool) -> Option<()> {
        let silent = self.ports[port].clone();
        let bytes_left = self.bytes_left;
        let children = self.ports_at(Some(port)).len() as u64;
        for _ in 0..12 {
            self.claim_ids_once(port, weight > 1, share);
            let reached = self.type_0_units(port).count() * 8;
            if children == 0 || reached >= children && self.ids[port].count() >= weight - 1 {
                return Some(());
            }
            self.ports[port] = silent.clone();
            self.bytes_left = bytes_left;
        }
        None
    }

    /// One try to claim IDs.
    fn claim_ids_once(&mut self, port: usize, has_children: bool, share: &Pool) {
        if self.random.percent(self.taste.ari) {
            self.ports[port].flip_ari();
        }
        let mut claimed = Pool::default();
        if self.random.percent(self.taste.bus_pair) {
            claimed = self.set_bus_pair(port, has_children, share);
        }
        if self.random.percent(self.taste.rid_vector) {
            let vector = self.set_vector(port, Which::Rid, has_children, share);
            claimed = claimed.union(&vector);
        }
        self.set_secondary_range(port, &claimed);
        self.ids[port] = claimed;
    }

    /// Sets the bus pair to whole buses of the share; to nothing, in one of two ways, if there are none.
    fn set_bus_pair(&mut self, port: usize, has_children: bool, share: &Pool) -> Pool {
        let runs: Vec<(u64, u64)> = share
            .ranges()
            .iter()
            .map(|(first, end)| (first.div_ceil(UNITS_OF_A_BUS), end / UNITS_OF_A_BUS))
            .filter(|&(first, end)| first < end && (first, end) != (0, 1))
            .collect();
        let longest = runs.iter().copied().max_by_key(|(first, end)| end - first);
        let Some((mut first, mut end)) = longest else {
            self.ports[port].secondary = self.random.pick(&[0, 7, 255]);
            return Pool::default();
        };
        if !has_children {
            (first, end) = self.random.pick(&runs);
            end = self.random.between(first + 1, end);
        }
        if (first, end) == (0, 1) {
            (first, end) = (0, 2);
        }
        self.ports[port].secondary = first as u8;
        self.ports[port].subordinate = (end - 1) as u8;
        Pool::of(vec![(first * UNITS_OF_A_BUS, end * UNITS_OF_A_BUS)])
    }

    /// Points the Secondary range at something claimed, if there is anything.
    fn set_secondary_range(&mut self, port: usize, claimed: &Pool) {
        let blocks = claimed.blocks();
        let start = if blocks.is_empty() { self.random.below(UNITS) } else { self.random.pick(&blocks) };
        let num_sec_dev = self.random.pick(&[0, 1, 7, 31]);
        self.ports[port] = self.ports[port].clone().secondary_range(start as u16, num_sec_dev);
    }

    /// Gives the port a vector over its share, and sets entries whose granules lie in it. Entries
    /// outside the space claim nothing and are sometimes set.
    fn set_vector(&mut self, port: usize, which: Which, has_children: bool, share: &Pool) -> Pool {
        let (space_first, space_end) = space(which);
        let share = share.within(space_first, space_end);
        let Some(shape) = self.choose_shape(port, which, has_children, &share) else {
            return Pool::default();
        };
        self.bytes_left -= 32 << shape.size_code;
        self.ports[port].give_vector(which, shape);
        let granule = granule(which, shape.granularity_code);
        let start = shape.start * smallest_granule(which);
        let density = if has_children { 100 } else { self.taste.density };
        let junk = self.random.pick(&[0, 0, 30, 100]);
        let mut claimed = Vec::new();
        for entry in 0..256u64 << shape.size_code {
            let first = (start + entry * granule).max(space_first);
            let end = (start + (entry + 1) * granule).min(space_end);
            let chance = if first >= end { junk } else { density };
            if share.contains(first, end) && self.random.percent(chance) {
                self.ports[port].flip_entry(which, entry);
                claimed.push((first, end));
            }
        }
        Pool::of(claimed)
    }

    /// Size, granularity and start of a vector; none if there are no bytes left for it.
    fn choose_shape(
        &mut self,
        port: usize,
        which: Which,
        has_children: bool,
        share: &Pool,
    ) -> Option<VectorShape> {
        let shapes = allowed_shapes(which, self.taste.size_code);
        let fair_part = self.bytes_left / 4;
        let fitting: Vec<(u32, u32)> =
            shapes.into_iter().filter(|(size_code, _)| 32usize << size_code <= fair_part).collect();
        if fitting.is_empty() {
            return None;
        }
        let (size_code, granularity_code) = self.random.pick(&fitting);
        let mut alignment = granule(which, granularity_code);
        if which == Which::Rid && self.ports[port].device_control_2 >> 5 & 1 == 1 {
            alignment = UNITS_OF_A_BUS;
        }
        let longest = share.ranges().iter().copied().max_by_key(|(first, end)| end - first);
        let near = match longest {
            Some((first, _)) if has_children => first,
            Some(_) => self.random.pick(share.ranges()).0,
            None => self.random.below(space(which).1),
        };
        let before = self.random.pick(&[0, 0, 0, 1, 5, 255]) * alignment;
        let start = near.saturating_sub(before) / alignment * alignment / smallest_granule(which);
        Some(VectorShape { size_code, granularity_code, start })
    }

    /// Shares the memory of a place out to its ports. At the root, this is all Low memory and some
    /// stretches of High memory. Often the first MiB is kept back, so that any port can have the video range.
    fn hand_out_memory(&mut self, place: Option<usize>, children: &[usize], weights: &[u64]) {
        let pool = match place {
            None => self.memory_of_the_root(),
            Some(port) => self.memory[port].clone(),
        };
        let has_video = pool.contains(0, 1) || place.is_some_and(|port| self.video[port]);
        let pool = match self.random.percent(25) {
            true => pool.without(&Pool::of(vec![(0, 1)])),
            false => pool,
        };
        let scattered = self.random.percent(self.taste.scattered);
        let low = pool.within(0, LOW_END).share(self.random, weights, self.taste.low_cell, scattered);
        let high =
            pool.within(LOW_END, MEMORY_END).share(self.random, weights, self.taste.high_cell, scattered);
        for (index, &child) in children.iter().enumerate() {
            let share = low[index].union(&high[index]);
            self.claim_memory(child, weights[index] > 1, &share);
        }
        if has_video && self.random.percent(self.taste.video) {
            self.give_video(children);
        }
    }

    /// Gives VGA Enable to one of the ports at a place: the one that claims the first MiB, if one does.
    /// Without Memory Space Enable it claims nothing there.
    fn give_video(&mut self, children: &[usize]) {
        let holder = children.iter().copied().find(|&child| self.memory[child].contains(0, 1));
        let chosen = holder.unwrap_or_else(|| self.random.pick(children));
        self.video[chosen] = self.ports[chosen].has_memory_space();
        self.ports[chosen].set_vga(true);
    }

    /// Low memory, and stretches just above 4 GiB, somewhere in the middle, and at the very top.
    fn memory_of_the_root(&mut self) -> Pool {
        let stretch = self.taste.high_cell * self.random.pick(&[2, 64, 1_024]);
        let middle = self.random.below(MEMORY_END - stretch) / self.taste.high_cell * self.taste.high_cell;
        let mut ranges = vec![(0, LOW_END)];
        for range in
            [(LOW_END, LOW_END + stretch), (middle, middle + stretch), (MEMORY_END - stretch, MEMORY_END)]
        {
            if self.random.percent(60) {
                ranges.push(range);
            }
        }
        Pool::of(ranges)
    }

    /// Lets the port claim part of its share of memory, by any mixture of its windows and vectors.
    fn claim_memory(&mut self, port: usize, has_children: bool, share: &Pool) {
        if self.random.percent(if has_children { 2 } else { 15 }) {
            self.scribble_with_memory_space_off(port);
            return;
        }
        self.ports[port].set_memory_space(true);
        let mut claimed = self.set_memory(port, share);
        claimed = claimed.union(&self.set_prefetchable(port, share));
        for (which, chance) in [(Which::Low, self.taste.low_vector), (Which::High, self.taste.high_vector)] {
            if self.random.percent(chance) {
                claimed = claimed.union(&self.set_vector(port, which, has_children, share));
            }
        }
        self.memory[port] = claimed;
    }

    /// Memory Space Enable is off: whatever stands in the registers claims nothing.
    fn scribble_with_memory_space_off(&mut self, port: usize) {
        let base = self.random.below(LOW_END) as u16;
        let limit = self.random.below(LOW_END) as u16;
        self.ports[port] = self.ports[port].clone().memory(base, limit).with_memory_space(false);
        let vga = self.random.percent(50);
        self.ports[port].set_vga(vga);
    }

    /// Sets Memory Base and Limit to a run of the share, or leaves them closed.
    fn set_memory(&mut self, port: usize, share: &Pool) -> Pool {
        match self.choose_run(&share.within(0, LOW_END)) {
            Some((first, end)) => {
                self.ports[port] = self.ports[port].clone().memory(first as u16, (end - 1) as u16);
                Pool::of(vec![(first, end)])
            }
            None => Pool::default(),
        }
    }

    /// Sets Prefetchable Base and Limit to a run of the share, type 0 or 1, or leaves them closed.
    fn set_prefetchable(&mut self, port: usize, share: &Pool) -> Pool {
        let type_0 = self.random.percent(40);
        let share = if type_0 { share.within(0, LOW_END) } else { share.clone() };
        let Some((first, end)) = self.choose_run(&share) else { return Pool::default() };
        let registers = self.ports[port].clone();
        self.ports[port] = match type_0 {
            true => registers.prefetchable_type_0(first as u16, (end - 1) as u16),
            false => registers.prefetchable(first, end - 1),
        };
        if type_0 && self.random.percent(50) {
            self.ports[port].prefetchable_base_upper = self.random.bits() as u32;
            self.ports[port].prefetchable_limit_upper = self.random.bits() as u32;
        }
        Pool::of(vec![(first, end)])
    }

    /// A run of blocks out of a pool, whole or cut short, if registers are to be used at all.
    fn choose_run(&mut self, pool: &Pool) -> Option<(u64, u64)> {
        if pool.is_empty() || !self.random.percent(self.taste.registers) {
            return None;
        }
        let (first, end) = self.random.pick(pool.ranges());
        let first = if self.random.percent(70) { first } else { self.random.between(first, end - 1) };
        let end = if self.random.percent(70) { end } else { self.random.between(first + 1, end) };
        Some((first, end))
    }
}

/// The blocks that a vector can claim at all: units, or MiB below or from 4 GiB.
fn space(which: Which) -> (u64, u64) {
    match which {
        Which::Rid => (0, UNITS),
        Which::Low => (0, LOW_END),
        Which::High => (LOW_END, MEMORY_END),
    }
}

/// The smallest granule of a vector in blocks: a unit, 1 MiB or 256 MiB.
fn smallest_granule(which: Which) -> u64 {
    match which {
        Which::Rid | Which::Low => 1,
        Which::High => 256,
    }
}

/// The granule of a vector in blocks. The RID codes 0, 3 and 5 are powers of 2 as well.
fn granule(which: Which, granularity_code: u32) -> u64 {
    smallest_granule(which) << granularity_code
}

/// The size and granularity codes that go together, up to a largest size code.
pub fn allowed_shapes(which: Which, most_size_code: u32) -> Vec<(u32, u32)> {
    let all: Vec<(u32, u32)> = match which {
        Which::Rid => vec![(0, 0), (0, 3), (0, 5), (2, 0), (2, 3), (5, 0)],
        Which::Low => (0..=4).flat_map(|s| (0..=4 - s).map(move |g| (s, g))).collect(),
        Which::High => (0..=5).flat_map(|s| (0..=7).map(move |g| (s, g))).collect(),
    };
    all.into_iter().filter(|(size_code, _)| *size_code <= most_size_code).collect()
}
