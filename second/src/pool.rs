//! Sets of blocks that are handed out from parent to children: units of IDs, or MiB of memory.

use crate::random::Random;

/// A set of blocks, as ascending half-open ranges that do not touch one another.
#[derive(Clone, Debug, Default, PartialEq, Eq)]
pub struct Pool {
    ranges: Vec<(u64, u64)>,
}

impl Pool {
    /// The set of all blocks in these ranges, in whatever order they come.
    pub fn of(mut ranges: Vec<(u64, u64)>) -> Pool {
        ranges.retain(|(first, end)| first < end);
        ranges.sort_unstable();
        let mut merged: Vec<(u64, u64)> = Vec::new();
        for (first, end) in ranges {
            match merged.last_mut() {
                Some(last) if first <= last.1 => last.1 = last.1.max(end),
                _ => merged.push((first, end)),
            }
        }
        Pool { ranges: merged }
    }

    /// The ranges of the set, ascending.
    pub fn ranges(&self) -> &[(u64, u64)] {
        &self.ranges
    }

    pub fn is_empty(&self) -> bool {
        self.ranges.is_empty()
    }

    /// How many blocks there are.
    pub fn count(&self) -> u64 {
        self.ranges.iter().map(|(first, end)| end - first).sum()
    }

    /// Are all blocks from first to before end in the set?
    pub fn contains(&self, first: u64, end: u64) -> bool {
        let after = self.ranges.partition_point(|range| range.0 <= first);
        first >= end || after > 0 && end <= self.ranges[after - 1].1
    }

    /// What is in one set or the other.
    pub fn union(&self, other: &Pool) -> Pool {
        Pool::of([&self.ranges[..], &other.ranges[..]].concat())
    }

    /// What lies from first to before end.
    pub fn within(&self, first: u64, end: u64) -> Pool {
        let cut = |&(a, b): &(u64, u64)| (a.max(first), b.min(end));
        Pool::of(self.ranges.iter().map(cut).collect())
    }

    /// What is in both sets.
    pub fn intersection(&self, other: &Pool) -> Pool {
        let parts = other.ranges.iter().flat_map(|&(first, end)| self.within(first, end).ranges);
        Pool::of(parts.collect())
    }

    /// What is left without the other set.
    pub fn without(&self, other: &Pool) -> Pool {
        let mut gaps = Vec::new();
        let mut from = 0;
        for &(first, end) in &other.ranges {
            gaps.push((from, first));
            from = end;
        }
        gaps.push((from, u64::MAX));
        self.intersection(&Pool::of(gaps))
    }

    /// All blocks one by one; for sets of IDs.
    pub fn blocks(&self) -> Vec<u64> {
        self.ranges.iter().flat_map(|&(first, end)| first..end).collect()
    }

    /// The set cut at multiples of the cell size, at most about so many cells: the cell is doubled
    /// until it fits.
    fn cells(&self, mut cell: u64, most: u64) -> Vec<(u64, u64)> {
        while self.count() / cell > most {
            cell *= 2;
        }
        let mut cells = Vec::new();
        for &(first, end) in &self.ranges {
            let mut from = first;
            while from < end {
                let to = end.min((from / cell + 1) * cell);
                cells.push((from, to));
                from = to;
            }
        }
        cells
    }

    /// Shares the set out by weights: cell by cell at random, or in one run for each share.
    pub fn share(&self, random: &mut Random, weights: &[u64], cell: u64, scattered: bool) -> Vec<Pool> {
        let cells = self.cells(cell, 1_024);
        let total: u64 = weights.iter().sum();
        let mut shares = vec![Vec::new(); weights.len()];
        for (index, &piece) in cells.iter().enumerate() {
            let point = match scattered {
                true => random.below(total),
                false => index as u64 * total / cells.len() as u64,
            };
            shares[weighted_index(weights, point)].push(piece);
        }
        shares.into_iter().map(Pool::of).collect()
    }
}

/// The index whose weight covers the point, all weights laid end to end.
fn weighted_index(weights: &[u64], mut point: u64) -> usize {
    for (index, &weight) in weights.iter().enumerate() {
        if point < weight {
            return index;
        }
        point -= weight;
    }
    weights.len() - 1
}

#[cfg(test)]
mod tests {
    use super::Pool;
    use crate::random::Random;

    #[test]
    fn sets_are_merged_cut_and_subtracted() {
        let pool = Pool::of(vec![(10, 20), (0, 5), (5, 7), (30, 30)]);
        assert_eq!(pool.ranges(), [(0, 7), (10, 20)]);
        assert_eq!(pool.count(), 17);
        assert!(pool.contains(4, 6) && !pool.contains(6, 11) && pool.contains(8, 8));
        assert_eq!(pool.without(&Pool::of(vec![(3, 12)])).ranges(), [(0, 3), (12, 20)]);
        assert_eq!(pool.intersection(&Pool::of(vec![(6, 11)])).ranges(), [(6, 7), (10, 11)]);
    }

    #[test]
    fn shares_are_disjoint_and_lose_nothing() {
        let pool = Pool::of(vec![(3, 100), (200, 207)]);
        for scattered in [false, true] {
            let shares = pool.share(&mut Random::new(1), &[1, 2, 3], 8, scattered);
            let together = shares.iter().fold(Pool::default(), |sum, share| sum.union(share));
            assert_eq!(together, pool);
            assert_eq!(shares.iter().map(Pool::count).sum::<u64>(), pool.count());
        }
    }
}
