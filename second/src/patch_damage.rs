//! Patches damaged in every way that numbers 30 to 32 look at.

use crate::patch_draft::{NewVectors, PatchDraft};
use crate::patches::{new_vectors, Readable};
use crate::random::Random;

/// One way to damage a patch whose ports are still in a list: numbers and order.
type ListDamage = fn(&mut Random, usize, &mut Vec<NewVectors>);

/// One way to damage the numbers or the bytes of a patch.
type Damage = fn(&mut Random, &mut PatchDraft);

const LIST_DAMAGES: [ListDamage; 7] =
    [twice, twice_apart, falling, beyond_by_one, far_beyond, with_upper_bits, wrong_length];

const DAMAGES: [Damage; 8] = [
    wrong_total,
    count_too_large,
    count_by_one,
    offset_off,
    offset_elsewhere,
    offsets_swapped,
    offsets_shifted,
    vectors_by_one,
];

/// A patch with one to three things wrong, or cut short; the rest of it is good.
pub fn damaged_patch(random: &mut Random, of: Readable) -> Vec<u8> {
    let mut ports = new_vectors(random, of);
    let turns = random.pick(&[1, 1, 1, 2, 3]);
    let of_the_list = random.below(turns + 1);
    for _ in 0..of_the_list {
        random.pick(&LIST_DAMAGES)(random, of.picture.ports.len(), &mut ports);
    }
    let mut draft = PatchDraft::of(&ports);
    for _ in of_the_list..turns {
        random.pick(&DAMAGES)(random, &mut draft);
    }
    let mut patch = draft.bytes();
    match random.below(20) {
        0 => patch.truncate(random.below(8) as usize),
        1 => patch.truncate(random.below(patch.len() as u64) as usize),
        2 => patch.push(random.bits() as u8),
        _ => {}
    }
    patch
}

/// The place of one of so many things; none if there are none.
fn some_index(random: &mut Random, count: usize) -> Option<usize> {
    (count > 0).then(|| random.below(count as u64) as usize)
}

/// A port stands twice, one after the other.
fn twice(random: &mut Random, _: usize, ports: &mut Vec<NewVectors>) {
    if let Some(index) = some_index(random, ports.len()) {
        ports.insert(index, ports[index].clone());
    }
}

/// A port stands again at the end, or at the beginning.
fn twice_apart(random: &mut Random, _: usize, ports: &mut Vec<NewVectors>) {
    if let Some(index) = some_index(random, ports.len()) {
        let again = ports[index].clone();
        ports.insert(random.pick(&[0, ports.len()]), again);
    }
}

/// Two neighbours change places.
fn falling(random: &mut Random, _: usize, ports: &mut Vec<NewVectors>) {
    if let Some(index) = some_index(random, ports.len().saturating_sub(1)) {
        ports.swap(index, index + 1);
    }
}

/// The first port beyond the count stands at the end, with bytes or without.
fn beyond_by_one(random: &mut Random, count: usize, ports: &mut Vec<NewVectors>) {
    let bytes = vec![0; random.pick(&[0, 0, 32])];
    ports.push(NewVectors { port: count as u32, bytes });
}

/// A port far beyond the count stands at the end.
fn far_beyond(random: &mut Random, _: usize, ports: &mut Vec<NewVectors>) {
    let port = random.pick(&[64, 254, 255, 256, 0x1_0000, 0x8000_0000, u32::MAX]);
    ports.push(NewVectors { port, bytes: Vec::new() });
}

/// A number that would be good if it were cut.
fn with_upper_bits(random: &mut Random, _: usize, ports: &mut Vec<NewVectors>) {
    if let Some(last) = ports.last_mut() {
        last.port |= random.pick(&[64, 256, 0x1_0000, 0x8000_0000, 0xFFFF_FF00]);
    }
}

/// A port's vectors are a little too long or too short, and those after it follow.
fn wrong_length(random: &mut Random, _: usize, ports: &mut Vec<NewVectors>) {
    if let Some(index) = some_index(random, ports.len()) {
        let bytes = &mut ports[index].bytes;
        match random.percent(50) {
            true => bytes.truncate(bytes.len().saturating_sub(random.pick(&[1, 8, 32]))),
            false => bytes.extend(vec![0; random.pick(&[1, 8, 32])]),
        }
    }
}

/// The total is a little off, or far off, or would be good if it were cut.
fn wrong_total(random: &mut Random, draft: &mut PatchDraft) {
    let upper = draft.total | random.pick(&[0x1_0000, 0x8000_0000]);
    let by = random.pick(&[1, -1, 1, -1, 8, -8]);
    let near = draft.total.wrapping_add_signed(by);
    draft.total = random.pick(&[near, near, near, 0, u32::MAX, upper]);
}

/// The count is more than goes into the patch, some so large that eight times it is not.
fn count_too_large(random: &mut Random, draft: &mut PatchDraft) {
    let room = (draft.ports.len() + draft.vectors.len() / 8) as u32;
    let wraps = [0x1FFF_FFFF, 0x2000_0000, 0x2000_0000 | draft.count, 0x8000_0000 | draft.count, u32::MAX];
    draft.count = if random.percent(50) { room + random.pick(&[0, 1, 2]) } else { random.pick(&wraps) };
}

/// The count is one too large or one too small.
fn count_by_one(random: &mut Random, draft: &mut PatchDraft) {
    draft.count = random.pick(&[draft.count.saturating_add(1), draft.count.saturating_sub(1)]);
}

/// An offset is a little off.
fn offset_off(random: &mut Random, draft: &mut PatchDraft) {
    if let Some(index) = some_index(random, draft.ports.len()) {
        let by = random.pick(&[1, -1, 8, -8, 32, -32]);
        draft.ports[index].1 = draft.ports[index].1.wrapping_add_signed(by);
    }
}

/// An offset is 0, or that of the first port, the total, or far off.
fn offset_elsewhere(random: &mut Random, draft: &mut PatchDraft) {
    if let Some(index) = some_index(random, draft.ports.len()) {
        let offset = draft.ports[index].1;
        let places = [0, 8, draft.ports[0].1, draft.total, offset | 0x1_0000, offset | 0x8000_0000, u32::MAX];
        draft.ports[index].1 = random.pick(&places);
    }
}

/// The offsets of two neighbours change places.
fn offsets_swapped(random: &mut Random, draft: &mut PatchDraft) {
    if let Some(index) = some_index(random, draft.ports.len().saturating_sub(1)) {
        let first = draft.ports[index].1;
        draft.ports[index].1 = draft.ports[index + 1].1;
        draft.ports[index + 1].1 = first;
    }
}

/// All offsets are counted from elsewhere: from the first port's entry, or from the vectors.
fn offsets_shifted(random: &mut Random, draft: &mut PatchDraft) {
    let by = random.pick(&[8, 8 + 8 * draft.ports.len() as u32]);
    draft.ports.iter_mut().for_each(|(_, offset)| *offset = offset.wrapping_sub(by));
}

/// A byte too many or too few at the end, with a total that says so.
fn vectors_by_one(random: &mut Random, draft: &mut PatchDraft) {
    match random.percent(50) {
        true => draft.vectors.push(random.bits() as u8),
        false => draft.vectors.truncate(draft.vectors.len().saturating_sub(1)),
    }
    draft.mend_total();
}

#[cfg(test)]
mod tests {
    use super::*;
    use crate::cases::{root, shape};
    use crate::draft::{Draft, Which};
    use crate::judge::Judge;
    use crate::patch::put_in;

    /// Three ports with vectors of different lengths, and old ones for all of them.
    fn three_ports() -> (Vec<u8>, Vec<NewVectors>) {
        let port = |own_id, size_code| root(own_id).vector(Which::Low, shape(size_code, 0, 0), &[]);
        let ports = vec![port(0, 0), port(1, 1), root(2)];
        let new = |(port, bytes)| NewVectors { port, bytes: vec![0; bytes] };
        (Draft::of(ports).bytes(), [(0, 32), (1, 64), (2, 0)].map(new).to_vec())
    }

    /// The number that a patch gives; 0 if it is good.
    fn number_of(picture: &[u8], draft: &PatchDraft) -> u8 {
        put_in(picture, &draft.bytes()).map_or_else(|refusal| refusal.number, |_| 0)
    }

    #[test]
    fn what_damages_the_list_gives_31_or_32() {
        let (picture, good) = three_ports();
        assert_eq!(number_of(&picture, &PatchDraft::of(&good)), 0);
        for (index, damage) in LIST_DAMAGES.iter().enumerate() {
            let number = if index == LIST_DAMAGES.len() - 1 { 32 } else { 31 };
            let numbers = (0..50).map(|seed| {
                let mut ports = good.clone();
                damage(&mut Random::new(seed), 3, &mut ports);
                number_of(&picture, &PatchDraft::of(&ports))
            });
            assert!(numbers.clone().any(|given| given == number), "damage {index}");
            assert!(numbers.clone().all(|given| given == number || given == 0), "damage {index}");
        }
    }

    #[test]
    fn what_damages_the_numbers_gives_30_or_32() {
        let (picture, good) = three_ports();
        for (index, damage) in DAMAGES.iter().enumerate() {
            let wanted = if index < 2 { 30 } else { 32 };
            let numbers: Vec<u8> = (0..50)
                .map(|seed| {
                    let mut draft = PatchDraft::of(&good);
                    damage(&mut Random::new(seed), &mut draft);
                    number_of(&picture, &draft)
                })
                .collect();
            assert!(numbers.contains(&wanted), "damage {index}: {numbers:?}");
        }
    }

    #[test]
    fn damaged_patches_are_mostly_refused() {
        let (picture, _) = three_ports();
        let judge = Judge::new(&picture);
        let of = Readable { bytes: &picture, picture: judge.reading().expect("the picture reads") };
        let random = &mut Random::new(1);
        let refused = (0..500).filter(|_| put_in(&picture, &damaged_patch(random, of)).is_err());
        assert!(refused.count() > 400);
    }
}
