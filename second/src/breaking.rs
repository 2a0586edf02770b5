//! One thing changed in a sound picture, so that the check gives a wanted number.

use crate::check::candidate_addresses;
use crate::draft::{Draft, VectorShape, Which, ALL_VECTORS};
use crate::judge::Judge;
use crate::picture::{Picture, FOUR_GIB, MIB};
use crate::random::Random;
use crate::video::{claim_the_first_mib, drop_the_first_mib};
use crate::widen::{set_entry, MIB_OF_A_HIGH_GRANULE};

/// One change to a draft whose picture reads.
type Change = fn(&mut Random, &Picture, &mut Draft);

/// The changes that tend to give a number from 11 to 15.
fn changes_for(number: u8) -> &'static [Change] {
    match number {
        11 => {
            &[own_id_of_another, claimed_own_id, bus_of_another, flip_rid_entry, move_bus_pair, last_own_id]
        }
        12 => &[
            memory_of_another,
            low_of_another,
            memory_of_another,
            low_of_another,
            move_memory,
            move_prefetchable,
            flip_memory_entry,
            shift_vector,
            claim_around_4_gib,
            claim_the_top,
            high_of_another,
            high_of_another,
            video_of_another,
            first_mib_against_video,
            first_mib_against_video,
        ],
        13 => &[
            clear_rid_entry_above,
            clear_rid_entry_above,
            flip_rid_entry,
            move_bus_pair,
            random_own_id,
            close_bus_pair,
            disable_vector,
        ],
        14 => &[
            clear_memory_entry_above,
            clear_memory_entry_above,
            clear_memory_entry_above,
            flip_memory_entry,
            move_memory,
            move_prefetchable,
            memory_space_off,
            disable_vector,
            claim_around_4_gib,
            claim_the_top,
            claim_the_top,
            video_below_none,
            video_without_memory_space_above,
            first_mib_below_video,
        ],
        _ => &[move_secondary_start, one_device_only, turn_ari, neighbour_own_id, other_claimed_own_id],
    }
}

/// Which numbers one change can give at all: overlaps need two ports at one place (or a claim of an
/// own ID), escapes need a port below another.
fn possible_numbers(picture: &Picture) -> Vec<u8> {
    let mut numbers = vec![11];
    if !ports_with_siblings(picture).is_empty() {
        numbers.push(12);
    }
    if picture.ports.iter().any(|port| port.parent.is_some()) {
        numbers.extend([13, 14, 15]);
    }
    numbers
}

/// Changes one thing in a sound picture such that the check gives a number from 11 to 15, rather one
/// that is seldom; several tries, and whatever the last one gives.
pub fn break_once(random: &mut Random, sound: &Draft) -> Draft {
    let judge = Judge::new(&sound.bytes());
    let Ok(picture) = judge.reading() else { return sound.clone() };
    let numbers = possible_numbers(picture);
    let number = random.pick(&numbers).max(random.pick(&numbers));
    let mut broken = sound.clone();
    for _ in 0..10 {
        broken = sound.clone();
        random.pick(changes_for(number))(random, picture, &mut broken);
        let given = Judge::new(&broken.bytes()).check();
        if given.is_err_and(|refusal| refusal.number == number) {
            break;
        }
    }
    broken
}

/// Changes that let ports meet in the video range, or lose it above.
const VIDEO_CHANGES: [Change; 6] = [
    video_of_another,
    first_mib_against_video,
    first_mib_against_video,
    video_below_none,
    video_without_memory_space_above,
    first_mib_below_video,
];

/// Makes one change around the video range, whatever comes of it.
pub fn break_at_video(random: &mut Random, sound: &Draft) -> Draft {
    let judge = Judge::new(&sound.bytes());
    let Ok(picture) = judge.reading() else { return sound.clone() };
    let mut broken = sound.clone();
    random.pick(&VIDEO_CHANGES)(random, picture, &mut broken);
    broken
}

/// Changes several things, whatever comes of it.
pub fn shake(random: &mut Random, draft: &Draft, times: u64) -> Draft {
    let judge = Judge::new(&draft.bytes());
    let Ok(picture) = judge.reading() else { return draft.clone() };
    let mut shaken = draft.clone();
    for _ in 0..times {
        let number = random.between(11, 15) as u8;
        random.pick(changes_for(number))(random, picture, &mut shaken);
    }
    shaken
}

/// A random port.
fn any_port(random: &mut Random, picture: &Picture) -> usize {
    random.below(picture.ports.len() as u64) as usize
}

/// The ports that are not alone at their place.
fn ports_with_siblings(picture: &Picture) -> Vec<usize> {
    let place_of = |port: usize| picture.ports[port].parent;
    (0..picture.ports.len()).filter(|&port| picture.ports_at(place_of(port)).len() > 1).collect()
}

/// Two ports at one place, in any order; one port twice if none has company.
pub fn two_siblings(random: &mut Random, picture: &Picture) -> (usize, usize) {
    let choice = ports_with_siblings(picture);
    if choice.is_empty() {
        let port = any_port(random, picture);
        return (port, port);
    }
    let port = random.pick(&choice);
    let mut others = picture.ports_at(picture.ports[port].parent);
    others.retain(|&other| other != port);
    (port, random.pick(&others))
}

/// A random port that has children, if any has.
fn any_parent(random: &mut Random, picture: &Picture) -> usize {
    let parents: Vec<usize> = picture.ports.iter().filter_map(|port| port.parent).collect();
    if parents.is_empty() {
        return any_port(random, picture);
    }
    random.pick(&parents)
}

/// The own ID of a port becomes that of another at its place.
fn own_id_of_another(random: &mut Random, picture: &Picture, draft: &mut Draft) {
    let (port, other) = two_siblings(random, picture);
    draft.ports[port].own_id = draft.ports[other].own_id;
}

/// The IDs that a port claims.
fn claimed_ids(picture: &Picture, port: usize) -> Vec<u16> {
    (0..=0xFFFF).filter(|&id| picture.ports[port].claims_id(id)).collect()
}

/// The own ID of a port becomes one that it, or another at its place, claims.
fn claimed_own_id(random: &mut Random, picture: &Picture, draft: &mut Draft) {
    let (port, other) = two_siblings(random, picture);
    let claimed = claimed_ids(picture, random.pick(&[port, port, other]));
    if !claimed.is_empty() {
        draft.ports[port].own_id = random.pick(&claimed);
    }
}

/// The own ID of a port becomes another one that its parent claims.
fn other_claimed_own_id(random: &mut Random, picture: &Picture, draft: &mut Draft) {
    let parent = any_parent(random, picture);
    let children = picture.ports_at(Some(parent));
    let claimed = claimed_ids(picture, parent);
    if !children.is_empty() && !claimed.is_empty() {
        draft.ports[random.pick(&children)].own_id = random.pick(&claimed);
    }
}

/// The own ID of a port becomes FFFFh.
fn last_own_id(random: &mut Random, picture: &Picture, draft: &mut Draft) {
    draft.ports[any_port(random, picture)].own_id = 0xFFFF;
}

/// The bus pair of a port becomes one bus that another at its place holds something of.
fn bus_of_another(random: &mut Random, picture: &Picture, draft: &mut Draft) {
    let (port, other) = two_siblings(random, picture);
    let claimed = claimed_ids(picture, other);
    let id = if claimed.is_empty() { picture.ports[other].own_id } else { random.pick(&claimed) };
    draft.ports[port].secondary = (id >> 8) as u8;
    draft.ports[port].subordinate = (id >> 8) as u8;
}

/// An entry of some enabled vector among these is turned over.
fn flip_an_entry(random: &mut Random, draft: &mut Draft, among: &[Which]) {
    let mut vectors = Vec::new();
    for (port, registers) in draft.ports.iter().enumerate() {
        let enabled = among.iter().filter(|&&which| registers.is_enabled(which));
        vectors.extend(enabled.map(|&which| (port, which)));
    }
    if vectors.is_empty() {
        return;
    }
    let (port, which) = random.pick(&vectors);
    let entries = draft.ports[port].bytes(which).len() as u64 * 8;
    draft.ports[port].flip_entry(which, random.below(entries));
}

/// An entry of a RID vector is turned over.
fn flip_rid_entry(random: &mut Random, _: &Picture, draft: &mut Draft) {
    flip_an_entry(random, draft, &[Which::Rid]);
}

/// An entry of a Low or High vector is turned over.
fn flip_memory_entry(random: &mut Random, _: &Picture, draft: &mut Draft) {
    flip_an_entry(random, draft, &[Which::Low, Which::High]);
}

/// A set entry of a port with children is cleared, in one of its enabled vectors among these.
fn clear_an_entry_above(random: &mut Random, picture: &Picture, draft: &mut Draft, among: &[Which]) {
    let registers = &mut draft.ports[any_parent(random, picture)];
    let mut set_entries = Vec::new();
    for &which in among.iter().filter(|&&which| registers.is_enabled(which)) {
        let bytes = registers.bytes(which);
        let is_set = |entry: &u64| bytes[(entry / 8) as usize] >> (entry % 8) & 1 == 1;
        set_entries.extend((0..bytes.len() as u64 * 8).filter(is_set).map(|entry| (which, entry)));
    }
    if !set_entries.is_empty() {
        let (which, entry) = random.pick(&set_entries);
        registers.flip_entry(which, entry);
    }
}

/// A set RID entry of a port with children is cleared.
fn clear_rid_entry_above(random: &mut Random, picture: &Picture, draft: &mut Draft) {
    clear_an_entry_above(random, picture, draft, &[Which::Rid]);
}

/// A set Low or High entry of a port with children is cleared.
fn clear_memory_entry_above(random: &mut Random, picture: &Picture, draft: &mut Draft) {
    clear_an_entry_above(random, picture, draft, &[Which::Low, Which::High]);
}

/// A vector starts one of its granules earlier or later.
fn shift_vector(random: &mut Random, picture: &Picture, draft: &mut Draft) {
    let registers = &mut draft.ports[any_port(random, picture)];
    let which = random.pick(&ALL_VECTORS);
    let step = 1 << registers.granularity_code(which);
    let start = registers.start(which);
    registers.set_start(which, if random.percent(50) { start + step } else { start.saturating_sub(step) });
}

/// Secondary or Subordinate moves by one bus.
fn move_bus_pair(random: &mut Random, picture: &Picture, draft: &mut Draft) {
    let registers = &mut draft.ports[any_port(random, picture)];
    let step = random.pick(&[1, 255]);
    match random.percent(50) {
        true => registers.secondary = registers.secondary.wrapping_add(step),
        false => registers.subordinate = registers.subordinate.wrapping_add(step),
    }
}

/// The bus pair claims nothing any more.
fn close_bus_pair(random: &mut Random, picture: &Picture, draft: &mut Draft) {
    let registers = &mut draft.ports[any_parent(random, picture)];
    registers.secondary = 0;
    registers.subordinate = 0;
}

/// A vector is not enabled any more.
fn disable_vector(random: &mut Random, picture: &Picture, draft: &mut Draft) {
    let which = random.pick(&ALL_VECTORS);
    draft.ports[any_parent(random, picture)].set_enabled(which, false);
}

/// A port gets a random own ID.
fn random_own_id(random: &mut Random, picture: &Picture, draft: &mut Draft) {
    draft.ports[any_port(random, picture)].own_id = random.bits() as u16;
}

/// A port gets an own ID close to its own, or on the same bus.
fn neighbour_own_id(random: &mut Random, picture: &Picture, draft: &mut Draft) {
    let registers = &mut draft.ports[any_port(random, picture)];
    registers.own_id ^= random.pick(&[1, 8, 0x40, 0xF8, 0x100]);
}

/// An address from this one on that a port claims, if it claims any.
fn claimed_address(random: &mut Random, picture: &Picture, port: usize, from: u64) -> Option<u64> {
    let claims = |address: &u64| *address >= from && picture.ports[port].claims_address(*address);
    let claimed: Vec<u64> = candidate_addresses(picture).into_iter().filter(claims).collect();
    (!claimed.is_empty()).then(|| random.pick(&claimed))
}

/// Prefetchable becomes one MiB that another port at the place claims.
fn memory_of_another(random: &mut Random, picture: &Picture, draft: &mut Draft) {
    let (port, other) = two_siblings(random, picture);
    if let Some(address) = claimed_address(random, picture, other, 0) {
        let mib = address / MIB;
        draft.ports[port] = draft.ports[port].clone().prefetchable(mib, mib);
    }
}

/// Memory becomes one MiB that another port at the place claims, if that is below 4 GiB.
fn low_of_another(random: &mut Random, picture: &Picture, draft: &mut Draft) {
    let (port, other) = two_siblings(random, picture);
    let mib = claimed_address(random, picture, other, 0).map(|address| address / MIB);
    if let Some(mib @ 0..=0xFFF) = mib {
        draft.ports[port] = draft.ports[port].clone().memory(mib as u16, mib as u16);
    }
}

/// The High vector, and sometimes Prefetchable, claim something that another port at the place claims.
fn high_of_another(random: &mut Random, picture: &Picture, draft: &mut Draft) {
    let (port, other) = two_siblings(random, picture);
    let Some(address) = claimed_address(random, picture, other, FOUR_GIB) else { return };
    let mib = address / MIB;
    set_entry(&mut draft.ports[port], Which::High, mib / MIB_OF_A_HIGH_GRANULE);
    draft.ports[port].set_memory_space(true);
    if random.percent(25) {
        draft.ports[port] = draft.ports[port].clone().prefetchable(mib, mib);
    }
}

/// Memory Base or Limit moves by one MiB.
fn move_memory(random: &mut Random, picture: &Picture, draft: &mut Draft) {
    let registers = &mut draft.ports[any_port(random, picture)];
    let step = random.pick(&[0x0010, 0xFFF0]);
    match random.percent(50) {
        true => registers.memory_base = registers.memory_base.wrapping_add(step),
        false => registers.memory_limit = registers.memory_limit.wrapping_add(step),
    }
}

/// Prefetchable Base or Limit moves by one MiB, or by 4 GiB.
fn move_prefetchable(random: &mut Random, picture: &Picture, draft: &mut Draft) {
    let registers = &mut draft.ports[any_port(random, picture)];
    let step = random.pick(&[0x0010, 0xFFF0]);
    match random.below(4) {
        0 => registers.prefetchable_base_upper ^= 1,
        1 => registers.prefetchable_limit_upper ^= 1,
        2 => registers.prefetchable_base = registers.prefetchable_base.wrapping_add(step),
        _ => registers.prefetchable_limit = registers.prefetchable_limit.wrapping_add(step),
    }
}

/// Prefetchable comes to lie around 4 GiB, or a new High vector has a granule that begins below it.
fn claim_around_4_gib(random: &mut Random, picture: &Picture, draft: &mut Draft) {
    let registers = &mut draft.ports[any_port(random, picture)];
    if random.percent(50) || !registers.bytes(Which::High).is_empty() {
        *registers = registers.clone().prefetchable(4_096 - random.below(2), 4_096);
        return;
    }
    let granularity_code = random.between(5, 7) as u32;
    registers.give_vector(Which::High, VectorShape { size_code: 0, granularity_code, start: 0 });
    registers.flip_entry(Which::High, 0);
    registers.set_memory_space(true);
}

/// Prefetchable, or a new High vector, comes to lie at the end of the address space.
fn claim_the_top(random: &mut Random, picture: &Picture, draft: &mut Draft) {
    let registers = &mut draft.ports[any_port(random, picture)];
    if random.percent(50) || !registers.bytes(Which::High).is_empty() {
        *registers = registers.clone().prefetchable((1 << 44) - 1, (1 << 44) - 1);
        return;
    }
    let start = (1 << 36) - 1;
    registers.give_vector(Which::High, VectorShape { size_code: 0, granularity_code: 0, start });
    registers.bytes_mut(Which::High).fill(0xFF);
    registers.set_memory_space(true);
}

/// Memory Space Enable is cleared.
fn memory_space_off(random: &mut Random, picture: &Picture, draft: &mut Draft) {
    draft.ports[any_parent(random, picture)].set_memory_space(false);
}

/// Two ports at a place have VGA Enable.
fn video_of_another(random: &mut Random, picture: &Picture, draft: &mut Draft) {
    let (port, other) = two_siblings(random, picture);
    for port in [port, other] {
        draft.ports[port] = draft.ports[port].clone().video();
    }
}

/// One port at a place has VGA Enable, and another claims the first MiB, with VGA Enable or without.
fn first_mib_against_video(random: &mut Random, picture: &Picture, draft: &mut Draft) {
    let (port, other) = two_siblings(random, picture);
    draft.ports[port] = draft.ports[port].clone().video();
    drop_the_first_mib(&mut draft.ports[port]);
    draft.ports[other].set_vga(random.percent(50));
    claim_the_first_mib(random, &mut draft.ports[other]);
}

/// A port with children, and one of these children; one port twice if none has any.
fn parent_and_child(random: &mut Random, picture: &Picture) -> (usize, usize) {
    let parent = any_parent(random, picture);
    let children = picture.ports_at(Some(parent));
    let child = if children.is_empty() { parent } else { random.pick(&children) };
    (parent, child)
}

/// A port has VGA Enable, and its parent has neither it nor the first MiB.
fn video_below_none(random: &mut Random, picture: &Picture, draft: &mut Draft) {
    let (parent, child) = parent_and_child(random, picture);
    draft.ports[parent].set_vga(false);
    drop_the_first_mib(&mut draft.ports[parent]);
    draft.ports[child] = draft.ports[child].clone().video();
}

/// A port and its parent have VGA Enable, the parent without Memory Space Enable.
fn video_without_memory_space_above(random: &mut Random, picture: &Picture, draft: &mut Draft) {
    let (parent, child) = parent_and_child(random, picture);
    draft.ports[child] = draft.ports[child].clone().video();
    draft.ports[parent] = draft.ports[parent].clone().video().with_memory_space(false);
}

/// A port has VGA Enable and claims the first MiB; its parent has VGA Enable alone.
fn first_mib_below_video(random: &mut Random, picture: &Picture, draft: &mut Draft) {
    let (parent, child) = parent_and_child(random, picture);
    draft.ports[parent] = draft.ports[parent].clone().video();
    drop_the_first_mib(&mut draft.ports[parent]);
    draft.ports[child] = draft.ports[child].clone().video();
    claim_the_first_mib(random, &mut draft.ports[child]);
}

/// The Secondary Start points elsewhere.
fn move_secondary_start(random: &mut Random, picture: &Picture, draft: &mut Draft) {
    let start = random.below(8_192) as u16;
    draft.ports[any_parent(random, picture)].set_secondary_start(start);
}

/// Num Sec Dev becomes 0.
fn one_device_only(random: &mut Random, picture: &Picture, draft: &mut Draft) {
    draft.ports[any_parent(random, picture)].capabilities &= !0xF8;
}

/// ARI Forwarding Enable is turned over.
fn turn_ari(random: &mut Random, picture: &Picture, draft: &mut Draft) {
    draft.ports[any_parent(random, picture)].flip_ari();
}
