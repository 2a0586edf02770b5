//! Random pictures that read but need not be sound, and noise that must not matter.

use crate::draft::{Draft, DraftPort, VectorShape, Which, ALL_VECTORS, REQUEST_REDIRECT, UPSTREAM};
use crate::editions::in_either_edition;
use crate::random::Random;
use crate::sound::allowed_shapes;
use crate::topology::{grow, port_count, ALL_FORMS};
use crate::video::crowd_the_first_mib;

/// Bits of the registers that nobody looks at: Bridge Control, Capabilities, RID Control 1 and 2, Low, High.
const BRIDGE_CONTROL_RESERVED: u16 = 0xFFF7;
const CAPABILITIES_RESERVED: u32 = 0xF8F8_F800;
const RID_1_RESERVED: u32 = 0x0007_FF0E;
const RID_2_RESERVED: u32 = 0xFFFF_0007;
const LOW_RESERVED: u32 = 0x000F_FF0E;
const HIGH_1_RESERVED: u32 = 0x0FFF_FF0E;

/// How many buses the ports of a picture crowd into; the fewer, the more they overlap.
const WORLDS: [u64; 5] = [1, 2, 6, 6, WHOLE_WORLD];
const WHOLE_WORLD: u64 = 256;

/// In how many of a hundred pictures ports meet in the first MiB.
const CROWDED: u64 = 15;

/// A random picture that reads.
pub fn wild(random: &mut Random) -> Draft {
    let form = random.pick(&ALL_FORMS);
    let count = port_count(random);
    let mut ports = grow(random, form, count);
    let world = random.pick(&WORLDS);
    let most_size_code = if count > 16 { 1 } else { random.pick(&[0, 0, 2, 5]) };
    for port in &mut ports {
        set_ids(random, port, world);
        set_memory(random, port, world);
        for which in ALL_VECTORS {
            if random.percent(40) {
                set_vector(random, port, which, world, most_size_code);
            }
        }
    }
    let mut draft = in_either_edition(random, ports);
    if random.percent(CROWDED) {
        crowd_the_first_mib(random, &mut draft);
    }
    draft
}

/// Random memory over what is sound as far as IDs go.
pub fn make_memory_wild(random: &mut Random, sound: &mut Draft) {
    let world = random.pick(&WORLDS);
    for port in &mut sound.ports {
        set_memory(random, port, world);
        for which in [Which::Low, Which::High] {
            if port.is_enabled(which) && random.percent(50) {
                fill_bytes(random, port.bytes_mut(which));
            }
        }
    }
    if random.percent(CROWDED) {
        crowd_the_first_mib(random, sound);
    }
}

/// Own ID, bus pair, Secondary range and ARI, within so many buses.
fn set_ids(random: &mut Random, port: &mut DraftPort, buses: u64) {
    port.own_id = (random.below(buses) << 8) as u16 | random.pick(&[0, 0, 8, 0xF8, 0x13]);
    if random.percent(60) {
        port.secondary = random.below(buses) as u8;
        port.subordinate = port.secondary.saturating_add(random.pick(&[0, 0, 1, 3, 200]));
    }
    let start = match random.percent(10) {
        true => random.between(8_160, 8_191),
        false => random.below(buses) * 32 + random.pick(&[0, 0, 1, 31]),
    };
    *port = port.clone().secondary_range(start as u16, random.pick(&[0, 1, 31]));
    if random.percent(40) {
        *port = port.clone().with_ari();
    }
}

/// Memory and Prefetchable ranges, within so many times 16 MiB; in a small world around 4 GiB too.
fn set_memory(random: &mut Random, port: &mut DraftPort, world: u64) {
    let low = world * 16;
    if random.percent(50) {
        let base = random.below(low);
        let limit = (base + random.pick(&[0, 0, 1, 7])).min(4_095);
        *port = port.clone().memory(base as u16, limit as u16);
    }
    if random.percent(30) {
        let base = random.below(low) as u16;
        *port = port.clone().prefetchable_type_0(base, (base + random.below(3) as u16).min(4_095));
    } else if random.percent(50) {
        let base = if world < WHOLE_WORLD { 4_080 + random.below(32) } else { random.below(1 << 44) };
        let limit = (base + random.pick(&[0, 1, 15, 4_096])).min((1 << 44) - 1);
        *port = port.clone().prefetchable(base, limit);
    }
    port.set_memory_space(random.percent(85));
}

/// A vector of any shape that is allowed, at any start that is allowed, filled in some manner.
fn set_vector(random: &mut Random, port: &mut DraftPort, which: Which, world: u64, most_size_code: u32) {
    let (size_code, granularity_code) = random.pick(&allowed_shapes(which, most_size_code));
    let ari = which == Which::Rid && port.kind != UPSTREAM && port.device_control_2 >> 5 & 1 == 1;
    let alignment = if ari { 32 } else { 1 << granularity_code };
    let space_end: u64 = match which {
        Which::Rid => 8_192,
        Which::Low => 4_096,
        Which::High => 1 << 36,
    };
    let near = match which {
        Which::Rid => random.below(128),
        Which::Low => random.below(24),
        Which::High => random.below(32),
    };
    let start = match (world < WHOLE_WORLD, random.percent(10)) {
        (_, true) => space_end - random.between(1, 40),
        (true, _) => near,
        (false, _) => random.below(space_end),
    };
    port.give_vector(
        which,
        VectorShape { size_code, granularity_code, start: start / alignment * alignment },
    );
    fill_bytes(random, port.bytes_mut(which));
}

/// Fills a vector sparsely, densely, at random, or with one run of set entries.
fn fill_bytes(random: &mut Random, bytes: &mut [u8]) {
    let length = bytes.len() as u64;
    match random.below(6) {
        0 => bytes.fill(0xFF),
        1 => bytes.iter_mut().for_each(|byte| *byte = random.bits() as u8),
        2 => {
            let first = random.below(length) as usize;
            let end = random.between(first as u64 + 1, length) as usize;
            bytes[first..end].fill(0xFF);
        }
        _ => {
            for _ in 0..random.between(1, 6) {
                let among = if random.percent(60) { 4 } else { length };
                let byte = random.below(among);
                bytes[byte as usize] |= 1 << random.below(8);
            }
        }
    }
}

/// Noise in everything that must not matter: reserved bits, unused registers, and vectors that are
/// supported but not enabled.
pub fn add_noise(random: &mut Random, draft: &mut Draft) {
    let mut bytes_left = 65_536 - draft.bytes().len();
    for port in &mut draft.ports {
        if random.percent(50) {
            scribble_reserved_bits(random, port);
        }
        for which in ALL_VECTORS {
            if port.bytes(which).is_empty() && bytes_left >= 32 && random.percent(15) {
                bytes_left -= 32;
                support_only(random, port, which);
            }
        }
    }
}

/// Random values in the bits that nobody looks at.
fn scribble_reserved_bits(random: &mut Random, port: &mut DraftPort) {
    port.command |= random.bits() as u16 & !0x0002;
    port.device_control_2 |= random.bits() as u16 & !0x0020;
    port.bridge_control |= random.bits() as u16 & BRIDGE_CONTROL_RESERVED;
    port.capabilities |= random.bits() as u32 & CAPABILITIES_RESERVED;
    port.rid_control_1 |= random.bits() as u32 & RID_1_RESERVED;
    port.rid_control_2 |= random.bits() as u32 & RID_2_RESERVED;
    port.low_control |= random.bits() as u32 & LOW_RESERVED;
    port.high_control_1 |= random.bits() as u32 & HIGH_1_RESERVED;
    port.acs_control |= random.apart().bits() as u16 & !REQUEST_REDIRECT;
}

/// A vector of 256 random entries that is not enabled, with any granularity and start.
fn support_only(random: &mut Random, port: &mut DraftPort, which: Which) {
    port.support(which, 0, 32);
    port.set_granularity(which, random.below(16) as u32);
    port.set_start(which, random.bits() & 0xF_FFFF_FFFF);
    port.bytes_mut(which).iter_mut().for_each(|byte| *byte = random.bits() as u8);
}
