//! More decoders at what the check finds: the ports that it names come to claim its least target by more
//! of them.

use crate::claims::{bus, unit};
use crate::draft::{Draft, DraftPort, VectorShape, Which};
use crate::judge::Judge;
use crate::picture::{Refusal, Target, MIB, VIDEO_RANGE};
use crate::random::Random;

/// The first MiB that is not below 4 GiB, and how many of them a High granule has.
const LOW_END: u64 = 4_096;
pub const MIB_OF_A_HIGH_GRANULE: u64 = 256;

/// Lets the ports that the check names claim its least target by more decoders, if it gives one.
pub fn widen(random: &mut Random, draft: &mut Draft) {
    let judge = Judge::new(&draft.bytes());
    let Err(Refusal { target: Some(target), ports, .. }) = judge.check() else { return };
    for named in ports {
        let registers = &mut draft.ports[named.port as usize];
        match target {
            Target::Id(id) => widen_at_id(random, registers, id),
            Target::Address(address) if VIDEO_RANGE.contains(address) => widen_in_video(random, registers),
            Target::Address(address) => widen_at_mib(random, registers, address / MIB),
        }
    }
}

/// VGA Enable is set, or is not. Half of the ports may claim the whole MiB: where two do, the check finds 0.
fn widen_in_video(random: &mut Random, registers: &mut DraftPort) {
    if random.percent(50) {
        registers.set_vga(true);
    }
    if random.percent(50) {
        widen_at_mib(random, registers, 0);
    }
}

/// The bus pair becomes the ID's bus, or the RID vector claims the ID, or both, or neither.
fn widen_at_id(random: &mut Random, registers: &mut DraftPort, id: u16) {
    if random.percent(40) {
        *registers = registers.clone().buses(bus(id), bus(id));
    }
    if random.percent(50) {
        set_entry(registers, Which::Rid, unit(id) as u64);
    }
}

/// Each window becomes this MiB, or does not, and a vector claims it, or does not.
fn widen_at_mib(random: &mut Random, registers: &mut DraftPort, mib: u64) {
    if mib < LOW_END && random.percent(40) {
        *registers = registers.clone().memory(mib as u16, mib as u16);
    }
    if random.percent(40) {
        *registers = registers.clone().prefetchable(mib, mib);
    }
    if random.percent(50) {
        match mib < LOW_END {
            true => set_entry(registers, Which::Low, mib),
            false => set_entry(registers, Which::High, mib / MIB_OF_A_HIGH_GRANULE),
        }
    }
}

/// Sets the entry that applies to a smallest granule, if one does; a port without the vector is given one.
pub fn set_entry(registers: &mut DraftPort, which: Which, granule: u64) {
    if registers.bytes(which).is_empty() {
        let start = granule / 32 * 32;
        registers.give_vector(which, VectorShape { size_code: 0, granularity_code: 0, start });
    }
    let granules_before = granule.wrapping_sub(registers.start(which));
    let entry = granules_before >> registers.granularity_code(which);
    if let Some(byte) = registers.bytes_mut(which).get_mut(entry as usize / 8) {
        *byte |= 1 << (entry % 8);
    }
}
