//! Pairs whose patch reads, one way for each number that the check gives then; and pairs whose picture
//! does not read, whatever the patch.

use crate::claims::bus;
use crate::draft::{DraftPort, VectorShape, Which, NO_PARENT, ROOT, UPSTREAM};
use crate::editions::in_either_edition;
use crate::generate::refused_picture;
use crate::judge::Judge;
use crate::pairs::{small_picture, small_sound_picture, Pair, Turn};
use crate::patch::put_in;
use crate::patch_draft::{NewVectors, PatchDraft};
use crate::patches::{new_vectors, old_vectors, Readable};
use crate::picture::Refusal;
use crate::random::Random;

/// Clear, then 11 to 15, then 1 to 10, then 18.
pub const ACCEPTED: [Turn; 17] = [
    clear,
    clear_again,
    shared_id,
    claimed_own_id,
    twice_claimed_own_id,
    shared_address,
    shared_high,
    shared_video,
    lost_id,
    lost_address,
    own_id_passed_on,
    own_id_unsupported,
    unreadable_picture,
    taken_in_range,
    taken_on_bus,
    refused_on_bus,
    taken_once_claimed,
];

/// How often a pair is drawn anew until the trial gives the wanted number.
const TRIES: usize = 500;

/// A pair of a small picture and new vectors for one port or more, of which the trial's check gives this
/// number, and no port as a pair with itself; several tries, and whatever the last one gives.
fn giving(random: &mut Random, number: u8, draw: fn(&mut Random) -> Vec<u8>) -> Pair {
    let mut pair = Pair { picture: Vec::new(), patch: Vec::new() };
    for _ in 0..TRIES {
        let picture = draw(random);
        let new = some_new_vectors(random, &picture);
        pair = Pair { patch: PatchDraft::of(&new).bytes(), picture };
        let found = Judge::of_trial(&pair.picture, &pair.patch).check().err().unwrap_or(Refusal::bare(0));
        let with_itself = found.ports.len() == 2 && found.ports[0].port == found.ports[1].port;
        if found.number == number && !with_itself && !new.is_empty() {
            break;
        }
    }
    pair
}

/// New vectors for some ports of a picture that reads.
fn some_new_vectors(random: &mut Random, bytes: &[u8]) -> Vec<NewVectors> {
    let judge = Judge::new(bytes);
    new_vectors(random, Readable { bytes, picture: judge.reading().expect("a small picture reads") })
}

/// Clear: new vectors that leave a sound picture sound.
fn clear(random: &mut Random) -> Pair {
    giving(random, 0, small_sound_picture)
}

/// Clear: the old vectors of a sound picture are put into one with new ones.
fn clear_again(random: &mut Random) -> Pair {
    let sound = small_sound_picture(random);
    let new = some_new_vectors(random, &sound);
    let picture = put_in(&sound, &PatchDraft::of(&new).bytes()).expect("the patch is good");
    let judge = Judge::new(&sound);
    let of = Readable { bytes: &sound, picture: judge.reading().expect("a small picture reads") };
    let old: Vec<NewVectors> = new.iter().map(|new| old_vectors(of, new.port as usize)).collect();
    Pair { picture, patch: PatchDraft::of(&old).bytes() }
}

/// Number 11: an ID with two holders.
fn shared_id(random: &mut Random) -> Pair {
    giving(random, 11, small_sound_picture)
}

/// Number 12: an address with two holders.
fn shared_address(random: &mut Random) -> Pair {
    giving(random, 12, small_picture)
}

/// Number 12: by its new vector a port claims 256 MiB above 4 GiB that another claims by its window.
fn shared_high(random: &mut Random) -> Pair {
    let (own_id, entry) = (random.below(0x8000) as u16, random.below(256) as u16);
    let port = DraftPort::silent(ROOT, NO_PARENT, own_id).with_memory_space(true);
    let first_mib = 4_096 + 256 * entry as u64;
    let other = DraftPort::silent(ROOT, NO_PARENT, 0x8000 + own_id).prefetchable(first_mib, first_mib + 255);
    let ports = vec![with_vector(port, Which::High, 16), other];
    Pair { picture: in_either_edition(random, ports).bytes(), patch: setting_entry(entry) }
}

/// Number 12: by its new vector a port claims the first MiB, where another has the video range.
fn shared_video(random: &mut Random) -> Pair {
    let own_id = random.below(0x8000) as u16;
    let port = DraftPort::silent(ROOT, NO_PARENT, own_id).with_memory_space(true);
    let card = DraftPort::silent(ROOT, NO_PARENT, 0x8000 + own_id).video();
    let ports = vec![with_vector(port, Which::Low, 0), card];
    Pair { picture: in_either_edition(random, ports).bytes(), patch: setting_entry(0) }
}

/// Number 13: an ID that the parent does not claim.
fn lost_id(random: &mut Random) -> Pair {
    giving(random, 13, small_sound_picture)
}

/// Number 14: an address that the parent does not claim.
fn lost_address(random: &mut Random) -> Pair {
    giving(random, 14, small_sound_picture)
}

/// The port with a clear RID vector of 256 units from this one on.
fn with_rid_vector(port: DraftPort, first_unit: u16) -> DraftPort {
    with_vector(port, Which::Rid, first_unit as u64)
}

/// The port with a clear vector of 256 smallest granules.
fn with_vector(port: DraftPort, which: Which, start: u64) -> DraftPort {
    port.vector(which, VectorShape { size_code: 0, granularity_code: 0, start }, &[])
}

/// The patch that sets one entry of port 0, which has one vector, of 256 entries.
fn setting_entry(entry: u16) -> Vec<u8> {
    setting_entry_of(0, entry)
}

/// The patch that sets one entry of a port that has one vector, of 256 entries.
fn setting_entry_of(port: u32, entry: u16) -> Vec<u8> {
    let mut bytes = vec![0; 32];
    bytes[entry as usize / 8] = 1 << (entry % 8);
    PatchDraft::of(&[NewVectors { port, bytes }]).bytes()
}

/// Number 11: by its new vector a port claims its own ID; without it nothing does.
fn claimed_own_id(random: &mut Random) -> Pair {
    let (first_unit, entry) = (random.below(7_000) as u16, random.below(256) as u16);
    let own_id = 8 * (first_unit + entry) + random.below(8) as u16;
    let port = with_rid_vector(DraftPort::silent(ROOT, NO_PARENT, own_id), first_unit);
    Pair { picture: in_either_edition(random, vec![port]).bytes(), patch: setting_entry(entry) }
}

/// Number 11: a port claims its own ID by its bus pair, and by its new vector too.
fn twice_claimed_own_id(random: &mut Random) -> Pair {
    let (first_unit, entry) = (random.between(32, 7_000) as u16, random.below(256) as u16);
    let own_id = 8 * (first_unit + entry) + random.below(8) as u16;
    let port = DraftPort::silent(ROOT, NO_PARENT, own_id).buses(bus(own_id), bus(own_id));
    let port = with_rid_vector(port, first_unit);
    Pair { picture: in_either_edition(random, vec![port]).bytes(), patch: setting_entry(entry) }
}

/// Number 15: by its new vector the parent claims the own ID of the port below it, as Type 1; without it
/// the parent does not claim the ID.
fn own_id_passed_on(random: &mut Random) -> Pair {
    let (first_unit, entry) = (random.between(1_000, 7_000) as u16, random.below(256) as u16);
    let own_id = 8 * (first_unit + entry) + random.below(8) as u16;
    let root = DraftPort::silent(ROOT, NO_PARENT, random.below(256) as u16);
    let root = with_rid_vector(root, first_unit).secondary_range(first_unit - 1, 0);
    let ports = vec![root, DraftPort::silent(UPSTREAM, 0, own_id)];
    Pair { picture: in_either_edition(random, ports).bytes(), patch: setting_entry(entry) }
}

/// Number 15: the own ID is on the parent's Secondary bus with another device number than 0; the new
/// vector claims something else.
fn own_id_unsupported(random: &mut Random) -> Pair {
    let bus = random.between(1, 100) as u8;
    let own_id = (bus as u16) << 8 | random.between(8, 255) as u16;
    let root = DraftPort::silent(ROOT, NO_PARENT, random.below(256) as u16).buses(bus, bus);
    let root = with_rid_vector(root, 7_000).secondary_range(7_000, 0);
    let ports = vec![root, DraftPort::silent(UPSTREAM, 0, own_id)];
    Pair { picture: in_either_edition(random, ports).bytes(), patch: setting_entry(random.below(256) as u16) }
}

/// Numbers 1 to 10: a patch that changes nothing, one that is refused, or one of any port.
fn unreadable_picture(random: &mut Random) -> Pair {
    let number = random.between(1, 10) as u8;
    let nothing = PatchDraft::of(&[]).bytes();
    let port = random.pick(&[0, 1, 64, 255]);
    let one_port = PatchDraft::of(&[NewVectors { port, bytes: vec![0; 32] }]).bytes();
    let patch = random.pick(&[Vec::new(), nothing, one_port]);
    Pair { picture: refused_picture(random, number), patch }
}

/// A root port with bus `bus` as Secondary and 20 buses more.
fn root_above(random: &mut Random, bus: u16) -> DraftPort {
    DraftPort::silent(ROOT, NO_PARENT, random.below(256) as u16).buses(bus as u8, bus as u8 + 20)
}

/// Number 18: by its new vector a port claims the one unit of its parent's Secondary range.
fn taken_in_range(random: &mut Random) -> Pair {
    let (bus, entry) = (random.between(1, 200) as u16, random.below(256) as u16);
    let first_unit = 32 * (bus + 1);
    let root = with_rid_vector(root_above(random, bus), 0).secondary_range(first_unit + entry, 31);
    let child = with_rid_vector(DraftPort::silent(UPSTREAM, 0, bus << 8), first_unit);
    Pair { picture: in_either_edition(random, vec![root, child]).bytes(), patch: setting_entry_of(1, entry) }
}

/// Number 18: a port claims the bus of its parent's Secondary range by its bus pair, and the first unit of it
/// by its new vector too.
fn taken_on_bus(random: &mut Random) -> Pair {
    let (bus, more) = (random.between(1, 200) as u16, random.between(1, 8) as u16);
    let first_unit = 32 * (bus + 1);
    let root = with_rid_vector(root_above(random, bus).with_ari(), 0);
    let root = root.secondary_range(32 * (bus + more) + random.below(32) as u16, 0);
    let child = DraftPort::silent(UPSTREAM, 0, bus << 8).buses((bus + more) as u8, (bus + more) as u8);
    let ports = vec![root, with_rid_vector(child, first_unit)];
    Pair { picture: in_either_edition(random, ports).bytes(), patch: setting_entry_of(1, 32 * (more - 1)) }
}

/// Number 18: by its new vector a port claims another device than 0 of its parent's bus Secondary.
fn refused_on_bus(random: &mut Random) -> Pair {
    let (bus, entry) = (random.between(1, 200) as u16, random.between(1, 31) as u16);
    let child = with_rid_vector(DraftPort::silent(UPSTREAM, 0, bus << 8), 32 * bus);
    let ports = vec![root_above(random, bus), child];
    Pair { picture: in_either_edition(random, ports).bytes(), patch: setting_entry_of(1, entry) }
}

/// Number 18: a port claims the one unit of its parent's Secondary range, which the parent claims by its new
/// vector alone.
fn taken_once_claimed(random: &mut Random) -> Pair {
    let (bus, entry) = (random.between(1, 200) as u16, random.below(256) as u16);
    let first_unit = 32 * (bus + 21);
    let root = with_rid_vector(root_above(random, bus), first_unit).secondary_range(first_unit + entry, 0);
    let mut child = with_rid_vector(DraftPort::silent(UPSTREAM, 0, bus << 8), first_unit);
    child.flip_entry(Which::Rid, entry as u64);
    Pair { picture: in_either_edition(random, vec![root, child]).bytes(), patch: setting_entry(entry) }
}
