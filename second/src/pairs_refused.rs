//! Pairs whose patch is refused, one way for each form of the sentences of numbers 30 to 32.

use crate::draft::{DraftPort, NO_PARENT, ROOT};
use crate::editions::in_either_edition;
use crate::judge::Judge;
use crate::pairs::{small_picture, Pair, Turn};
use crate::patch_damage::damaged_patch;
use crate::patch_draft::{NewVectors, PatchDraft};
use crate::patches::{old_vectors, ports_with_vectors, Readable};
use crate::picture::header_fields;
use crate::random::Random;

/// Number 30, then 31, then 32, then any of them.
pub const REFUSED: [Turn; 23] = [
    no_bytes,
    one_byte,
    seven_bytes,
    other_total,
    total_of_one,
    one_port,
    count_too_large,
    cut_off,
    one_byte_more,
    longest_told,
    too_long_to_tell,
    first_port_beyond,
    last_port_beyond,
    beyond_one_port,
    out_of_order,
    twice,
    first_offset,
    later_offset,
    far_offset,
    vectors_too_long,
    vectors_too_short,
    no_port_but_bytes,
    several_damages,
];

/// A small picture, and its own vectors for two ports or more, in rising order.
fn good_ports(random: &mut Random) -> (Vec<u8>, Vec<NewVectors>) {
    let picture = small_picture(random);
    let judge = Judge::new(&picture);
    let of = Readable { bytes: &picture, picture: judge.reading().expect("a small picture reads") };
    let with_vectors = ports_with_vectors(of);
    let must = [with_vectors[0], with_vectors[1]];
    let mut ports = Vec::new();
    for port in 0..of.picture.ports.len() {
        if must.contains(&port) || random.percent(40) {
            ports.push(old_vectors(of, port));
        }
    }
    (picture, ports)
}

/// A pair whose patch is good but for one change to its list of ports.
fn with_list(random: &mut Random, change: fn(&mut Random, u32, &mut Vec<NewVectors>)) -> Pair {
    let (picture, mut ports) = good_ports(random);
    let (_, count, _) = header_fields(&picture);
    change(random, count as u32, &mut ports);
    Pair { picture, patch: PatchDraft::of(&ports).bytes() }
}

/// A pair whose patch is good but for one change to its numbers or its vectors.
fn with_draft(random: &mut Random, change: fn(&mut Random, &mut PatchDraft)) -> Pair {
    let (picture, ports) = good_ports(random);
    let mut draft = PatchDraft::of(&ports);
    change(random, &mut draft);
    Pair { picture, patch: draft.bytes() }
}

/// A pair whose patch is good but for one change to its bytes.
fn with_bytes(random: &mut Random, change: fn(&mut Random, &mut Vec<u8>)) -> Pair {
    let mut pair = with_draft(random, |_, _| {});
    change(random, &mut pair.patch);
    pair
}

/// Number 30: the patch is empty.
fn no_bytes(random: &mut Random) -> Pair {
    with_bytes(random, |_, patch| patch.clear())
}

/// Number 30: the patch has one byte.
fn one_byte(random: &mut Random) -> Pair {
    with_bytes(random, |_, patch| patch.truncate(1))
}

/// Number 30: the patch has 7 bytes, one too few for its header.
fn seven_bytes(random: &mut Random) -> Pair {
    with_bytes(random, |_, patch| patch.truncate(7))
}

/// Number 30: the total is a little off, or would be good if it were cut.
fn other_total(random: &mut Random) -> Pair {
    with_draft(random, |random, draft| {
        let total = draft.total;
        draft.total = random.pick(&[total - 1, total + 1, 0, total | 0x1_0000, u32::MAX]);
    })
}

/// Number 30: the total is 1.
fn total_of_one(random: &mut Random) -> Pair {
    with_draft(random, |_, draft| draft.total = 1)
}

/// Number 30: one port stands in the patch, and the total is off.
fn one_port(random: &mut Random) -> Pair {
    let (picture, ports) = good_ports(random);
    let mut draft = PatchDraft::of(&ports[..1]);
    draft.total = draft.total.wrapping_add_signed(random.pick(&[1, -1, 8, -8]));
    Pair { picture, patch: draft.bytes() }
}

/// Number 30: the count is more than goes into the patch, sometimes so much that eight times it would be
/// good if it were cut.
fn count_too_large(random: &mut Random) -> Pair {
    with_draft(random, |random, draft| {
        let room = (draft.total - 8) / 8;
        draft.count = random.pick(&[room + 1, 0x2000_0000 | draft.count, 0x8000_0000, u32::MAX]);
    })
}

/// Number 30: the patch is cut off behind its header.
fn cut_off(random: &mut Random) -> Pair {
    with_bytes(random, |random, patch| patch.truncate(random.between(8, patch.len() as u64 - 1) as usize))
}

/// Number 30: a byte follows the patch.
fn one_byte_more(random: &mut Random) -> Pair {
    with_bytes(random, |_, patch| patch.push(0))
}

/// Number 30: zeros follow the patch, up to the longest whose length the sentence tells.
fn longest_told(random: &mut Random) -> Pair {
    with_bytes(random, |_, patch| patch.resize(131_072, 0))
}

/// Number 30: zeros follow the patch, beyond the longest whose length the sentence tells.
fn too_long_to_tell(random: &mut Random) -> Pair {
    with_bytes(random, |random, patch| patch.resize(random.pick(&[131_073, 140_000, 140_000]), 0))
}

/// Number 31: the first port in the patch is the first that the picture does not have.
fn first_port_beyond(random: &mut Random) -> Pair {
    with_list(random, |_, count, ports| ports[0].port = count)
}

/// Number 31: the last port in the patch is far beyond the count, or would be good if it were cut.
fn last_port_beyond(random: &mut Random) -> Pair {
    with_list(random, |random, _, ports| {
        if let Some(last) = ports.last_mut() {
            last.port |= random.pick(&[64, 256, 0x1_0000, 0x8000_0000, 0xFFFF_FFFF]);
        }
    })
}

/// Number 31: the picture has one port, and another stands in the patch.
fn beyond_one_port(random: &mut Random) -> Pair {
    let port = DraftPort::silent(ROOT, NO_PARENT, random.bits() as u16);
    let picture = in_either_edition(random, vec![port]).bytes();
    let new = [0, random.pick(&[1, 1, 255])].map(|port| NewVectors { port, bytes: Vec::new() });
    Pair { picture, patch: PatchDraft::of(&new).bytes() }
}

/// Number 31: two neighbours change places.
fn out_of_order(random: &mut Random) -> Pair {
    with_list(random, |random, _, ports| {
        let index = random.below(ports.len() as u64 - 1) as usize;
        ports.swap(index, index + 1);
    })
}

/// Number 31: a port stands behind itself.
fn twice(random: &mut Random) -> Pair {
    with_list(random, |random, _, ports| {
        let index = random.below(ports.len() as u64) as usize;
        ports.insert(index, ports[index].clone());
    })
}

/// An offset is a little off, or 0.
fn move_offset(random: &mut Random, (_, offset): &mut (u32, u32)) {
    *offset = random.pick(&[*offset + 1, *offset - 1, *offset + 8, *offset - 8, 0]);
}

/// Number 32: the offset of the first port.
fn first_offset(random: &mut Random) -> Pair {
    with_draft(random, |random, draft| move_offset(random, &mut draft.ports[0]))
}

/// Number 32: the offset of a later port, and sometimes those behind it.
fn later_offset(random: &mut Random) -> Pair {
    with_draft(random, |random, draft| {
        let first = random.between(1, draft.ports.len() as u64 - 1) as usize;
        let all = random.percent(30);
        let last = if all { draft.ports.len() } else { first + 1 };
        draft.ports[first..last].iter_mut().for_each(|port| move_offset(random, port));
    })
}

/// Number 32: an offset far off, which would be good if it were cut.
fn far_offset(random: &mut Random) -> Pair {
    with_draft(random, |random, draft| {
        let index = random.below(draft.ports.len() as u64) as usize;
        draft.ports[index].1 |= random.pick(&[0x1_0000, 0x8000_0000, u32::MAX]);
    })
}

/// Number 32: bytes too many at the end, with a total that says so.
fn vectors_too_long(random: &mut Random) -> Pair {
    with_draft(random, |random, draft| {
        draft.vectors.extend(vec![0; random.pick(&[1, 1, 8, 32])]);
        draft.mend_total();
    })
}

/// Number 32: bytes too few at the end, with a total that says so.
fn vectors_too_short(random: &mut Random) -> Pair {
    with_draft(random, |random, draft| {
        draft.vectors.truncate(draft.vectors.len() - random.pick(&[1, 1, 8, 32]));
        draft.mend_total();
    })
}

/// Number 32: no port stands in the patch, and bytes follow its header.
fn no_port_but_bytes(random: &mut Random) -> Pair {
    with_draft(random, |random, draft| {
        *draft = PatchDraft::of(&[]);
        draft.vectors = vec![0; random.pick(&[1, 1, 8, 32])];
        draft.mend_total();
    })
}

/// Any of the numbers, by one to three damages.
fn several_damages(random: &mut Random) -> Pair {
    let picture = small_picture(random);
    let judge = Judge::new(&picture);
    let of = Readable { bytes: &picture, picture: judge.reading().expect("a small picture reads") };
    let patch = damaged_patch(random, of);
    Pair { picture, patch }
}
