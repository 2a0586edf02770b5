//! All edges of reading, in both editions: small pictures on both sides of each, and lists that go through all
//! codes.

use crate::draft::{
    Draft, DraftPort, VectorShape, Which, ALL_VECTORS, DOWNSTREAM, NO_PARENT, ROOT, UPSTREAM,
};
use crate::picture::Edition;
use crate::random::Random;
use crate::sound::allowed_shapes;
use crate::spoil::{get_4, long_chain, put_2, put_4};
use crate::topology::{grow, Form};

/// Of the long lists, which do not look at the size of records, edition 2 has one of so many.
const OF_EDITION_2: usize = 5;

/// All codes of all fields, and all edges of the header.
pub fn reading_edges() -> Vec<Vec<u8>> {
    [edges_of(Edition::One, 1), edges_of(Edition::Two, OF_EDITION_2), acs_edges()].concat()
}

/// The edges of one edition, of the long lists one of so many.
fn edges_of(edition: Edition, one_of: usize) -> Vec<Vec<u8>> {
    let lists = [family_edges(), code_edges(), range_bit_edges(), start_edges()];
    let bytes = |ports| Draft::in_edition(edition, ports).bytes();
    let mut edges = [header_edges(edition), count_edges(edition), layout_edges(edition)].concat();
    edges.extend(lists.into_iter().flat_map(|list| list.into_iter().step_by(one_of)).map(bytes));
    edges
}

/// A root port that claims nothing.
fn lone_root() -> DraftPort {
    DraftPort::silent(ROOT, NO_PARENT, 0)
}

/// So many of them, with different own IDs.
fn roots(count: u16) -> Vec<DraftPort> {
    (0..count).map(|own_id| DraftPort::silent(ROOT, NO_PARENT, own_id)).collect()
}

/// A good picture with one field of 4 bytes replaced.
fn with_field(picture: &[u8], at: usize, value: u32) -> Vec<u8> {
    let mut picture = picture.to_vec();
    put_4(&mut picture, at, value);
    picture
}

/// A good picture cut or stretched to a length, with the total to match.
fn with_length(picture: &[u8], length: usize) -> Vec<u8> {
    let mut picture = picture.to_vec();
    picture.resize(length, 0);
    if length >= 8 {
        put_4(&mut picture, 4, length as u32);
    }
    picture
}

/// Ports whose vectors fill the picture to exactly 65,536 bytes: each has the largest for which there is room.
/// The count is one with which it comes out even.
fn longest_picture(edition: Edition) -> Vec<u8> {
    let count = match edition {
        Edition::One => 26,
        Edition::Two => 28,
    };
    let mut bytes_left = 65_536 - edition.record_start(count);
    let mut ports = roots(count as u16);
    let vectors = [
        (Which::Rid, vec![5, 2, 0]),
        (Which::Low, vec![4, 3, 2, 1, 0]),
        (Which::High, vec![5, 4, 3, 2, 1, 0]),
    ];
    for port in &mut ports {
        for (which, size_codes) in &vectors {
            let fits = |code: &&u32| 32usize << **code <= bytes_left;
            let Some(&size_code) = size_codes.iter().find(fits) else { continue };
            port.give_vector(*which, VectorShape { size_code, granularity_code: 0, start: 0 });
            bytes_left -= 32 << size_code;
        }
    }
    Draft::in_edition(edition, ports).bytes()
}

/// Numbers 1, 2, 4 and 5: lengths, editions, totals and offsets.
fn header_edges(edition: Edition) -> Vec<Vec<u8>> {
    let one = Draft::in_edition(edition, roots(1)).bytes();
    let two = Draft::in_edition(edition, roots(2)).bytes();
    let longest = longest_picture(edition);
    let mut edges = Vec::new();
    let around_one = [71, 72, 73, 74, 75, 76, 77];
    let lengths = [0, 1, 2, 15, 16, 127, 128, 132, 135, 136, 65_535, 65_536, 65_537];
    for length in around_one.into_iter().chain(lengths) {
        edges.push(with_length(&one, length));
        edges.push(with_length(&two, length));
        edges.push(with_length(&longest, length));
    }
    for field in [0, 1, 2, 3, 0x0100, 0x0101, 0x0102, 0x0200, 0x0201, 0xFFFF] {
        for good in [&one, &two] {
            let mut picture = good.clone();
            put_2(&mut picture, 0, field);
            edges.push(picture);
        }
    }
    let length = one.len() as u32;
    for total in [0, 71, 72, 73, 75, 76, 77, length + 0x1_0000, length + 0x8000_0000] {
        edges.push(with_field(&one, 4, total));
    }
    let offsets = [0, 15, 16, 17, 20, 0x1_0010, 0x8000_0010, length + 0x1_0000];
    for offset in offsets.into_iter().chain(around_one.map(|offset| offset as u32)) {
        edges.push(with_field(&one, 8, offset));
        edges.push(with_field(&one, 12, offset));
    }
    edges
}

/// Numbers 3 and 5: counts, and records past the end.
fn count_edges(edition: Edition) -> Vec<Vec<u8>> {
    let mut edges = Vec::new();
    for count in [0, 1, 2, 63, 64, 65, 66, 255, 256, 257] {
        let length = edition.record_start(count.max(1));
        edges.push(with_length(&Draft::in_edition(edition, roots(count as u16)).bytes(), length));
    }
    let two = Draft::in_edition(edition, roots(2)).bytes();
    for of_vectors in [128, 136] {
        for length in [77, 127, 128, 132, 135, 136] {
            edges.push(with_field(&with_length(&two, length), 12, of_vectors));
        }
    }
    edges
}

/// Numbers 6 and 7: all kinds and parents of two ports below a root port, and chains.
fn family_edges() -> Vec<Vec<DraftPort>> {
    let mut edges = Vec::new();
    let mut choices = Vec::new();
    for kind in 0..=3 {
        for parent in [0, 1, 2, 3, 254, 255] {
            choices.push(DraftPort::silent(kind, parent, 0));
        }
    }
    for length in [15, 16, 17, 18, 33, 64] {
        edges.push(long_chain(length, 0));
    }
    edges.push(long_chain(17, 47));
    edges.push(grow(&mut Random::new(1), Form::Chains, 64));
    for first in &choices {
        edges.push(vec![first.clone()]);
        for second in &choices {
            edges.push(vec![lone_root(), first.clone(), second.clone()]);
            let switch = DraftPort::silent(UPSTREAM, 0, 0);
            edges.push(vec![lone_root(), switch, first.clone(), second.clone()]);
        }
    }
    edges
}

/// Number 8: every size code with every granularity code, supported or not, enabled or not.
fn code_edges() -> Vec<Vec<DraftPort>> {
    let mut edges = Vec::new();
    for which in ALL_VECTORS {
        for size_code in 0..8 {
            for granularity_code in 0..16 {
                for (supported, enabled) in [(true, true), (true, false), (false, true), (false, false)] {
                    let shape = VectorShape { size_code, granularity_code, start: 0 };
                    edges.push(one_vector(which, shape, supported, enabled));
                }
            }
        }
    }
    edges
}

/// One port with one vector; the codes may be reserved.
fn one_vector(which: Which, shape: VectorShape, supported: bool, enabled: bool) -> Vec<DraftPort> {
    let mut port = lone_root();
    port.give_vector(which, shape);
    port.set_enabled(which, enabled);
    if !supported {
        port.capabilities &= !7;
        port.bytes_mut(which).clear();
    }
    vec![port]
}

/// Number 8: every value of the low bits of the range registers, Memory Space Enable on and off.
fn range_bit_edges() -> Vec<Vec<DraftPort>> {
    let mut edges = Vec::new();
    for base in 0..16 {
        for limit in 0..16 {
            let mut memory = lone_root().with_memory_space(limit % 2 == 0);
            memory.memory_base |= base;
            memory.memory_limit |= limit;
            let mut prefetchable = lone_root().with_memory_space(limit % 2 == 0);
            prefetchable.prefetchable_base |= base;
            prefetchable.prefetchable_limit |= limit;
            edges.push(vec![memory]);
            edges.push(vec![lone_root(), prefetchable]);
        }
    }
    edges
}

/// Number 8: each bit of ACS Control and of the two bytes after it, at each of two ports.
fn acs_edges() -> Vec<Vec<u8>> {
    let mut edges = Vec::new();
    for bit in 0..32 {
        for port in 0..2 {
            let mut ports = roots(2);
            ports[port].acs_control = (1u32 << bit) as u16;
            ports[port].after_acs_control = (1u32 << bit >> 16) as u16;
            edges.push(Draft::in_edition(Edition::Two, ports).bytes());
        }
    }
    edges
}

/// Number 9: starts at and beside multiples of every granularity, and the ARI rule for every kind.
fn start_edges() -> Vec<Vec<DraftPort>> {
    let mut edges = Vec::new();
    for which in ALL_VECTORS {
        for (size_code, granularity_code) in allowed_shapes(which, 5) {
            let granule = 1u64 << granularity_code;
            for start in
                [1, granule / 2, granule - 1, granule, granule + 1, granule * 3, granule * 6 + granule / 2]
            {
                for enabled in [true, false] {
                    let shape = VectorShape { size_code, granularity_code, start };
                    edges.push(one_vector(which, shape, true, enabled));
                }
            }
        }
    }
    for start in [0, 1, 8, 16, 31, 32, 33, 48, 64] {
        for granularity_code in [0, 3, 5] {
            let shape = VectorShape { size_code: 0, granularity_code, start };
            edges.extend([0, 1, 2].map(|chosen| ari_on_all_kinds(shape, chosen)));
        }
    }
    edges
}

/// A root, an upstream and a downstream port, one of them with ARI and a RID vector.
fn ari_on_all_kinds(shape: VectorShape, chosen: usize) -> Vec<DraftPort> {
    let mut ports = vec![lone_root(), DraftPort::silent(UPSTREAM, 0, 0), DraftPort::silent(DOWNSTREAM, 1, 0)];
    ports[chosen].give_vector(Which::Rid, shape);
    ports[chosen].flip_ari();
    ports
}

/// Number 10: every start off by something, and bytes more or fewer at the end.
fn layout_edges(edition: Edition) -> Vec<Vec<u8>> {
    let mut ports = vec![lone_root(); 4];
    ports[1].give_vector(Which::Low, VectorShape { size_code: 1, granularity_code: 0, start: 0 });
    ports[2].give_vector(Which::Rid, VectorShape { size_code: 0, granularity_code: 0, start: 0 });
    ports[2].give_vector(Which::High, VectorShape { size_code: 2, granularity_code: 0, start: 0 });
    let good = Draft::in_edition(edition, ports).bytes();
    let mut edges = vec![good.clone()];
    for port in 0..4 {
        let at = edition.record_start(port) + 52;
        let start = get_4(&good, at);
        // 16 is by how much four records of one edition are longer than those of the other
        for by in [1, 4, 16, 32] {
            edges.push(with_field(&good, at, start - by));
            edges.push(with_field(&good, at, start + by));
        }
        for wrong in [0, start + 0x1_0000, u32::MAX] {
            edges.push(with_field(&good, at, wrong));
        }
    }
    for length in [good.len() - 32, good.len() - 1, good.len() + 1, good.len() + 4, good.len() + 32] {
        edges.push(with_length(&good, length));
    }
    edges
}
