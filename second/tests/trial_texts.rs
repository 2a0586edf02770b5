//! The sentence of a trial, held against what docs/PICTURE.md writes out.

use second::draft::{Draft, DraftPort, VectorShape, Which, DOWNSTREAM, NO_PARENT, ROOT, UPSTREAM};
use second::explain::explain;
use second::explain_trial::{explain_trial, PATCH_TEXTS};
use second::judge::Judge;
use second::pairs::pairs;

/// A root port 00:01.0 that claims nothing.
fn root() -> DraftPort {
    DraftPort::silent(ROOT, NO_PARENT, 0x0008)
}

/// The port with a clear vector of 256 entries: 32 bytes.
fn with_vector(port: DraftPort, which: Which, start: u64) -> DraftPort {
    port.vector(which, VectorShape { size_code: 0, granularity_code: 0, start }, &[])
}

/// The bytes of a picture of these ports.
fn bytes(ports: &[DraftPort]) -> Vec<u8> {
    Draft::of(ports.to_vec()).bytes()
}

/// A switch, clear, whose ports 0, 1 and 3 have vectors of 32 bytes.
fn switch() -> Vec<u8> {
    let down = |own_id, bus| DraftPort::silent(DOWNSTREAM, 1, own_id).buses(bus, bus);
    bytes(&[
        with_vector(root().buses(1, 4), Which::Rid, 0x200),
        with_vector(DraftPort::silent(UPSTREAM, 0, 0x0100).buses(2, 4), Which::Low, 0),
        down(0x0200, 3),
        with_vector(down(0x0208, 4).with_memory_space(true), Which::Low, 0xE00),
    ])
}

/// Port 3 of the switch, with the tree above it.
const PORT_3: &str = "port 3 (02:01.0, below port 1, 01:00.0, below port 0, 00:01.0)";

/// A patch as it is written: count, total, number and offset of each port, then so many bytes of zeros.
fn patch(count: u32, total: u32, ports: &[(u32, u32)], rest: usize) -> Vec<u8> {
    let mut words = vec![count, total];
    ports.iter().for_each(|&(port, offset)| words.extend([port, offset]));
    let mut bytes: Vec<u8> = words.iter().flat_map(|word| word.to_le_bytes()).collect();
    bytes.extend(vec![0; rest]);
    bytes
}

/// The patch is refused with this number, and after the number's text the sentence goes on so.
fn refused(picture: &[u8], patch: &[u8], number: usize, follows: &str) {
    let (first, rest) = PATCH_TEXTS[number - 30].split_at(1);
    let sentence = format!("{}{rest}: {follows}.", first.to_uppercase());
    assert_eq!(explain_trial(picture, patch), format!("refused {number}\n{sentence}\n"));
}

#[test]
fn patches_shorter_than_a_header() {
    refused(&switch(), &[], 30, "it has 0 bytes");
    refused(&switch(), &[0], 30, "it has 1 byte");
    refused(&switch(), &[0; 7], 30, "it has 7 bytes");
}

#[test]
fn headers_that_do_not_fit() {
    let says = |patch: Vec<u8>, follows: &str| refused(&switch(), &patch, 30, follows);
    says(patch(0, 0, &[], 0), "its header says 0 bytes and 0 ports, and it has 8 bytes");
    says(patch(1, 1, &[], 0), "its header says 1 byte and 1 port, and it has 8 bytes");
    says(patch(2, 200, &[], 191), "its header says 200 bytes and 2 ports, and it has 199 bytes");
    says(patch(2, 23, &[(0, 24)], 7), "its header says 23 bytes and 2 ports, and it has 23 bytes");
    let most = "its header says 4294967295 bytes and 4294967295 ports, and it has 8 bytes";
    says(patch(u32::MAX, u32::MAX, &[], 0), most);
    // eight times the count is 0 in 32 bits
    says(patch(0x2000_0000, 8, &[], 0), "its header says 8 bytes and 536870912 ports, and it has 8 bytes");
}

#[test]
fn long_patches() {
    let says = |patch: Vec<u8>, number, follows: &str| refused(&switch(), &patch, number, follows);
    let told = "its header says 8 bytes and 1 port, and it has 131072 bytes";
    let not_told = "its header says 8 bytes and 1 port, and it has more than 131,072 bytes";
    says(patch(1, 8, &[], 131_064), 30, told);
    says(patch(1, 8, &[], 131_065), 30, not_told);
    says(patch(1, 8, &[], 139_992), 30, not_told);
    says(patch(0, 140_000, &[], 139_992), 32, "they end at byte 8, and the patch has 140000 bytes");
}

#[test]
fn ports_that_the_picture_does_not_have() {
    let says = |ports: &[(u32, u32)], follows: &str| {
        let count = ports.len() as u32;
        refused(&switch(), &patch(count, 8 + 8 * count, ports, 0), 31, follows);
    };
    says(&[(4, 16)], "port 4 stands in it, and the picture has 4 ports");
    says(&[(2, 0), (4_294_967_295, 0)], "port 4294967295 stands in it, and the picture has 4 ports");
    says(&[(256, 0), (2, 0)], "port 256 stands in it, and the picture has 4 ports");
    let one = patch(1, 16, &[(1, 16)], 0);
    refused(&bytes(&[root()]), &one, 31, "port 1 stands in it, and the picture has 1 port");
}

#[test]
fn ports_twice_or_out_of_order() {
    let says = |ports: &[(u32, u32)], follows: &str| {
        let count = ports.len() as u32;
        refused(&switch(), &patch(count, 8 + 8 * count, ports, 0), 31, follows);
    };
    says(&[(3, 24), (2, 24)], "port 2 stands behind port 3");
    says(&[(3, 24), (3, 24)], "port 3 stands behind port 3");
    says(&[(1, 0), (2, 0), (0, 0), (9, 0)], "port 0 stands behind port 2");
}

#[test]
fn new_vectors_elsewhere() {
    let says = |patch: Vec<u8>, follows: &str| refused(&switch(), &patch, 32, follows);
    says(patch(1, 48, &[(3, 24)], 32), &format!("those of {PORT_3} begin at byte 24, and not at 16"));
    says(
        patch(2, 88, &[(0, 24), (3, 24)], 64),
        &format!("those of {PORT_3} begin at byte 24, and not at 56"),
    );
    let first = "those of port 0 (00:01.0, a root port) begin at byte 4294967295, and not at 24";
    says(patch(2, 88, &[(0, u32::MAX), (3, 0)], 64), first);
    // where those before end may be past the end of the patch
    says(patch(2, 24, &[(0, 24), (3, 24)], 0), &format!("those of {PORT_3} begin at byte 24, and not at 56"));
}

#[test]
fn new_vectors_too_long_or_too_short() {
    let says = |patch: Vec<u8>, follows: &str| refused(&switch(), &patch, 32, follows);
    says(patch(1, 49, &[(3, 16)], 33), "they end at byte 48, and the patch has 49 bytes");
    says(patch(1, 47, &[(3, 16)], 31), "they end at byte 48, and the patch has 47 bytes");
    says(patch(1, 17, &[(2, 16)], 1), "they end at byte 16, and the patch has 17 bytes");
    says(patch(0, 9, &[], 1), "they end at byte 8, and the patch has 9 bytes");
}

#[test]
fn a_picture_that_does_not_read_is_explained_before_the_patch() {
    let mut picture = switch();
    picture.push(0);
    assert_eq!(explain_trial(&picture, &[]), explain(&picture));
    assert_eq!(explain_trial(&[], &patch(0, 8, &[], 0)), explain(&[]));
}

#[test]
fn a_good_patch_is_explained_as_the_picture_with_it() {
    let nothing = patch(0, 8, &[], 0);
    assert_eq!(explain_trial(&switch(), &nothing), explain(&switch()));
    let mut set = patch(1, 48, &[(3, 16)], 32);
    set[16] = 1;
    let sentence = "A port holds an address that its parent does not claim: address 00000000e0000000 \
                    is held by port 3 (02:01.0, below port 1, 01:00.0, below port 0, 00:01.0) \
                    through its MEM Low vector, and port 1 does not claim it.";
    let wanted = format!("refused 14 addr 00000000e0000000 ports 3 by low\n{sentence}\n");
    assert_eq!(explain_trial(&switch(), &set), wanted);
    assert!(wanted.starts_with(&Judge::of_trial(&switch(), &set).report()));
}

#[test]
fn how_a_port_holds_something_is_told_of_the_new_vectors() {
    let owner = DraftPort::silent(ROOT, NO_PARENT, 0x0300);
    let picture = bytes(&[root().buses(3, 3), with_vector(owner, Which::Rid, 0x60)]);
    let says = |patch: &[u8], by: &str, manner: &str| {
        let sentence = format!(
            "An ID has two holders at one place, or a port claims its own ID: ID 03:00.0 (0300) is held by \
             port 0 (00:01.0, a root port) through its bus range and by port 1 (03:00.0, a root port) {manner}."
        );
        let line = format!("refused 11 id 0300 ports 0 by bus 1 by {by}");
        assert_eq!(explain_trial(&picture, patch), format!("{line}\n{sentence}\n"));
    };
    says(&patch(0, 8, &[], 0), "own", "as its own ID");
    let mut set = patch(1, 48, &[(1, 16)], 32);
    set[16] = 1;
    says(&set, "own rid", "as its own ID and through its RID vector");
}

#[test]
fn the_video_range_is_told_of_the_picture() {
    let card = DraftPort::silent(ROOT, NO_PARENT, 0x0010).video();
    let picture = bytes(&[with_vector(root().with_memory_space(true), Which::Low, 0), card]);
    let clear = "ports 2\nclear\n";
    assert!(explain_trial(&picture, &patch(0, 8, &[], 0)).starts_with(clear));
    let mut set = patch(1, 48, &[(0, 16)], 32);
    set[16] = 1;
    let sentence = "An address has two holders at one place: address 00000000000a0000 is held by \
                    port 0 (00:01.0, a root port) through its MEM Low vector and by \
                    port 1 (00:02.0, a root port) through its video range.";
    let line = "refused 12 addr 00000000000a0000 ports 0 by low 1 by vga";
    assert_eq!(explain_trial(&picture, &set), format!("{line}\n{sentence}\n"));
    set[16] = 2;
    assert!(explain_trial(&picture, &set).starts_with(clear));
}

#[test]
fn number_15_is_told_of_the_new_vectors() {
    let parent = with_vector(root(), Which::Rid, 0x20).secondary_range(0x40, 0);
    let picture = bytes(&[parent, DraftPort::silent(UPSTREAM, 0, 0x0108)]);
    assert_eq!(Judge::new(&picture).report(), "refused 13 id 0108 ports 1 by own\n");
    let mut set = patch(1, 48, &[(0, 16)], 32);
    set[16] = 2;
    let sentence = "A port's own ID is not both claimed and made Type 0 by its parent: \
                    port 1 (01:01.0, below port 0, 00:01.0), \
                    and port 0 passes configuration requests for it on as Type 1.";
    assert_eq!(explain_trial(&picture, &set), format!("refused 15 ports 1\n{sentence}\n"));
}

/// What the texts of 60 pairs, as many as tests/differential.sh takes, have somewhere.
const PHRASES: [&str; 31] = [
    ": it has 0 bytes.",
    ": it has 1 byte.",
    ": it has 7 bytes.",
    ": its header says 1 byte and ",
    " and 1 port, and it has ",
    ", and it has 131072 bytes.",
    ", and it has more than 131,072 bytes.",
    " stands in it, and the picture has 1 port.",
    ": those of port 0 (",
    ": those of port 1 (",
    ": they end at byte 8, and the patch has ",
    "\nclear\nNothing was found wrong: ",
    " and by port ",
    "claims its own ID",
    ") through its RID vector",
    ") through its bus range and through its RID vector",
    ") through its prefetchable window",
    ") through its MEM Low vector",
    ") through its MEM High vector",
    ") through its video range",
    "refused 12 addr",
    "refused 13 id",
    "refused 14 addr",
    "refused 18 id",
    "is claimed by port 1 (",
    "makes configuration requests for it Type 0.",
    "on as Type 1",
    "with Unsupported Request",
    ", a root port)",
    ", below port 1, ",
    " ports, and it has ",
];

#[test]
fn every_phrase_occurs() {
    let texts: String = pairs(1, 60).map(|pair| explain_trial(&pair.picture, &pair.patch)).collect();
    for phrase in PHRASES {
        assert!(texts.contains(phrase), "{phrase}");
    }
}

/// The two numbers of a text: those behind the first and behind the second phrase.
fn two_numbers(text: &str, first: &str, second: &str) -> Option<(u64, u64)> {
    let number = |phrase: &str| {
        let rest = text.split_once(phrase)?.1;
        rest.split(|letter: char| !letter.is_ascii_digit()).next()?.parse().ok()
    };
    Some((number(first)?, number(second)?))
}

#[test]
fn both_sides_of_every_form_occur() {
    let texts: Vec<String> = pairs(1, 60).map(|pair| explain_trial(&pair.picture, &pair.patch)).collect();
    let any = |first: &str, second: &str, holds: fn((u64, u64)) -> bool| {
        let found = texts.iter().any(|text| two_numbers(text, first, second).is_some_and(holds));
        assert!(found, "{first} .. {second}");
    };
    any("they end at byte ", "and the patch has ", |(end, length)| 8 < end && end < length);
    any("they end at byte ", "and the patch has ", |(end, length)| end > length);
    any(": port ", "and the picture has ", |(port, count)| port == count);
    any(": port ", "and the picture has ", |(port, count)| port > count);
    any(": port ", " stands behind port ", |(port, before)| port < before);
    any(": port ", " stands behind port ", |(port, before)| port == before);
    any("begin at byte ", "and not at ", |(at, end)| at < end);
    any("begin at byte ", "and not at ", |(at, end)| at > end);
    any("its header says ", "and it has ", |(total, length)| total < length);
    any("its header says ", "and it has ", |(total, length)| total == length);
    any("its header says ", "and it has ", |(total, length)| total > length);
}

#[test]
fn each_turn_gives_its_number_for_every_seed() {
    for seed in 1..=5 {
        let numbers: Vec<u8> = pairs(seed, 40)
            .map(|pair| {
                Judge::of_trial(&pair.picture, &pair.patch).check().map_or_else(|found| found.number, |()| 0)
            })
            .collect();
        let wanted = [vec![30; 11], vec![31; 5], vec![32; 6]].concat();
        assert_eq!(numbers[..22], wanted, "seed {seed}");
        assert_eq!(numbers[23..35], [0, 0, 11, 11, 11, 12, 12, 12, 13, 14, 15, 15], "seed {seed}");
        assert!((1..=10).contains(&numbers[35]), "seed {seed}");
        assert_eq!(numbers[36..], [18; 4], "seed {seed}");
    }
}

#[test]
fn what_is_not_passed_on_is_claimed_by_a_new_vector() {
    for seed in 1..=5 {
        let drawn: Vec<_> = pairs(seed, 40).skip(36).collect();
        let befores = ["clear", "by bus", "clear", "by rid"];
        let afters = ["by rid", "by bus rid", "by rid", "by rid"];
        for ((pair, before), after) in drawn.iter().zip(befores).zip(afters) {
            let alone = Judge::new(&pair.picture).report();
            let tried = Judge::of_trial(&pair.picture, &pair.patch).report();
            assert!(alone.ends_with(&format!("{before}\n")), "seed {seed}: {alone}");
            assert!(tried.ends_with(&format!(" ports 1 {after}\n")), "seed {seed}: {tried}");
        }
        assert!(Judge::new(&drawn[3].picture).report().starts_with("refused 13 "), "seed {seed}");
    }
}

#[test]
fn number_18_is_told_of_the_new_vectors() {
    let parent = with_vector(root().buses(1, 1), Which::Rid, 0x40).secondary_range(0x40, 0);
    let child = DraftPort::silent(UPSTREAM, 0, 0x0100);
    let shape = VectorShape { size_code: 0, granularity_code: 0, start: 0x40 };
    let picture = bytes(&[parent, child.vector(Which::Rid, shape, &[0])]);
    assert_eq!(Judge::new(&picture).report(), "refused 13 id 0200 ports 1 by rid\n");
    let mut set = patch(1, 48, &[(0, 16)], 32);
    set[16] = 1;
    let sentence = "A port claims an ID that its parent makes Type 0 or refuses and does not pass on as \
                    Type 1: ID 02:00.0 (0200) is claimed by port 1 (01:00.0, below port 0, 00:01.0) \
                    through its RID vector, and port 0 makes configuration requests for it Type 0.";
    assert_eq!(explain_trial(&picture, &set), format!("refused 18 id 0200 ports 1 by rid\n{sentence}\n"));
}

#[test]
fn an_own_id_is_claimed_by_the_new_vector_alone_and_with_the_bus_range() {
    for seed in 1..=5 {
        let drawn: Vec<_> = pairs(seed, 28).skip(26).collect();
        for (pair, before, after) in [(&drawn[0], "clear", "own rid"), (&drawn[1], "own bus", "own bus rid")]
        {
            let alone = Judge::new(&pair.picture).report();
            let tried = Judge::of_trial(&pair.picture, &pair.patch).report();
            assert!(alone.ends_with(&format!("{before}\n")), "seed {seed}: {alone}");
            assert!(tried.ends_with(&format!(" 0 by {after} 0 by {after}\n")), "seed {seed}: {tried}");
        }
    }
}

#[test]
fn pairs_are_small_and_one_seed_gives_the_same() {
    let drawn: Vec<_> = pairs(1, 60).collect();
    assert!(drawn.iter().filter(|pair| pair.picture.len() > 2_048).count() <= 2);
    assert!(pairs(1, 60).eq(drawn));
    assert!(!pairs(1, 20).eq(pairs(2, 20)));
}
