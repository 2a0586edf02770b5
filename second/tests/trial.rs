//! Trials: what is put in, where vectors lie, and what a batch lends.

use second::batch::{answers, Record};
use second::draft::{Draft, ALL_VECTORS};
use second::generate::sound_draft;
use second::judge::Judge;
use second::patch::{part, put_in, Slice};
use second::patch_draft::{NewVectors, PatchDraft};
use second::patches::{new_vectors, old_vectors, Readable};
use second::random::Random;
use second::wild::wild;

/// A picture in the making with new vectors for some of its ports, and the patch that should do the same.
struct Tried {
    draft: Draft,
    changed: Draft,
    new: Vec<NewVectors>,
}

/// A random trial with a good patch.
fn tried(seed: u64) -> Tried {
    let random = &mut Random::new(seed);
    let draft = if seed % 2 == 0 { wild(random) } else { sound_draft(random) };
    let bytes = draft.bytes();
    let judge = Judge::new(&bytes);
    let picture = judge.reading().expect("the picture reads");
    let new = new_vectors(random, Readable { bytes: &bytes, picture });
    let mut changed = draft.clone();
    for NewVectors { port, bytes } in &new {
        let mut rest = bytes.as_slice();
        for which in ALL_VECTORS {
            let vector = changed.ports[*port as usize].bytes_mut(which);
            let (taken, after) = rest.split_at(vector.len());
            vector.copy_from_slice(taken);
            rest = after;
        }
        assert!(rest.is_empty());
    }
    Tried { draft, changed, new }
}

#[test]
fn what_is_put_in_is_the_picture_drawn_with_the_new_vectors() {
    let mut differing = 0;
    for seed in 0..300 {
        let Tried { draft, changed, new } = tried(seed);
        let patched = put_in(&draft.bytes(), &PatchDraft::of(&new).bytes());
        assert_eq!(patched, Ok(changed.bytes()), "seed {seed}");
        differing += (changed.bytes() != draft.bytes()) as u32;
    }
    assert!(differing > 100);
}

#[test]
fn each_part_holds_the_vector_that_is_put_in() {
    for seed in 0..100 {
        let Tried { draft, changed, new } = tried(seed);
        let (picture, patch) = (draft.bytes(), PatchDraft::of(&new).bytes());
        for (port, registers) in changed.ports.iter().enumerate() {
            for which in ALL_VECTORS {
                let part = part(&picture, &patch, port as u32, which as u32).expect("all is good");
                let in_patch = new.iter().any(|new| new.port == port as u32);
                assert_eq!(part.slice == Slice::Patch, in_patch);
                let slice = if in_patch { &patch } else { &picture };
                assert_eq!(&slice[part.at..part.at + part.length], registers.bytes(which));
            }
        }
    }
}

#[test]
fn putting_the_old_vectors_in_again_gives_the_picture_back() {
    for seed in 0..100 {
        let Tried { draft, changed, new } = tried(seed);
        let (old_bytes, new_bytes) = (draft.bytes(), changed.bytes());
        let judge = Judge::new(&old_bytes);
        let of = Readable { bytes: &old_bytes, picture: judge.reading().expect("the picture reads") };
        let old: Vec<NewVectors> = new.iter().map(|new| old_vectors(of, new.port as usize)).collect();
        assert_eq!(put_in(&new_bytes, &PatchDraft::of(&old).bytes()).as_ref(), Ok(&old_bytes));
    }
}

#[test]
fn a_short_buffer_is_17_before_all_else_in_a_trial_too() {
    let picture = tried(1).draft.bytes();
    for patch in [PatchDraft::of(&[]).bytes(), Vec::new()] {
        let judge = Judge::of_trial(&picture, &patch);
        let mut buffer = [0xAA; 39];
        assert_eq!(judge.check_call(&mut buffer), 17);
        assert_eq!(judge.walk_call(&mut buffer, 3, 254, u64::MAX), 17);
        assert_eq!(buffer, [0xAA; 39]);
    }
}

#[test]
fn a_refused_patch_is_written_into_40_bytes() {
    let judge = Judge::of_trial(&tried(1).draft.bytes(), &[]);
    let mut buffer = [0xAA; 41];
    assert_eq!(judge.check_call(&mut buffer), 30);
    assert_eq!(buffer[..8], [30, 0, 255, 255, 0, 0, 0, 0]);
    assert_eq!(buffer[8..], [&[255; 32][..], &[0xAA]].concat());
    assert_eq!(judge.report(), "refused 30\n");
}

#[test]
fn a_new_picture_keeps_the_patch_and_a_new_patch_the_picture() {
    let Tried { draft, changed, new } = tried(3);
    let (picture, patch) = (draft.bytes(), PatchDraft::of(&new).bytes());
    let ask = |records: &[Record]| {
        let mut batch = Vec::new();
        records.iter().for_each(|record| record.write(&mut batch));
        answers(&batch).expect("the batch is whole")
    };
    let (lend, try_it) = (Record::Picture(picture), Record::Patch(patch));
    let wanted = ask(&[Record::Picture(changed.bytes()), Record::Check]);
    assert_eq!(ask(&[lend.clone(), try_it.clone(), Record::TrialCheck]), wanted);
    assert_eq!(ask(&[try_it, lend.clone(), Record::TrialCheck]), wanted);
    assert_eq!(ask(&[lend, Record::TrialReport]), ["refused 30"]);
}
