//! The proved calls, which the command line of the build links (tools/bench.sh): a slice is a pointer and a length.

extern "C" {
    fn fpb_check(picture: *const u8, length: usize, answer: *mut u8, room: usize) -> u32;
    fn fpb_walk(
        picture: *const u8,
        length: usize,
        answer: *mut u8,
        room: usize,
        kind: u32,
        start: u32,
        target: u64,
    ) -> u32;
    fn fpb_trial_check(
        picture: *const u8,
        length: usize,
        patch: *const u8,
        patch_length: usize,
        answer: *mut u8,
        room: usize,
    ) -> u32;
    fn fpb_claim(
        picture: *const u8,
        length: usize,
        port: u32,
        kind: u32,
        target: u64,
        decoders: *mut u32,
    ) -> u32;
    fn timing_read(picture: *const u8, length: usize) -> u32;
}

pub fn check(picture: &[u8], answer: &mut [u8; 40]) -> u32 {
    unsafe { fpb_check(picture.as_ptr(), picture.len(), answer.as_mut_ptr(), 40) }
}

pub fn trial_check(picture: &[u8], patch: &[u8], answer: &mut [u8; 40]) -> u32 {
    unsafe {
        fpb_trial_check(picture.as_ptr(), picture.len(), patch.as_ptr(), patch.len(), answer.as_mut_ptr(), 40)
    }
}

pub fn walk(picture: &[u8], answer: &mut [u8; 40], kind: u32, start: u32, target: u64) -> u32 {
    unsafe { fpb_walk(picture.as_ptr(), picture.len(), answer.as_mut_ptr(), 40, kind, start, target) }
}

pub fn read(picture: &[u8]) -> u32 {
    unsafe { timing_read(picture.as_ptr(), picture.len()) }
}

pub fn claim(picture: &[u8], port: u32, kind: u32, target: u64, decoders: &mut u32) -> u32 {
    unsafe { fpb_claim(picture.as_ptr(), picture.len(), port, kind, target, decoders) }
}
