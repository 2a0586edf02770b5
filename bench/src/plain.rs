//! The same calls of the port; none is inlined into the clock's loop, as none of the proved ones can be.

use bench::chassis::Decoders;
use bench::judge::ClaimAnswer;
use bench::picture::Reading;

#[inline(never)]
pub fn check(picture: &[u8], answer: &mut [u8; 40]) -> u32 {
    bench::fiswalend::fpb_check(picture, answer)
}

#[inline(never)]
pub fn walk(picture: &[u8], answer: &mut [u8; 40], kind: u32, start: u32, target: u64) -> u32 {
    bench::fiswalend::fpb_walk(picture, answer, kind, start, target)
}

#[inline(never)]
pub fn read(picture: &[u8]) -> u32 {
    match bench::picture::read(picture) {
        Reading::Read(_) => 0,
        Reading::Refused(refusal) => refusal.number as u32,
    }
}

fn bits(by: Decoders) -> u32 {
    by.bus as u32
        + ((by.rid as u32) << 1)
        + ((by.mem as u32) << 2)
        + ((by.pref as u32) << 3)
        + ((by.low as u32) << 4)
        + ((by.high as u32) << 5)
        + ((by.vga as u32) << 6)
}

#[inline(never)]
pub fn claim(picture: &[u8], port: u32, kind: u32, target: u64, decoders: &mut u32) -> u32 {
    match bench::judge::claim(picture, port, kind, target) {
        ClaimAnswer::Refused(refusal) => refusal.number as u32,
        ClaimAnswer::Claimed(by) => {
            *decoders = bits(by);
            0
        }
    }
}
