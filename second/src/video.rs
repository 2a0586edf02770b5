//! The first MiB with the video range in it: ports that meet there by VGA Enable, windows and vectors.

use crate::draft::{Draft, DraftPort, Which};
use crate::picture::Picture;
use crate::random::Random;
use crate::widen::set_entry;

/// Addresses on both sides of the edges of the video range, and the first of its MiB.
const EDGES: [u64; 6] = [0, 0x9_FFFF, 0xA_0000, 0xA_0000, 0xB_FFFF, 0xC_0000];

/// Up to this length a picture has room for a small Low vector at every port.
const ROOMY: usize = 60_000;

/// One of these addresses.
pub fn video_edge(random: &mut Random) -> u64 {
    random.pick(&EDGES)
}

/// Has some port VGA Enable set, with Memory Space Enable or without?
pub fn has_video(picture: &Picture) -> bool {
    picture.ports.iter().any(|port| port.vga_enable)
}

/// Lets ports meet in the first MiB: some have VGA Enable, and some claim all of it by other decoders.
pub fn crowd_the_first_mib(random: &mut Random, draft: &mut Draft) {
    if draft.bytes().len() > ROOMY {
        return;
    }
    let video = random.pick(&[20, 50, 90]);
    let others = random.pick(&[0, 10, 40]);
    for port in &mut draft.ports {
        port.set_vga(random.percent(video));
        for claim in FIRST_MIB_CLAIMS {
            if random.percent(others) {
                claim(port);
            }
        }
    }
}

/// One way for a port to claim the first MiB.
type Claim = fn(&mut DraftPort);

/// All of them: Memory, Prefetchable and the Low vector. The windows have registers of zeros.
const FIRST_MIB_CLAIMS: [Claim; 3] = [
    |port| *port = port.clone().memory(0, 0),
    |port| *port = port.clone().prefetchable_type_0(0, 0),
    |port| set_entry(port, Which::Low, 0),
];

/// Lets a port claim the first MiB by one of these decoders or by several.
pub fn claim_the_first_mib(random: &mut Random, port: &mut DraftPort) {
    for _ in 0..random.between(1, 3) {
        random.pick(&FIRST_MIB_CLAIMS)(port);
    }
    port.set_memory_space(true);
}

/// Takes the first MiB, where a window or a Low vector begins with it, from a port.
pub fn drop_the_first_mib(port: &mut DraftPort) {
    if port.memory_base == 0 {
        port.memory_base = 0x0010;
    }
    if port.prefetchable_base <= 1 && port.prefetchable_base_upper == 0 {
        port.prefetchable_base += 0x0010;
    }
    if port.is_enabled(Which::Low) && port.start(Which::Low) == 0 {
        port.bytes_mut(Which::Low)[0] &= !1;
    }
}
