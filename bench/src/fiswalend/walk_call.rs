// The walk call: the picture, the answer buffer, packet kind, start and target.
use crate::fiswalend::buffers::write;
use crate::fiswalend::walked::walk_bytes;

pub fn fpb_walk(picture: &[u8], answer: &mut [u8], kind: u32, start: u32, target: u64) -> u32 {
    if answer.len() < 40 {
        return 17;
    }
    write(walk_bytes(crate::judge::walk(picture, kind, start, target)), answer)
}
