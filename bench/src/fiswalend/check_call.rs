// The check call: the picture and the answer buffer.
use crate::fiswalend::buffers::write;
use crate::fiswalend::checked::check_bytes;

pub fn fpb_check(picture: &[u8], answer: &mut [u8]) -> u32 {
    if answer.len() < 40 {
        return 17;
    }
    write(check_bytes(crate::judge::check(picture)), answer)
}
