// The answer buffer that the controller lends.

// Writes an answer, keeps the rest of the buffer, and gives back the answer's number.
pub fn write(forty: [u8; 40], answer: &mut [u8]) -> u32 {
    answer[..40].copy_from_slice(&forty);
    forty[0] as u32
}
