// Reading lent bytes, whatever they are: numbers in little-endian order, and parts. What lies past the end reads as 0
// and belongs to no part, so no reader asks anything of its caller but an offset that can be added to.

// The byte at i.
pub fn u8_at(s: &[u8], i: usize) -> u8 {
    if i < s.len() {
        s[i]
    } else {
        0
    }
}

// The two bytes from i on.
pub fn u16_at(s: &[u8], i: usize) -> u16 {
    if i + 2 <= s.len() {
        return u16::from_le_bytes(s[i..i + 2].try_into().unwrap());
    }
    u8_at(s, i) as u16 + 256 * (u8_at(s, i + 1) as u16)
}

// The four bytes from i on.
pub fn u32_at(s: &[u8], i: usize) -> u32 {
    if i + 4 <= s.len() {
        return u32::from_le_bytes(s[i..i + 4].try_into().unwrap());
    }
    u16_at(s, i) as u32 + 65536 * (u16_at(s, i + 2) as u32)
}

// The n bytes from a on, or as many of them as there are.
pub fn part(s: &[u8], a: usize, n: usize) -> &[u8] {
    if s.len() <= a {
        return &s[..0];
    }
    if s.len() - a < n {
        return &s[a..];
    }
    &s[a..a + n]
}

// The eight bytes from i on, all of them there.
pub fn whole64(s: &[u8], i: usize) -> u64 {
    u64::from_le_bytes(s[i..i + 8].try_into().unwrap())
}
