// The header of a picture, and numbers 1 to 5.
use crate::lent::u16_at;
use crate::lent::u32_at;
use crate::picture::Header;
use crate::registers::edition_of;
use crate::registers::record_at;

// The first 16 bytes.
pub fn header_at(s: &[u8]) -> Header {
    Header {
        edition: edition_of(s),
        count: u16_at(s, 2),
        total: u32_at(s, 4),
        records_at: u32_at(s, 8),
        vectors_at: u32_at(s, 12),
    }
}

// Number 1.
pub fn length_wrong(s: &[u8]) -> bool {
    (s.len() < record_at(edition_of(s), 1)) | (65536 < s.len())
}

// Number 2.
pub fn edition_wrong(h: Header) -> bool {
    !((h.edition == 1) | (h.edition == 2))
}

// Number 3.
pub fn count_wrong(h: Header) -> bool {
    (h.count == 0) | (64 < h.count)
}

// Number 4.
pub fn total_wrong(lent: usize, h: Header) -> bool {
    !(h.total as usize == lent)
}

// Number 5.
pub fn offset_wrong(lent: usize, h: Header) -> bool {
    let records_end = record_at(h.edition, h.count as usize);
    !(h.records_at == 16) | !(h.vectors_at as usize == records_end) | (lent < records_end)
}
