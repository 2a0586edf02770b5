//! Sound pictures of root ports that grow in one measure: ports, or entries.

/// So many root ports, each with a High vector of 256 · 2^code entries of 256 MiB from 4 GiB on, whose entries go to one
/// port after the other.
pub fn flat(ports: usize, code: u32) -> Vec<u8> {
    let entries = 256usize << code;
    let total = 16 + ports * (56 + entries / 8);
    let mut picture = Vec::with_capacity(total);
    picture.extend(1u16.to_le_bytes());
    picture.extend((ports as u16).to_le_bytes());
    picture.extend((total as u32).to_le_bytes());
    picture.extend(16u32.to_le_bytes());
    picture.extend((16 + 56 * ports as u32).to_le_bytes());
    for port in 0..ports {
        let mut record = [0; 56];
        record[1] = 255;
        record[2] = port as u8;
        record[4] = 2;
        // base above limit: the two ranges claim nothing
        record[8] = 0xF0;
        record[12] = 0xF0;
        record[28..32].copy_from_slice(&(4 | code << 24).to_le_bytes());
        record[44] = 1; // enabled, granularity 0
        record[48] = 1; // address bits 63:32
        let at = (16 + 56 * ports + port * (entries / 8)) as u32;
        record[52..56].copy_from_slice(&at.to_le_bytes());
        picture.extend(record);
    }
    for port in 0..ports {
        let mut vector = vec![0; entries / 8];
        (0..entries)
            .filter(|entry| entry % ports == port)
            .for_each(|entry| vector[entry / 8] |= 1 << (entry % 8));
        picture.extend(vector);
    }
    picture
}
