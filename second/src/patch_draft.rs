//! A patch in the making: each of its numbers can be set wrong.

/// A port in a patch, and all of its new vectors one after the other.
#[derive(Clone, Debug, PartialEq, Eq)]
pub struct NewVectors {
    pub port: u32,
    pub bytes: Vec<u8>,
}

/// Count, total, number and offset of each port, and the bytes that follow, as they are to stand.
#[derive(Clone, Debug)]
pub struct PatchDraft {
    pub count: u32,
    pub total: u32,
    pub ports: Vec<(u32, u32)>,
    pub vectors: Vec<u8>,
}

impl PatchDraft {
    /// The patch of these ports, with count, total and offsets as they should be.
    pub fn of(ports: &[NewVectors]) -> PatchDraft {
        let mut offset = 8 + 8 * ports.len();
        let mut draft =
            PatchDraft { count: ports.len() as u32, total: 0, ports: Vec::new(), vectors: Vec::new() };
        for new in ports {
            draft.ports.push((new.port, offset as u32));
            draft.vectors.extend(&new.bytes);
            offset += new.bytes.len();
        }
        draft.total = offset as u32;
        draft
    }

    /// Sets the total to the length, whatever the rest says.
    pub fn mend_total(&mut self) {
        self.total = (8 + 8 * self.ports.len() + self.vectors.len()) as u32;
    }

    /// The patch as bytes.
    pub fn bytes(&self) -> Vec<u8> {
        let mut out = [self.count.to_le_bytes(), self.total.to_le_bytes()].concat();
        for (port, offset) in &self.ports {
            out.extend(port.to_le_bytes());
            out.extend(offset.to_le_bytes());
        }
        out.extend(&self.vectors);
        out
    }
}
