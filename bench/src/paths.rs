// The ports that a packet has crossed, in crossing order.
use crate::ids::PortNo;

// 32 places; those that are not used yet are 255.
#[derive(Clone, Copy)]
pub struct Path {
    pub places: [PortNo; 32],
    pub count: usize,
}

impl Path {
    // Nothing crossed yet.
    pub fn new() -> Path {
        Path { places: [PortNo(255); 32], count: 0 }
    }

    // The path with one crossing more.
    pub fn crossed(mut self, p: PortNo) -> Path {
        let at = self.count;
        self.places[at] = p;
        self.count = at + 1;
        self
    }
}
