// Where a packet goes: the rules of the walk on the bytes of a picture that reads, repeated until they come to an end.
mod starts;
mod steps;

use crate::chassis::End;
use crate::chassis::Packet;
use crate::chassis::Step;
use crate::chassis::Whereabouts;
use crate::paths::Path;
pub use starts::starts_at;

// The ports crossed and the end.
#[derive(Clone, Copy)]
pub struct Walked {
    pub path: Path,
    pub end: End,
}

// A packet's way from its start to its end.
pub fn walk_from(s: &[u8], n: u8, packet: Packet, start: Whereabouts) -> Walked {
    let mut path = Path::new();
    let mut whereabouts = start;
    loop {
        match crate::routes::steps::step(s, n, packet, whereabouts) {
            Step::Stop(end) => return Walked { path, end },
            Step::Cross(p, beyond) => {
                path = path.crossed(p);
                whereabouts = beyond;
            }
        }
    }
}
