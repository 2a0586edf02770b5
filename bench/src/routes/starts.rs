// Where a packet starts: at the root, or below a device port, which may redirect it.
use crate::chassis::Packet;
use crate::chassis::Whereabouts;
use crate::ids::PortNo;
use crate::ids::Target;
use crate::routes::steps::come_to;

// Whether a packet is redirected that starts below this port: one for an address, where the port has redirect and does not claim it.
fn is_redirected(s: &[u8], packet: Packet, start: PortNo) -> bool {
    let Packet::Plain(t) = packet else {
        return false;
    };
    match t {
        Target::Id(_) => false,
        Target::Addr(_) => {
            if crate::claims::with_redirect_at(s, start) {
                return !crate::claims::claims(s, start, t);
            }
            false
        }
    }
}

// Where a packet is that starts there; the root is 255.
pub fn starts_at(s: &[u8], packet: Packet, start: PortNo) -> Whereabouts {
    come_to(is_redirected(s, packet, start), start)
}
