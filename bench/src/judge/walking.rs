// The walk call: where a packet goes, from the host or from a device port.
use crate::chassis::Packet;
use crate::ids::PortNo;
use crate::ids::Rid;
use crate::ids::Target;
use crate::judge::refusals::number_16;
use crate::judge::refusals::refusal_of;
use crate::judge::Outcome;
use crate::judge::WalkAnswer;
use crate::paths::Path;
use crate::picture::Reading;
use crate::picture::Refusal;
use crate::routes::Walked;

// An ID over FFFFh; an address may have 64 bits.
fn id_too_large(kind: u32, target: u64) -> bool {
    !(kind == 1) & (65536 <= target)
}

// The packet of a kind, 0 to 2, for a target that is no ID over FFFFh.
fn packet_of(kind: u32, target: u64) -> Packet {
    if kind == 1 {
        return Packet::Plain(Target::Addr(target));
    }
    let rid = Rid(target as u16);
    if kind == 0 {
        return Packet::Plain(Target::Id(rid));
    }
    Packet::Config(rid)
}

// Whether a packet may start there: at the root, or below a device port.
fn is_start(s: &[u8], n: u8, start: u32) -> bool {
    if start == 255 {
        return true;
    }
    let count = n as u32;
    if count <= start {
        return false;
    }
    crate::trees::is_device_port(s, n, PortNo(start as u8))
}

// Number 16.
fn asked_wrongly(s: &[u8], n: u8, kind: u32, start: u32, target: u64) -> bool {
    (2 < kind) | id_too_large(kind, target) | !is_start(s, n, start)
}

// The answer of a call that is refused: nothing is crossed.
fn refused(r: Refusal) -> WalkAnswer {
    WalkAnswer { outcome: Outcome::Refused(r), path: Path::new() }
}

// The answer of a walk that came to its end.
fn ended(w: Walked) -> WalkAnswer {
    let end = w.end;
    let path = w.path;
    WalkAnswer { outcome: Outcome::Ended(end), path }
}

// Numbers 1 to 10, then 16, else where the packet ends, with every port crossed.
pub fn walk(s: &[u8], kind: u32, start: u32, target: u64) -> WalkAnswer {
    let got = crate::picture::read(s);
    let Reading::Read(h) = got else {
        return refused(refusal_of(got));
    };
    let n = h.count as u8;
    if asked_wrongly(s, n, kind, start, target) {
        return refused(number_16());
    }
    let packet = packet_of(kind, target);
    let from = crate::routes::starts_at(s, packet, PortNo(start as u8));
    ended(crate::routes::walk_from(s, n, packet, from))
}
