// The rules of the walk: what a packet does next.
use crate::chassis::Conversion;
use crate::chassis::End;
use crate::chassis::Holders;
use crate::chassis::Packet;
use crate::chassis::Step;
use crate::chassis::Whereabouts;
use crate::holders::lowest_at;
use crate::holders::Regard;
use crate::ids::PortNo;
use crate::ids::Target;

// What a packet is sent to.
fn target_of(packet: Packet) -> Target {
    match packet {
        Packet::Plain(t) => t,
        Packet::Config(rid) => Target::Id(rid),
    }
}

// The Function number of a configuration request that ends at a port's device.
fn function_number(s: &[u8], q: PortNo, t: Target) -> u8 {
    let Target::Id(rid) = t else {
        return 0;
    };
    if crate::claims::with_ari_at(s, q) {
        (rid.0 % 256) as u8
    } else {
        (rid.0 % 8) as u8
    }
}

// A port about to be crossed by a configuration request decides.
fn decide(p: PortNo, conversion: Conversion) -> Step {
    match conversion {
        Conversion::Type0 => Step::Cross(p, Whereabouts::Type0(p)),
        Conversion::Type1 => Step::Cross(p, Whereabouts::Type1(p)),
        Conversion::Unsupported => Step::Stop(End::Unsupported(p)),
        Conversion::NotClaimed => Step::Stop(End::Unsupported(p)),
    }
}

// Crossing a port downward.
fn downward(s: &[u8], packet: Packet, p: PortNo) -> Step {
    match packet {
        Packet::Plain(_) => Step::Cross(p, Whereabouts::Into(p)),
        Packet::Config(rid) => decide(p, crate::claims::conversion(s, p, Target::Id(rid))),
    }
}

// Rule 2.
fn sole_holder(s: &[u8], packet: Packet, p: PortNo) -> Step {
    if crate::claims::is_own(s, p, target_of(packet)) {
        return Step::Stop(End::Function(p));
    }
    downward(s, packet, p)
}

// Rule 4, and what Type 0 comes to where no own ID is the target.
fn device_or(s: &[u8], n: u8, q: PortNo, function: u8) -> Step {
    if crate::trees::is_device_port(s, n, q) {
        Step::Stop(End::Device(q, function))
    } else {
        Step::Stop(End::Unsupported(q))
    }
}

// Where a packet is that started at a place, or crossed a port upward to it.
pub fn come_to(redirected: bool, place: PortNo) -> Whereabouts {
    if place.0 == 255 {
        return Whereabouts::Root;
    }
    if redirected {
        return Whereabouts::Redirected(place);
    }
    Whereabouts::From(place)
}

// Rule 5.
fn upward(s: &[u8], t: Target, q: PortNo) -> Step {
    if crate::claims::claims(s, q, t) {
        Step::Stop(End::Unsupported(q))
    } else {
        Step::Cross(q, come_to(false, crate::trees::parent_at(s, q)))
    }
}

// At the root: rules 1 to 3.
fn at_root(s: &[u8], n: u8, packet: Packet) -> Step {
    match lowest_at(s, n, PortNo(255), target_of(packet), Regard::Held) {
        Holders::Nobody => Step::Stop(End::Host),
        Holders::Only(p) => sole_holder(s, packet, p),
        Holders::Both(p, q) => Step::Stop(End::Doubled(p, q)),
    }
}

// Below a port, come from above: rules 1, 2 and 4.
fn from_above(s: &[u8], n: u8, packet: Packet, q: PortNo) -> Step {
    match lowest_at(s, n, q, target_of(packet), Regard::Held) {
        Holders::Nobody => device_or(s, n, q, 0),
        Holders::Only(p) => sole_holder(s, packet, p),
        Holders::Both(p, r) => Step::Stop(End::Doubled(p, r)),
    }
}

// Below a port, started or come from below: rules 1, 2 and 5.
fn from_below(s: &[u8], n: u8, packet: Packet, q: PortNo) -> Step {
    let Packet::Plain(t) = packet else {
        return Step::Stop(End::Unsupported(q));
    };
    match lowest_at(s, n, q, t, Regard::Held) {
        Holders::Nobody => upward(s, t, q),
        Holders::Only(p) => sole_holder(s, packet, p),
        Holders::Both(p, r) => Step::Stop(End::Doubled(p, r)),
    }
}

// Redirected: the port is crossed upward, whatever it claims and whatever the ports below it hold.
fn towards_root(s: &[u8], q: PortNo) -> Step {
    Step::Cross(q, come_to(true, crate::trees::parent_at(s, q)))
}

// Below a port that made the request Type 0: own IDs alone are looked at.
fn under_type0(s: &[u8], n: u8, t: Target, q: PortNo) -> Step {
    match lowest_at(s, n, q, t, Regard::Own) {
        Holders::Nobody => device_or(s, n, q, function_number(s, q, t)),
        Holders::Only(p) => Step::Stop(End::Function(p)),
        Holders::Both(p, r) => Step::Stop(End::Doubled(p, r)),
    }
}

// Below a port that passed the request on as Type 1: claims alone are looked at.
fn under_type1(s: &[u8], n: u8, t: Target, q: PortNo) -> Step {
    match lowest_at(s, n, q, t, Regard::Claimed) {
        Holders::Nobody => Step::Stop(End::Unsupported(q)),
        Holders::Only(p) => decide(p, crate::claims::conversion(s, p, t)),
        Holders::Both(p, r) => Step::Stop(End::Doubled(p, r)),
    }
}

// What a packet does next.
pub fn step(s: &[u8], n: u8, packet: Packet, whereabouts: Whereabouts) -> Step {
    match whereabouts {
        Whereabouts::Root => at_root(s, n, packet),
        Whereabouts::Into(q) => from_above(s, n, packet, q),
        Whereabouts::From(q) => from_below(s, n, packet, q),
        Whereabouts::Redirected(q) => towards_root(s, q),
        Whereabouts::Type0(q) => under_type0(s, n, target_of(packet), q),
        Whereabouts::Type1(q) => under_type1(s, n, target_of(packet), q),
    }
}
