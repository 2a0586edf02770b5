//! The walk of a packet through a picture that reads.

use crate::claims::Conversion;
use crate::picture::{Picture, Target};

/// How a walk ends, with the ports that the end names.
#[derive(Clone, Copy, Debug, PartialEq, Eq)]
pub enum End {
    /// At the device of a device port; with the Function number of a configuration request.
    Device {
        port: usize,
        function: u8,
    },
    Function {
        port: usize,
    },
    Host,
    Unsupported {
        port: usize,
    },
    Doubled {
        first: usize,
        second: usize,
    },
}

/// A finished walk: its end, and the ports crossed in order.
#[derive(Clone, Debug, PartialEq, Eq)]
pub struct Walk {
    pub end: End,
    pub path: Vec<usize>,
}

/// Walks an ID or address packet from the root (`None`) or from below a device port. One that is redirected
/// crosses all ports up to the root, whatever they are, and then goes as from the host.
pub fn walk_packet(picture: &Picture, start: Option<usize>, target: Target) -> Walk {
    let (mut place, mut path) = match start {
        Some(port) if is_redirected(picture, port, target) => (None, picture.way_up(port)),
        _ => (start, Vec::new()),
    };
    let mut from_above = false;
    loop {
        let holders = picture.holders_at(place, target);
        let end = match (holders.as_slice(), place) {
            ([first, second, ..], _) => End::Doubled { first: *first, second: *second },
            ([only], _) if picture.ports[*only].owns(target) => End::Function { port: *only },
            ([only], _) => {
                path.push(*only);
                place = Some(*only);
                from_above = true;
                continue;
            }
            ([], None) => End::Host,
            ([], Some(port)) if from_above => end_from_above(picture, port),
            ([], Some(port)) if picture.ports[port].claims(target) => End::Unsupported { port },
            ([], Some(port)) => {
                path.push(port);
                place = picture.ports[port].parent;
                continue;
            }
        };
        return Walk { end, path };
    }
}

/// Is a packet from below this device port redirected? Its target is an address that the port does not claim,
/// and the port has P2P Request Redirect set.
pub fn is_redirected(picture: &Picture, start: usize, target: Target) -> bool {
    let port = &picture.ports[start];
    matches!(target, Target::Address(_)) && port.request_redirect && !port.claims(target)
}

/// Nobody below the port holds what came from above: its device, or an Unsupported Request.
fn end_from_above(picture: &Picture, port: usize) -> End {
    if picture.is_device_port(port) {
        End::Device { port, function: 0 }
    } else {
        End::Unsupported { port }
    }
}

/// Walks a configuration request from the root (`None`) or from below a device port.
pub fn walk_configuration(picture: &Picture, start: Option<usize>, id: u16) -> Walk {
    if let Some(port) = start {
        return Walk { end: End::Unsupported { port }, path: Vec::new() };
    }
    let target = Target::Id(id);
    match picture.holders_at(None, target).as_slice() {
        [] => Walk { end: End::Host, path: Vec::new() },
        [only] if picture.ports[*only].owns(target) => {
            Walk { end: End::Function { port: *only }, path: Vec::new() }
        }
        [only] => convert_downward(picture, *only, id),
        [first, second, ..] => {
            Walk { end: End::Doubled { first: *first, second: *second }, path: Vec::new() }
        }
    }
}

/// A port about to be crossed decides, and after it the next, as long as Type 1 passes.
fn convert_downward(picture: &Picture, top: usize, id: u16) -> Walk {
    let mut path = Vec::new();
    let mut port = top;
    loop {
        let conversion = picture.ports[port].conversion(id);
        if conversion == Conversion::Unsupported {
            return Walk { end: End::Unsupported { port }, path };
        }
        path.push(port);
        if conversion == Conversion::Type0 {
            return Walk { end: end_of_type_0(picture, port, id), path };
        }
        let claimers = picture.ports_where(Some(port), |child| child.claims_id(id));
        match claimers.as_slice() {
            [] => return Walk { end: End::Unsupported { port }, path },
            [only] => port = *only,
            [first, second, ..] => {
                return Walk { end: End::Doubled { first: *first, second: *second }, path };
            }
        }
    }
}

/// Where Type 0 ends below the port just crossed; only own IDs are looked at.
fn end_of_type_0(picture: &Picture, port: usize, id: u16) -> End {
    let owners = picture.ports_where(Some(port), |child| child.own_id == id);
    match owners.as_slice() {
        [first, second, ..] => End::Doubled { first: *first, second: *second },
        [only] => End::Function { port: *only },
        [] if picture.is_device_port(port) => {
            let function_bits = if picture.ports[port].ari { 0xFF } else { 0x07 };
            End::Device { port, function: (id & function_bits) as u8 }
        }
        [] => End::Unsupported { port },
    }
}
