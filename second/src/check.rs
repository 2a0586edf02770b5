//! The check of a picture that reads: numbers 11 to 15, and 18.

use crate::claims::Conversion;
use crate::picture::{AddressRange, Picture, Port, Refusal, Target, Vector, FOUR_GIB, VIDEO_RANGE};

/// A target with the ports that claim it and the ports that hold it, each lowest first.
struct Seen {
    target: Target,
    claimers: Vec<usize>,
    holders: Vec<usize>,
}

/// The lowest of the numbers 11 to 15 and 18 that applies.
pub fn check(picture: &Picture) -> Result<(), Refusal> {
    let ids: Vec<Seen> = (0..=0xFFFF).map(|id| see(picture, Target::Id(id))).collect();
    let addresses: Vec<Seen> = candidate_addresses(picture)
        .into_iter()
        .map(|address| see(picture, Target::Address(address)))
        .collect();
    refuse_overlap(11, picture, &ids)?;
    refuse_overlap(12, picture, &addresses)?;
    refuse_escape(13, picture, &ids)?;
    refuse_escape(14, picture, &addresses)?;
    refuse_unreached(picture)?;
    refuse_stopped(picture, &ids)
}

/// Asks every port about a target.
fn see(picture: &Picture, target: Target) -> Seen {
    let mut seen = Seen { target, claimers: Vec::new(), holders: Vec::new() };
    for (port, what) in picture.ports.iter().enumerate() {
        let claims = what.claims(target);
        if claims {
            seen.claimers.push(port);
        }
        if claims || what.owns(target) {
            seen.holders.push(port);
        }
    }
    seen
}

/// Addresses, ascending, such that the least address with any property that rests only on which
/// ports claim it is among them.
///
/// What a port claims is made of pieces: its two windows and its video range, each set Low granule cut
/// off at 4 GiB, and each set High granule from 4 GiB up. The first address of every piece and the first
/// one after it are here, and so is 0. Take any address x, and the last candidate c not above x (there is
/// one, as 0 is here). No piece begins or ends between them, that is, begins after c and not after x, or
/// ends at c or later but before x; so c lies in the same pieces as x, and the same ports claim it. If x
/// has the property, c has it too; so the least address that has it is a candidate.
pub fn candidate_addresses(picture: &Picture) -> Vec<u64> {
    let mut candidates = vec![0, FOUR_GIB];
    candidates.extend(picture.ports.iter().flat_map(edges_of));
    candidates.sort_unstable();
    candidates.dedup();
    candidates
}

/// The first address of every piece that the port claims, and the first one after it.
pub fn edges_of(port: &Port) -> Vec<u64> {
    let mut edges = Vec::new();
    if port.memory_space {
        push_range_edges(&mut edges, port.memory);
        push_range_edges(&mut edges, port.prefetchable);
        if port.vga_enable {
            push_range_edges(&mut edges, VIDEO_RANGE);
        }
        for vector in [&port.low, &port.high].into_iter().flatten() {
            push_granule_edges(&mut edges, vector);
        }
    }
    edges
}

/// The first address of a range and the first after it, unless it ends the space.
fn push_range_edges(candidates: &mut Vec<u64>, range: AddressRange) {
    candidates.push(range.base);
    candidates.extend(range.last.checked_add(1));
}

/// The first address of each set granule and the first after it, as far as the space goes.
fn push_granule_edges(candidates: &mut Vec<u64>, vector: &Vector) {
    for entry in (0..vector.size).filter(|&entry| vector.is_set(entry)) {
        let edge = |entry: u64| vector.start.checked_add(entry * vector.granularity);
        candidates.extend(edge(entry));
        candidates.extend(edge(entry + 1));
    }
}

/// Numbers 11 and 12: the first target, and at it the first pair.
fn refuse_overlap(number: u8, picture: &Picture, targets: &[Seen]) -> Result<(), Refusal> {
    for seen in targets {
        if let Some((first, second)) = first_pair(picture, seen) {
            let ports = vec![picture.holder(first, seen.target), picture.holder(second, seen.target)];
            return Err(Refusal { number, target: Some(seen.target), ports });
        }
    }
    Ok(())
}

/// The first pair at a target, by first and then second port, over all places: two holders at one
/// place, or a port with itself that claims its own ID.
fn first_pair(picture: &Picture, seen: &Seen) -> Option<(usize, usize)> {
    for (index, &first) in seen.holders.iter().enumerate() {
        for &second in &seen.holders[index..] {
            let same_place = picture.ports[first].parent == picture.ports[second].parent;
            let claims_own = picture.ports[first].owns(seen.target) && seen.claimers.contains(&first);
            if if first == second { claims_own } else { same_place } {
                return Some((first, second));
            }
        }
    }
    None
}

/// Numbers 13 and 14: the first target, and at it the lowest port that holds what its parent does
/// not claim.
fn refuse_escape(number: u8, picture: &Picture, targets: &[Seen]) -> Result<(), Refusal> {
    for seen in targets {
        let escaped = seen.holders.iter().find(|&&port| match picture.ports[port].parent {
            Some(parent) => !seen.claimers.contains(&parent),
            None => false,
        });
        if let Some(&port) = escaped {
            let ports = vec![picture.holder(port, seen.target)];
            return Err(Refusal { number, target: Some(seen.target), ports });
        }
    }
    Ok(())
}

/// Number 15: the lowest port below another whose own ID is not claimed and Type 0 there.
fn refuse_unreached(picture: &Picture) -> Result<(), Refusal> {
    for (port, what) in picture.ports.iter().enumerate() {
        let Some(parent) = what.parent else { continue };
        if picture.ports[parent].conversion(what.own_id) != Conversion::Type0 {
            return Err(Refusal::at_port(15, port));
        }
    }
    Ok(())
}

/// Number 18: the first ID, and at it the lowest port that claims what its parent claims and does not pass on
/// as Type 1.
fn refuse_stopped(picture: &Picture, ids: &[Seen]) -> Result<(), Refusal> {
    for (id, seen) in (0..=0xFFFF).zip(ids) {
        let stopped = seen.claimers.iter().find(|&&port| match picture.ports[port].parent {
            Some(parent) => picture.ports[parent].stops(id),
            None => false,
        });
        if let Some(&port) = stopped {
            let ports = vec![picture.holder(port, seen.target)];
            return Err(Refusal { number: 18, target: Some(seen.target), ports });
        }
    }
    Ok(())
}
