//! What can happen to packets from ports with redirect, and walks that show all of it; IDs and configuration
//! requests from the same ports, which are not redirected.

use crate::batch::Record;
use crate::check::candidate_addresses;
use crate::generate::some_target;
use crate::picture::{Picture, Target};
use crate::random::Random;
use crate::walk::{is_redirected, walk_packet, End, Walk};

/// What happens to an address packet from below a device port with P2P Request Redirect set.
#[derive(Clone, Copy, Debug, PartialEq, Eq, PartialOrd, Ord)]
pub enum Situation {
    /// The starting port claims the address: it is not redirected.
    Claimed,
    /// It turns at the root, to the host.
    Host,
    /// It turns and goes down: in the tree that it came from, there to a port beside the starting one, or in
    /// another tree.
    SameTree,
    Beside,
    OtherTree,
    /// It turns and meets two holders: at the root, or further down.
    DoubledAtTheRoot,
    DoubledBelow,
    /// On its way up it passes a place with one holder, or with two, and a port that claims the address.
    PastOneHolder,
    PastTwoHolders,
    PastAClaim,
    /// It crosses as many ports as any packet can.
    Longest,
}

pub const ALL_SITUATIONS: [Situation; 11] = [
    Situation::Claimed,
    Situation::Host,
    Situation::SameTree,
    Situation::Beside,
    Situation::OtherTree,
    Situation::DoubledAtTheRoot,
    Situation::DoubledBelow,
    Situation::PastOneHolder,
    Situation::PastTwoHolders,
    Situation::PastAClaim,
    Situation::Longest,
];

/// Up 15 ports, as deep as a device port can be, and down 16.
const MOST_CROSSINGS: usize = 31;

/// How many starts and addresses are drawn for a picture.
const DRAWS: usize = 200;

/// The device ports with P2P Request Redirect set.
pub fn redirecting_ports(picture: &Picture) -> Vec<usize> {
    let redirects = |&port: &usize| picture.ports[port].request_redirect && picture.is_device_port(port);
    (0..picture.ports.len()).filter(redirects).collect()
}

/// All that happens to a packet from one of these ports.
pub fn situations(picture: &Picture, start: usize, address: u64) -> Vec<Situation> {
    let target = Target::Address(address);
    if !is_redirected(picture, start, target) {
        return vec![Situation::Claimed];
    }
    let walk = walk_packet(picture, Some(start), target);
    let mut found = [on_the_way_up(picture, start, target), after_the_turn(picture, start, &walk)].concat();
    if walk.path.len() == MOST_CROSSINGS {
        found.push(Situation::Longest);
    }
    found
}

/// What a redirected packet passes below the root.
fn on_the_way_up(picture: &Picture, start: usize, target: Target) -> Vec<Situation> {
    let mut found = Vec::new();
    for port in picture.way_up(start).into_iter().skip(1) {
        match picture.holders_at(Some(port), target).len() {
            0 => {}
            1 => found.push(Situation::PastOneHolder),
            _ => found.push(Situation::PastTwoHolders),
        }
        if picture.ports[port].claims(target) {
            found.push(Situation::PastAClaim);
        }
    }
    found
}

/// Where a redirected packet goes from the root on.
fn after_the_turn(picture: &Picture, start: usize, walk: &Walk) -> Vec<Situation> {
    let up = picture.way_up(start);
    let doubled = matches!(walk.end, End::Doubled { .. });
    let [first, .., last] = walk.path[up.len() - 1..] else {
        return vec![if doubled { Situation::DoubledAtTheRoot } else { Situation::Host }];
    };
    let same_tree = walk.path[up.len()] == first;
    let mut found = vec![if same_tree { Situation::SameTree } else { Situation::OtherTree }];
    if same_tree && picture.ports[last].parent == picture.ports[start].parent {
        found.push(Situation::Beside);
    }
    if doubled {
        found.push(Situation::DoubledBelow);
    }
    found
}

/// Walks from ports with redirect, if there are any: to addresses such that all happens that was found, and
/// two by ID and a configuration request.
pub fn redirect_calls(random: &mut Random, picture: &Picture) -> Vec<Record> {
    let starts = redirecting_ports(picture);
    if starts.is_empty() {
        return Vec::new();
    }
    let addresses = candidate_addresses(picture);
    let (mut seen, mut calls) = (Vec::new(), Vec::new());
    for _ in 0..DRAWS {
        let start = random.pick(&starts);
        let target = random.pick(&addresses).wrapping_sub(random.pick(&[0, 0, 0, 1]));
        let new = situations(picture, start, target);
        if new.iter().any(|situation| !seen.contains(situation)) {
            calls.push(Record::Walk { kind: 1, start: start as u32, target });
            seen.extend(new);
        }
    }
    for kind in [0, 0, 2] {
        let target = some_target(random, picture, kind);
        calls.push(Record::Walk { kind, start: random.pick(&starts) as u32, target });
    }
    calls
}
