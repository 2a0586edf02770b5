//! The edition of a random picture, and ACS Control of its ports: redirect at many device ports, at others bits
//! that are easily taken for it, and bytes that must not matter.

use crate::draft::{Draft, DraftPort, REQUEST_REDIRECT, UPSTREAM};
use crate::picture::Edition;
use crate::random::Random;

/// Values of ACS Control without P2P Request Redirect: none, each bit beside it, and all others.
const WITHOUT_REDIRECT: [u16; 7] = [0, 0, 1 << 1, 1 << 3, 1 << 5, 1 << 10, !REQUEST_REDIRECT];

/// Values with it: alone, with the bits beside it, and with all others.
const WITH_REDIRECT: [u16; 4] = [1 << 2, 1 << 2, 0xE, 0xFFFF];

/// In how many of a hundred device ports of a picture of edition 2 it is set.
const CHANCES: [u64; 4] = [20, 60, 60, 100];

/// A picture of these ports in either edition. The random numbers are the picture's own, so that the edition
/// changes nothing else in a batch.
pub fn in_either_edition(random: &Random, mut ports: Vec<DraftPort>) -> Draft {
    let random = &mut random.apart();
    let edition = random.pick(&[Edition::One, Edition::Two]);
    let chance = random.pick(&CHANCES);
    for port in 0..ports.len() {
        let chance = if is_device_port(&ports, port) { chance } else { 50 };
        ports[port].acs_control = some_acs_control(random, chance);
    }
    Draft::in_edition(edition, ports)
}

/// Is it a root or downstream port without a child?
pub fn is_device_port(ports: &[DraftPort], port: usize) -> bool {
    ports[port].kind != UPSTREAM && ports.iter().all(|other| other.parent as usize != port)
}

/// A value of ACS Control, with P2P Request Redirect in so many of a hundred cases.
pub fn some_acs_control(random: &mut Random, redirect: u64) -> u16 {
    let any = random.bits() as u16;
    match random.percent(redirect) {
        true => random.pick(&[&WITH_REDIRECT[..], &[any | REQUEST_REDIRECT]].concat()),
        false => random.pick(&[&WITHOUT_REDIRECT[..], &[any & !REQUEST_REDIRECT]].concat()),
    }
}
