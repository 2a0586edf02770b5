//! Which ports there are, and how they hang together: kinds and parents that keep the rules.

use crate::draft::{DraftPort, DOWNSTREAM, NO_PARENT, ROOT, UPSTREAM};
use crate::random::Random;

/// The shape of a chassis.
#[derive(Clone, Copy, Debug, PartialEq, Eq)]
pub enum Form {
    /// Root ports only.
    Flat,
    /// One root port, one upstream port, and downstream ports.
    OneSwitch,
    /// Whatever hangs together, new ports anywhere.
    Tangled,
    /// As tangled, but a new port is put as deep as can be.
    Deep,
    /// Chains of 16 ports side by side.
    Chains,
}

pub const ALL_FORMS: [Form; 5] = [Form::Flat, Form::OneSwitch, Form::Tangled, Form::Deep, Form::Chains];

/// Ports in the making, with their depths and numbers of children.
#[derive(Default)]
struct Growing {
    ports: Vec<DraftPort>,
    depths: Vec<u64>,
    children: Vec<u64>,
}

impl Growing {
    /// Adds a port below a parent, or a root port.
    fn add(&mut self, parent: Option<usize>) {
        let kind = match parent {
            None => ROOT,
            Some(port) if self.ports[port].kind == UPSTREAM => DOWNSTREAM,
            Some(_) => UPSTREAM,
        };
        let depth = parent.map_or(1, |port| self.depths[port] + 1);
        if let Some(port) = parent {
            self.children[port] += 1;
        }
        self.ports.push(DraftPort::silent(kind, parent.map_or(NO_PARENT, |port| port as u8), 0));
        self.depths.push(depth);
        self.children.push(0);
    }

    /// May the port have one more child?
    fn has_room(&self, port: usize) -> bool {
        let free = self.ports[port].kind == UPSTREAM || self.children[port] == 0;
        free && self.depths[port] < 16
    }

    /// Where to put the next port; `None` for a new root port.
    fn next_parent(&self, random: &mut Random, form: Form) -> Option<usize> {
        let last = self.ports.len().checked_sub(1)?;
        match form {
            Form::Flat => None,
            Form::OneSwitch => Some(last.min(1)),
            Form::Chains => self.has_room(last).then_some(last),
            Form::Tangled | Form::Deep => self.random_parent(random, form == Form::Deep),
        }
    }

    /// A random port with room, or a new root port; the deepest of several draws if it is to be deep.
    fn random_parent(&self, random: &mut Random, deep: bool) -> Option<usize> {
        if random.percent(if deep { 2 } else { 12 }) {
            return None;
        }
        let open: Vec<usize> = (0..self.ports.len()).filter(|&port| self.has_room(port)).collect();
        if open.is_empty() {
            return None;
        }
        let draws = if deep { 4 } else { 1 };
        (0..draws).map(|_| random.pick(&open)).max_by_key(|&port| self.depths[port])
    }
}

/// So many silent ports in that form; a parent always has a lower number.
pub fn grow(random: &mut Random, form: Form, count: usize) -> Vec<DraftPort> {
    let mut growing = Growing::default();
    while growing.ports.len() < count {
        let parent = growing.next_parent(random, form);
        growing.add(parent);
    }
    growing.ports
}

/// A number of ports: mostly few, sometimes very many.
pub fn port_count(random: &mut Random) -> usize {
    let most = random.pick(&[1, 3, 6, 10, 10, 18, 18, 30, 64]);
    match random.percent(3) {
        true => 64,
        false => random.between(1, most) as usize,
    }
}
