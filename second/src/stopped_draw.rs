//! Small pictures for the turns of number 18, drawn such that nothing else is wrong: a parent that does not
//! pass an ID on, a child that claims it or something beside it, and a port below the child that has it as
//! its own.

use crate::cases::{shape, BUS, RID};
use crate::draft::{DraftPort, VectorShape, Which, DOWNSTREAM, NO_PARENT, ROOT, UPSTREAM};
use crate::editions::in_either_edition;
use crate::random::Random;
use crate::stopped::{Aim, Stopped, Turn, Way};
use crate::widen::{set_entry, MIB_OF_A_HIGH_GRANULE};
use crate::wild::add_noise;

const UNITS_OF_A_BUS: u64 = 32;
const LAST_UNIT: u64 = 8_191;

/// The buses of a picture: the parent's bus pair, and a bus for its Secondary range, with one on either side
/// of it that nobody else has.
struct Buses {
    secondary: u64,
    subordinate: u64,
    of_range: u64,
}

/// What the parent and the child of a picture are to have, in units.
struct Plan {
    /// The parent's Secondary Start and Num Sec Dev.
    start: u64,
    num_sec_dev: u32,
    /// The child's own ID.
    own: u64,
    /// What the child's RID vector claims, and the bus that its bus pair claims.
    entries: Vec<u64>,
    bus: Option<u64>,
    /// The least ID that the child claims of what the turn is about.
    least: u64,
    /// The own ID of the port below the child: the least, or the next one if that port claims the least.
    below: u64,
}

/// Draws the picture of a turn.
pub fn draw(random: &mut Random, turn: Turn) -> Stopped {
    let mut ports = Vec::new();
    let earlier_first = random.percent(50);
    if earlier_first {
        push_earlier(random, &mut ports, turn.aim);
    }
    let buses = draw_buses(random, turn);
    let plan = match turn.way.is_range() {
        true => plan_range(random, turn, &buses),
        false => plan_bus(random, turn, &buses),
    };
    let parent = push_parent(random, &mut ports, turn.way, buses.secondary);
    set_parent(random, &mut ports[parent], turn, &buses, &plan);
    let child = push_children(random, &mut ports, parent, &buses, &plan, turn);
    let below = push(&mut ports, Some(child), (plan.below * 8 + random.below(8)) as u16);
    if turn.aim == Aim::Twice {
        set_entry(&mut ports[below], Which::Rid, plan.least);
    }
    if !earlier_first {
        push_earlier(random, &mut ports, turn.aim);
    }
    let mut draft = in_either_edition(random, ports);
    if random.percent(50) {
        add_noise(random, &mut draft);
    }
    Stopped { draft, child, id: (plan.least * 8) as u16 }
}

/// Draws the buses: that of the range within the bus pair if the pair claims it, else beyond, sometimes the
/// last.
fn draw_buses(random: &mut Random, turn: Turn) -> Buses {
    let secondary = random.between(5, 240);
    let subordinate = secondary + random.between(4, 8);
    let of_range = match turn.above & BUS != 0 {
        true => random.between(secondary + 2, subordinate - 2),
        false if turn.aim == Aim::Stopped && random.percent(30) => 255,
        false => random.between(subordinate + 2, 254),
    };
    Buses { secondary, subordinate, of_range }
}

/// A plan for a turn that is about the Secondary range.
fn plan_range(random: &mut Random, turn: Turn, buses: &Buses) -> Plan {
    let bus = buses.of_range;
    let start = bus * UNITS_OF_A_BUS + random.below(UNITS_OF_A_BUS);
    let num_sec_dev = random.pick(&[0, 1, 7, 31]);
    let (first, last) = match turn.way {
        Way::UpstreamRange => (start, LAST_UNIT.min(start + num_sec_dev)),
        Way::AriRange => (bus * UNITS_OF_A_BUS, bus * UNITS_OF_A_BUS + UNITS_OF_A_BUS - 1),
        _ => (start, start),
    };
    let within = random.between(first, last);
    let entries = match (turn.aim, turn.below) {
        (Aim::Beside | Aim::Owned, _) => vec![first - 1, last + 1],
        (Aim::Twice, _) => vec![within, within + 1],
        (_, RID) => vec![random.pick(&[first, last, within])],
        (_, BUS) => Vec::new(),
        _ => vec![first, bus * UNITS_OF_A_BUS],
    };
    let device = if turn.way == Way::PlainRange { 0 } else { random.below(UNITS_OF_A_BUS) };
    let own = if turn.aim == Aim::Owned { within } else { buses.secondary * UNITS_OF_A_BUS + device };
    let least = entries.first().copied().unwrap_or(first);
    let below = if turn.aim == Aim::Twice { least + 1 } else { least };
    let bus = (turn.below & BUS != 0).then_some(bus);
    Plan { start, num_sec_dev: num_sec_dev as u32, own, entries, bus, least, below }
}

/// A plan for a turn that is about the bus Secondary. Where that leaves no own ID for the child, the
/// Secondary range on the next bus has one.
fn plan_bus(random: &mut Random, turn: Turn, buses: &Buses) -> Plan {
    let first = buses.secondary * UNITS_OF_A_BUS;
    let start = first + UNITS_OF_A_BUS + random.below(UNITS_OF_A_BUS);
    let device = match turn.way {
        Way::DeviceZero => 0,
        Way::OtherDevice => random.between(1, UNITS_OF_A_BUS - 1),
        _ => random.below(UNITS_OF_A_BUS),
    };
    let entries = match turn.below {
        RID => vec![first + device],
        BUS => Vec::new(),
        _ => vec![first],
    };
    let own = match turn.way {
        _ if needs_range(turn) => start,
        Way::OtherDevice => first,
        _ => first + (device + random.between(1, UNITS_OF_A_BUS - 1)) % UNITS_OF_A_BUS,
    };
    let least = entries.first().copied().unwrap_or(first);
    let bus = (turn.below & BUS != 0).then_some(buses.secondary);
    Plan { start, num_sec_dev: random.pick(&[0, 1, 7, 31]), own, entries, bus, least, below: least }
}

/// Does the child of a turn about the bus Secondary need an own ID in the Secondary range?
fn needs_range(turn: Turn) -> bool {
    turn.below & BUS != 0 || turn.way == Way::DeviceZero || turn.aim == Aim::PairClosed
}

/// Adds a silent port below another, or a root port; gives its number.
fn push(ports: &mut Vec<DraftPort>, parent: Option<usize>, own_id: u16) -> usize {
    let kind = match parent {
        None => ROOT,
        Some(port) if ports[port].kind == UPSTREAM => DOWNSTREAM,
        Some(_) => UPSTREAM,
    };
    ports.push(DraftPort::silent(kind, parent.map_or(NO_PARENT, |port| port as u8), own_id));
    ports.len() - 1
}

/// Adds the parent below ports that pass on all that it claims; gives its number.
fn push_parent(random: &mut Random, ports: &mut Vec<DraftPort>, way: Way, secondary: u64) -> usize {
    let above = if way.is_upstream() { 1 } else { random.pick(&[0, 2]) };
    let mut port = push(ports, None, random.below(0x80) as u16);
    for bus in secondary - above..secondary {
        ports[port] = ports[port].clone().buses(bus as u8, 255);
        port = push(ports, Some(port), (bus << 8 | random.below(8)) as u16);
    }
    port
}

/// Sets the parent's registers.
fn set_parent(random: &mut Random, port: &mut DraftPort, turn: Turn, buses: &Buses, plan: &Plan) {
    let subordinate = match turn.aim {
        Aim::PairClosed => random.pick(&[0, buses.secondary - 1]),
        _ => buses.subordinate,
    };
    let paired = port.clone().buses(buses.secondary as u8, subordinate as u8);
    *port = paired.secondary_range(plan.start as u16, plan.num_sec_dev);
    // At an upstream port ARI means nothing.
    if turn.way.has_ari() || turn.way.is_upstream() && random.percent(30) {
        port.flip_ari();
    }
    let has_vector = match turn.aim {
        Aim::NotEnabled => random.percent(50),
        _ => turn.way.is_range() || turn.above & RID != 0 || needs_range(turn),
    };
    if has_vector {
        give_parent_vector(random, port, turn, plan);
    }
}

/// Gives the parent a RID vector that claims what the child holds, if it is to, and else nothing.
fn give_parent_vector(random: &mut Random, port: &mut DraftPort, turn: Turn, plan: &Plan) {
    let (size_code, granularity_code) = random.pick(&[(0, 0), (0, 3), (0, 5), (2, 0)]);
    port.give_vector(Which::Rid, VectorShape { size_code, granularity_code, ..window(plan.least) });
    if turn.above & RID != 0 {
        claimed_units(plan).into_iter().for_each(|unit| set_entry(port, Which::Rid, unit));
    }
    port.set_enabled(Which::Rid, turn.aim != Aim::NotEnabled);
}

/// What the parent has to claim for the child: all that it holds.
fn claimed_units(plan: &Plan) -> Vec<u64> {
    let of_bus = |bus: u64| bus * UNITS_OF_A_BUS..(bus + 1) * UNITS_OF_A_BUS;
    let of_pair: Vec<u64> = plan.bus.into_iter().flat_map(of_bus).collect();
    [&plan.entries[..], &of_pair, &[plan.own]].concat()
}

/// A vector of 256 units from three buses before this unit on.
fn window(unit: u64) -> VectorShape {
    shape(0, 0, (unit / UNITS_OF_A_BUS - 3) * UNITS_OF_A_BUS)
}

/// Adds the child, and below an upstream port with a Secondary range sometimes another one before or behind
/// it; gives its number.
fn push_children(
    random: &mut Random,
    ports: &mut Vec<DraftPort>,
    parent: usize,
    buses: &Buses,
    plan: &Plan,
    turn: Turn,
) -> usize {
    let other_at = random.below(4);
    let has_other = turn.way == Way::UpstreamRange && other_at < 2;
    if has_other && other_at == 0 {
        push_other(ports, parent, buses, plan);
    }
    let child = push(ports, Some(parent), (plan.own * 8 + random.below(8)) as u16);
    set_child(random, &mut ports[child], plan);
    if has_other && other_at == 1 {
        push_other(ports, parent, buses, plan);
    }
    child
}

/// Adds another child: it has the last bus of the pair, and its own ID on the bus Secondary.
fn push_other(ports: &mut Vec<DraftPort>, parent: usize, buses: &Buses, plan: &Plan) {
    let beside_own = buses.secondary * UNITS_OF_A_BUS + (plan.own + 1) % UNITS_OF_A_BUS;
    let other = push(ports, Some(parent), (beside_own * 8) as u16);
    let bus = buses.subordinate as u8;
    ports[other] = ports[other].clone().buses(bus, bus);
}

/// Sets the child's registers: what it claims, and the Secondary range for the port below it.
fn set_child(random: &mut Random, port: &mut DraftPort, plan: &Plan) {
    port.give_vector(Which::Rid, window(plan.least));
    plan.entries.iter().for_each(|&unit| set_entry(port, Which::Rid, unit));
    *port = port.clone().secondary_range(plan.least as u16, (plan.below - plan.least) as u32);
    if let Some(bus) = plan.bus {
        *port = port.clone().buses(bus as u8, bus as u8);
    }
    if random.percent(30) {
        port.flip_ari();
    }
}

/// Adds ports that get an earlier number, if one is wanted; else up to two silent root ports.
fn push_earlier(random: &mut Random, ports: &mut Vec<DraftPort>, aim: Aim) {
    let Aim::Behind(number) = aim else {
        (0..random.below(3) as u16).for_each(|index| {
            push(ports, None, 0x00C0 + index);
        });
        return;
    };
    let top = push(ports, None, 0x00E0);
    ports[top] = ports[top].clone().buses(1, 2);
    let own_id = match number {
        13 => 0x0300,
        15 => random.pick(&[0x0108, 0x0200]),
        _ => 0x0100,
    };
    let below = push(ports, Some(top), own_id);
    match number {
        11 => ports[below] = ports[below].clone().buses(1, 1),
        12 => {
            let other = push(ports, None, 0x00E8);
            ports[top] = ports[top].clone().memory(7, 7);
            ports[other] = ports[other].clone().memory(7, 7);
        }
        14 => {
            // 4 GiB, by two decoders that seldom meet otherwise
            ports[below] = ports[below].clone().prefetchable(4_096, 4_096);
            set_entry(&mut ports[below], Which::High, 4_096 / MIB_OF_A_HIGH_GRANULE);
        }
        _ => {}
    }
}
