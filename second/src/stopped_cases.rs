//! Hand-written cases of number 18: each way in which a parent does not pass an ID on as Type 1, what lies
//! beside it, the order of the numbers, and where configuration requests for own IDs end.

use crate::batch::Record;
use crate::cases::{
    case, checks, claims_id, converts, down, reports, root, shape, up, walks, Case, BUS, RID, TYPE_0, TYPE_1,
    UNSUPPORTED,
};
use crate::claim_cases::holds_id;
use crate::draft::{Draft, DraftPort, Which};
use crate::trial_cases::{bits, clear_trial, finds, goes, patch, prints, trial};
use Which::Rid;

/// A call and the line that answers it.
type Call = (Record, String);

/// All cases of number 18.
pub fn stopped_cases() -> Vec<Case> {
    [
        upstream_range_cases(),
        beside_units_cases(),
        last_units_cases(),
        ari_range_cases(),
        one_unit_cases(),
        rid_above_cases(),
        upstream_bus_cases(),
        ari_bus_cases(),
        device_0_cases(),
        other_device_cases(),
        not_enabled_cases(),
        own_and_beside_cases(),
        closed_pair_cases(),
        least_id_cases(),
        lowest_port_cases(),
        earlier_numbers_cases(),
        middle_port_cases(),
        middle_root_cases(),
        found_cases(),
        trials_of_the_child(),
        trials_of_the_parent(),
    ]
    .into_iter()
    .flatten()
    .collect()
}

/// A case of number 18 at this ID and port, which claims it by these decoders.
fn refused(name: &'static str, ports: Vec<DraftPort>, id: u64, port: u8, by: &str, more: &[Call]) -> Case {
    let line = format!("refused 18 id {id:04x} ports {port} by {by}");
    let calls = [&[reports(&line), checks(18, port, 255, Some(id))], more].concat();
    case(name, ports, calls)
}

/// A case that is clear.
fn clear(name: &'static str, ports: Vec<DraftPort>, more: &[Call]) -> Case {
    let line = format!("ports {}/clear", ports.len());
    let calls = [&[reports(&line), checks(0, 255, 255, None)], more].concat();
    case(name, ports, calls)
}

/// The port with RID decoding enabled and no entry set: the Secondary range counts for what the bus pair
/// claims.
fn with_range(port: DraftPort, start: u16, num_sec_dev: u32) -> DraftPort {
    port.vector(Rid, shape(0, 0, 0x80), &[]).secondary_range(start, num_sec_dev)
}

/// The port with these units set in a RID vector of 8,192 entries.
fn claiming(port: DraftPort, units: &[u64]) -> DraftPort {
    port.vector(Rid, shape(5, 0, 0), units)
}

/// A root port with buses 1 to 255, an upstream port with 2 to 255, on whose Secondary bus the port below it
/// is: that own ID, 0200h, is Type 0 there. The upstream port has this Secondary range.
fn switch(start: u16, num_sec_dev: u32, below: DraftPort) -> Vec<DraftPort> {
    let parent = with_range(up(0, 0x0100).buses(2, 255), start, num_sec_dev);
    vec![root(0x0008).buses(1, 255), parent, below]
}

/// A downstream port below that upstream port.
fn leaf() -> DraftPort {
    down(1, 0x0200)
}

/// The Secondary range of an upstream port: Start 83h with Num Sec Dev 2 is units 83h to 85h, IDs 0418h to
/// 042Fh.
fn upstream_range_cases() -> Vec<Case> {
    let at = |name, start, more, below, id, by, calls: &[Call]| {
        refused(name, switch(start, more, below), id, 2, by, calls)
    };
    let edges = [
        converts(1, 0x0417, TYPE_1),
        converts(1, 0x0418, TYPE_0),
        converts(1, 0x042F, TYPE_0),
        converts(1, 0x0430, TYPE_1),
        claims_id(1, 0x0418, BUS),
        claims_id(2, 0x0418, BUS),
        holds_id(0x0418, "port 0 by bus/port 1 by bus/port 2 by bus"),
    ];
    let bus_4 = || leaf().buses(4, 4);
    vec![
        at("item 7, upstream range: by bus", 0x83, 2, bus_4(), 0x0418, "bus", &edges),
        at("item 7, upstream range: first unit", 0x83, 2, claiming(leaf(), &[0x83]), 0x0418, "rid", &[]),
        at("item 7, upstream range: last unit", 0x83, 2, claiming(leaf(), &[0x85]), 0x0428, "rid", &[]),
        at("item 7, upstream range: both", 0x83, 2, claiming(bus_4(), &[0x83]), 0x0418, "bus rid", &[]),
        at("item 7, upstream range: bus first", 0x83, 2, claiming(bus_4(), &[0x85]), 0x0418, "bus", &[]),
        at(
            "item 7, upstream range: around too",
            0x83,
            0,
            claiming(leaf(), &[0x82, 0x83]),
            0x0418,
            "rid",
            &[],
        ),
        at("item 7, upstream range: Num Sec Dev 0", 0x80, 0, bus_4(), 0x0400, "bus", &[]),
        // units 83h to A2h
        at("item 7, upstream range: Num Sec Dev 31", 0x83, 31, claiming(leaf(), &[0xA2]), 0x0510, "rid", &[]),
        // units 9Fh and A0h, the last of bus 4 and the first of bus 5
        at("item 7, upstream range: over two buses", 0x9F, 1, leaf().buses(5, 5), 0x0500, "bus", &[]),
    ]
}

/// The units and buses beside those of an upstream port's Secondary range.
fn beside_units_cases() -> Vec<Case> {
    let beside = |name, start, more, unit| clear(name, switch(start, more, claiming(leaf(), &[unit])), &[]);
    vec![
        beside("item 7, clear: just before units", 0x83, 2, 0x82),
        beside("item 7, clear: just behind units", 0x83, 2, 0x86),
        beside("item 7, clear: behind one unit", 0x83, 0, 0x84),
        beside("item 7, clear: behind 32 units", 0x83, 31, 0xA3),
        clear("item 7, clear: buses beside units", switch(0x80, 31, leaf().buses(5, 6)), &[]),
    ]
}

/// The Secondary range at the last unit, 1FFFh: it does not come round to unit 0.
fn last_units_cases() -> Vec<Case> {
    let from_0 = |below| {
        let top = root(0x8000).vector(Rid, shape(0, 5, 0), &[0, 1, 255]).secondary_range(0x20, 0);
        let parent = up(0, 0x0100).vector(Rid, shape(0, 5, 0), &[0, 255]).secondary_range(0x1FFF, 31);
        vec![top, parent, below]
    };
    // 01:00.0 is in the root port's range, ff:1f.0 in that of the upstream port
    let own_is_last = || down(1, 0xFFF8);
    let last = |start, more, units: &[u64]| switch(start, more, claiming(leaf(), units));
    vec![
        refused("item 7, upstream range: last", last(0x1FFF, 0, &[0x1FFF]), 0xFFF8, 2, "rid", &[]),
        refused("item 7, upstream range: past the last", last(0x1FFF, 31, &[0x1FFF]), 0xFFF8, 2, "rid", &[]),
        refused(
            "item 7, upstream range: to the last",
            switch(0x1FF0, 31, leaf().buses(255, 255)),
            0xFF80,
            2,
            "bus",
            &[],
        ),
        refused("item 7, upstream range: bus 255", last(0x1FE0, 31, &[0x1FFF]), 0xFFF8, 2, "rid", &[]),
        clear("item 7, clear: before the last", last(0x1FFF, 31, &[0x1FFE]), &[]),
        clear(
            "item 7, clear: no coming round",
            from_0(claiming(own_is_last(), &[0, 0x1E])),
            &[converts(1, 0xFFFF, TYPE_0), converts(1, 0, TYPE_1), converts(0, 0, TYPE_1)],
        ),
    ]
}

/// The Secondary range of a port with ARI is a bus: Start 85h is bus 4. Own IDs on bus 1 are Type 0 with ARI.
fn ari_range_cases() -> Vec<Case> {
    let ports = |below| vec![with_range(root(0x0008).with_ari().buses(1, 255), 0x85, 0), below];
    let child = || up(0, 0x0110);
    let at = |name, below, id, by, calls: &[Call]| refused(name, ports(below), id, 1, by, calls);
    let edges = [
        converts(0, 0x03FF, TYPE_1),
        converts(0, 0x0400, TYPE_0),
        converts(0, 0x04FF, TYPE_0),
        converts(0, 0x0500, TYPE_1),
    ];
    let below_a_switch = vec![
        root(0x0008).buses(1, 255),
        up(0, 0x0100).buses(2, 255),
        with_range(down(1, 0x0200).with_ari().buses(3, 255), 0x85, 0),
        up(2, 0x0308).buses(4, 4),
    ];
    // at an upstream port ARI means nothing: the range is unit 83h
    let no_ari = |unit| {
        let mut ports = switch(0x83, 0, claiming(leaf(), &[unit]));
        ports[1] = ports[1].clone().with_ari();
        ports
    };
    vec![
        at("item 7, ARI range: by bus", child().buses(4, 4), 0x0400, "bus", &edges),
        at("item 7, ARI range: first unit", claiming(child(), &[0x80]), 0x0400, "rid", &[]),
        at("item 7, ARI range: last unit", claiming(child(), &[0x9F]), 0x04F8, "rid", &[]),
        at("item 7, ARI range: both", claiming(child().buses(4, 4), &[0x80]), 0x0400, "bus rid", &[]),
        at("item 7, ARI range: two buses", child().buses(3, 4), 0x0400, "bus", &[]),
        refused("item 7, ARI range: downstream", below_a_switch, 0x0400, 3, "bus", &[]),
        refused("item 7, upstream range: ARI is nothing", no_ari(0x83), 0x0418, 2, "rid", &[]),
        clear("item 7, clear: ARI is nothing upstream", no_ari(0x82), &[]),
        clear("item 7, clear: the unit before a bus", ports(claiming(child(), &[0x7F])), &[]),
        clear("item 7, clear: the unit behind a bus", ports(claiming(child(), &[0xA0])), &[]),
        clear("item 7, clear: the bus before", ports(child().buses(3, 3)), &[]),
        clear("item 7, clear: the bus behind", ports(child().buses(5, 255)), &[]),
    ]
}

/// Without ARI the Secondary range of a root or downstream port is one unit, whatever Num Sec Dev says: 85h
/// is 0428h to 042Fh.
fn one_unit_cases() -> Vec<Case> {
    let ports = |below| vec![with_range(root(0x0008).buses(1, 255), 0x85, 31), below];
    let child = || up(0, 0x0100);
    let at = |name, below, id, by, calls: &[Call]| refused(name, ports(below), id, 1, by, calls);
    let edges = [
        converts(0, 0x0427, TYPE_1),
        converts(0, 0x0428, TYPE_0),
        converts(0, 0x042F, TYPE_0),
        converts(0, 0x0430, TYPE_1),
    ];
    let below_a_switch = |unit| {
        vec![
            root(0x0008).buses(1, 255),
            up(0, 0x0100).buses(2, 255),
            with_range(down(1, 0x0200).buses(3, 255), 0x85, 31),
            claiming(up(2, 0x0300), &[unit]),
        ]
    };
    vec![
        at("item 7, one unit: by bus", child().buses(4, 4), 0x0428, "bus", &edges),
        at("item 7, one unit: by rid", claiming(child(), &[0x85]), 0x0428, "rid", &[]),
        at("item 7, one unit: both", claiming(child().buses(4, 4), &[0x85]), 0x0428, "bus rid", &[]),
        at("item 7, one unit: among others", claiming(child(), &[0x84, 0x85, 0x86]), 0x0428, "rid", &[]),
        refused("item 7, one unit: downstream", below_a_switch(0x85), 0x0428, 3, "rid", &[]),
        clear("item 7, clear: before one unit", ports(claiming(child(), &[0x80, 0x84])), &[]),
        clear("item 7, clear: Num Sec Dev is nothing", ports(claiming(child(), &[0x86, 0xA4])), &[]),
        clear("item 7, clear: Num Sec Dev is nothing downstream", below_a_switch(0x86), &[]),
    ]
}

/// The parent claims bus 4 by its RID vector alone, or by its bus pair too; its range is on that bus.
fn rid_above_cases() -> Vec<Case> {
    let above = |port: DraftPort, start| port.vector(Rid, shape(0, 5, 0), &[4]).secondary_range(start, 0);
    let switch = |last| {
        vec![root(0x0008).buses(1, 255), above(up(0, 0x0100).buses(2, last), 0x80), leaf().buses(4, 4)]
    };
    let below = |top: DraftPort| vec![above(top.buses(1, 3), 0x85), up(0, 0x0100).buses(4, 4)];
    let by = |port, id, decoders| [claims_id(port, id, decoders), converts(port, id, TYPE_0)];
    let (rid, both) = (by(1, 0x0400, RID), by(1, 0x0400, BUS | RID));
    let (with_ari, one_unit) = (by(0, 0x0400, RID), by(0, 0x0428, RID));
    let top = || root(0x0008);
    vec![
        refused("item 7, upstream range: rid above", switch(3), 0x0400, 2, "bus", &rid),
        refused("item 7, upstream range: both above", switch(4), 0x0400, 2, "bus", &both),
        refused("item 7, ARI range: rid above", below(top().with_ari()), 0x0400, 1, "bus", &with_ari),
        refused("item 7, one unit: rid above", below(top()), 0x0428, 1, "bus", &one_unit),
    ]
}

/// The bus Secondary of an upstream port, 2, is Type 0 for all devices. A child that claims the whole bus has
/// its own ID in the Secondary range, unit 60h.
fn upstream_bus_cases() -> Vec<Case> {
    let plain = |below| vec![root(0x0008).buses(1, 255), up(0, 0x0100).buses(2, 255), below];
    let far = || down(1, 0x0300);
    let both_above = |below| {
        let parent = up(0, 0x0100).buses(2, 3).vector(Rid, shape(0, 5, 0), &[2]).secondary_range(0x60, 0);
        vec![root(0x0008).buses(1, 255), parent, below]
    };
    let type_0 = [converts(1, 0x0208, TYPE_0), converts(1, 0x0300, TYPE_1), claims_id(1, 0x0208, BUS)];
    vec![
        refused("item 7, upstream bus: rid", plain(claiming(leaf(), &[0x41])), 0x0208, 2, "rid", &type_0),
        refused("item 7, upstream bus: last", plain(claiming(leaf(), &[0x5F, 0x60])), 0x02F8, 2, "rid", &[]),
        refused("item 7, upstream bus: bus", switch(0x60, 0, far().buses(2, 2)), 0x0200, 2, "bus", &[]),
        refused(
            "item 7, upstream bus: both",
            switch(0x60, 0, claiming(far().buses(2, 2), &[0x40])),
            0x0200,
            2,
            "bus rid",
            &[],
        ),
        refused(
            "item 7, upstream bus: both above",
            both_above(claiming(far(), &[0x47])),
            0x0238,
            2,
            "rid",
            &[claims_id(1, 0x0238, BUS | RID), converts(1, 0x0238, TYPE_0)],
        ),
        clear("item 7, clear: the bus behind Secondary", plain(leaf().buses(3, 255)), &[]),
    ]
}

/// The bus Secondary of a port with ARI, 1, is Type 0 for all devices.
fn ari_bus_cases() -> Vec<Case> {
    let top = || root(0x0008).with_ari().buses(1, 255);
    let plain = |below| vec![top(), below];
    let ranged = |below| vec![with_range(top(), 0x65, 0), below];
    let type_0 = [converts(0, 0x0108, TYPE_0), converts(0, 0x0200, TYPE_1)];
    let near = || up(0, 0x0100);
    let far = || up(0, 0x0300);
    vec![
        refused("item 7, ARI bus: rid", plain(claiming(near(), &[0x21])), 0x0108, 1, "rid", &type_0),
        refused("item 7, ARI bus: last", plain(claiming(near(), &[0x3F])), 0x01F8, 1, "rid", &[]),
        refused("item 7, ARI bus: bus", ranged(far().buses(1, 1)), 0x0100, 1, "bus", &[]),
        refused(
            "item 7, ARI bus: both",
            ranged(claiming(far().buses(1, 2), &[0x20])),
            0x0100,
            1,
            "bus rid",
            &[],
        ),
        clear("item 7, clear: the bus behind Secondary with ARI", plain(near().buses(2, 9)), &[]),
    ]
}

/// Without ARI the bus Secondary of a root or downstream port, 1, is Type 0 for device 0. The child's own ID
/// is in the Secondary range, unit 60h.
fn device_0_cases() -> Vec<Case> {
    let ports = |below| vec![with_range(root(0x0008).buses(1, 255), 0x60, 0), below];
    let child = || up(0, 0x0300);
    let edges = [converts(0, 0x0107, TYPE_0), converts(0, 0x0108, UNSUPPORTED), converts(0, 0x0200, TYPE_1)];
    let coarse = child().vector(Rid, shape(0, 3, 0), &[4]);
    vec![
        refused("item 7, device 0: rid", ports(claiming(child(), &[0x20])), 0x0100, 1, "rid", &edges),
        refused("item 7, device 0: bus", ports(child().buses(1, 1)), 0x0100, 1, "bus", &edges),
        refused(
            "item 7, device 0: both",
            ports(claiming(child().buses(1, 2), &[0x20])),
            0x0100,
            1,
            "bus rid",
            &[],
        ),
        // an entry of 64 IDs: 0100h to 013Fh
        refused("item 7, device 0: a coarse entry", ports(coarse), 0x0100, 1, "rid", &[]),
    ]
}

/// The other devices of that bus are an Unsupported Request, which is not passed on either.
fn other_device_cases() -> Vec<Case> {
    let ports = |below| vec![root(0x0008).buses(1, 255), below];
    let child = || up(0, 0x0100);
    let edges = [converts(0, 0x0108, UNSUPPORTED), converts(0, 0x0100, TYPE_0), claims_id(0, 0x0108, BUS)];
    let below_a_switch = vec![
        root(0x0008).buses(1, 255),
        up(0, 0x0100).buses(2, 255),
        down(1, 0x0200).buses(3, 255),
        claiming(up(2, 0x0300), &[0x61]),
    ];
    let both_above = vec![
        root(0x0008).buses(1, 255).vector(Rid, shape(0, 5, 0), &[1]).secondary_range(0x60, 0),
        claiming(child(), &[0x30]),
    ];
    vec![
        refused("item 7, other devices: 1", ports(claiming(child(), &[0x21])), 0x0108, 1, "rid", &edges),
        refused("item 7, other devices: 31", ports(claiming(child(), &[0x3F])), 0x01F8, 1, "rid", &[]),
        refused(
            "item 7, other devices: below a switch",
            below_a_switch,
            0x0308,
            3,
            "rid",
            &[converts(2, 0x0308, UNSUPPORTED)],
        ),
        refused(
            "item 7, other devices: both above",
            both_above,
            0x0180,
            1,
            "rid",
            &[claims_id(0, 0x0180, BUS | RID), converts(0, 0x0180, UNSUPPORTED)],
        ),
        clear("item 7, clear: the unit behind Secondary", ports(claiming(child(), &[0x40])), &[]),
    ]
}

/// With RID decoding not enabled there is no Secondary range, whatever the registers hold.
fn not_enabled_cases() -> Vec<Case> {
    let off = |mut ports: Vec<DraftPort>, parent: usize| {
        ports[parent].set_enabled(Rid, false);
        ports
    };
    let top = || root(0x0008).buses(1, 255);
    let unsupported = vec![top(), up(0, 0x0100).buses(2, 255).secondary_range(0x80, 31), leaf().buses(4, 4)];
    let child = || up(0, 0x0100).buses(4, 4);
    let passed = [converts(1, 0x0400, TYPE_1)];
    vec![
        clear("item 7, clear: not enabled upstream", off(switch(0x80, 31, leaf().buses(4, 4)), 1), &passed),
        clear(
            "item 7, clear: not enabled, by rid",
            off(switch(0x80, 0, claiming(leaf(), &[0x80])), 1),
            &passed,
        ),
        clear("item 7, clear: not supported", unsupported, &passed),
        clear(
            "item 7, clear: not enabled with ARI",
            off(vec![with_range(top().with_ari(), 0x85, 0), child()], 0),
            &[],
        ),
        clear(
            "item 7, clear: not enabled at a root port",
            off(vec![with_range(top(), 0x85, 0), child()], 0),
            &[],
        ),
        // the bus Secondary does not need it
        refused(
            "item 7, upstream bus: not enabled",
            off(switch(0x80, 0, claiming(leaf(), &[0x42])), 1),
            0x0210,
            2,
            "rid",
            &[],
        ),
    ]
}

/// An own ID that the port does not claim is no claim: it belongs into the parent's range, and claims may lie
/// on either side of it.
fn own_and_beside_cases() -> Vec<Case> {
    let upstream = switch(0x83, 0, claiming(down(1, 0x041B), &[0x82, 0x84]));
    let with_ari = vec![
        with_range(root(0x0008).with_ari().buses(1, 255), 0x85, 0),
        claiming(up(0, 0x04F8).buses(5, 9), &[0x7F]),
    ];
    let one_unit =
        vec![with_range(root(0x0008).buses(1, 255), 0x85, 0), claiming(up(0, 0x042F), &[0x84, 0x86])];
    let on_the_bus = vec![root(0x0008).buses(1, 255), claiming(up(0, 0x0107), &[0x40]), down(1, 0x0200)];
    let on_the_bus = on_the_bus.into_iter().map(|port| port.secondary_range(0x40, 0)).collect();
    vec![
        clear("item 7, clear: own ID among units", upstream, &[converts(1, 0x041B, TYPE_0)]),
        clear("item 7, clear: own ID on a bus with ARI", with_ari, &[converts(0, 0x04F8, TYPE_0)]),
        clear("item 7, clear: own ID in one unit", one_unit, &[converts(0, 0x042F, TYPE_0)]),
        clear("item 7, clear: own ID on the bus Secondary", on_the_bus, &[]),
    ]
}

/// A bus pair that claims nothing has no bus Secondary: the parent claims bus 4, or bus 0, by its RID vector.
fn closed_pair_cases() -> Vec<Case> {
    let above = |port: DraftPort, entries: &[u64], start| {
        port.vector(Rid, shape(0, 5, 0), entries).secondary_range(start, 0)
    };
    let switch = |below| {
        let parent = above(up(0, 0x0100).buses(4, 3), &[3, 4], 0x60);
        vec![root(0x0008).buses(1, 255), parent, below]
    };
    let child = || up(0, 0x0100);
    let open = above(root(0x0008).buses(4, 4), &[1], 0x20);
    vec![
        clear("item 7, clear: closed pair upstream", switch(down(1, 0x0300).buses(4, 4)), &[]),
        clear(
            "item 7, clear: closed pair upstream, by rid",
            switch(claiming(down(1, 0x0300), &[0x80])),
            &[converts(1, 0x0400, TYPE_1)],
        ),
        clear(
            "item 7, clear: closed pair with ARI",
            vec![above(root(0x0008).with_ari().buses(4, 0), &[1, 4], 0x20), child().buses(4, 4)],
            &[],
        ),
        clear(
            "item 7, clear: closed pair",
            vec![above(root(0x0008).buses(4, 3), &[1, 4], 0x20), child().buses(4, 4)],
            &[converts(0, 0x0400, TYPE_1), converts(0, 0x0408, TYPE_1)],
        ),
        clear(
            "item 7, clear: the pair 0, 0",
            vec![above(root(0x8000), &[0, 1], 0x20), claiming(child(), &[0, 1])],
            &[converts(0, 0, TYPE_1), converts(0, 0x0008, TYPE_1)],
        ),
        refused("item 7, device 0: open pair", vec![open, child().buses(4, 4)], 0x0400, 1, "bus", &[]),
    ]
}

/// Port 0, without ARI, has unit 80h, 0400h, as its Secondary range.
fn below_0400(ports: Vec<DraftPort>) -> Vec<DraftPort> {
    [vec![with_range(root(0x0008).buses(1, 255), 0x80, 0)], ports].concat()
}

/// The least ID, whichever port claims it.
fn least_id_cases() -> Vec<Case> {
    let siblings = |first: &[u64], second: &[u64]| {
        let parent = with_range(up(0, 0x0100).buses(2, 255), 0x80, 31);
        let below = [claiming(down(1, 0x0200), first), claiming(down(1, 0x0208), second)];
        [vec![root(0x0008).buses(1, 255), parent], below.to_vec()].concat()
    };
    // port 1 claims 0400h; on bus 3, its Secondary, port 2 claims 0310h
    let in_a_row = below_0400(vec![up(0, 0x0100).buses(3, 5), claiming(down(1, 0x0308), &[0x62])]);
    let two_roots = vec![
        root(0x0008).buses(1, 4),
        root(0x0010).buses(5, 9),
        claiming(up(1, 0x0500), &[0xA1]),
        claiming(up(0, 0x0100), &[0x22]),
    ];
    vec![
        refused("item 7, named: the least ID", in_a_row, 0x0310, 2, "rid", &[]),
        refused("item 7, named: second child", siblings(&[0x90], &[0x83]), 0x0418, 3, "rid", &[]),
        refused("item 7, named: first child", siblings(&[0x83, 0x95], &[0x90]), 0x0418, 2, "rid", &[]),
        refused("item 7, named: over all places", two_roots, 0x0110, 3, "rid", &[]),
        clear(
            "item 7, clear: root ports alone",
            vec![root(0x0008).buses(1, 4), root(0x0010).buses(5, 9)],
            &[],
        ),
    ]
}

/// At one ID the lowest port: ports 1 and 2, and in the second picture 3 too, claim 0400h, and none of the
/// ports above them passes it on, port 1 because bus 4 is its Secondary, port 2 because unit 80h is its
/// range.
fn lowest_port_cases() -> Vec<Case> {
    let two = below_0400(vec![up(0, 0x0100).buses(4, 5), claiming(down(1, 0x0408), &[0x80])]);
    let three = below_0400(vec![
        up(0, 0x0100).buses(4, 5),
        claiming(down(1, 0x0408).buses(5, 5), &[0x80]).secondary_range(0x80, 0),
        claiming(up(2, 0x0500), &[0x80]),
    ]);
    let taken = |port| converts(port, 0x0400, TYPE_0);
    let by_two = [taken(0), taken(1), holds_id(0x0400, "port 0 by bus/port 1 by bus/port 2 by rid")];
    vec![
        refused("item 7, named: the lower of two ports", two, 0x0400, 1, "bus", &by_two),
        refused(
            "item 7, named: the lowest of three ports",
            three,
            0x0400,
            1,
            "bus",
            &[taken(0), taken(1), taken(2), claims_id(3, 0x0400, RID)],
        ),
    ]
}

/// Port 1 claims 0108h, for which its parent gives Unsupported Request; something else is wrong too, which
/// comes first.
fn earlier_numbers_cases() -> Vec<Case> {
    let with = |child: DraftPort, more: Vec<DraftPort>| {
        [vec![root(0x0008).buses(1, 9), claiming(child, &[0x21])], more].concat()
    };
    let child = || up(0, 0x0100);
    let first = |name, ports, line| case(name, ports, vec![reports(line)]);
    let last_unit = |own_id| root(own_id).vector(Rid, shape(0, 0, 0x1FFF), &[0]);
    vec![
        first(
            "item 7, order: 11 at a later ID",
            with(child(), vec![last_unit(0x0010), last_unit(0x0018)]),
            "refused 11 id fff8 ports 2 by rid 3 by rid",
        ),
        first(
            "item 7, order: 12",
            with(child(), vec![root(0x0010).memory(7, 7), root(0x0018).memory(7, 7)]),
            "refused 12 addr 0000000000700000 ports 2 by mem 3 by mem",
        ),
        first("item 7, order: 13", with(child().buses(9, 10), vec![]), "refused 13 id 0a00 ports 1 by bus"),
        first(
            "item 7, order: 14",
            with(child().memory(7, 7), vec![]),
            "refused 14 addr 0000000000700000 ports 1 by mem",
        ),
        first("item 7, order: 15 by Unsupported Request", with(up(0, 0x0110), vec![]), "refused 15 ports 1"),
        first("item 7, order: 15 by Type 1", with(up(0, 0x0200), vec![]), "refused 15 ports 1"),
        first(
            "item 7, order: 15 at a later port",
            with(child(), vec![root(0x0010).buses(10, 11), up(2, 0x0B00)]),
            "refused 15 ports 3",
        ),
        first("item 7, order: 18", with(child(), vec![]), "refused 18 id 0108 ports 1 by rid"),
    ]
}

/// Port 3 has own ID 0400h on bus 4, Secondary of port 2; with RID decoding enabled, port 1 has that unit as
/// its Secondary range.
fn four_in_a_row(start: u16) -> Vec<DraftPort> {
    let mut ports = switch(start, 0, leaf().buses(4, 5));
    ports.push(up(2, 0x0400).buses(5, 5));
    ports
}

/// A packet for the ID ends at the port's Function.
fn packet(id: u64, port: u8, path: &[u8]) -> Call {
    walks(0, 255, id, [2, port, 255, 0], path)
}

/// A configuration request for the ID ends at the port's Function.
fn finds_port(id: u64, port: u8, path: &[u8]) -> Call {
    walks(2, 255, id, [2, port, 255, 0], path)
}

/// A configuration request for the ID ends as Unsupported Request at the port.
fn is_taken(id: u64, port: u8, path: &[u8]) -> Call {
    walks(2, 255, id, [4, port, 255, 0], path)
}

/// A port in the middle takes the request for an own ID further down: only number 18 is wrong, and without it
/// the request gets there.
fn middle_port_cases() -> Vec<Case> {
    let mut off = four_in_a_row(0x80);
    off[1].set_enabled(Rid, false);
    let by_packet = packet(0x0400, 3, &[0, 1, 2]);
    let found = finds_port(0x0400, 3, &[0, 1, 2]);
    let others =
        [finds_port(0x0008, 0, &[]), finds_port(0x0100, 1, &[0]), finds_port(0x0200, 2, &[0, 1])].to_vec();
    let taken = [others, vec![is_taken(0x0400, 1, &[0, 1]), by_packet.clone()]].concat();
    vec![
        refused("item 7, walks: a middle port takes it", four_in_a_row(0x80), 0x0400, 2, "bus", &taken),
        clear("item 7, walks: RID decoding not enabled", off, &[found.clone(), by_packet]),
        clear("item 7, walks: another unit", four_in_a_row(0x7F), &[found]),
    ]
}

/// Port 2 has 01:01.0 in the Secondary range of port 1, which claims that unit; port 0 has bus 1 as
/// Secondary.
fn middle_root_cases() -> Vec<Case> {
    let ports = |top: DraftPort| {
        let middle = claiming(up(0, 0x0100), &[0x21]).secondary_range(0x21, 0);
        vec![top.buses(1, 255), middle, down(1, 0x0108)]
    };
    let calls = |path| [finds_port(0x0100, 1, &[0]), is_taken(0x0108, 0, path), packet(0x0108, 2, &[0, 1])];
    let (top, ari) = (ports(root(0x0008)), ports(root(0x0008).with_ari()));
    vec![
        refused("item 7, walks: a root port refuses it", top, 0x0108, 1, "rid", &calls(&[])),
        refused("item 7, walks: a root port with ARI takes it", ari, 0x0108, 1, "rid", &calls(&[0])),
    ]
}

/// Clear, and every port is found: through Secondary ranges of all kinds, and through buses.
fn found_cases() -> Vec<Case> {
    let ports = vec![
        root(0x0008).vector(Rid, shape(0, 5, 0), &[1, 2, 3]).secondary_range(0x20, 0),
        up(0, 0x0103).vector(Rid, shape(0, 5, 0), &[2, 3]).secondary_range(0x40, 3),
        down(1, 0x0210).with_ari().vector(Rid, shape(0, 5, 0), &[3]).secondary_range(0x65, 0),
        claiming(down(1, 0x0218), &[0x44, 0x45]).secondary_range(0x45, 0),
        up(2, 0x03FF),
        up(3, 0x0228),
        root(0x0010).buses(4, 6),
        up(6, 0x0407).buses(5, 6),
        down(7, 0x05FF).buses(6, 6),
    ];
    let calls = [
        finds_port(0x0008, 0, &[]),
        finds_port(0x0103, 1, &[0]),
        finds_port(0x0210, 2, &[0, 1]),
        finds_port(0x0218, 3, &[0, 1]),
        finds_port(0x03FF, 4, &[0, 1, 2]),
        finds_port(0x0228, 5, &[0, 1, 3]),
        finds_port(0x0010, 6, &[]),
        finds_port(0x0407, 7, &[6]),
        finds_port(0x05FF, 8, &[6, 7]),
    ];
    vec![clear("item 7, walks: every port is found", ports, &calls)]
}

/// An upstream port with these entries in a RID vector from 0100h on.
fn with_entries(entries: &[u64]) -> DraftPort {
    up(0, 0x0100).vector(Rid, shape(0, 0, 0x20), entries)
}

/// A patch for a port with one vector of 256 entries, with these set.
fn setting(port: u32, entries: &[usize]) -> Vec<u8> {
    patch(1, 48, &[(port, 16)], bits(32, entries))
}

/// Trials in which the child's claims are the patch's. Entry 1 is 0108h, for which the parent gives
/// Unsupported Request; entry 32 is 0200h, and 40 is 0240h, which is passed on.
fn trials_of_the_child() -> Vec<Case> {
    let ports = |entries: &[u64]| vec![root(0x0008).buses(1, 9), with_entries(entries)];
    let ranged = vec![with_range(root(0x0008).buses(1, 9), 0x40, 0), with_entries(&[]).buses(2, 2)];
    vec![
        trial(
            "item 7, trials: the child's entry is set",
            Draft::of(ports(&[])).bytes(),
            setting(1, &[1, 40]),
            vec![
                reports("ports 2/clear"),
                prints("refused 18 id 0108 ports 1 by rid"),
                finds(18, 1, 255, Some(0x0108)),
                goes(2, 255, 0x0108, [4, 0, 255, 0], &[]),
            ],
        ),
        clear_trial(
            "item 7, trials: the child's entry is cleared",
            ports(&[1, 40]),
            setting(1, &[40]),
            vec![reports("refused 18 id 0108 ports 1 by rid")],
        ),
        trial(
            "item 7, trials: by bus and by the new entry",
            Draft::of(ranged).bytes(),
            setting(1, &[32]),
            vec![
                reports("refused 18 id 0200 ports 1 by bus"),
                prints("refused 18 id 0200 ports 1 by bus rid"),
            ],
        ),
    ]
}

/// A trial in which the patch lets the parent claim 0200h, which is in its Secondary range and claimed below.
fn trials_of_the_parent() -> Vec<Case> {
    let parent = root(0x0008).buses(1, 1).vector(Rid, shape(0, 0, 0x20), &[]).secondary_range(0x40, 0);
    vec![trial(
        "item 7, trials: the parent's entry is set",
        Draft::of(vec![parent, with_entries(&[32])]).bytes(),
        setting(0, &[32]),
        vec![
            reports("refused 13 id 0200 ports 1 by rid"),
            prints("refused 18 id 0200 ports 1 by rid"),
            finds(18, 1, 255, Some(0x0200)),
            goes(2, 255, 0x0200, [4, 0, 255, 0], &[0]),
        ],
    )]
}
