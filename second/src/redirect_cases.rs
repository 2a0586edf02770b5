//! Hand-written cases of redirect: which packets cross every port up to the root and then go as from the host,
//! and which go as before.

use crate::batch::Record;
use crate::cases::{
    case, chain, checks, claims_address, down, reports, root, shape, up, walk_refused, walks, Case, LOW,
};
use crate::claim_cases::holds_address;
use crate::draft::{DraftPort, Which, REQUEST_REDIRECT};
use crate::edition_cases::{case_2, edition_2};
use crate::trial_cases::{bits, finds, goes, lies, patch, prints, trial};
use Which::{High, Low};

/// A call and the line that answers it.
type Call = (Record, String);

/// All cases of redirect.
pub fn redirect_cases() -> Vec<Case> {
    [
        two_trees_cases(),
        as_before_cases(),
        acs_bit_cases(),
        edition_1_cases(),
        other_ports_cases(),
        start_cases(),
        claimed_cases(),
        holder_on_the_way_cases(),
        holders_further_up_cases(),
        claim_on_the_way_cases(),
        root_cases(),
        below_cases(),
        depth_cases(),
        longest_cases(),
        trial_claim_cases(),
        trial_target_cases(),
        trial_root_cases(),
        trial_reading_cases(),
    ]
    .into_iter()
    .flatten()
    .collect()
}

/// Two trees, sound. Below root port 0 a switch (port 1) with devices at ports 2 and 3; root port 4 with a
/// device. Ports 0 and 1 have MiB 100h to 1FFh, port 2 100h to 10Fh, port 3 110h to 11Fh, port 4 200h to 2FFh.
/// Ports 2 and 4 redirect.
fn two_trees() -> Vec<DraftPort> {
    vec![
        root(0x0008).buses(1, 6).memory(0x100, 0x1FF),
        up(0, 0x0100).buses(2, 6).memory(0x100, 0x1FF),
        down(1, 0x0200).buses(3, 3).memory(0x100, 0x10F).redirecting(),
        down(1, 0x0208).buses(4, 4).memory(0x110, 0x11F),
        root(0x0010).buses(7, 7).memory(0x200, 0x2FF).redirecting(),
    ]
}

/// The same with another port in the place of one.
fn with_port(number: usize, port: DraftPort) -> Vec<DraftPort> {
    let mut ports = two_trees();
    ports[number] = port;
    ports
}

/// An address packet from below port 2.
fn from_2(address: u64, end: [u8; 4], path: &[u8]) -> Call {
    walks(1, 2, address, end, path)
}

/// Where packets go in the two trees.
fn two_trees_cases() -> Vec<Case> {
    let to = |name, calls| case_2(name, two_trees(), calls);
    vec![
        to(
            "item 8, redirect: the check is as before",
            vec![reports("ports 5/clear"), checks(0, 255, 255, None)],
        ),
        to("item 8, redirect: to the host", vec![from_2(0x3000_0000, [3, 255, 255, 0], &[2, 1, 0])]),
        to("item 8, redirect: to a sibling", vec![from_2(0x1100_0000, [1, 3, 255, 0], &[2, 1, 0, 0, 1, 3])]),
        to("item 8, redirect: to nobody below", vec![from_2(0x1200_0000, [4, 1, 255, 0], &[2, 1, 0, 0, 1])]),
        to("item 8, redirect: to another tree", vec![from_2(0x2FFF_FFFF, [1, 4, 255, 0], &[2, 1, 0, 4])]),
        to(
            "item 8, redirect: from a root port",
            vec![
                walks(1, 4, 0x3000_0000, [3, 255, 255, 0], &[4]),
                walks(1, 4, 0x1000_0000, [1, 2, 255, 0], &[4, 0, 1, 2]),
                walks(1, 4, 0x1FFF_FFFF, [4, 1, 255, 0], &[4, 0, 1]),
            ],
        ),
        to(
            "item 8, claimed: by the starting port",
            vec![
                from_2(0x1000_0000, [4, 2, 255, 0], &[]),
                from_2(0x10FF_FFFF, [4, 2, 255, 0], &[]),
                walks(1, 4, 0x2000_0000, [4, 4, 255, 0], &[]),
            ],
        ),
    ]
}

/// Packets in the two trees that are not redirected.
fn as_before_cases() -> Vec<Case> {
    let to = |name, calls| case_2(name, two_trees(), calls);
    vec![
        to("item 8, as before: from a port without redirect", from_3()),
        to("item 8, as before: from the host", from_the_host()),
        to("item 8, as before: IDs", ids_from_2()),
        to("item 8, as before: configuration requests", requests()),
    ]
}

/// Address packets from port 3, which does not redirect.
fn from_3() -> Vec<Call> {
    vec![
        walks(1, 3, 0x1000_0000, [1, 2, 255, 0], &[3, 2]),
        walks(1, 3, 0x1200_0000, [4, 1, 255, 0], &[3]),
        walks(1, 3, 0x1100_0000, [4, 3, 255, 0], &[]),
        walks(1, 3, 0x2000_0000, [1, 4, 255, 0], &[3, 1, 0, 4]),
    ]
}

/// Address packets from the host.
fn from_the_host() -> Vec<Call> {
    vec![
        walks(1, 255, 0x1000_0000, [1, 2, 255, 0], &[0, 1, 2]),
        walks(1, 255, 0x1100_0000, [1, 3, 255, 0], &[0, 1, 3]),
        walks(1, 255, 0x1200_0000, [4, 1, 255, 0], &[0, 1]),
        walks(1, 255, 0x3000_0000, [3, 255, 255, 0], &[]),
    ]
}

/// ID packets from ports that redirect; some of these numbers would be redirected as addresses.
fn ids_from_2() -> Vec<Call> {
    vec![
        walks(0, 2, 0x0400, [1, 3, 255, 0], &[2, 3]),
        walks(0, 2, 0x0208, [2, 3, 255, 0], &[2]),
        walks(0, 2, 0x0200, [2, 2, 255, 0], &[2]),
        walks(0, 2, 0x0300, [4, 2, 255, 0], &[]),
        walks(0, 2, 0x0500, [4, 1, 255, 0], &[2]),
        walks(0, 2, 0x0110, [4, 0, 255, 0], &[2, 1]),
        walks(0, 2, 0x0100, [2, 1, 255, 0], &[2, 1]),
        walks(0, 2, 0x0700, [1, 4, 255, 0], &[2, 1, 0, 4]),
        walks(0, 2, 0x0018, [3, 255, 255, 0], &[2, 1, 0]),
        walks(0, 4, 0x0300, [1, 2, 255, 0], &[4, 0, 1, 2]),
        walk_refused(0, 2, 0x1100_0000, 16, 255),
    ]
}

/// Configuration requests from ports that redirect, and from the host.
fn requests() -> Vec<Call> {
    vec![
        walks(2, 2, 0x0400, [4, 2, 255, 0], &[]),
        walks(2, 2, 0x0300, [4, 2, 255, 0], &[]),
        walks(2, 2, 0x0018, [4, 2, 255, 0], &[]),
        walks(2, 4, 0x0300, [4, 4, 255, 0], &[]),
        walks(2, 255, 0x0400, [1, 3, 255, 0], &[0, 1, 3]),
        walks(2, 255, 0x0200, [2, 2, 255, 0], &[0, 1]),
    ]
}

/// Every single bit of ACS Control at the starting port, and several: bit 2 alone counts.
fn acs_bit_cases() -> Vec<Case> {
    let values = (0..16).map(|bit| 1u16 << bit).chain([0, 3, 0x0A, 0x0C, 0x0E, 0x1F, 0xFFFB, 0xFFFF]);
    let with = |acs_control: u16| {
        let path: &[u8] = if acs_control & 4 == 4 { &[2, 1, 0, 0, 1, 3] } else { &[2, 3] };
        let unclaimed: &[u8] = if acs_control & 4 == 4 { &[2, 1, 0, 0, 1] } else { &[2] };
        let calls = vec![
            reports("ports 5/clear"),
            from_2(0x1100_0000, [1, 3, 255, 0], path),
            from_2(0x1200_0000, [4, 1, 255, 0], unclaimed),
            from_2(0x1000_0000, [4, 2, 255, 0], &[]),
            walks(0, 2, 0x0400, [1, 3, 255, 0], &[2, 3]),
        ];
        let port = DraftPort { acs_control, ..two_trees()[2].clone() };
        case_2("item 8, ACS Control: which bits count", with_port(2, port), calls)
    };
    values.map(with).collect()
}

/// Ports in edition 1, which has no ACS Control: it counts as 0, whatever bytes follow the last record. There it
/// is the first byte of port 2's vector, which has bit 2 set.
fn edition_1_cases() -> Vec<Case> {
    let calls = vec![
        reports("ports 5/clear"),
        from_2(0x1100_0000, [1, 3, 255, 0], &[2, 3]),
        from_2(0x1200_0000, [4, 1, 255, 0], &[2]),
        from_2(0x3000_0000, [3, 255, 255, 0], &[2, 1, 0]),
    ];
    let mut before_a_vector = two_trees();
    before_a_vector[2] =
        down(1, 0x0200).buses(3, 3).vector(Low, shape(0, 0, 0x100), &[2]).with_memory_space(true);
    before_a_vector[3] = down(1, 0x0208).buses(4, 4);
    before_a_vector.truncate(4);
    let across = vec![reports("ports 4/clear"), walks(1, 3, 0x1020_0000, [1, 2, 255, 0], &[3, 2])];
    vec![
        case("item 8, edition 1: no redirect", two_trees(), calls),
        case("item 8, edition 1: bit 2 behind the last record", before_a_vector, across),
    ]
}

/// Bit 2 at every port but the starting one: it does not matter there.
fn other_ports_cases() -> Vec<Case> {
    let redirect = |port: DraftPort| DraftPort { acs_control: REQUEST_REDIRECT, ..port };
    let mut ports: Vec<DraftPort> = two_trees().into_iter().map(redirect).collect();
    ports[2].acs_control = !REQUEST_REDIRECT;
    let elsewhere = vec![
        from_2(0x1100_0000, [1, 3, 255, 0], &[2, 3]),
        from_2(0x1200_0000, [4, 1, 255, 0], &[2]),
        walks(1, 3, 0x1000_0000, [1, 2, 255, 0], &[3, 1, 0, 0, 1, 2]),
        walks(1, 255, 0x1000_0000, [1, 2, 255, 0], &[0, 1, 2]),
    ];
    let crossed = vec![
        reports("ports 6/clear"),
        walks(1, 4, 0x1000_0000, [1, 5, 255, 0], &[4, 3, 2, 5]),
        walks(1, 4, 0x3000_0000, [3, 255, 255, 0], &[4, 3, 2, 1, 0]),
    ];
    vec![
        case_2("item 8, as before: bit 2 elsewhere", ports, elsewhere),
        case_2("item 8, as before: bit 2 at ports crossed upward", switch_in_switch(), crossed),
    ]
}

/// A switch below a switch. The ports above the device port 4 redirect and it does not; port 5, beside them, has
/// MiB 100h to 10Fh.
fn switch_in_switch() -> Vec<DraftPort> {
    vec![
        root(0x0008).buses(1, 6).memory(0x100, 0x1FF).redirecting(),
        up(0, 0x0100).buses(2, 6).memory(0x100, 0x1FF).redirecting(),
        down(1, 0x0200).buses(3, 5).redirecting(),
        up(2, 0x0300).buses(4, 5).redirecting(),
        down(3, 0x0400).buses(5, 5),
        down(1, 0x0208).buses(6, 6).memory(0x100, 0x10F),
    ]
}

/// What is no start stays none: a port with a child, and an upstream port without one.
fn start_cases() -> Vec<Case> {
    let childless = vec![root(0).memory(1, 1).redirecting(), up(0, 1).redirecting()];
    let mut ports = two_trees();
    ports[1] = ports[1].clone().redirecting();
    vec![
        case_2(
            "item 8, starts: ports with children",
            ports,
            vec![
                walk_refused(1, 0, 0x3000_0000, 16, 255),
                walk_refused(1, 1, 0x3000_0000, 16, 255),
                walk_refused(1, 5, 0x3000_0000, 16, 255),
                walk_refused(1, 258, 0x3000_0000, 16, 255),
            ],
        ),
        case_2(
            "item 8, starts: an upstream port",
            childless,
            vec![walk_refused(1, 1, 0, 16, 255), walk_refused(1, 0, 0, 16, 255)],
        ),
    ]
}

/// A claim of the starting port by each decoder, and none with Memory Space Enable off.
fn claimed_cases() -> Vec<Case> {
    let silent = || down(1, 0x0200).buses(3, 3).redirecting();
    let claimed = |name, port: DraftPort, address| {
        case_2(name, with_port(2, port.redirecting()), vec![from_2(address, [4, 2, 255, 0], &[])])
    };
    let low = silent().vector(Low, shape(0, 0, 0x100), &[5]).with_memory_space(true);
    let high = silent().vector(High, shape(0, 0, 16), &[0]).with_memory_space(true);
    let off = two_trees()[2].clone().with_memory_space(false);
    let not_redirected = from_2(0x1050_0000, [4, 2, 255, 0], &[]);
    let beside = from_2(0x1060_0000, [4, 1, 255, 0], &[2, 1, 0, 0, 1]);
    let to_the_host = from_2(0x1_1000_0000, [3, 255, 255, 0], &[2, 1, 0]);
    vec![
        claimed("item 8, claimed: by pref", silent().prefetchable(0x500, 0x500), 0x5000_0000),
        claimed("item 8, claimed: by pref above 4 GiB", silent().prefetchable(0x1000, 0x1000), 0x1_0000_0000),
        claimed("item 8, claimed: by high", high.clone(), 0x1_0000_0000),
        claimed("item 8, claimed: by vga", silent().video(), 0xA_0000),
        claimed("item 8, claimed: by vga too", silent().video().memory(0, 0), 0xB_FFFF),
        case_2("item 8, claimed: by low", with_port(2, low), vec![not_redirected, beside]),
        case_2("item 8, claimed: not by the next entry", with_port(2, high), vec![to_the_host]),
        case_2(
            "item 8, claimed: not beside the video range",
            with_port(2, silent().video()),
            vec![
                from_2(0x9_FFFF, [3, 255, 255, 0], &[2, 1, 0]),
                from_2(0xC_0000, [3, 255, 255, 0], &[2, 1, 0]),
            ],
        ),
        case_2(
            "item 8, claimed: not with Memory Space Enable off",
            with_port(2, off),
            vec![from_2(0x1000_0000, [4, 1, 255, 0], &[2, 1, 0, 0, 1])],
        ),
    ]
}

/// How a walk ends, and its path.
type Way<'a> = ([u8; 4], &'a [u8]);

/// The port without redirect, and where its packet goes; the same port with redirect, and where it goes then.
fn both_ways(name: &'static str, ports: &[DraftPort], address: u64, before: Way, after: Way) -> [Case; 2] {
    let with = |acs_control, (end, path)| {
        let mut ports = ports.to_vec();
        ports[2].acs_control = acs_control;
        case_2(name, ports, vec![from_2(address, end, path)])
    };
    [with(!REQUEST_REDIRECT, before), with(REQUEST_REDIRECT, after)]
}

/// A place on the way up with one holder or with two: neither is looked at.
fn holder_on_the_way_cases() -> Vec<Case> {
    let one = with_port(3, down(1, 0x0208).buses(4, 4).memory(0x300, 0x300));
    let third = down(1, 0x0210).buses(5, 5).memory(0x300, 0x300);
    let two = [one.clone(), vec![third]].concat();
    let to = |name, ports: &[DraftPort], before: Way| {
        both_ways(name, ports, 0x3000_0000, before, ([3, 255, 255, 0], &[2, 1, 0]))
    };
    let cases = [
        to("item 8, on the way: one holder", &one, ([1, 3, 255, 0], &[2, 3])),
        to("item 8, on the way: two holders", &two, ([5, 3, 5, 0], &[2])),
    ];
    cases.into_iter().flatten().collect()
}

/// The same from below a switch further down: one holder at the first place above, and two at the next.
fn holders_further_up_cases() -> Vec<Case> {
    let more = vec![
        up(3, 0x0400).buses(5, 6),
        down(5, 0x0500).buses(6, 6).redirecting(),
        down(5, 0x0508).memory(0x300, 0x300),
        down(1, 0x0210).memory(0x300, 0x300),
        down(1, 0x0218).memory(0x300, 0x300),
    ];
    let calls = vec![
        walks(1, 6, 0x3000_0000, [3, 255, 255, 0], &[6, 5, 3, 1, 0]),
        walks(1, 6, 0x1000_0000, [1, 2, 255, 0], &[6, 5, 3, 1, 0, 0, 1, 2]),
        walks(1, 6, 0x1100_0000, [4, 3, 255, 0], &[6, 5, 3, 1, 0, 0, 1, 3]),
        holds_address(0x3000_0000, "port 7 by mem/port 8 by mem/port 9 by mem"),
    ];
    vec![case_2("item 8, on the way: one holder and then two", [two_trees(), more].concat(), calls)]
}

/// The two trees, in which these ports have MiB 300h alone.
fn with_mib_300(numbers: &[usize]) -> Vec<DraftPort> {
    let mut ports = two_trees();
    numbers.iter().for_each(|&number| ports[number] = ports[number].clone().memory(0x300, 0x300));
    ports
}

/// A port on the way up that claims the address: the first one above, the root port, and both.
fn claim_on_the_way_cases() -> Vec<Case> {
    let to = |name, numbers: &[usize], before: Way, after: Way| {
        both_ways(name, &with_mib_300(numbers), 0x3000_0000, before, after)
    };
    let cases = [
        to(
            "item 8, on the way: a claim of the first port above",
            &[1],
            ([4, 1, 255, 0], &[2]),
            ([3, 255, 255, 0], &[2, 1, 0]),
        ),
        to(
            "item 8, on the way: a claim of the root port",
            &[0],
            ([4, 0, 255, 0], &[2, 1]),
            ([4, 0, 255, 0], &[2, 1, 0, 0]),
        ),
        to(
            "item 8, on the way: claims of both",
            &[0, 1],
            ([4, 1, 255, 0], &[2]),
            ([4, 1, 255, 0], &[2, 1, 0, 0, 1]),
        ),
    ];
    cases.into_iter().flatten().collect()
}

/// Two holders at the root: the packet has crossed its way up.
fn root_cases() -> Vec<Case> {
    let shared = with_port(4, root(0x0010).memory(0x110, 0x2FF).redirecting());
    let others =
        [two_trees(), vec![root(0x0018).memory(0x200, 0x200), root(0x0020).memory(0x200, 0x200)]].concat();
    let unsound = [with_port(0, root(0x0008).buses(1, 6)), vec![root(0x0018).memory(0x110, 0x110)]].concat();
    let doubled = ([5, 0, 4, 0], &[2, 1, 0][..]);
    let sibling = ([1, 3, 255, 0], &[2, 3][..]);
    let mut cases: Vec<Case> =
        both_ways("item 8, doubled: at the root", &shared, 0x1100_0000, sibling, doubled).into();
    cases.push(case_2(
        "item 8, doubled: one of them is the starting port",
        shared,
        vec![
            walks(1, 4, 0x1100_0000, [4, 4, 255, 0], &[]),
            walks(1, 4, 0x1000_0000, [1, 2, 255, 0], &[4, 0, 1, 2]),
        ],
    ));
    cases.push(case_2(
        "item 8, doubled: the two lowest",
        others,
        vec![
            from_2(0x2000_0000, [5, 4, 5, 0], &[2, 1, 0]),
            from_2(0x2010_0000, [1, 4, 255, 0], &[2, 1, 0, 4]),
            walks(1, 4, 0x2000_0000, [4, 4, 255, 0], &[]),
        ],
    ));
    cases.push(case_2(
        "item 8, redirect: a sibling holds it, and another root port",
        unsound,
        vec![
            from_2(0x1100_0000, [1, 5, 255, 0], &[2, 1, 0, 5]),
            walks(1, 3, 0x1200_0000, [4, 1, 255, 0], &[3]),
        ],
    ));
    cases
}

/// Two holders after the turn: at a place that the packet passed before, and in another tree.
fn below_cases() -> Vec<Case> {
    let third = down(1, 0x0210).memory(0x110, 0x110);
    let same_tree = [two_trees(), vec![third]].concat();
    let switch_on_4 = [
        up(4, 0x0700).memory(0x200, 0x2FF),
        down(5, 0x0800).memory(0x210, 0x210),
        down(5, 0x0808).memory(0x210, 0x210),
    ];
    let other_tree = [&two_trees()[..], &switch_on_4].concat();
    let doubled_3_5 = [5, 3, 5, 0];
    let mut cases: Vec<Case> = both_ways(
        "item 8, doubled: below, where it passed before",
        &same_tree,
        0x1100_0000,
        (doubled_3_5, &[2]),
        (doubled_3_5, &[2, 1, 0, 0, 1]),
    )
    .into();
    cases.push(case_2(
        "item 8, doubled: in another tree",
        other_tree,
        vec![
            from_2(0x2100_0000, [5, 6, 7, 0], &[2, 1, 0, 4, 5]),
            from_2(0x2200_0000, [4, 5, 255, 0], &[2, 1, 0, 4, 5]),
            walk_refused(1, 4, 0x3000_0000, 16, 255),
        ],
    ));
    cases
}

/// A chain of ports of which the last does not claim the MiB 1, nor does the root port: all others do. The last
/// redirects.
fn chain_to_the_host(length: u8) -> Vec<DraftPort> {
    let mut ports = chain(0, length, 1);
    let last = ports.len() - 1;
    ports[0].set_memory_space(false);
    ports[last] = ports[last].clone().with_memory_space(false).redirecting();
    ports
}

/// Redirect at every depth at which a device port can stand.
fn depth_cases() -> Vec<Case> {
    let at = |length: u8| {
        let start = length as u32 - 1;
        let up: Vec<u8> = (0..length).rev().collect();
        let calls = vec![
            walks(1, start, 0x10_0000, [3, 255, 255, 0], &up),
            walks(1, start, 0x20_0000, [3, 255, 255, 0], &up),
        ];
        case_2("item 8, depth: to the host", chain_to_the_host(length), calls)
    };
    (1..=15).step_by(2).map(at).collect()
}

/// A chain of 14 ports with MiB 1, and below the last of them two ports: 14, which redirects and claims nothing,
/// and 15, which has MiB 1.
fn fork() -> Vec<DraftPort> {
    let sibling = down(13, 0x0001).memory(1, 1);
    [chain(0, 14, 1), vec![down(13, 0x0002).redirecting(), sibling]].concat()
}

/// 30 and 31 crossings: up 15 ports and down 15 or 16, in the same tree and in another.
fn longest_cases() -> Vec<Case> {
    let fork_of_16 = [fork(), vec![up(15, 0x0003).memory(1, 1)]].concat();
    let up_15: Vec<u8> = (0..15).rev().collect();
    let down_to = |ports: &[u8]| [&up_15[..], &(0..14).collect::<Vec<u8>>(), ports].concat();
    let other = [chain(0, 15, 1), chain(15, 16, 2)].concat();
    let mut other_redirected = other.clone();
    other_redirected[14] = other_redirected[14].clone().redirecting();
    let other_path = [&up_15[..], &(15..31).collect::<Vec<u8>>()].concat();
    let claimed = walks(1, 14, 0x10_0000, [4, 14, 255, 0], &[]);
    let to_the_other = walks(1, 14, 0x20_0000, [4, 30, 255, 0], &other_path);
    vec![
        case_2(
            "item 8, depth: 30 crossings to the port beside",
            fork(),
            vec![walks(1, 14, 0x10_0000, [1, 15, 255, 0], &down_to(&[15]))],
        ),
        case(
            "item 8, depth: 2 crossings in edition 1",
            fork(),
            vec![walks(1, 14, 0x10_0000, [1, 15, 255, 0], &[14, 15])],
        ),
        case_2(
            "item 8, depth: 31 crossings in the same tree",
            fork_of_16,
            vec![walks(1, 14, 0x10_0000, [4, 16, 255, 0], &down_to(&[15, 16]))],
        ),
        case_2("item 8, depth: 31 crossings", other_redirected, vec![claimed.clone(), to_the_other.clone()]),
        case_2("item 8, depth: 31 crossings without redirect", other, vec![claimed, to_the_other]),
    ]
}

/// The two trees with Low vectors of 256 entries: port 2 from MiB 100h on with these entries, port 3 the same
/// with entry 10h, port 4 from 180h on with entry 80h, which is 200h. The vectors begin at 316, 348 and 380.
fn with_vectors(of_port_2: &[u64]) -> Vec<u8> {
    let low = |port: DraftPort, start, entries: &[u64]| {
        port.vector(Low, shape(0, 0, start), entries).with_memory_space(true)
    };
    let above = two_trees();
    edition_2(vec![
        above[0].clone(),
        above[1].clone(),
        low(down(1, 0x0200).buses(3, 3).redirecting(), 0x100, of_port_2),
        low(down(1, 0x0208).buses(4, 4), 0x100, &[0x10]),
        low(root(0x0010).buses(7, 7).redirecting(), 0x180, &[0x80]),
    ])
}

/// The patch that gives one port these entries.
fn entries_of(port: u32, entries: &[usize]) -> Vec<u8> {
    patch(1, 48, &[(port, 16)], bits(32, entries))
}

/// Trials: whether the starting port claims the address is asked of the new vectors.
fn trial_claim_cases() -> Vec<Case> {
    vec![
        trial(
            "item 8, trials: the starting port comes to claim it",
            with_vectors(&[]),
            entries_of(2, &[0x10]),
            vec![
                reports("ports 5/clear"),
                prints("refused 12 addr 0000000011000000 ports 2 by low 3 by low"),
                finds(12, 2, 3, Some(0x1100_0000)),
                from_2(0x1100_0000, [1, 3, 255, 0], &[2, 1, 0, 0, 1, 3]),
                goes(1, 2, 0x1100_0000, [4, 2, 255, 0], &[]),
                goes(1, 2, 0x1110_0000, [4, 1, 255, 0], &[2, 1, 0, 0, 1]),
                goes(1, 4, 0x1100_0000, [5, 2, 3, 0], &[4, 0, 1]),
                goes(1, 3, 0x1100_0000, [4, 3, 255, 0], &[]),
            ],
        ),
        trial(
            "item 8, trials: the starting port lets it go",
            with_vectors(&[0]),
            entries_of(2, &[1]),
            vec![
                prints("ports 5/clear"),
                from_2(0x1000_0000, [4, 2, 255, 0], &[]),
                goes(1, 2, 0x1000_0000, [4, 1, 255, 0], &[2, 1, 0, 0, 1]),
                from_2(0x1010_0000, [4, 1, 255, 0], &[2, 1, 0, 0, 1]),
                goes(1, 2, 0x1010_0000, [4, 2, 255, 0], &[]),
                claims_address(2, 0x1000_0000, LOW),
            ],
        ),
    ]
}

/// Trials: the packet goes to where the new vectors have the address.
fn trial_target_cases() -> Vec<Case> {
    vec![
        trial(
            "item 8, trials: the target moves away",
            with_vectors(&[]),
            entries_of(3, &[0x11]),
            vec![
                prints("ports 5/clear"),
                goes(1, 2, 0x1100_0000, [4, 1, 255, 0], &[2, 1, 0, 0, 1]),
                goes(1, 2, 0x1110_0000, [1, 3, 255, 0], &[2, 1, 0, 0, 1, 3]),
                from_2(0x1100_0000, [1, 3, 255, 0], &[2, 1, 0, 0, 1, 3]),
                from_2(0x1110_0000, [4, 1, 255, 0], &[2, 1, 0, 0, 1]),
                goes(0, 2, 0x0400, [1, 3, 255, 0], &[2, 3]),
                goes(2, 2, 0x0400, [4, 2, 255, 0], &[]),
            ],
        ),
        trial(
            "item 8, trials: a patch that changes nothing",
            with_vectors(&[]),
            patch(0, 8, &[], vec![]),
            vec![
                goes(1, 2, 0x1100_0000, [1, 3, 255, 0], &[2, 1, 0, 0, 1, 3]),
                goes(1, 2, 0x2000_0000, [1, 4, 255, 0], &[2, 1, 0, 4]),
                goes(1, 2, 0x3000_0000, [3, 255, 255, 0], &[2, 1, 0]),
                goes(1, 3, 0x1000_0000, [4, 1, 255, 0], &[3]),
            ],
        ),
    ]
}

/// Trials: what the root ports come to claim.
fn trial_root_cases() -> Vec<Case> {
    vec![
        trial(
            "item 8, trials: two holders at the root",
            with_vectors(&[]),
            entries_of(4, &[0]),
            vec![
                prints("refused 12 addr 0000000018000000 ports 0 by mem 4 by low"),
                from_2(0x1800_0000, [4, 1, 255, 0], &[2, 1, 0, 0, 1]),
                goes(1, 2, 0x1800_0000, [5, 0, 4, 0], &[2, 1, 0]),
                goes(1, 3, 0x1800_0000, [4, 1, 255, 0], &[3]),
                goes(1, 4, 0x1800_0000, [4, 4, 255, 0], &[]),
                goes(1, 2, 0x2000_0000, [3, 255, 255, 0], &[2, 1, 0]),
            ],
        ),
        trial(
            "item 8, trials: another root port's device",
            with_vectors(&[]),
            entries_of(4, &[0x81]),
            vec![
                prints("ports 5/clear"),
                goes(1, 2, 0x2010_0000, [1, 4, 255, 0], &[2, 1, 0, 4]),
                goes(1, 2, 0x2000_0000, [3, 255, 255, 0], &[2, 1, 0]),
                from_2(0x2000_0000, [1, 4, 255, 0], &[2, 1, 0, 4]),
            ],
        ),
    ]
}

/// Trials: where the vectors of edition 2 lie, and that its numbers come before those of the patch.
fn trial_reading_cases() -> Vec<Case> {
    let mut not_zero = with_vectors(&[]);
    not_zero[16 + 60 * 2 + 59] = 1;
    let too_short = with_vectors(&[])[..75].to_vec();
    vec![
        trial(
            "item 8, trials: where vectors lie",
            with_vectors(&[]),
            entries_of(3, &[]),
            vec![
                lies(0, 1, "0 picture 316 0"),
                lies(2, 0, "0 picture 316 0"),
                lies(2, 1, "0 picture 316 32"),
                lies(2, 2, "0 picture 348 0"),
                lies(3, 1, "0 patch 16 32"),
                lies(4, 1, "0 picture 380 32"),
                lies(4, 2, "0 picture 412 0"),
                lies(5, 0, "16"),
            ],
        ),
        trial(
            "item 8, trials: 8 before 30",
            not_zero,
            vec![],
            vec![prints("refused 8 ports 2"), finds(8, 2, 255, None), lies(9, 9, "8")],
        ),
        trial("item 8, trials: 1 before 30", too_short, vec![], vec![prints("refused 1"), lies(0, 0, "1")]),
        trial(
            "item 8, trials: a patch for the ports of the other edition",
            with_vectors(&[]),
            patch(1, 52, &[(2, 16)], bits(36, &[])),
            vec![prints("refused 32"), lies(2, 1, "32")],
        ),
    ]
}
