// The reach of a port in one space: its decoders as ranges and grids.
use crate::claims::base_of;
use crate::claims::memory_space_enabled;
use crate::claims::upper_of;
use crate::ids::Space;
use crate::registers::enabled;
use crate::registers::settings;
use crate::registers::Bridge;
use crate::registers::Fpb;
use crate::registers::Mechanism;
use crate::registers::Port;
use crate::spans::grids::Grid;
use crate::spans::ranges::Range;
use crate::spans::Reach;

// A range, or the empty one.
pub fn range_if(on: bool, lo: u64, hi: u64) -> Range {
    if on {
        Range { lo, hi }
    } else {
        Range { lo: 1, hi: 0 }
    }
}

// A vector's grid, within the range if the mechanism is enabled.
pub fn grid_if(on: bool, f: Fpb, m: Mechanism, lo: u64, hi: u64) -> Grid {
    Grid { within: range_if(on & enabled(f, m), lo, hi), settings: settings(f, m) }
}

// The IDs of the bus pair.
pub fn bus_range(on: bool, b: Bridge) -> Range {
    range_if(
        on & !((b.secondary == 0) & (b.subordinate == 0)),
        b.secondary as u64 * 256,
        b.subordinate as u64 * 256 + 255,
    )
}

// Memory Base..Limit.
fn memory_range(on: bool, b: Bridge) -> Range {
    range_if(on, base_of(b.memory_base), base_of(b.memory_limit) + 1048575)
}

// Prefetchable Base..Limit.
fn prefetchable_range(on: bool, b: Bridge) -> Range {
    range_if(
        on,
        upper_of(b, b.prefetchable_base_upper) + base_of(b.prefetchable_base),
        upper_of(b, b.prefetchable_limit_upper) + (base_of(b.prefetchable_limit) + 1048575),
    )
}

// IDs: the bus pair, the port's own and its RID vector.
fn id_reach(p: Port, own: bool, claims: bool) -> Reach {
    let b = p.bridge;
    let f = p.fpb;
    let id = p.own_id;
    Reach {
        first: bus_range(claims, b),
        second: range_if(own, id.0 as u64, id.0 as u64),
        one: grid_if(claims, f, Mechanism::Rid, 0, 65535),
        other: grid_if(false, f, Mechanism::High, 1, 0),
    }
}

// Addresses: the memory decoders.
pub fn address_reach(p: Port, on: bool) -> Reach {
    let b = p.bridge;
    let f = p.fpb;
    Reach {
        first: memory_range(on, b),
        second: prefetchable_range(on, b),
        one: grid_if(on, f, Mechanism::Low, 0, 4294967295),
        other: grid_if(on, f, Mechanism::High, 4294967296, u64::MAX),
    }
}

// What a port reaches in a space: by its own ID, where `own`, and by what it claims, where `claims`.
pub fn reach(p: Port, space: Space, own: bool, claims: bool) -> Reach {
    match space {
        Space::Ids => id_reach(p, own, claims),
        Space::Addresses => {
            let b = p.bridge;
            address_reach(p, claims & memory_space_enabled(b))
        }
    }
}

// The mechanism whose vector the one grid reads; the other grid reads that of MEM High.
pub fn one_of(space: Space) -> Mechanism {
    match space {
        Space::Ids => Mechanism::Rid,
        Space::Addresses => Mechanism::Low,
    }
}
