// The IDs that a port takes: those for which it makes a configuration request Type 0 or refuses it, and does not pass Type 1.
use crate::claims::secondary_start;
use crate::claims::secondary_units;
use crate::holdings::reaches::address_reach;
use crate::holdings::reaches::bus_range;
use crate::holdings::reaches::grid_if;
use crate::holdings::reaches::range_if;
use crate::ids::Space;
use crate::registers::enabled;
use crate::registers::settings;
use crate::registers::with_ari;
use crate::registers::Bridge;
use crate::registers::Mechanism;
use crate::registers::Port;
use crate::spans::grids::Grid;
use crate::spans::ranges::Range;
use crate::spans::Reach;

// The IDs of the Secondary range: units of an upstream port, a bus with ARI, else one unit.
fn secondary_range(p: Port) -> Range {
    let f = p.fpb;
    let start = secondary_start(f).0 as u64;
    if p.kind == 1 {
        return Range { lo: start * 8, hi: (start + secondary_units(f) as u64) * 8 - 1 };
    }
    if with_ari(p) {
        return Range { lo: start / 32 * 256, hi: start / 32 * 256 + 255 };
    }
    Range { lo: start * 8, hi: start * 8 + 7 }
}

// The same, which counts with RID decoding enabled.
fn secondary_if(p: Port) -> Range {
    let ids = secondary_range(p);
    range_if(enabled(p.fpb, Mechanism::Rid), ids.lo, ids.hi)
}

// The IDs of the bus Secondary, where the bus pair claims.
fn secondary_bus(b: Bridge) -> Range {
    range_if(
        !((b.secondary == 0) & (b.subordinate == 0)) & (b.secondary <= b.subordinate),
        b.secondary as u64 * 256,
        b.secondary as u64 * 256 + 255,
    )
}

// What two ranges have in common.
fn common(a: Range, b: Range) -> Range {
    Range { lo: a.lo.max(b.lo), hi: a.hi.min(b.hi) }
}

// What a port takes: of its Secondary range what it claims by its bus pair or its RID vector, and its bus Secondary.
fn taken(p: Port) -> Reach {
    let b = p.bridge;
    let f = p.fpb;
    let secondary = secondary_if(p);
    let all = Range { lo: 0, hi: 65535 };
    Reach {
        first: common(secondary, bus_range(true, b)),
        second: secondary_bus(b),
        one: Grid { within: common(secondary, all), settings: settings(f, Mechanism::Rid) },
        other: grid_if(false, f, Mechanism::High, 1, 0),
    }
}

// What a port takes in a space; no address is taken.
pub fn taken_in(p: Port, space: Space) -> Reach {
    match space {
        Space::Ids => taken(p),
        Space::Addresses => address_reach(p, false),
    }
}
