//! What a port claims and holds, by which decoders, and how it converts configuration requests.

use crate::picture::{Kind, Named, Picture, Port, Target, Vector, FOUR_GIB, VIDEO_RANGE};

/// The bus of an ID: its upper 8 bits.
pub fn bus(id: u16) -> u8 {
    (id >> 8) as u8
}

/// The device of an ID: the 5 bits in the middle.
pub fn device(id: u16) -> u16 {
    id >> 3 & 0x1F
}

/// The unit of an ID: the ID divided by 8.
pub fn unit(id: u16) -> u16 {
    id / 8
}

/// What a port makes of a configuration request that is about to cross it.
#[derive(Clone, Copy, Debug, PartialEq, Eq)]
pub enum Conversion {
    NotClaimed,
    Type0,
    Type1,
    Unsupported,
}

impl Conversion {
    /// The value that the conversion call writes for it.
    pub fn code(&self) -> u32 {
        match self {
            Conversion::NotClaimed => 0,
            Conversion::Type0 => 1,
            Conversion::Type1 => 2,
            Conversion::Unsupported => 3,
        }
    }
}

/// The decoders of a port, each true if it claims the target.
#[derive(Clone, Copy, Debug, Default, PartialEq, Eq)]
pub struct Decoders {
    pub bus: bool,
    pub rid: bool,
    pub mem: bool,
    pub pref: bool,
    pub low: bool,
    pub high: bool,
    pub vga: bool,
}

impl Decoders {
    /// Does at least one of them claim the target?
    pub fn any(&self) -> bool {
        self.bus || self.rid || self.mem || self.pref || self.low || self.high || self.vga
    }

    /// The value that the claim call writes for them: bit 0 bus, 1 rid, 2 mem, 3 pref, 4 low, 5 high, 6 vga.
    pub fn bits(&self) -> u32 {
        let of_ids = self.bus as u32 | (self.rid as u32) << 1;
        let windows = (self.mem as u32) << 2 | (self.pref as u32) << 3;
        let vectors = (self.low as u32) << 4 | (self.high as u32) << 5;
        of_ids | windows | vectors | (self.vga as u32) << 6
    }
}

/// Why a port holds a target: it is the port's own ID, which is no claim, or decoders claim it.
#[derive(Clone, Copy, Debug, PartialEq, Eq)]
pub struct Holding {
    pub own: bool,
    pub decoders: Decoders,
}

impl Holding {
    /// Of a text for own and one for each decoder, in their order, those that apply.
    pub fn those_of<'a>(&self, texts: [&'a str; 8]) -> Vec<&'a str> {
        let Decoders { bus, rid, mem, pref, low, high, vga } = self.decoders;
        let applies = [self.own, bus, rid, mem, pref, low, high, vga];
        texts.into_iter().zip(applies).filter(|(_, applies)| *applies).map(|(text, _)| text).collect()
    }
}

impl Port {
    /// Does the bus pair claim the ID? The pair 0, 0 claims nothing, and so does an upside-down one.
    pub fn bus_pair_claims(&self, id: u16) -> bool {
        let closed = self.secondary == 0 && self.subordinate == 0;
        !closed && self.secondary <= bus(id) && bus(id) <= self.subordinate
    }

    /// The decoders that claim the ID: the bus pair and the RID vector can.
    fn decoders_of_id(&self, id: u16) -> Decoders {
        let rid = self.rid.as_ref().is_some_and(|rid| rid.claims(id as u64));
        Decoders { bus: self.bus_pair_claims(id), rid, ..Decoders::default() }
    }

    /// The decoders that claim the address: the other five can, with Memory Space Enable.
    fn decoders_of_address(&self, address: u64) -> Decoders {
        if !self.memory_space {
            return Decoders::default();
        }
        let claims = |vector: &Option<Vector>| vector.as_ref().is_some_and(|vector| vector.claims(address));
        Decoders {
            mem: self.memory.contains(address),
            pref: self.prefetchable.contains(address),
            low: address < FOUR_GIB && claims(&self.low),
            high: address >= FOUR_GIB && claims(&self.high),
            vga: self.vga_enable && VIDEO_RANGE.contains(address),
            ..Decoders::default()
        }
    }

    /// The decoders that claim the target.
    pub fn decoders(&self, target: Target) -> Decoders {
        match target {
            Target::Id(id) => self.decoders_of_id(id),
            Target::Address(address) => self.decoders_of_address(address),
        }
    }

    /// Does the port claim the target, by at least one decoder?
    pub fn claims(&self, target: Target) -> bool {
        self.decoders(target).any()
    }

    /// Does the port claim the ID?
    pub fn claims_id(&self, id: u16) -> bool {
        self.claims(Target::Id(id))
    }

    /// Does the port claim the address?
    pub fn claims_address(&self, address: u64) -> bool {
        self.claims(Target::Address(address))
    }

    /// Is the target the port's own ID?
    pub fn owns(&self, target: Target) -> bool {
        target == Target::Id(self.own_id)
    }

    /// A port holds an ID that is its own or that it claims, and an address that it claims.
    pub fn holds(&self, target: Target) -> bool {
        self.owns(target) || self.claims(target)
    }

    /// Why the port holds the target, if it does.
    fn holding(&self, target: Target) -> Holding {
        Holding { own: self.owns(target), decoders: self.decoders(target) }
    }

    /// Is RID decoding enabled and the ID in the Secondary range?
    fn in_secondary_range(&self, id: u16) -> bool {
        let start = self.secondary_start;
        let inside = match self.kind {
            // At most 8,191 + 31, so the sum does not wrap.
            Kind::Upstream => start <= unit(id) && unit(id) <= start + self.num_sec_dev,
            _ if self.ari => bus(id) == bus(start * 8),
            _ => unit(id) == start,
        };
        self.rid.is_some() && inside
    }

    /// What the port makes of a configuration request for the ID.
    pub fn conversion(&self, id: u16) -> Conversion {
        if !self.claims_id(id) {
            return Conversion::NotClaimed;
        }
        if self.in_secondary_range(id) {
            return Conversion::Type0;
        }
        if self.bus_pair_claims(id) && bus(id) == self.secondary {
            let reached = self.kind == Kind::Upstream || self.ari || device(id) == 0;
            return if reached { Conversion::Type0 } else { Conversion::Unsupported };
        }
        Conversion::Type1
    }

    /// Does the port make a configuration request for the ID Type 0, or answer it with Unsupported Request,
    /// so that it does not pass it on as Type 1?
    pub fn stops(&self, id: u16) -> bool {
        matches!(self.conversion(id), Conversion::Type0 | Conversion::Unsupported)
    }
}

impl Picture {
    /// A port that holds the target, with why it does.
    pub fn holder(&self, port: usize, target: Target) -> Named {
        Named { port: port as u8, holding: Some(self.ports[port].holding(target)) }
    }

    /// The ports at a place that hold the target, lowest first.
    pub fn holders_at(&self, place: Option<usize>, target: Target) -> Vec<usize> {
        self.ports_where(place, |port| port.holds(target))
    }

    /// The ports at a place with a property, lowest first.
    pub fn ports_where(&self, place: Option<usize>, property: impl Fn(&Port) -> bool) -> Vec<usize> {
        let mut ports = self.ports_at(place);
        ports.retain(|&port| property(&self.ports[port]));
        ports
    }
}
