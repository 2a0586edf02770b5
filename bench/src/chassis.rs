// What a packet meets on its way through a chassis, and where it ends. The rules themselves are definitions, in specs/.
use crate::ids::PortNo;
use crate::ids::Rid;
use crate::ids::Target;

// What is sent: a packet routed by its target, or a configuration request for an ID.
#[derive(Clone, Copy)]
pub enum Packet {
    Plain(Target),
    Config(Rid),
}

// The ports of a place that have to do with a target: the two lowest of them, where there are two or more.
#[derive(Clone, Copy)]
pub enum Holders {
    Nobody,
    Only(PortNo),
    Both(PortNo, PortNo),
}

// The decoders of a port that claim a target, each by its name.
#[derive(Clone, Copy)]
pub struct Decoders {
    pub bus: bool,
    pub rid: bool,
    pub mem: bool,
    pub pref: bool,
    pub low: bool,
    pub high: bool,
    pub vga: bool,
}

impl Decoders {
    // Whether at least one decoder claims the target.
    pub fn at_least_one(self) -> bool {
        self.bus | self.rid | self.mem | self.pref | self.low | self.high | self.vga
    }
}

// What a port makes of a configuration request that it is about to be crossed by.
#[derive(Clone, Copy)]
pub enum Conversion {
    NotClaimed,
    Type0,
    Type1,
    Unsupported,
}

// Where a packet ends. The number of a Device is its Function number, used by configuration requests alone.
#[derive(Clone, Copy)]
pub enum End {
    Device(PortNo, u8),
    Function(PortNo),
    Host,
    Unsupported(PortNo),
    Doubled(PortNo, PortNo),
}

// Where a packet is: at the root; below a port, come from above; below it, started there or come from below; below it,
// redirected to the root; below it as a configuration request of Type 0 or of Type 1.
#[derive(Clone, Copy)]
pub enum Whereabouts {
    Root,
    Into(PortNo),
    From(PortNo),
    Redirected(PortNo),
    Type0(PortNo),
    Type1(PortNo),
}

// What a packet does next: it stops at its end, or crosses a port and is elsewhere.
#[derive(Clone, Copy)]
pub enum Step {
    Stop(End),
    Cross(PortNo, Whereabouts),
}

// What the check looks for at a target: 11 and 12, two ports that hold it; 13 and 14, a port that strays; 18, a port that claims
// it and whose parent takes configuration requests for it.
#[derive(Clone, Copy)]
pub enum Fault {
    Shared,
    Stray,
    Taken,
}

// What the check finds: numbers 11 and 12 with the least target and the first pair, 13, 14 and 18 with the least target and
// the port, 15 with the port.
#[derive(Clone, Copy)]
pub enum Verdict {
    Clear,
    Shared(Target, PortNo, PortNo),
    Stray(Target, PortNo),
    Lost(PortNo),
    Taken(Target, PortNo),
}
