// The library's calls: any bytes, any numbers, and one answer for each, with a file for every call.
mod checking;
mod claiming;
mod converting;
mod refusals;
mod walking;

use crate::chassis::Conversion;
use crate::chassis::Decoders;
use crate::chassis::End;
use crate::chassis::Verdict;
pub use crate::judge::checking::check;
pub use crate::judge::claiming::claim;
pub use crate::judge::converting::convert;
pub use crate::judge::walking::walk;
use crate::paths::Path;
use crate::picture::Refusal;

// The decoders of a port that claim a target, or why that is not answered.
#[derive(Clone, Copy)]
pub enum ClaimAnswer {
    Refused(Refusal),
    Claimed(Decoders),
}

// What a port makes of a configuration request, or why that is not answered.
#[derive(Clone, Copy)]
pub enum ConvertAnswer {
    Refused(Refusal),
    Converted(Conversion),
}

// How a walk came out: why it is not answered, or where the packet ends.
#[derive(Clone, Copy)]
pub enum Outcome {
    Refused(Refusal),
    Ended(End),
}

// Where a packet goes, with the ports that it crosses.
#[derive(Clone, Copy)]
pub struct WalkAnswer {
    pub outcome: Outcome,
    pub path: Path,
}

// What the check finds, or why the picture does not read.
#[derive(Clone, Copy)]
pub enum CheckAnswer {
    Refused(Refusal),
    Judged(Verdict),
}
