// The least target of a space that two ports share, the least that strays from its parent, and the least that the parent takes;
// for IDs and addresses by the same search.
mod meetings;
mod pairs;
mod strays;
mod taken;
mod video;

pub use crate::overlaps::pairs::least_shared;
pub use crate::overlaps::strays::least_stray;
pub use crate::overlaps::taken::least_taken;
