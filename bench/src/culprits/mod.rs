// Which ports the check names: the first pair at a shared target, and the lowest port that strays, whose own ID is lost, or
// whose parent takes what it claims.
mod faults;
mod pairs;
mod ports;
mod taken;

pub use crate::culprits::faults::at_fault;
pub use crate::culprits::pairs::first_pair;
pub use crate::culprits::pairs::Pair;
pub use crate::culprits::ports::lowest;
pub use crate::culprits::ports::lowest_port;
pub use crate::culprits::ports::PortFault;
