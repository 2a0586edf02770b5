// Whether one port is at fault at a target, told which fault.
use crate::chassis::Fault;
use crate::culprits::pairs::clashes_with;
use crate::culprits::ports::strays_at;
use crate::culprits::taken::taken_at;
use crate::ids::PortNo;
use crate::ids::Target;

// Whether port p is at fault at a target: it shares it with one of n ports, lets it stray, or claims what its parent takes.
pub fn at_fault(s: &[u8], n: u8, fault: Fault, t: Target, p: PortNo) -> bool {
    match fault {
        Fault::Shared => clashes_with(s, n, t, p),
        Fault::Stray => strays_at(s, t, p),
        Fault::Taken => taken_at(s, t, p),
    }
}
