// Number 18: whether a port claims an ID for which its parent takes configuration requests.
use crate::chassis::Conversion;
use crate::claims::claims;
use crate::claims::conversion;
use crate::ids::PortNo;
use crate::ids::Target;
use crate::trees::kind_at;
use crate::trees::parent_at;

// Whether a conversion takes a request: it is Type 0 or Unsupported Request, and not Type 1 that passes.
fn takes(made: Conversion) -> bool {
    match made {
        Conversion::NotClaimed => false,
        Conversion::Type0 => true,
        Conversion::Type1 => false,
        Conversion::Unsupported => true,
    }
}

// Whether port p is no root port and claims an ID that its parent takes; no port takes an address.
pub fn taken_at(s: &[u8], t: Target, p: PortNo) -> bool {
    !(kind_at(s, p) == 0) & claims(s, p, t) & takes(conversion(s, parent_at(s, p), t))
}
