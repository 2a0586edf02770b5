// The video range in the search: all else that ports claim is whole MiB, and of this range only the first address can be the least.
use crate::chassis::Fault;
use crate::claims::claims_video;
use crate::claims::VIDEO_FIRST;
use crate::culprits::at_fault;
use crate::ids::PortNo;
use crate::ids::Space;
use crate::ids::Target;
use crate::least::sooner;
use crate::least::Found;

// Whether port p claims the video range and is at fault there; no vector is looked at if it does not claim it.
fn video_at_fault(s: &[u8], n: u8, fault: Fault, p: PortNo) -> bool {
    if claims_video(s, p) {
        return at_fault(s, n, fault, Target::Addr(VIDEO_FIRST), p);
    }
    false
}

// The first address of the video range, where one of n ports claims it and is at fault there.
fn least_of_video(s: &[u8], n: u8, fault: Fault) -> Found {
    let mut p: u8 = 0;
    while p < n {
        if video_at_fault(s, n, fault, PortNo(p)) {
            return Found::At(VIDEO_FIRST);
        }
        p += 1;
    }
    Found::Nothing
}

// The least target of a space with a fault, by the least beside the video range.
pub fn with_video(s: &[u8], n: u8, fault: Fault, space: Space, beside: Found) -> Found {
    match space {
        Space::Ids => beside,
        Space::Addresses => sooner(least_of_video(s, n, fault), beside),
    }
}
