// The 40 bytes of the check's answer.
use crate::answers::with_target;
use crate::answers::without_places;
use crate::answers::Head;
use crate::chassis::Verdict;
use crate::fiswalend::refusals::refusal_head;
use crate::ids::PortNo;
use crate::ids::Target;
use crate::judge::CheckAnswer;

// The number for an ID, or for an address.
fn by_target(t: Target, id: u8, address: u8) -> u8 {
    match t {
        Target::Id(_) => id,
        Target::Addr(_) => address,
    }
}

fn target_number(t: Target) -> u64 {
    match t {
        Target::Id(rid) => rid.0 as u64,
        Target::Addr(a) => a,
    }
}

// What is said of a finding: its number, and the ports that it names.
fn found_head(number: u8, port: PortNo, second: PortNo) -> Head {
    Head { number, end: 0, port, second, crossings: 0, function: 0 }
}

fn verdict_bytes(v: Verdict) -> [u8; 40] {
    match v {
        Verdict::Clear => without_places(found_head(0, PortNo(255), PortNo(255))),
        Verdict::Shared(t, p, q) => with_target(found_head(by_target(t, 11, 12), p, q), target_number(t)),
        Verdict::Stray(t, p) => {
            with_target(found_head(by_target(t, 13, 14), p, PortNo(255)), target_number(t))
        }
        Verdict::Lost(p) => without_places(found_head(15, p, PortNo(255))),
        Verdict::Taken(t, p) => with_target(found_head(18, p, PortNo(255)), target_number(t)),
    }
}

pub fn check_bytes(a: CheckAnswer) -> [u8; 40] {
    match a {
        CheckAnswer::Refused(r) => without_places(refusal_head(r, 0)),
        CheckAnswer::Judged(v) => verdict_bytes(v),
    }
}
