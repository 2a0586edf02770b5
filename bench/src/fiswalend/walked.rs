// The 40 bytes of a walk's answer.
use crate::answers::Head;
use crate::chassis::End;
use crate::fiswalend::refusals::refusal_head;
use crate::ids::PortNo;
use crate::judge::Outcome;
use crate::judge::WalkAnswer;

// An end's number is 0.
fn head(end: u8, port: PortNo, second: PortNo, crossings: u8, function: u8) -> Head {
    Head { number: 0, end, port, second, crossings, function }
}

// What is said of an end.
fn end_head(e: End, crossings: u8) -> Head {
    match e {
        End::Device(p, function) => head(1, p, PortNo(255), crossings, function),
        End::Function(p) => head(2, p, PortNo(255), crossings, 0),
        End::Host => head(3, PortNo(255), PortNo(255), crossings, 0),
        End::Unsupported(p) => head(4, p, PortNo(255), crossings, 0),
        End::Doubled(p, q) => head(5, p, q, crossings, 0),
    }
}

// What is said of a refusal, or of an end.
fn outcome_head(o: Outcome, crossings: u8) -> Head {
    match o {
        Outcome::Refused(r) => refusal_head(r, crossings),
        Outcome::Ended(e) => end_head(e, crossings),
    }
}

pub fn walk_bytes(a: WalkAnswer) -> [u8; 40] {
    let outcome = a.outcome;
    let path = a.path;
    let crossings = path.count as u8;
    let places = path.places;
    crate::answers::with_path(outcome_head(outcome, crossings), places)
}
