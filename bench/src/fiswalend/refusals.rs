// A refusal in an answer.
use crate::answers::Head;
use crate::ids::PortNo;
use crate::picture::Refusal;

pub fn refusal_head(r: Refusal, crossings: u8) -> Head {
    let port = r.port;
    Head { number: r.number, end: 0, port, second: PortNo(255), crossings, function: 0 }
}
