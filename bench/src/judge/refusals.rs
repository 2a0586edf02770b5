// The refusals that the calls share: those of the reading, and number 16.
use crate::ids::PortNo;
use crate::picture::Reading;
use crate::picture::Refusal;

// The refusal of a picture that does not read.
pub fn refusal_of(got: Reading) -> Refusal {
    match got {
        Reading::Read(_) => Refusal { number: 0, port: PortNo(255) },
        Reading::Refused(r) => r,
    }
}

// The refusal of a call that asks for what the picture does not have.
pub fn number_16() -> Refusal {
    Refusal { number: 16, port: PortNo(255) }
}
