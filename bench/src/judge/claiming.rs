// The decoders of a port of a picture that claim a target.
use crate::ids::PortNo;
use crate::ids::Rid;
use crate::ids::Target;
use crate::judge::refusals::number_16;
use crate::judge::refusals::refusal_of;
use crate::judge::ClaimAnswer;
use crate::picture::Reading;

// Numbers 1 to 10, then 16, else the decoders of the port that claim the target; kind 1 is an address, 0 an ID.
pub fn claim(s: &[u8], port: u32, kind: u32, target: u64) -> ClaimAnswer {
    let got = crate::picture::read(s);
    let Reading::Read(h) = got else {
        return ClaimAnswer::Refused(refusal_of(got));
    };
    let count = h.count as u32;
    if (count <= port) | (1 < kind) | ((kind != 1) & (65536 <= target)) {
        return ClaimAnswer::Refused(number_16());
    }
    let t = if kind == 1 { Target::Addr(target) } else { Target::Id(Rid(target as u16)) };
    ClaimAnswer::Claimed(crate::claims::decoders_of(s, PortNo(port as u8), t))
}
