// The check call: whether a picture is sound.
use crate::judge::refusals::refusal_of;
use crate::judge::CheckAnswer;
use crate::picture::Reading;

// Numbers 1 to 10, then 11 to 15 and 18 with the least target and its ports, else clear.
pub fn check(s: &[u8]) -> CheckAnswer {
    let got = crate::picture::read(s);
    let Reading::Read(h) = got else {
        return CheckAnswer::Refused(refusal_of(got));
    };
    CheckAnswer::Judged(crate::verdicts::verdict(s, h.count as u8))
}
