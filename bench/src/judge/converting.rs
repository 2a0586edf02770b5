// What a port of a picture makes of a configuration request for an ID.
use crate::ids::PortNo;
use crate::ids::Rid;
use crate::ids::Target;
use crate::judge::refusals::number_16;
use crate::judge::refusals::refusal_of;
use crate::judge::ConvertAnswer;
use crate::picture::Reading;

// Numbers 1 to 10, then 16 for a port beyond the count, else what the port makes of the request.
pub fn convert(s: &[u8], port: u32, rid: Rid) -> ConvertAnswer {
    let got = crate::picture::read(s);
    let Reading::Read(h) = got else {
        return ConvertAnswer::Refused(refusal_of(got));
    };
    let count = h.count as u32;
    if count <= port {
        return ConvertAnswer::Refused(number_16());
    }
    ConvertAnswer::Converted(crate::claims::conversion(s, PortNo(port as u8), Target::Id(rid)))
}
