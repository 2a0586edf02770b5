//! The trial in words: its lines, and one sentence more that says what the number means here.

use crate::explain::{explain, port_in_tree, with_upper_case};
use crate::judge::report_of_refusal;
use crate::patch::{fault_of, patch_header_fields, put_in, Fault};
use crate::picture::{records_of, Refusal};

/// The texts of the numbers 30 to 32, as tests/number-texts has them.
pub const PATCH_TEXTS: [&str; 3] = [
    "the patch is too short for its header or its list of ports, or the total length in its header is not \
     its length",
    "a port stands twice in the patch, out of order, or is not in the picture",
    "a port's new vectors do not begin where they must, or the last ones do not end where the patch ends",
];

/// Up to this length the sentence of number 30 tells the length of a patch.
const LONGEST_TOLD: usize = 131_072;

/// What the trial program prints with `explain`: of a picture that does not read what the report says,
/// of a patch that does not read its own sentence, else what the report says of the patched picture.
pub fn explain_trial(picture: &[u8], patch: &[u8]) -> String {
    match put_in(picture, patch) {
        Ok(patched) => explain(&patched),
        Err(refusal) if refusal.number < 30 => explain(picture),
        Err(refusal) => explain_fault(picture, patch, &refusal),
    }
}

/// The line and the sentence of a patch that does not read.
fn explain_fault(picture: &[u8], patch: &[u8], refusal: &Refusal) -> String {
    let fault = fault_of(picture, patch).expect("the patch is refused");
    let text = with_upper_case(PATCH_TEXTS[refusal.number as usize - 30]);
    format!("{}{text}: {}.\n", report_of_refusal(refusal), fault_text(picture, patch, fault))
}

/// What stands between the colon and the full stop.
fn fault_text(picture: &[u8], patch: &[u8], fault: Fault) -> String {
    match fault {
        Fault::Header => header_text(patch),
        Fault::Beyond { port, count } => {
            format!("port {port} stands in it, and the picture has {}", counted(count, "port"))
        }
        Fault::Behind { port, before } => format!("port {port} stands behind port {before}"),
        Fault::Begins { port, at, end_before } => {
            let named = port_in_tree(&records_of(picture), port);
            format!("those of {named} begin at byte {at}, and not at {end_before}")
        }
        Fault::Ends { at } => {
            format!("they end at byte {at}, and the patch has {}", counted(patch.len(), "byte"))
        }
    }
}

/// Number 30.
fn header_text(patch: &[u8]) -> String {
    if patch.len() < 8 {
        return format!("it has {}", counted(patch.len(), "byte"));
    }
    let (count, total) = patch_header_fields(patch);
    let length = match patch.len() {
        length if length > LONGEST_TOLD => "more than 131,072 bytes".to_string(),
        length => counted(length, "byte"),
    };
    let (total, ports) = (counted(total as usize, "byte"), counted(count as usize, "port"));
    format!("its header says {total} and {ports}, and it has {length}")
}

/// So many things: `1 byte`, `0 bytes`.
fn counted(count: usize, thing: &str) -> String {
    match count {
        1 => format!("1 {thing}"),
        _ => format!("{count} {thing}s"),
    }
}
