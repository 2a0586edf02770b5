//! The drawing of a picture that reads, sound or not: one line to a port.

use crate::draft::{Which, ALL_VECTORS};
use crate::judge::{report_of_refusal, Judge};
use crate::picture::{AddressRange, Picture, Port, Vector, VIDEO_RANGE};
use crate::words::{granularity_text, id_text, kind_text, start_text, vector_name};

/// What the tree program prints: the drawing, or the refusal of a picture that does not read.
pub fn tree(bytes: &[u8]) -> String {
    match Judge::new(bytes).reading() {
        Ok(picture) => draw(picture),
        Err(refusal) => report_of_refusal(&refusal),
    }
}

/// All lines.
fn draw(picture: &Picture) -> String {
    let mut text = String::new();
    draw_place(picture, None, &mut text);
    text
}

/// The ports at a place in their order, each followed by what is below it.
fn draw_place(picture: &Picture, place: Option<usize>, text: &mut String) {
    for port in picture.ports_at(place) {
        *text += &format!("{}{}\n", branch(picture, port), port_text(picture, port));
        draw_place(picture, Some(port), text);
    }
}

/// What stands before the port's own ID.
fn branch(picture: &Picture, port: usize) -> String {
    let roots = picture.ports_at(None);
    if port == roots[0] {
        return if roots.len() == 1 { "---" } else { "-+-" }.to_string();
    }
    let columns: String =
        ports_above(picture, port).into_iter().map(|above| column(picture, above)).collect();
    let arm = if has_later_sibling(picture, port) { "+-" } else { "\\-" };
    format!(" {columns}{arm}")
}

/// The three columns that a port takes in the lines of those below it.
fn column(picture: &Picture, above: usize) -> &'static str {
    match has_later_sibling(picture, above) {
        true => "|  ",
        false => "   ",
    }
}

/// The ports above this one, the root port first.
fn ports_above(picture: &Picture, port: usize) -> Vec<usize> {
    match picture.ports[port].parent {
        Some(parent) => [ports_above(picture, parent), vec![parent]].concat(),
        None => Vec::new(),
    }
}

/// Is there a port with a higher number at the same place?
fn has_later_sibling(picture: &Picture, port: usize) -> bool {
    picture.ports_at(picture.ports[port].parent).last() != Some(&port)
}

/// The line of a port, from its own ID on.
fn port_text(picture: &Picture, number: usize) -> String {
    let port = &picture.ports[number];
    let (id, buses, kind) = (id_text(port.own_id), buses_text(port), kind_text(port.kind));
    let is_device_port = picture.is_device_port(number);
    let mut text = format!("{id}-{buses}  port {number}, {kind}");
    if is_device_port {
        text += ", device port";
    }
    if port.ari {
        text += ", ARI";
    }
    if is_device_port && port.request_redirect {
        text += ", redirect";
    }
    text + &windows_text(port) + &vectors_text(port)
}

/// The buses that the bus pair claims: `[01-04]`, `[03]` or `[]`.
fn buses_text(port: &Port) -> String {
    let (first, last) = (port.secondary, port.subordinate);
    match port.bus_pair_claims((first as u16) << 8) {
        false => "[]".to_string(),
        true if first == last => format!("[{first:02x}]"),
        true => format!("[{first:02x}-{last:02x}]"),
    }
}

/// That memory space is off, or the windows that claim something, with VGA Enable the video range among them.
fn windows_text(port: &Port) -> String {
    if !port.memory_space {
        return "; memory space off".to_string();
    }
    let digits = if port.prefetchable_is_64 { 16 } else { 8 };
    let windows =
        window_text("memory", port.memory, 8) + &window_text("prefetchable", port.prefetchable, digits);
    match port.vga_enable {
        true => windows + &window_text("video", VIDEO_RANGE, 8),
        false => windows,
    }
}

/// A window of so many digits; nothing for one that claims nothing.
fn window_text(name: &str, window: AddressRange, digits: usize) -> String {
    let AddressRange { base, last } = window;
    match base <= last {
        true => format!("; {name} {base:0digits$x}-{last:0digits$x}"),
        false => String::new(),
    }
}

/// The vectors that are enabled.
fn vectors_text(port: &Port) -> String {
    let vectors = ALL_VECTORS.into_iter().zip([&port.rid, &port.low, &port.high]);
    vectors.filter_map(|(which, vector)| Some(vector_text(which, vector.as_ref()?))).collect()
}

/// How many entries of how many are set, the start and the granularity.
fn vector_text(which: Which, vector: &Vector) -> String {
    let set = (0..vector.size).filter(|&entry| vector.is_set(entry)).count();
    let (name, size) = (vector_name(which), vector.size);
    let (start, granularity) = (start_text(which, vector.start), granularity_text(which, vector.granularity));
    format!("; {name} {set} of {size} set, from {start} by {granularity}")
}
