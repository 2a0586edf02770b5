//! The paper's own examples, the decisions on open points, and the cases that a first build gets
//! wrong: each hand-written call gives the answer written beside it.

use second::batch::Lent;
use second::cases::{all_cases, one_port_picture, Case};
use second::judge::Judge;
use second::picture::Vector;

/// Every call of a case gives the answer written beside it.
fn holds(case: &Case) {
    let mut lent = Lent::of(case.picture.clone(), case.patch.clone().unwrap_or_default());
    for (call, expected) in &case.calls {
        assert_eq!(lent.take(call).as_ref(), Some(expected), "{}: {call}", case.name);
    }
}

/// All cases under a heading hold, and there is one.
fn heading_holds(heading: &str) {
    let is_under = |case: &Case| case.name.split(':').next() == Some(heading);
    let cases: Vec<Case> = all_cases().into_iter().filter(is_under).collect();
    assert!(!cases.is_empty(), "no case under {heading}");
    cases.iter().for_each(holds);
}

/// One test for each heading.
macro_rules! headings {
    ($($test:ident: $heading:literal,)*) => {
        $(#[test]
        fn $test() {
            heading_holds($heading);
        })*
    };
}

headings! {
    the_one_port_picture: "one port",
    c1: "C1",
    c2: "C2",
    c3: "C3",
    c4: "C4",
    c5: "C5",
    c6: "C6",
    c7: "C7",
    c8: "C8",
    c9: "C9",
    c10: "C10",
    c11: "C11",
    c12: "C12",
    decision_1: "decision 1",
    decision_2: "decision 2",
    decision_3: "decision 3",
    decision_4: "decision 4",
    decision_5: "decision 5",
    decision_6: "decision 6",
    decision_7: "decision 7",
    decision_8: "decision 8",
    decision_9: "decision 9",
    decision_10: "decision 10",
    decision_12: "decision 12",
    decision_13: "decision 13",
    decision_14: "decision 14",
    decision_15: "decision 15",
    decision_16: "decision 16",
    decision_17: "decision 17",
    decision_18: "decision 18",
    decision_19: "decision 19",
    decision_20: "decision 20",
    decision_21: "decision 21",
    decision_22: "decision 22",
    decision_23: "decision 23",
    decision_24: "decision 24",
    decision_25: "decision 25",
    decision_26: "decision 26",
    decision_27: "decision 27",
    what_a_first_build_gets_wrong: "first build",
    the_quicker_scan: "item 5",
    decoders_alone_and_together: "item 3, decoders",
    own_ids_are_no_claims: "item 3, own",
    holders_in_port_order: "item 3, holders",
    claims_of_what_there_is_not: "item 3, number 16",
    claims_of_a_picture_that_does_not_read: "item 3, reading first",
    decoders_of_number_11: "item 3, number 11",
    decoders_of_number_12: "item 3, number 12",
    decoders_of_number_13: "item 3, number 13",
    decoders_of_number_14: "item 3, number 14",
    what_a_conversion_writes: "item 3, conversions",
    decoders_of_trials: "item 3, trials",
    trials_before_a_patch: "item 2, no patch",
    trials_accepted: "item 2, accepted",
    trials_refused_by_30: "item 2, number 30",
    trials_refused_by_31: "item 2, number 31",
    trials_refused_by_32: "item 2, number 32",
    trials_with_two_faults: "item 2, order",
    where_vectors_lie: "item 2, parts",
    which_bits_of_bridge_control_count: "item 4, Bridge Control",
    the_edges_of_the_video_range: "item 4, edges",
    the_video_range_switched_off: "item 4, off",
    the_video_range_in_the_first_mib: "item 4, first MiB",
    the_video_range_of_number_12: "item 4, number 12",
    the_least_address_and_the_video_range: "item 4, order",
    the_video_range_of_number_14: "item 4, number 14",
    the_video_range_where_14_is_not_given: "item 4, no number 14",
    walks_to_the_display_card: "item 4, walks",
    doubled_walks_to_the_video_range: "item 4, doubled",
    trials_with_the_video_range: "item 4, trials",
    the_secondary_range_of_an_upstream_port: "item 7, upstream range",
    the_secondary_range_with_ari: "item 7, ARI range",
    the_secondary_range_of_one_unit: "item 7, one unit",
    the_bus_secondary_of_an_upstream_port: "item 7, upstream bus",
    the_bus_secondary_with_ari: "item 7, ARI bus",
    device_0_of_the_bus_secondary: "item 7, device 0",
    other_devices_of_the_bus_secondary: "item 7, other devices",
    where_18_is_not_given: "item 7, clear",
    the_least_id_and_the_lowest_port_of_18: "item 7, named",
    numbers_before_18: "item 7, order",
    requests_that_a_middle_port_takes: "item 7, walks",
    trials_with_number_18: "item 7, trials",
    one_port_in_edition_2: "item 8, one port",
    the_shortest_length_by_edition: "item 8, number 1",
    neither_edition: "item 8, number 2",
    counts_in_edition_2: "item 8, number 3",
    totals_in_edition_2: "item 8, number 4",
    offsets_by_edition: "item 8, number 5",
    the_tree_in_edition_2: "item 8, number 6",
    chains_in_edition_2: "item 8, number 7",
    bytes_after_acs_control: "item 8, number 8",
    starts_in_edition_2: "item 8, number 9",
    the_layout_by_edition: "item 8, number 10",
    vectors_in_edition_2: "item 8, vectors",
    edition_1_has_no_acs_control: "item 8, edition 1",
    which_bits_of_acs_control_count: "item 8, ACS Control",
    two_faults_in_edition_2: "item 8, order",
    packets_that_are_redirected: "item 8, redirect",
    packets_that_the_starting_port_claims: "item 8, claimed",
    packets_that_go_as_before: "item 8, as before",
    what_is_no_start: "item 8, starts",
    what_is_not_looked_at_on_the_way_up: "item 8, on the way",
    two_holders_after_the_turn: "item 8, doubled",
    redirect_at_every_depth: "item 8, depth",
    trials_with_redirect: "item 8, trials",
}

/// The entry of a target in a vector of 256 entries.
fn entry(start: u64, granularity: u64, target: u64) -> Option<u64> {
    Vector { start, granularity, size: 256, bytes: vec![0; 32] }.entry_of(target)
}

#[test]
fn c1_to_c7_as_entries() {
    assert_eq!(entry(0, 8, 2_047), Some(255));
    assert_eq!(entry(0, 8, 2_048), None);
    assert_eq!(entry(32 * 8, 64, 255), None);
    assert_eq!(entry(32 * 8, 64, 319), Some(0));
    assert_eq!(entry(32 * 8, 64, 320), Some(1));
    assert_eq!(entry(0x8000_0000, 16 << 20, 0xFFFF_FFFF), Some(127));
    assert_eq!(entry(1 << 32, 256 << 20, 0x1_1000_0000), Some(1));
}

#[test]
fn a_short_buffer_is_17_before_all_else_and_untouched() {
    for picture in [one_port_picture(), Vec::new()] {
        let judge = Judge::new(&picture);
        let mut buffer = [0xAA; 39];
        assert_eq!(judge.check_call(&mut buffer), 17);
        assert_eq!(judge.walk_call(&mut buffer, 3, 254, u64::MAX), 17);
        assert_eq!(buffer, [0xAA; 39]);
    }
}

#[test]
fn a_long_buffer_keeps_what_comes_after_40_bytes() {
    let judge = Judge::new(&one_port_picture());
    let mut buffer = [0xAA; 64];
    assert_eq!(judge.check_call(&mut buffer), 0);
    assert_eq!(buffer[..8], [0, 0, 255, 255, 0, 0, 0, 0]);
    assert_eq!(buffer[8..40], [255; 32]);
    assert_eq!(buffer[40..], [0xAA; 24]);
}

#[test]
fn the_report_ends_with_a_newline() {
    assert_eq!(Judge::new(&one_port_picture()).report(), "ports 1\nclear\n");
    assert_eq!(Judge::new(&[]).report(), "refused 1\n");
}
