//! The self-checks on generated cases with fixed seeds.

use glykorant_reference::checks;
use glykorant_reference::limits::EVENTS_IN_PRODUCTION;

#[test]
fn generated_cases() {
    let statistics =
        checks::run(20_250_101, 0..100_000).unwrap_or_else(|failure| panic!("{failure}"));
    println!("{statistics}");

    assert!((40..=60).contains(&statistics.accepted_percent()));
    for number in [0, 2, 3, 4, 5, 6, 7, 8, 9, 10, 11] {
        assert!(statistics.compiled[number] >= 100, "number {number}");
    }
    for number in [0, 11] {
        assert!(statistics.merged[number] >= 100, "number {number}");
    }
    for number in [0, 1, 13, 18] {
        assert!(statistics.calls[number] >= 100, "number {number}");
    }
    assert!(statistics.at_limit.iter().all(|&cases| cases >= 50));
    assert!(statistics.past_limit.iter().all(|&cases| cases >= 50));
    assert!(statistics.fewest_of_a_code() >= 100);
    for events in [
        statistics.counted_events,
        statistics.exact_events,
        statistics.colon_events,
        statistics.clause_events,
        statistics.detailed_events,
        statistics.named_details,
        statistics.unnamed_details,
        statistics.named_events,
        statistics.named_exact_events,
        statistics.named_colon_events,
        statistics.keysym_events,
        statistics.both_ways_events,
    ] {
        assert!(events >= 1000);
    }
    assert!(statistics.written_and_compiled >= 10_000);
    assert!(statistics.merged_match_cases >= 1000);
    assert!(statistics.selections >= 100_000);
    assert!(statistics.long_selections >= 10_000);
    assert!(statistics.named_selections >= 50_000);
    for names in [
        statistics.names_without_bit,
        statistics.names_of_several,
        statistics.names_of_standard,
        statistics.names_of_standard_beside_colon,
        statistics.contradictions,
    ] {
        assert!(names >= 10_000);
    }
    assert!(statistics.later_starts >= 1000);
    assert!(statistics.just_in_time >= 1000);
    assert!(statistics.just_too_late >= 1000);
    assert!(statistics.wraps >= 1000);
    assert!(statistics.selections_over_wrap >= 1000);
    assert_eq!(statistics.longest_context, EVENTS_IN_PRODUCTION);

    let calls: usize = statistics.calls.iter().sum();
    assert!(3 * statistics.calls_in_runs >= calls);
    for of_runs in [
        statistics.selections_replaced,
        statistics.selections_replacing,
        statistics.starts_fallen,
        statistics.selections_fallen,
        statistics.contexts_closed,
    ] {
        assert!(of_runs >= 50_000);
    }
    assert!(statistics.opened_before >= 1000);
}
