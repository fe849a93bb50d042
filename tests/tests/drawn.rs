//! The gate's drawn cases: fixed seeds, every implementation, every refusal and every status of every event seen.

use osek_tests::compare::{compare, others};
use osek_tests::coverage::Coverage;
use osek_tests::triggered;

#[test]
fn drawn_cases_give_equal_answers_and_show_every_refusal_and_status() {
    let mut coverage = Coverage::default();
    for seed in [1, 20_261_115, 0x05ec, u64::MAX] {
        match compare(seed, 0..10_000, 2, &others()) {
            Ok(part) => coverage.merge(&part),
            Err(difference) => panic!("{difference}"),
        }
    }
    println!("{coverage}");
    assert!(coverage.accepted >= 20_000, "only {} traces were accepted", coverage.accepted);
    let least = coverage.versions.into_iter().min().unwrap_or(0);
    assert!(4 * least >= coverage.accepted, "{:?} of the versions is far from a third", coverage.versions);
    assert_eq!(coverage.missing(), Vec::<String>::new(), "never seen");
    for status in [33, 1] {
        let count = coverage.count("Get", status);
        assert!(count >= 20_000, "only {count} times status {status} of Get");
    }
    for (refusal, least) in [(13, 40), (14, 100)] {
        let count = coverage.refused(refusal);
        assert!(count >= least, "only {count} times refusal {refusal}");
    }
    let piles = coverage.seen(triggered::MOST);
    assert!(piles >= 100, "only {piles} times {}", triggered::MOST);
    let success = coverage.success_percent();
    assert!((35..=65).contains(&success), "{success} % of the calls succeed, which is far from half");
}
