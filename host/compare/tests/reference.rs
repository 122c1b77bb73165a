//! The comparison itself: the reference agrees with itself, everything occurs, and seeds decide.

use compare::run;
use reference::Rules;

#[test]
fn the_reference_agrees_with_itself_and_everything_occurs() {
    let report = run(Rules::SHA256, Rules::SHA256, 1, compare::LARGE).unwrap();
    println!("{report}");
    assert!(report.tally.calls() >= compare::LARGE);
}

#[test]
fn seeds_decide_the_calls() {
    let run = |seed| run(Rules::SHA256, Rules::SHA256, seed, 3000).unwrap().to_string();
    assert_eq!(run(7), run(7));
    assert_ne!(run(7), run(8));
}
