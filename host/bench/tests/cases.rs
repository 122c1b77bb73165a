//! The cases do what their names say, by the reference's answers.

use bench::{cases, measure, measure_packet, packet_cases, register_cases};
use bench::{Case, Fill, Size, LENGTHS};
use reference::Rules;

/// All cases of the measured sizes.
fn all() -> Vec<Case> {
    let sizes = [4, 16].into_iter().flat_map(|n| [8, 63].map(|heights| Size { n, heights }));
    let both = sizes.flat_map(|size| [(size, Fill::Empty), (size, Fill::Full)]);
    both.flat_map(|(size, fill)| cases(size, fill).unwrap()).collect()
}

#[test]
fn every_case_gets_the_answer_it_is_named_for() {
    let all = all();
    assert_eq!(all.len(), 8 * 31);
    for case in &all {
        case.check(&Rules::SHA256, &Rules::SHA256).unwrap();
    }
}

#[test]
fn registers_whose_entries_differ_agree_and_collide() {
    for heights in [8, 63] {
        let cases = register_cases(Size { n: 4, heights }).unwrap();
        assert_eq!(cases.len(), 12);
        for case in &cases {
            case.check(&Rules::SHA256, &Rules::SHA256).unwrap();
        }
        let all = format!("{}", 128 * usize::from(heights));
        let of = |name: &'static str| cases.iter().filter(move |case| case.name.contains(name));
        assert!(of("differ").chain(of("collide")).all(|case| case.answer.ends_with(&all)));
        assert!(of("agree").all(|case| case.answer.ends_with(" 16")));
        assert_eq!([of("differ"), of("agree"), of("collide")].map(Iterator::count), [4; 3]);
    }
}

#[test]
fn a_replica_that_answers_otherwise_is_not_measured() {
    let other = Rules::new(|_| [1; 32]);
    let differs =
        |case: &Case| measure(&other, &Rules::SHA256, &[case.clone(), case.clone()], 1).is_err();
    let cases = cases(Size { n: 4, heights: 8 }, Fill::Full).unwrap();
    let names: Vec<_> = cases.into_iter().filter(differs).map(|case| case.name).collect();
    assert!(names.contains(&"Register size") && !names.contains(&"Open"), "{names:?}");
}

#[test]
fn figures_are_of_both_sizes() {
    let case = |heights| cases(Size { n: 4, heights }, Fill::Full).unwrap().remove(0);
    let measured = measure(&Rules::SHA256, &Rules::SHA256, &[case(1), case(63)], 9).unwrap();
    assert!(measured.times[0] > 0.0 && measured.times[1] > measured.times[0], "{measured:?}");
    assert!(measured.growth.into_iter().all(|growth| growth > 1.0), "{measured:?}");
}

#[test]
fn packets_have_known_fresh_and_refused_frames() {
    for n in [4, 16] {
        let cases = packet_cases(Size { n, heights: 63 }, &LENGTHS).unwrap();
        for (case, length) in cases.iter().zip(LENGTHS) {
            case.check(&Rules::SHA256, &Rules::SHA256).unwrap();
            assert_eq!(case.packet.len(), 224 * length);
        }
        let counts = cases[3].counts;
        assert!(counts.known > counts.fresh && counts.fresh > 100, "{counts}");
        assert!((1..20).contains(&counts.refused), "{counts}");
    }
}

#[test]
fn a_packet_that_comes_out_otherwise_is_not_measured() {
    let mut case = packet_cases(Size { n: 4, heights: 8 }, &[20]).unwrap().remove(0);
    assert!(measure_packet(&Rules::SHA256, &Rules::SHA256, &case, 3).unwrap().packet > 0.0);
    case.counts.known += 1;
    assert!(measure_packet(&Rules::SHA256, &Rules::SHA256, &case, 3).is_err());
}
