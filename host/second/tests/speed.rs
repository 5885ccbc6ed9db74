//! How fast past this window (02, L6): worked cases, whose figures were worked out apart from this implementation;
//! answers that are wrong by a little or by a rule; and how often the generator comes to each edge.

use second::interface::SpeedAnswer;
use second::levels::Period;
use second::mock::{highest_speed, levels};
use second::speed::{allowed, allowed_for, check, retyped, Request, ENTRY_NUMBER, NO_SPEED};
use second::speed_requests::case;
use second::speed_tally::Tally;
use second::study::Study;

#[path = "slips/speed.rs"]
mod slips;
use slips::{rules, RIGHT};

use Period::{Day, Night};

/// The header's example: a segment with one entry, and another with two.
const WORKED: &str = "2 1 2\n2600 180 420 3 160 170 0 0 0 0 0 0 1 0 0\n4 110 9 60 0\n\
                      6200 150 300 4 90 120 1 900 260 0 0 0 1 10 15\n13 140 8 90 20\n4 7 3 10 2\n";

/// Without distance, air, ground and angle steps, with a reading of Table 1 and one of the ballast.
fn plain(track: i32, ballast: i32) -> String {
    format!("2500 0 0 0 180 180 0 0 0 0 {track} {ballast} 0 0 0")
}

/// The answers that are allowed, each of which must pass the check.
fn answers(text: &str, entry: u32, period: Period, limit: i32) -> Vec<SpeedAnswer> {
    let request = Request { text: text.as_bytes(), entry, period, limit };
    let list = allowed(&request);
    assert!(list.iter().all(|answer| check(&request, answer) == Ok(list.len())));
    for turned in [false, true] {
        assert!(list.contains(&highest_speed(&request, turned)), "{request:?}");
    }
    list
}

/// The one speed that is allowed, or the one refusal's number and line.
fn answer(text: &str, entry: u32, period: Period, limit: i32) -> Result<u32, (u32, u32)> {
    let list = answers(text, entry, period, limit);
    let [SpeedAnswer { refusal, line, speed }] = list[..] else { panic!("several: {list:?}") };
    assert!(refusal == 0 || speed == 0);
    if refusal == 0 {
        Ok(speed)
    } else {
        Err((refusal, line))
    }
}

const NUMBER: Result<u32, (u32, u32)> = Err((ENTRY_NUMBER, 0));
const NONE: Result<u32, (u32, u32)> = Err((NO_SPEED, 0));

#[test]
fn the_worked_cases() {
    for (limit, speed) in [(60, 62), (64, 98), (66, 125), (67, 140), (68, 157), (70, 198), (75, 300)] {
        assert_eq!(answer(WORKED, 1, Day, limit), Ok(speed), "{limit}");
    }
    assert_eq!(answer(WORKED, 1, Day, 50), NONE);
    assert_eq!(answer(WORKED, 2, Day, 64), NONE);
    assert_eq!(answer(WORKED, 2, Day, 66), Ok(300));
    assert_eq!(answer(WORKED, 1, Night, 50), Ok(300));
    assert_eq!(answer(WORKED, 1, Night, i32::MIN), NONE);
    for entry in [0, 4, 5, u32::MAX] {
        assert_eq!(answer(WORKED, entry, Day, 68), NUMBER, "{entry}");
    }
    let total = |speed: i32| levels(&retyped(WORKED.as_bytes(), 1, speed), &mut [0; 6], false).day.level;
    assert_eq!((total(157), total(158)), (674, 675));
}

#[test]
fn an_empty_study_has_no_entry() {
    for (entry, limit) in [(0, 68), (1, 68), (u32::MAX, i32::MIN)] {
        let refused = SpeedAnswer { refusal: 25, line: 0, speed: 0 };
        assert_eq!(allowed_for(&Study::default(), entry, Day, limit), [refused]);
    }
}

#[test]
fn refusals_in_their_order() {
    // The text by its own number at its line, though no entry has the number and no speed would do.
    let standing = WORKED.replace("4 7 3", "4 0 3");
    let near = WORKED.replace("2600 ", "999 ");
    for entry in [0, 1, 4] {
        assert_eq!(answer(&standing, entry, Day, i32::MIN), Err((9, 6)));
        assert_eq!(answer(&near, entry, Day, i32::MIN), Err((1, 2)));
        assert_eq!(answer("", entry, Day, i32::MIN), Err((13, 1)));
        assert_eq!(answer("1 0\n", entry, Day, i32::MIN), Err((13, 1)));
        assert_eq!(answer(&"9".repeat(16_385), entry, Day, i32::MIN), Err((12, 0)));
    }
    // A number that no entry has, though no speed would do.
    assert_eq!(answer(WORKED, 0, Day, i32::MIN), NUMBER);
    assert_eq!(answer(WORKED, 4, Day, i32::MIN), NUMBER);
    assert_eq!(answer(WORKED, 3, Day, i32::MIN), NONE);
}

#[test]
fn limits_at_the_ends_of_their_range() {
    for entry in 1..=3 {
        for limit in [i32::MAX, i32::MAX - 1, 429_496_730 + 60] {
            assert_eq!(answer(WORKED, entry, Day, limit), Ok(300), "{limit}");
        }
        for limit in [i32::MIN, i32::MIN + 1, -429_496_730 + 70] {
            assert_eq!(answer(WORKED, entry, Day, limit), NONE, "{limit}");
        }
    }
}

#[test]
fn silence_is_below_every_limit() {
    // No trains by night, two entries; then another segment is heard by night.
    let silent = "1 2\n2600 180 420 3 160 170 0 0 0 0 0 0 1 0 0\n4 110 9 60 0\n4 7 9 60 0\n";
    for limit in [i32::MIN, -1, 0, 1, 68, i32::MAX] {
        assert_eq!(answer(silent, 1, Night, limit), Ok(300), "{limit}");
        assert_eq!(answer(silent, 2, Night, limit), Ok(300), "{limit}");
    }
    let beside = format!("2 1 1\n{}\n4 110 9 60 0\n{}\n8 100 1 1 1\n", plain(0, 0), plain(0, 0));
    // By night 71.2 + 6.0 - 43.3: 33.9.
    assert_eq!(answer(&beside, 1, Night, 35), Ok(300));
    assert_eq!(answer(&beside, 1, Night, 34), NONE);
    // At 300 km/h 43.4.
    assert_eq!(answer(&beside, 2, Night, 44), Ok(300));
    assert!(answer(&beside, 2, Night, 43).is_ok_and(|speed| (20..300).contains(&speed)));
}

/// One train of Mark III by day through an angle of 5 degrees: the speed step less 80.6.
const FAINT: &str = "1 1\n2500 0 0 0 5 5 0 0 0 0 0 0 0 0 0\n8 100 1 1 0\n";

#[test]
fn totals_below_zero_round_upward_at_halves() {
    // -23.4 at 20, -22.6 at 22, -9.6 at 98, -9.5 at 99, -0.6 at 277, -0.5 at 278, 0.1 at 300.
    assert_eq!(answer(FAINT, 1, Day, -23), NONE);
    assert_eq!(answer(FAINT, 1, Day, -22), Ok(22));
    assert_eq!(answer(FAINT, 1, Day, -9), Ok(98));
    assert_eq!(answer(FAINT, 1, Day, 0), Ok(277));
    assert_eq!(answer(FAINT, 1, Day, 1), Ok(300));
}

#[test]
fn a_train_that_crawls_is_told_no_speed_below_20() {
    for typed in [1, 7, 19, 20, 110, 300] {
        let text = String::from_utf8(retyped(WORKED.as_bytes(), 1, typed)).expect("ASCII");
        assert_eq!(answer(&text, 1, Day, 68), Ok(157), "{typed}");
        assert_eq!(answer(&text, 1, Day, 50), NONE, "{typed}");
        let faint = String::from_utf8(retyped(FAINT.as_bytes(), 1, typed)).expect("ASCII");
        assert_eq!(answer(&faint, 1, Day, -23), NONE, "{typed}");
        assert_eq!(answer(&faint, 1, Day, -22), Ok(22), "{typed}");
    }
}

#[test]
fn a_speed_is_typed_in_the_entry_s_line_alone() {
    for (entry, old, new) in [(1, "4 110 9", "4 1 9"), (2, "13 140 8", "13 300 8"), (3, "4 7 3", "4 20 3")] {
        let speed = new.split(' ').nth(1).and_then(|word| word.parse().ok()).expect("a speed");
        assert_eq!(retyped(WORKED.as_bytes(), entry, speed), WORKED.replace(old, new).into_bytes());
    }
}

fn speeds(list: &[SpeedAnswer]) -> Vec<u32> {
    list.iter().map(|answer| answer.speed).collect()
}

#[test]
fn a_free_ground_mark_is_one_for_all_speeds() {
    // At 250 m the ground step is -0.0516 dB: -0.1, or marked 0.0.
    let segment = "25000 0 514 1 180 180 0 0 0 0 100 0 0 0 0";
    let text = format!("1 1\n{segment}\n1 100 1 1000 0\n");
    // The step before the ground's: S + 14.8 + 30.0 - 48.1 - 10.0 - 1.8 + 10.0, so S - 5.1.
    // Below 68 it is 67.4 at most: S is 72.5 with 0.0 and 72.6 with -0.1.
    let both = answers(&text, 1, Day, 68);
    assert_eq!(speeds(&both), [116, 118]);
    // 117 would have it unmarked there and marked at 118.
    let request = Request { text: text.as_bytes(), entry: 1, period: Day, limit: 68 };
    for speed in [115, 117, 119] {
        assert!(check(&request, &SpeedAnswer::answered(speed)).is_err(), "{speed}");
    }
    let told = [false, true].map(|turned| highest_speed(&request, turned).speed);
    assert!(told == [116, 118] || told == [118, 116]);
}

#[test]
fn a_free_mark_of_a_total_is_one_for_its_speed() {
    // Beside 35.2 dB, 37.4 at 100 km/h make 39.4482: 39.4, or marked 39.5. 39.4 at 99 and 39.5 at 101 are clear.
    let text = format!("2 1 1\n{}\n8 150 1 1 0\n{}\n1 50 1 1 0\n", plain(26, 0), plain(0, -5));
    assert_eq!(speeds(&answers(&text, 2, Day, 40)), [99, 100]);
    let request = Request { text: text.as_bytes(), entry: 2, period: Day, limit: 40 };
    for speed in [98, 101] {
        assert!(check(&request, &SpeedAnswer::answered(speed)).is_err(), "{speed}");
    }
}

#[test]
fn an_entry_without_trains_has_one_total() {
    // The same 39.4482 dB at every speed of the third entry: all marked or none.
    let text = format!("2 1 2\n{}\n8 150 1 1 0\n{}\n1 100 1 1 0\n1 50 1 0 0\n", plain(26, 0), plain(0, -5));
    let list = answers(&text, 3, Day, 40);
    assert_eq!(list, [SpeedAnswer { refusal: 26, line: 0, speed: 0 }, SpeedAnswer::answered(300)]);
    let request = Request { text: text.as_bytes(), entry: 3, period: Day, limit: 40 };
    assert!((20..300).all(|speed| check(&request, &SpeedAnswer::answered(speed)).is_err()));
}

#[test]
fn a_required_mark_of_a_total_counts() {
    // 8.7 dB apart the sum lies less than 0.001 dB below a tie and is marked always: 0.6 above the louder.
    // The entry is heard at 37.9 from 100 km/h on, beside 29.2: 38.5. At 99 it is 37.8 and the sum 38.4.
    let text = format!("2 1 1\n{}\n8 100 1 1 0\n{}\n1 50 1 1 0\n", plain(1, 0), plain(0, 0));
    assert_eq!(answer(&text, 2, Day, 39), Ok(99));
}

#[test]
fn both_choices_of_free_marks_are_allowed() {
    let mut apart = 0;
    for index in 0..2000 {
        let case = case(41, index);
        let told = [false, true].map(|turned| {
            let answer = highest_speed(&case.request(), turned);
            check(&case.request(), &answer).expect("an allowed answer");
            answer
        });
        apart += (told[0] != told[1]) as u32;
    }
    assert!(apart > 50, "{apart}");
}

/// Answers that differ from a given one in one place.
fn slips(answer: SpeedAnswer) -> Vec<SpeedAnswer> {
    let steps = [1, 2, u32::MAX].into_iter();
    let slip = |step: u32| {
        [
            SpeedAnswer { refusal: answer.refusal.wrapping_add(step), ..answer },
            SpeedAnswer { line: answer.line.wrapping_add(step), ..answer },
            SpeedAnswer { speed: answer.speed.wrapping_add(step), ..answer },
        ]
    };
    steps.flat_map(slip).collect()
}

#[test]
fn an_answer_a_little_wrong_is_stopped() {
    let mut tried = 0;
    for index in 0..1000 {
        let case = case(42, index);
        let answer = highest_speed(&case.request(), false);
        if check(&case.request(), &answer) == Ok(1) {
            for wrong in slips(answer) {
                assert!(check(&case.request(), &wrong).is_err(), "{wrong:?}");
                tried += 1;
            }
        }
    }
    assert!(tried > 7000, "{tried}");
}

#[test]
fn an_answer_by_a_wrong_rule_is_stopped() {
    let mut stopped = rules().iter().map(|rule| (rule.name, 0)).collect::<Vec<(&str, u32)>>();
    for index in 0..1000 {
        let case = case(43, index);
        let right = RIGHT.answer(&case.request());
        let choices = check(&case.request(), &right).expect("an allowed answer");
        for (rule, (_, count)) in rules().iter().zip(&mut stopped) {
            let wrong = rule.answer(&case.request());
            if choices == 1 && wrong != right {
                assert!(check(&case.request(), &wrong).is_err(), "{}: {wrong:?}", rule.name);
                *count += 1;
            }
        }
    }
    for (name, count) in stopped {
        assert!(count > 5, "{name}: {count}");
    }
}

/// The requests of the gate's run, `host/differential.sh 1 20000`.
#[test]
fn every_edge_comes_up() {
    let mut tally = Tally::default();
    for case in (0..5000).map(|index| case(1, index)) {
        let answer = highest_speed(&case.request(), false);
        let choices = check(&case.request(), &answer).expect("an allowed answer");
        tally.add(&case, &answer, choices);
    }
    assert!(tally.kinds.len() == 7 && tally.kinds.values().all(|&count| count > 100));
    assert!(tally.answered.iter().all(|&count| count > 800));
    for (name, count) in &tally.edges {
        assert!(*count > 20, "{name}: {count}");
    }
    // Every refusal of a text, and those of the request.
    assert_eq!(tally.refused.keys().copied().collect::<Vec<u32>>(), (1..=13).chain(25..=26).collect::<Vec<u32>>());
    assert!(tally.refused.values().all(|&count| count > 10), "{:?}", tally.refused);
    assert!(tally.refused[&ENTRY_NUMBER] > 500 && tally.refused[&NO_SPEED] > 500);
    assert!(tally.several > 200);
}

#[test]
fn a_case_is_the_same_each_time() {
    for index in [0, 7, 4000] {
        let (one, again) = (case(44, index), case(44, index));
        assert_eq!(format!("{:?} {}", one.request(), one.kind), format!("{:?} {}", again.request(), again.kind));
        assert!(one.text != case(44, index + 1).text && one.text != case(45, index).text);
    }
}
