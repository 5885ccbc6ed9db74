//! The check itself: it must let every allowed answer through and stop each that is a little wrong.

use second::check::{check, Report};
use second::generate::case;
use second::interface::Answer;
use second::mock::levels;

mod slips;
use slips::{period_slips, STEPS};

fn answered(text: &[u8], cells: usize, turned: bool) -> (Vec<i32>, Vec<i32>, Answer) {
    let before: Vec<i32> = (0..cells as i32).map(|i| 1000 + i).collect();
    let mut after = before.clone();
    let answer = levels(text, &mut after, turned);
    (before, after, answer)
}

fn free(report: &Report) -> bool {
    report.ground_free_shown + report.ground_free_hidden + report.total_free > 0
}

/// Answers that differ from a given one in one place.
fn slips(answer: Answer) -> Vec<Answer> {
    let mut list = Vec::new();
    for step in STEPS {
        list.push(Answer { refusal: answer.refusal.wrapping_add(step), ..answer });
        list.push(Answer { line: answer.line.wrapping_add(step), ..answer });
    }
    list.extend(period_slips(answer.day).into_iter().map(|day| Answer { day, ..answer }));
    list.extend(period_slips(answer.night).into_iter().map(|night| Answer { night, ..answer }));
    list
}

#[test]
fn both_choices_of_free_marks_are_allowed() {
    for index in 0..4000 {
        let case = case(11, index);
        for turned in [false, true] {
            let (before, after, answer) = answered(&case.text, case.cells, turned);
            check(&case.text, &before, &after, &answer).expect("an allowed answer");
        }
    }
}

#[test]
fn an_answer_a_little_wrong_is_stopped() {
    let mut tried = 0;
    for index in 0..3000 {
        let case = case(12, index);
        let (before, after, answer) = answered(&case.text, case.cells, false);
        let report = check(&case.text, &before, &after, &answer).expect("an allowed answer");
        if free(&report) {
            continue;
        }
        for wrong in slips(answer) {
            assert!(check(&case.text, &before, &after, &wrong).is_err(), "{wrong:?}");
            tried += 1;
        }
        for place in 0..after.len() {
            for wrong in [after[place] + 1, after[place] - 1, -9999, 0] {
                let mut cells = after.clone();
                cells[place] = wrong;
                if cells != after {
                    assert!(check(&case.text, &before, &cells, &answer).is_err(), "cell {place}");
                    tried += 1;
                }
            }
        }
    }
    assert!(tried > 50_000);
}

/// d 25000, I 1: H 352 lies 1,200 microdecibels above a tie, H 348 as far below one.
fn ground_line(height: i32) -> String {
    format!("25000 0 {height} 1 180 180 0 0 0 0 0 0 0 0 0\n")
}

const BOTH: &str = "1 100 1 100 100\n";
const DAY_ONLY: &str = "1 100 1 100 0\n";

/// Whether the answer with these changes to the close counts is allowed.
fn allowed_counts(text: &str, day: i32, night: i32) -> bool {
    let (before, after, mut answer) = answered(text.as_bytes(), 8, false);
    let base = [answer.day.close, answer.night.close];
    answer.day.close = base[0].wrapping_add(day as u32);
    answer.night.close = base[1].wrapping_add(night as u32);
    check(text.as_bytes(), &before, &after, &answer).is_ok()
}

#[test]
fn a_hidden_mark_counts_in_both_periods_or_in_neither() {
    // The mock does not take this mark: 25000 + 352 + 1 is odd.
    let text = format!("1 1\n{}{BOTH}", ground_line(352));
    assert!(allowed_counts(&text, 0, 0) && allowed_counts(&text, 1, 1));
    assert!(!allowed_counts(&text, 1, 0) && !allowed_counts(&text, 0, 1) && !allowed_counts(&text, 2, 2));
    let day_only = format!("1 1\n{}{DAY_ONLY}", ground_line(352));
    assert!(allowed_counts(&day_only, 1, 0) && !allowed_counts(&day_only, 1, 1));
    let two = format!("2 1 1\n{}{BOTH}{}{DAY_ONLY}", ground_line(352), ground_line(352));
    assert!(allowed_counts(&two, 1, 0) && allowed_counts(&two, 1, 1) && allowed_counts(&two, 2, 1));
    assert!(!allowed_counts(&two, 0, 1) && !allowed_counts(&two, 3, 1) && !allowed_counts(&two, 2, 0));
}

#[test]
fn a_shown_mark_is_one_for_all_cells_and_counts() {
    let text = format!("1 2\n{}{BOTH}{BOTH}", ground_line(348));
    for turned in [false, true] {
        let (before, after, answer) = answered(text.as_bytes(), 4, turned);
        assert!(check(text.as_bytes(), &before, &after, &answer).is_ok());
        // Turned, the mark is taken: louder by a tenth and counted.
        let step = if turned { -1 } else { 1 };
        assert_eq!(answer.day.close, turned as u32);
        for place in 0..4 {
            let mut cells = after.clone();
            cells[place] += step;
            assert!(check(text.as_bytes(), &before, &cells, &answer).is_err());
        }
        let mut miscounted = answer;
        miscounted.day.close ^= 1;
        miscounted.night.close ^= 1;
        assert!(check(text.as_bytes(), &before, &after, &miscounted).is_err());
        // All cells moved together with totals, but the count of the other choice.
        let cells: Vec<i32> = after.iter().map(|cell| cell + step).collect();
        let mut moved = answer;
        moved.day.level += step;
        moved.night.level += step;
        assert!(check(text.as_bytes(), &before, &cells, &moved).is_err());
        moved.day.close ^= 1;
        moved.night.close ^= 1;
        assert!(check(text.as_bytes(), &before, &cells, &moved).is_ok());
    }
}
