//! The generator's requests: allowed answers pass, each that is a little wrong is stopped, and every edge comes up.

use second::entitlement::{check, combinations, in_period, Explanation};
use second::interface::{Combined, EntitlementAnswer, EntitlementPeriod};
use second::levels::{Mark, PERIODS};
use second::mock::entitlement;
use second::requests::case;
use second::tally::Tally;

/// Whether no mark within the studies or of a combination is free to show.
fn settled(explanation: &Explanation) -> bool {
    let free = |levels| combinations(levels).into_iter().flatten().any(|total| total.mark == Mark::Free);
    explanation.choices == 1 && !PERIODS.iter().any(|&period| free(in_period(&explanation.levels, period)))
}

fn combined_slips(combined: Combined) -> Vec<Combined> {
    let moved = [1, -1].map(|step| Combined { level: combined.level.wrapping_add(step), ..combined });
    let marks = [combined.close ^ 1, combined.close + 2].map(|close| Combined { close, ..combined });
    let silence = [combined.silent ^ 1, combined.silent + 2].map(|silent| Combined { silent, ..combined });
    [moved, marks, silence].concat()
}

/// Periods that differ from a given one in one place, or in a condition and the verdict that follows from it.
fn period_slips(period: EntitlementPeriod) -> Vec<EntitlementPeriod> {
    let mut list: Vec<EntitlementPeriod> = Vec::new();
    list.extend(
        combined_slips(period.prevailing).into_iter().map(|prevailing| EntitlementPeriod { prevailing, ..period }),
    );
    list.extend(combined_slips(period.relevant).into_iter().map(|relevant| EntitlementPeriod { relevant, ..period }));
    for change in [1, 2] {
        list.push(EntitlementPeriod { reaches: period.reaches ^ change, ..period });
        list.push(EntitlementPeriod { rises: period.rises ^ change, ..period });
        list.push(EntitlementPeriod { contributes: period.contributes ^ change, ..period });
        list.push(EntitlementPeriod { entitled: period.entitled ^ change, ..period });
    }
    let followed = list.clone().into_iter().map(|slip| {
        let entitled = slip.reaches & slip.rises & slip.contributes;
        EntitlementPeriod { entitled, ..slip }
    });
    let followed: Vec<EntitlementPeriod> = followed.filter(|slip| *slip != period).collect();
    list.extend(followed);
    list
}

/// Answers that differ from a given one; where a period's verdict slips, the house's follows.
fn slips(answer: EntitlementAnswer) -> Vec<EntitlementAnswer> {
    let mut list = Vec::new();
    for step in [1, u32::MAX] {
        list.push(EntitlementAnswer { refusal: answer.refusal.wrapping_add(step), ..answer });
        list.push(EntitlementAnswer { text: answer.text.wrapping_add(step), ..answer });
        list.push(EntitlementAnswer { line: answer.line.wrapping_add(step), ..answer });
    }
    list.push(EntitlementAnswer { entitled: answer.entitled ^ 1, ..answer });
    list.push(EntitlementAnswer { entitled: answer.entitled + 2, ..answer });
    for day in period_slips(answer.day) {
        list.push(EntitlementAnswer { day, ..answer });
        list.push(EntitlementAnswer { day, entitled: day.entitled | answer.night.entitled, ..answer });
    }
    for night in period_slips(answer.night) {
        list.push(EntitlementAnswer { night, ..answer });
        list.push(EntitlementAnswer { night, entitled: answer.day.entitled | night.entitled, ..answer });
    }
    list
}

#[test]
fn both_choices_of_free_marks_are_allowed() {
    let mut apart = 0;
    for index in 0..3000 {
        let case = case(21, index);
        let answers = [false, true].map(|turned| entitlement(&case.request(), turned));
        for answer in &answers {
            check(&case.request(), answer).expect("an allowed answer");
        }
        apart += (answers[0] != answers[1]) as u32;
    }
    assert!(apart > 300, "{apart}");
}

#[test]
fn an_answer_a_little_wrong_is_stopped() {
    let mut tried = 0;
    for index in 0..500 {
        let case = case(22, index);
        let answer = entitlement(&case.request(), false);
        let explanation = check(&case.request(), &answer).expect("an allowed answer");
        if explanation.is_some_and(|explanation| !settled(&explanation)) {
            continue;
        }
        for wrong in slips(answer) {
            assert!(check(&case.request(), &wrong).is_err(), "{wrong:?}");
            tried += 1;
        }
    }
    assert!(tried > 20_000, "{tried}");
}

#[test]
fn a_case_is_the_same_each_time() {
    for index in [0, 7, 4000] {
        let (one, again) = (case(23, index), case(23, index));
        assert!(one.texts == again.texts && one.empty == again.empty && one.kind == again.kind);
        assert!(one.texts != case(23, index + 1).texts && one.texts != case(24, index).texts);
    }
}

#[test]
fn every_edge_comes_up() {
    let mut tally = Tally::default();
    for index in 0..4000 {
        let case = case(25, index);
        let answer = entitlement(&case.request(), false);
        let explanation = check(&case.request(), &answer).expect("an allowed answer");
        tally.add(&case, &answer, explanation);
    }
    assert!(tally.kinds.len() == 4 && tally.kinds.values().all(|&count| count > 100));
    // Every pattern of marks, and refusable texts behind them.
    assert!(tally.patterns.len() == 16 && tally.patterns.values().all(|&count| count > 50));
    assert!(tally.unread > 500 && tally.passed_over > 50);
    assert!(tally.refused.iter().all(|&count| count > 100) && tally.answered > 2000);
    assert!(tally.entitled.iter().all(|&count| count > 300) && tally.houses > 500);
    assert!(tally.houses < tally.entitled[0] + tally.entitled[1]);
    assert!(tally.conditions.iter().flatten().all(|&count| count > 1000));
    assert!(tally.trainless.iter().all(|&count| count > 100));
    assert!(tally.silent.iter().all(|&count| count > 300));
    assert!(tally.required > 200 && tally.free.iter().all(|&count| count > 200));
    assert!((300..2000).contains(&tally.several));
    assert!(tally.rises.iter().all(|&count| count > 300));
    assert!(tally.contributions.iter().all(|&count| count > 300));
    assert!(tally.limits.iter().flatten().all(|&count| count > 200));
}
