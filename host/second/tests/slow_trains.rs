//! Trains that crawl (02, L4): the speeds that are refused, worked cases, whose figures were worked out apart
//! from this implementation, and how often the generator comes to them.

use second::generate::case;
use second::levels::{Period, Workings};
use second::mock::levels;
use second::reader::read;
use second::study::Entry;

const PLAIN: Entry = Entry { row: 4, speed: 100, vehicles: 9, day_trains: 60, night_trains: 8 };

#[test]
fn a_speed_outside_1_to_300_is_9() {
    for speed in [1, 2, 5, 15, 19, 20, 21, 300] {
        assert_eq!(Entry { speed, ..PLAIN }.refusal(), None, "{speed}");
    }
    for speed in [0, -1, -5, -19, -20, 301, 99_999, -99_999] {
        assert_eq!(Entry { speed, ..PLAIN }.refusal(), Some(9), "{speed}");
        assert_eq!(Entry { speed, row: 35, ..PLAIN }.refusal(), Some(8), "{speed}");
        assert_eq!(Entry { speed, vehicles: 61, night_trains: -1, ..PLAIN }.refusal(), Some(9), "{speed}");
    }
    assert_eq!(Entry { speed: 1, vehicles: 61, ..PLAIN }.refusal(), Some(10));
}

fn text(speed: i32) -> Vec<u8> {
    format!("1 1\n2600 180 420 3 160 170 0 0 0 0 0 0 1 0 0\n4 {speed} 9 60 8\n").into_bytes()
}

/// Day and night level in tenths.
fn answered(speed: i32) -> [i32; 2] {
    let answer = levels(&text(speed), &mut [0; 2], false);
    assert_eq!((answer.refusal, answer.day.close, answer.night.close), (0, 0, 0));
    answer.periods().map(|period| period.level)
}

#[test]
fn a_slow_train_is_heard_as_at_20() {
    for speed in 1..=20 {
        assert_eq!(answered(speed), [495, 455], "{speed}");
        let workings = Workings::of(&read(&text(speed)).expect("a good text"));
        let bare = [Period::Day, Period::Night].map(|period| workings.bare_level(period));
        assert_eq!(bare, [Some(49_504_344), Some(45_553_731)], "{speed}");
    }
    assert_eq!(answered(21), [499, 459]);
}

#[test]
fn a_speed_is_kept_as_typed() {
    for speed in [1, 7, 19, 20, 300] {
        assert_eq!(read(&text(speed)).expect("a good text").entries[0].1.speed, speed);
    }
    for speed in [0, -5, 301] {
        let refusal = read(&text(speed)).expect_err("out of range");
        assert_eq!((refusal.number, refusal.line), (9, 3), "{speed}");
    }
}

/// Every line of 5 numbers in so many texts, good or refused.
fn entries_of_texts(count: u64) -> Vec<Entry> {
    let numbers = |line: &str| line.split(' ').map(|word| word.parse().ok()).collect::<Option<Vec<i32>>>();
    let entry = |line: &str| numbers(line)?.try_into().ok().map(|list| Entry::from_numbers(&list));
    let in_text =
        |text: Vec<u8>| String::from_utf8_lossy(&text).lines().skip(1).filter_map(entry).collect::<Vec<Entry>>();
    (0..count).flat_map(|index| in_text(case(14, index).text)).collect()
}

#[test]
fn the_generator_comes_to_every_case() {
    let entries = entries_of_texts(4000);
    let count = |refusal: Option<u32>, speed: i32| {
        entries.iter().filter(|entry| (entry.refusal(), entry.speed) == (refusal, speed)).count()
    };
    for speed in [1, 2, 19, 20, 21, 300] {
        assert!(count(None, speed) > 100, "{speed}");
    }
    for speed in 3..=18 {
        assert!(count(None, speed) > 10, "{speed}");
    }
    for speed in [0, 301] {
        assert!(count(Some(9), speed) > 10, "{speed}");
    }
    let slow = entries.iter().filter(|entry| entry.refusal().is_none() && entry.speed < 20).count();
    assert!(slow > entries.len() / 20 && slow < entries.len() / 2);
}
