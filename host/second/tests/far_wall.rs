//! Walls on the far side (02, L1): the fifteenth figure's refusals, worked cases of the reduced step, whose
//! figures were worked out apart from this implementation, and how often the generator comes to them.

use second::generate::case;
use second::levels::{Period, Workings};
use second::mock::levels;
use second::reader::read;
use second::steps::{in_shadow, nearest_tenth, screen, screen_alone, wall_loss};
use second::study::Segment;

/// A screen in a retained cut, without its far wall.
const CUT: Segment = Segment {
    distance: 6200,
    window_height: 150,
    mean_height: 300,
    soft_ground: 4,
    view_angle: 90,
    double_angle: 120,
    screen: 1,
    screen_distance: 900,
    screen_top: 260,
    reflection_reading: 0,
    track_reading: 0,
    ballast_reading: 0,
    facade: 1,
    opposite_angle: 10,
    wall: 0,
};

const OPEN: Segment = Segment { screen: 0, screen_distance: 0, screen_top: 0, ..CUT };

#[test]
fn a_wall_out_of_range_or_without_a_screen_is_5() {
    for (wall, behind, open) in [(0, None, None), (1, None, Some(5)), (100, None, Some(5))] {
        assert_eq!(Segment { wall, ..CUT }.refusal(), behind, "{wall}");
        assert_eq!(Segment { wall, screen: 2, ..CUT }.refusal(), behind, "{wall}");
        assert_eq!(Segment { wall, ..OPEN }.refusal(), open, "{wall}");
    }
    for wall in [-1, 101, -99_999, 99_999] {
        assert_eq!(Segment { wall, ..CUT }.refusal(), Some(5), "{wall}");
        assert_eq!(Segment { wall, ..OPEN }.refusal(), Some(5), "{wall}");
    }
}

#[test]
fn a_wall_is_judged_after_4_and_before_6_and_7() {
    let beyond = Segment { screen_top: 3000, ..CUT };
    assert_eq!((beyond.refusal(), Segment { wall: 101, ..beyond }.refusal()), (Some(6), Some(5)));
    let track = Segment { track_reading: 151, ..CUT };
    assert_eq!((track.refusal(), Segment { wall: -1, ..track }.refusal()), (Some(7), Some(5)));
    assert_eq!(Segment { wall: 20, track_reading: 151, ..OPEN }.refusal(), Some(5));
    assert_eq!(Segment { wall: 101, double_angle: 181, ..CUT }.refusal(), Some(4));
}

/// The text of the cut with window, screen top and wall changed, and one train entry.
fn text(segment: &Segment) -> Vec<u8> {
    let Segment { window_height: h, screen_top: b, reflection_reading: c, screen, wall, .. } = segment;
    format!("1 1\n6200 {h} 300 4 90 120 {screen} 900 {b} {c} 0 0 1 10 {wall}\n4 95 12 40 7\n").into_bytes()
}

/// Day and night level in tenths.
fn answered(segment: &Segment) -> [i32; 2] {
    let answer = levels(&text(segment), &mut [0; 2], false);
    assert_eq!((answer.refusal, answer.day.close, answer.night.close), (0, 0, 0));
    answer.periods().map(|period| period.level)
}

fn bare_by_day(segment: &Segment) -> Option<i64> {
    let study = read(&text(segment)).expect("a good text");
    Workings::of(&study).bare_level(Period::Day)
}

#[test]
fn half_a_decibel_is_lost_for_each_metre() {
    let steps = [(0, -147), (14, -147), (15, -137), (24, -137), (25, -132), (34, -132), (35, -127), (100, -97)];
    for (wall, step) in steps {
        let segment = Segment { wall, ..CUT };
        assert_eq!(nearest_tenth(screen(&segment)), step, "{wall}");
        assert_eq!(answered(&segment), [570 + step as i32, 543 + step as i32], "{wall}");
    }
    for (wall, bare) in [(0, 42_165_849), (14, 42_165_849), (15, 43_165_849), (24, 43_165_849)] {
        assert_eq!(bare_by_day(&Segment { wall, ..CUT }), Some(bare), "{wall}");
    }
}

#[test]
fn the_reduced_step_stops_at_zero_before_the_reading() {
    let lit = Segment { window_height: 800, screen_top: 60, ..CUT };
    for (wall, step) in [(0, -27), (15, -17), (100, 0)] {
        let segment = Segment { wall, ..lit };
        assert_eq!(nearest_tenth(screen(&segment)), step, "{wall}");
        assert_eq!(answered(&segment)[0], 569 + step as i32, "{wall}");
        let reflective = Segment { screen: 2, reflection_reading: 27, ..segment };
        assert_eq!(answered(&reflective)[0], 569 + step as i32 + 27, "{wall}");
    }
    assert_eq!(screen(&Segment { wall: 100, ..lit }), 0);
}

#[test]
fn a_step_above_zero_stays_without_a_loss() {
    let above = Segment { window_height: 312, screen_top: -202, ..CUT };
    for (wall, fence, bare) in [(0, 16_972, 56_865_257), (14, 16_972, 56_865_257), (20, 0, 56_848_285)] {
        let segment = Segment { wall, ..above };
        assert_eq!(screen(&segment), fence, "{wall}");
        assert_eq!(bare_by_day(&segment), Some(bare), "{wall}");
        assert_eq!(answered(&segment)[0], 569, "{wall}");
    }
}

/// Every line of 15 numbers in so many texts, good or refused.
fn segments_of_texts(count: u64) -> Vec<Segment> {
    let numbers = |line: &str| line.split(' ').map(|word| word.parse().ok()).collect::<Option<Vec<i32>>>();
    let segment = |line: &str| numbers(line)?.try_into().ok().map(|list| Segment::from_numbers(&list));
    let in_text = |text: Vec<u8>| String::from_utf8_lossy(&text).lines().filter_map(segment).collect::<Vec<Segment>>();
    (0..count).flat_map(|index| in_text(case(13, index).text)).collect()
}

#[test]
fn the_generator_comes_to_every_case() {
    let segments = segments_of_texts(4000);
    // By what is refused with the wall, and what without.
    let count = |with: Option<u32>, without: Option<u32>, found: &dyn Fn(&Segment) -> bool| {
        let judged = |s: &&Segment| (s.refusal(), Segment { wall: 0, ..**s }.refusal()) == (with, without);
        segments.iter().filter(judged).filter(|s| found(s)).count()
    };
    let good = |found: &dyn Fn(&Segment) -> bool| count(None, None, found);
    for height in [14, 15, 24, 25, 34, 100] {
        assert!(good(&|s| s.wall == height) > 100, "{height}");
    }
    let walled = good(&|s| s.wall != 0);
    assert!(walled > 2000 && good(&|s| s.wall == 0) > 3 * walled);
    let loss = |s: &Segment| s.wall >= 15;
    let reduced = |s: &Segment| screen_alone(s) + wall_loss(s.wall);
    assert!(good(&|s| loss(s) && in_shadow(s)) > 500);
    assert!(good(&|s| loss(s) && reduced(s) > 0) > 500);
    assert!(good(&|s| loss(s) && !in_shadow(s) && reduced(s) <= 0) > 500);
    assert!(good(&|s| loss(s) && reduced(s).abs() < 10_000) > 50);
    assert!(good(&|s| loss(s) && (reduced(s) + 50_000).abs() < 10_000) > 50);
    assert!(good(&|s| s.screened() && !loss(s) && screen(s) > 0) > 200);
    for wall in [-1, 101] {
        assert!(count(Some(5), None, &|s| s.screened() && s.wall == wall) > 3, "{wall}");
    }
    assert!(count(Some(5), None, &|s| !s.screened()) > 10);
    for later in [6, 7] {
        assert!(count(Some(5), Some(later), &|_| true) > 5, "{later}");
    }
}
