//! Texts out of form or with wrong contents, one way for each fault of 01's "The text".

use crate::generate::{Draft, Random};
use crate::reader::TEXT_LIMIT;

const BAD_WORDS: [&str; 22] = [
    "", "-", "-0", "00", "01", "+1", "100000", "-99999", "99999", "1.0", "1e3", "0x1", "--1", "1-", "-01", "a", "\t1",
    "1\r", "\u{0663}", "\0", "000000", "1,0",
];

/// The text as lines without their line feeds.
fn lines_of(text: &[u8]) -> Vec<Vec<u8>> {
    let mut lines: Vec<Vec<u8>> = text.split(|&byte| byte == b'\n').map(<[u8]>::to_vec).collect();
    lines.pop();
    lines
}

fn joined(lines: &[Vec<u8>]) -> Vec<u8> {
    let mut text = Vec::new();
    for line in lines {
        text.extend_from_slice(line);
        text.push(b'\n');
    }
    text
}

/// A line's words, and a change of them.
type Words = Vec<Vec<u8>>;
type Change = fn(&mut Random, &mut Words);

fn wrong_word(random: &mut Random, words: &mut Words) {
    let place = random.below(words.len());
    words[place] = random.pick(&BAD_WORDS).as_bytes().to_vec();
}

/// A good word with something before or after it.
fn grown_word(random: &mut Random, words: &mut Words) {
    let place = random.below(words.len());
    let extra = random.pick(&["0", "-", "+", " ", "\t", "\r", "\0", "9", "\u{a0}"]).as_bytes();
    let word = std::mem::take(&mut words[place]);
    words[place] = if random.chance(50) { [extra, &word].concat() } else { [&word, extra].concat() };
}

fn wrong_count(random: &mut Random, words: &mut Words) {
    if random.chance(50) {
        words.pop();
    } else {
        words.push(b"0".to_vec());
    }
}

/// The line at a place, from 0, changed in its words.
fn with_words(random: &mut Random, text: &[u8], place: usize, change: Change) -> Vec<u8> {
    let mut lines = lines_of(text);
    let mut words: Words = lines[place].split(|&byte| byte == b' ').map(<[u8]>::to_vec).collect();
    change(random, &mut words);
    lines[place] = words.join(&b' ');
    joined(&lines)
}

/// Some line changed in its words.
fn with_some_words(random: &mut Random, text: &[u8], change: Change) -> Vec<u8> {
    let place = random.below(lines_of(text).len());
    with_words(random, text, place, change)
}

/// The line at a place, from 0, out of form but for few changes: whatever its figures are, that comes first.
pub fn out_of_form(random: &mut Random, text: &[u8], place: usize) -> Vec<u8> {
    let change = random.pick::<Change>(&[wrong_word, grown_word, wrong_count]);
    with_words(random, text, place, change)
}

/// A contents line written anew over the same study lines.
fn wrong_contents(random: &mut Random, draft: &Draft) -> Vec<u8> {
    let counts: Vec<String> = draft.segments.iter().map(|(_, entries)| entries.len().to_string()).collect();
    let ones = |count: usize| " 1".repeat(count);
    let zeros = |count: usize| " 0".repeat(count);
    let line = match random.below(20) {
        0 => "0".to_string(),
        1 => "-1".to_string(),
        2 => format!("25{}", ones(25)),
        3 => format!("25{}", ones(24)),
        4 => format!("25{}", ones(26)),
        5 => "1".to_string(),
        6 => "1 0".to_string(),
        7 => "1 97".to_string(),
        8 => "1 97 x".to_string(),
        9 => "2 48 49".to_string(),
        10 => "1 -1".to_string(),
        11 => format!("24{}", zeros(24)),
        12 => format!("{} {}", counts.len() + 1, counts.join(" ")),
        13 => format!("{} {}", counts.len(), [&counts[..], &["0".to_string()]].concat().join(" ")),
        14 => format!("{} {}", counts.len() + 1, [&counts[..], &["0".to_string()]].concat().join(" ")),
        15 => {
            let count = random.between(26, 8000) as usize;
            format!("{count}{}", zeros(count + random.pick(&[0, 0, 1]) - random.pick(&[0, 0, 1])))
        }
        16 => "99999 1".to_string(),
        17 => "-99999 1".to_string(),
        18 => format!("{} {}", counts.len(), vec!["99999"; counts.len()].join(" ")),
        _ => "2 97 -1".to_string(),
    };
    let mut lines = lines_of(&draft.text());
    lines[0] = line.into_bytes();
    joined(&lines)
}

fn line_changed(random: &mut Random, text: &[u8]) -> Vec<u8> {
    let mut lines = lines_of(text);
    let place = random.below(lines.len());
    match random.below(6) {
        0 => {
            lines.remove(place);
        }
        1 => lines.insert(place, lines[place].clone()),
        2 => lines.swap(place, 0),
        3 => lines.insert(place, Vec::new()),
        4 => lines.truncate(place),
        _ => {
            let other = random.below(lines.len());
            lines.swap(place, other);
        }
    }
    joined(&lines)
}

fn extra_line(random: &mut Random, text: &[u8]) -> Vec<u8> {
    let extra = random.pick(&["\n", "x", "1 100 1 1 1\n", "1 100 1 1 1", "\0", " ", "\n\n", "-0\n", "\u{ff}\n"]);
    [text, extra.as_bytes()].concat()
}

fn without_end(random: &mut Random, text: &[u8]) -> Vec<u8> {
    match random.below(3) {
        0 => text[..text.len() - 1].to_vec(),
        1 => text[..random.below(text.len() + 1)].to_vec(),
        _ => {
            let lines = lines_of(text);
            let kept = joined(&lines[..random.below(lines.len()) + 1]);
            kept[..kept.len() - 1].to_vec()
        }
    }
}

/// A text of exactly the limit, or a byte more or less, good in its first part.
pub fn at_length_limit(random: &mut Random, text: &[u8]) -> Vec<u8> {
    let length = TEXT_LIMIT + random.below(3) - 1;
    let mut long = if random.chance(70) { text.to_vec() } else { Vec::new() };
    let filler = random.pick(b"\n0 9x");
    long.resize(length, filler);
    if random.chance(50) {
        long[length - 1] = b'\n';
    }
    long
}

fn changed_bytes(random: &mut Random, text: &[u8]) -> Vec<u8> {
    let mut changed = text.to_vec();
    for _ in 0..random.pick(&[1, 1, 1, 2, 5]) {
        let place = random.below(changed.len());
        match random.below(4) {
            0 => changed[place] = random.word() as u8,
            1 => changed.insert(place, random.pick(b"0123456789- \n\r\t+.")),
            2 if changed.len() > 1 => {
                changed.remove(place);
            }
            _ => changed[place] ^= 1 << random.below(8),
        }
    }
    changed
}

fn no_study(random: &mut Random) -> Vec<u8> {
    match random.below(4) {
        0 => Vec::new(),
        1 => b"\n".to_vec(),
        2 => (0..random.below(200)).map(|_| random.word() as u8).collect(),
        _ => (0..random.below(200)).map(|_| random.pick(b"0123456789 -\n")).collect(),
    }
}

/// A damaged text and the name of the damage.
pub fn damage(random: &mut Random, draft: &Draft) -> (Vec<u8>, &'static str) {
    let text = draft.text();
    match random.below(11) {
        0 | 1 => (with_some_words(random, &text, wrong_word), "wrong word"),
        2 => (with_some_words(random, &text, grown_word), "grown word"),
        3 => (with_some_words(random, &text, wrong_count), "wrong count"),
        4 | 5 => (wrong_contents(random, draft), "wrong contents"),
        6 => (line_changed(random, &text), "line changed"),
        7 => (extra_line(random, &text), "extra line"),
        8 => (without_end(random, &text), "without end"),
        9 if random.chance(20) => (at_length_limit(random, &text), "length limit"),
        10 if random.chance(30) => (no_study(random), "no study"),
        _ => (changed_bytes(random, &text), "changed bytes"),
    }
}
