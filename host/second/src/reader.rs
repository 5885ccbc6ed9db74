//! The reading of a study's text (01, "The text"): the study, or number and line of the first fault.

use crate::study::{Entry, Segment, Study, ENTRY_LIMIT, SEGMENT_LIMIT};

pub const TEXT_LIMIT: usize = 16_384;
pub const FORM: u32 = 12;
const CONTENTS: u32 = 13;

#[derive(Clone, Copy, PartialEq, Eq, Debug)]
pub struct Refusal {
    pub number: u32,
    /// Counted from 1; 0 where there is none.
    pub line: u32,
}

/// One to five digits, a minus if below zero, no spare leading zero, no minus zero.
fn number(word: &[u8]) -> Option<i32> {
    let (negative, digits) = match word.split_first() {
        Some((b'-', rest)) => (true, rest),
        _ => (false, word),
    };
    let plain = (1..=5).contains(&digits.len()) && digits.iter().all(u8::is_ascii_digit);
    let spare_zero = digits.len() > 1 && digits[0] == b'0';
    if !plain || spare_zero || (negative && digits == b"0") {
        return None;
    }
    let size = digits.iter().fold(0, |value, &digit| 10 * value + (digit - b'0') as i32);
    Some(if negative { -size } else { size })
}

/// All numbers of a line; none when any word is out of form.
fn numbers(line: &[u8]) -> Option<Vec<i32>> {
    line.split(|&byte| byte == b' ').map(number).collect()
}

struct Lines<'a> {
    rest: &'a [u8],
    /// Lines handed out so far.
    count: u32,
}

impl<'a> Lines<'a> {
    fn refused(&self, number: u32) -> Refusal {
        Refusal { number, line: self.count }
    }

    /// The numbers of the next line, which is then the last one counted.
    fn next(&mut self) -> Result<Vec<i32>, Refusal> {
        self.count += 1;
        if self.rest.is_empty() {
            return Err(self.refused(CONTENTS));
        }
        let Some(end) = self.rest.iter().position(|&byte| byte == b'\n') else {
            return Err(self.refused(FORM));
        };
        let line = &self.rest[..end];
        self.rest = &self.rest[end + 1..];
        numbers(line).ok_or(self.refused(FORM))
    }

    fn next_of<const N: usize>(&mut self) -> Result<[i32; N], Refusal> {
        let list = self.next()?;
        list.try_into().map_err(|_| self.refused(FORM))
    }

    /// The entry count of each segment.
    fn contents(&mut self) -> Result<Vec<i32>, Refusal> {
        let list = self.next()?;
        if list.len() as i64 != list[0] as i64 + 1 {
            return Err(self.refused(FORM));
        }
        let counts = &list[1..];
        let each = counts.iter().all(|count| (0..=ENTRY_LIMIT as i32).contains(count));
        let total: i64 = counts.iter().map(|&count| count as i64).sum();
        let segments = (1..=SEGMENT_LIMIT as i32).contains(&list[0]);
        if !segments || !each || !(1..=ENTRY_LIMIT as i64).contains(&total) {
            return Err(self.refused(CONTENTS));
        }
        Ok(counts.to_vec())
    }
}

pub fn read(text: &[u8]) -> Result<Study, Refusal> {
    if text.len() > TEXT_LIMIT {
        return Err(Refusal { number: FORM, line: 0 });
    }
    let mut lines = Lines { rest: text, count: 0 };
    let mut study = Study::default();
    for count in lines.contents()? {
        let segment = Segment::from_numbers(&lines.next_of()?);
        if let Some(number) = segment.refusal() {
            return Err(lines.refused(number));
        }
        study.segments.push(segment);
        for _ in 0..count {
            let entry = Entry::from_numbers(&lines.next_of()?);
            if let Some(number) = entry.refusal() {
                return Err(lines.refused(number));
            }
            study.entries.push((study.segments.len() - 1, entry));
        }
    }
    if !lines.rest.is_empty() {
        return Err(Refusal { number: CONTENTS, line: lines.count + 1 });
    }
    Ok(study)
}

#[cfg(test)]
mod tests {
    use super::*;

    fn refused(text: &str) -> (u32, u32) {
        read(text.as_bytes()).map_or_else(|r| (r.number, r.line), |_| (0, 0))
    }

    const SEGMENT: &str = "2500 0 100 10 180 180 0 0 0 0 0 0 0 0 0\n";

    #[test]
    fn number_forms() {
        for word in ["", "-", "-0", "00", "01", "+1", "100000", "1.", "a", "-01", " 1", "1\t", "--1", "-100000"] {
            assert_eq!(number(word.as_bytes()), None, "{word:?}");
        }
        for (word, value) in [("0", 0), ("-99999", -99999), ("99999", 99999), ("-1", -1), ("10", 10)] {
            assert_eq!(number(word.as_bytes()), Some(value));
        }
    }

    #[test]
    fn contents_forms() {
        let counts = |n: usize| " 1".repeat(n);
        assert_eq!(refused(""), (13, 1));
        assert_eq!(refused("\n"), (12, 1));
        assert_eq!(refused("0\n"), (13, 1));
        assert_eq!(refused("-1\n"), (12, 1));
        assert_eq!(refused("1\n"), (12, 1));
        assert_eq!(refused("1 0\n"), (13, 1));
        assert_eq!(refused("1 97\n"), (13, 1));
        assert_eq!(refused("1 97 x\n"), (12, 1));
        assert_eq!(refused("1 -1\n"), (13, 1));
        assert_eq!(refused("2 48 49\n"), (13, 1));
        assert_eq!(refused(&format!("25{}\n", counts(25))), (13, 1));
        assert_eq!(refused(&format!("25{}\n", counts(24))), (12, 1));
        assert_eq!(refused(&format!("25{}\n", counts(26))), (12, 1));
        assert_eq!(refused(&format!("8000{}\n", counts(8000))), (13, 1));
        assert_eq!(refused("1 1"), (12, 1));
        assert_eq!(refused("1 1\n"), (13, 2));
    }

    #[test]
    fn a_segment_has_fifteen_numbers() {
        let short = SEGMENT.replacen(" 0\n", "\n", 1);
        let long = SEGMENT.replacen('\n', " 0\n", 1);
        for (line, outcome) in [(SEGMENT, (0, 0)), (&short, (12, 2)), (&long, (12, 2))] {
            assert_eq!(refused(&format!("1 1\n{line}1 100 1 1 1\n")), outcome, "{line}");
        }
    }

    #[test]
    fn form_comes_before_a_figure() {
        let cases = [(" x", 12), ("", 12), (" 0 0", 12), (" 0", 1)];
        for (last, number) in cases {
            let text = format!("1 1\n999 0 600 0 180 180 0 0 0 0 0 0 0 0{last}\n1 100 1 1 1\n");
            assert_eq!(refused(&text), (number, 2), "{text}");
        }
    }

    #[test]
    fn lines_missing_extra_and_unended() {
        let good = format!("1 1\n{SEGMENT}1 100 1 1 1\n");
        assert_eq!(refused(&good), (0, 0));
        assert_eq!(refused(&good[..good.len() - 1]), (12, 3));
        assert_eq!(refused(&format!("1 1\n{SEGMENT}")), (13, 3));
        for extra in ["\n", "x", "1 100 1 1 1\n", "\0\n\n"] {
            assert_eq!(refused(&format!("{good}{extra}")), (13, 4));
        }
        assert_eq!(refused(&format!("1 1\n{SEGMENT}99 100 1 1\n")), (12, 3));
        assert_eq!(refused(&format!("1 1\n{SEGMENT}99 1 0 -1 1\n")), (8, 3));
        assert_eq!(refused(&format!("1 1\n{SEGMENT}99 1 0 -1 01\n")), (12, 3));
        assert_eq!(refused(&"9".repeat(16_385)), (12, 0));
        assert_eq!(refused(&"9".repeat(16_384)), (12, 1));
    }
}
