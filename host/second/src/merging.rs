//! Two drawings as one study (02, L5), and whether an observed answer of railnoise_merged_levels, with its cells, is
//! one that 01 and 02 allow: the merged study has the levels that it would have if it had been typed whole.

use crate::check::{check_outcome, difference, Difference, Part, Report};
use crate::interface::MergedAnswer;
use crate::reader::{read, Refusal, TEXT_LIMIT};
use crate::study::{Study, ENTRY_LIMIT, SEGMENT_LIMIT};

pub const EXTRA_SEGMENT: u32 = 21;
pub const EXTRA_ENTRY: u32 = 22;

/// All segments and entries of the first, then those of the second, each entry with its own segment; or the number of
/// the refusal. Either may be without entries.
pub fn merge(first: &Study, second: &Study) -> Result<Study, u32> {
    if first.segments.len() + second.segments.len() > SEGMENT_LIMIT {
        return Err(EXTRA_SEGMENT);
    }
    if first.entries.len() + second.entries.len() > ENTRY_LIMIT {
        return Err(EXTRA_ENTRY);
    }
    let mut study = first.clone();
    study.segments.extend_from_slice(&second.segments);
    let moved = second.entries.iter().map(|&(position, entry)| (first.segments.len() + position, entry));
    study.entries.extend(moved);
    Ok(study)
}

/// What two texts come to: the number of the text that is refused, else 0, and the merged study or the refusal.
pub fn read_both([first, second]: [&[u8]; 2]) -> (u32, Result<Study, Refusal>) {
    match (read(first), read(second)) {
        (Err(refusal), _) => (1, Err(refusal)),
        (Ok(_), Err(refusal)) => (2, Err(refusal)),
        (Ok(first), Ok(second)) => (0, merge(&first, &second).map_err(|number| Refusal { number, line: 0 })),
    }
}

/// The entry counts of a good text's contents line, as they stand there, and the lines after it.
fn counts_and_lines(text: &[u8]) -> (Vec<&[u8]>, &[u8]) {
    let end = text.iter().position(|&byte| byte == b'\n').expect("a good text");
    (text[..end].split(|&byte| byte == b' ').skip(1).collect(), &text[end + 1..])
}

/// Two good texts typed as one: a contents line with the counts of both, all lines of the first, all of the second.
pub fn typed_whole(texts: [&[u8]; 2]) -> Vec<u8> {
    let [(first_counts, first_lines), (second_counts, second_lines)] = texts.map(counts_and_lines);
    let counts = [first_counts, second_counts].concat();
    let contents = [counts.len().to_string().as_bytes(), &counts.join(&b' ')].join(&b' ');
    let text = [&contents, &b"\n"[..], first_lines, second_lines].concat();
    // The lines of two good texts do not come near the limit.
    assert!(text.len() <= TEXT_LIMIT);
    text
}

/// Whether 01 and 02 allow this answer with these cells after it, for these two texts and these cells before it.
pub fn check(texts: [&[u8]; 2], before: &[i32], after: &[i32], answer: &MergedAnswer) -> Result<Report, Difference> {
    let (text, outcome) = read_both(texts);
    if answer.text != text {
        return difference(Part::Refusal, format!("text {}, expected {text} with {:?}", answer.text, outcome.err()));
    }
    check_outcome(outcome, before, after, &answer.whole())
}
