//! A second implementation of the railnoise rules, written from the requirements alone, and the
//! check of an observed answer against everything those rules allow.

pub mod big;
pub mod check;
pub mod choices;
pub mod damage;
pub mod drawings;
pub mod edges;
pub mod energy;
pub mod entitlement;
pub mod generate;
pub mod guarded;
pub mod interface;
pub mod levels;
pub mod logarithm;
pub mod merged_tally;
pub mod merging;
pub mod mock;
pub mod reader;
pub mod requests;
pub mod speed;
pub mod speed_requests;
pub mod speed_tally;
pub mod spoil;
pub mod steps;
pub mod study;
pub mod tally;
pub mod wide;

/// A list that is handed over from C.
///
/// # Safety
/// The pointer is null with length 0, or good for its length.
#[cfg(not(feature = "mock"))]
unsafe fn list<'a, T>(start: *const T, length: usize) -> &'a [T] {
    if start.is_null() {
        &[]
    } else {
        std::slice::from_raw_parts(start, length)
    }
}

/// 1 when an answer is allowed, else 0 with the reason on standard error.
#[cfg(not(feature = "mock"))]
fn told(outcome: Result<check::Report, check::Difference>) -> i32 {
    match outcome {
        Ok(_) => 1,
        Err(found) => {
            eprintln!("not allowed: {:?}: {}", found.part, found.words);
            0
        }
    }
}

/// For test programs in C: 1 when the answer is allowed, else 0 with the reason on standard error.
///
/// # Safety
/// Each pointer is null with length 0, or good for its length; both cell lists have `cell_count` cells.
#[cfg(not(feature = "mock"))]
#[no_mangle]
pub unsafe extern "C" fn second_allows(
    text: *const u8,
    text_length: usize,
    before: *const i32,
    after: *const i32,
    cell_count: usize,
    answer: *const interface::Answer,
) -> i32 {
    told(check::check(list(text, text_length), list(before, cell_count), list(after, cell_count), &*answer))
}

/// Likewise for two drawings.
///
/// # Safety
/// As of `second_allows`.
#[cfg(not(feature = "mock"))]
#[no_mangle]
pub unsafe extern "C" fn second_allows_merged(
    first: *const u8,
    first_length: usize,
    second: *const u8,
    second_length: usize,
    before: *const i32,
    after: *const i32,
    cell_count: usize,
    answer: *const interface::MergedAnswer,
) -> i32 {
    let texts = [list(first, first_length), list(second, second_length)];
    told(merging::check(texts, list(before, cell_count), list(after, cell_count), &*answer))
}
