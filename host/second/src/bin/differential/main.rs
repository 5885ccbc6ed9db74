//! Holds railnoise_levels, or the plain C program, against the second implementation on many texts; then
//! railnoise_entitlement on many requests of four texts, railnoise_merged_levels on many pairs, and
//! railnoise_highest_speed on many requests of one text.
//!
//! differential [--of product|plain|digits] [--only INDEX | --case INDEX | --pair INDEX | --speed INDEX] [--dump]
//!     [--corpus DIRECTORY] SEED COUNT
//!
//! One summary line for each function; exit 1 at the first difference, with its text or texts. --only tries
//! one text alone, --case one request of four texts, --pair one pair, --speed one request for the highest speed. The
//! plain program is not expected to agree: its misreadings are counted, and the exit is 0. It has no requests. --dump
//! writes texts and answers for crosscheck.py, --corpus only writes the texts and the pairs, as files for the fuzzer.

mod entitlement;
mod merged;
mod speed;

use std::collections::{BTreeMap, HashMap};
use std::io::Write;
use std::ops::Range;
use std::path::{Path, PathBuf};
use std::process::exit;
use std::sync::atomic::{AtomicU64, AtomicU8, Ordering};
use std::time::Instant;

use second::check::{check, Difference, Part, Report};
use second::generate::{case, Case, Random};
use second::guarded::Guarded;
use second::interface::{Answer, Levels};
use second::levels::{Period, Workings};
use second::reader::read;
use second::study::Study;

extern "C" {
    #[cfg(product)]
    fn railnoise_levels(text: *const u8, text_length: usize, cells: *mut i32, cell_count: usize) -> Answer;
    fn plain_levels(text: *const u8, text_length: usize, cells: *mut i32, cell_count: usize) -> Answer;
    fn digits_levels(text: *const u8, text_length: usize, cells: *mut i32, cell_count: usize) -> Answer;
    fn signal(number: i32, handler: extern "C" fn(i32)) -> usize;
    fn write(file: i32, bytes: *const u8, length: usize) -> isize;
    fn _exit(status: i32) -> !;
}

#[cfg(product)]
const PRODUCT: Option<Levels> = Some(railnoise_levels);
#[cfg(not(product))]
const PRODUCT: Option<Levels> = None;

/// The runs, in their order.
#[derive(Clone, Copy, PartialEq, Eq)]
enum Run {
    Texts,
    Requests,
    Pairs,
    Speeds,
}

/// The run, and the number of what is under trial in it, for the message of a crash.
static RUN: AtomicU8 = AtomicU8::new(0);
static CURRENT: AtomicU64 = AtomicU64::new(0);

const AT_CRASH: [&str; 4] = ["text ", "entitlement case ", "pair ", "speed request "];

fn note_current(run: Run, index: u64) {
    RUN.store(run as u8, Ordering::Relaxed);
    CURRENT.store(index, Ordering::Relaxed);
}

/// Only calls that are safe in a signal handler.
extern "C" fn crashed(_: i32) {
    let mut digits = [b'0'; 20];
    let mut rest = CURRENT.load(Ordering::Relaxed);
    for digit in digits.iter_mut().rev() {
        *digit = b'0' + (rest % 10) as u8;
        rest /= 10;
    }
    let what = AT_CRASH[RUN.load(Ordering::Relaxed) as usize].as_bytes();
    unsafe {
        for words in [b"differential: crash at ", what, &digits, b"\n"] {
            write(2, words.as_ptr(), words.len());
        }
        _exit(1)
    }
}

struct Options {
    /// The plain program's name and function, if one of its forms is tried and not the product.
    plain: Option<(&'static str, Levels)>,
    /// One text, pair or request alone.
    only: Option<(Run, u64)>,
    dump: bool,
    corpus: Option<PathBuf>,
    seed: u64,
    count: u64,
}

impl Options {
    /// What a run tries, out of so many: all, the one that is asked for, or nothing where another run is.
    fn range(&self, run: Run, count: u64) -> Option<Range<u64>> {
        match self.only {
            None => Some(0..count),
            Some((asked, index)) => (asked == run).then_some(index..index + 1),
        }
    }
}

fn usage() -> ! {
    eprintln!(
        "usage: differential [--of product|plain|digits] [--only INDEX | --case INDEX | --pair INDEX | --speed INDEX] \
         [--dump] [--corpus DIRECTORY] SEED COUNT"
    );
    exit(2)
}

fn options() -> Options {
    let mut options = Options { plain: None, only: None, dump: false, corpus: None, seed: 0, count: 0 };
    let mut numbers = Vec::new();
    let index = |word: Option<String>| word.and_then(|word| word.parse().ok()).unwrap_or_else(|| usage());
    let mut words = std::env::args().skip(1);
    while let Some(word) = words.next() {
        match word.as_str() {
            "--of" => match words.next().as_deref() {
                Some("plain") => options.plain = Some(("plain", plain_levels)),
                Some("digits") => options.plain = Some(("digits", digits_levels)),
                Some("product") => {}
                _ => usage(),
            },
            "--only" => options.only = Some((Run::Texts, index(words.next()))),
            "--case" => options.only = Some((Run::Requests, index(words.next()))),
            "--pair" => options.only = Some((Run::Pairs, index(words.next()))),
            "--speed" => options.only = Some((Run::Speeds, index(words.next()))),
            "--dump" => options.dump = true,
            "--corpus" => options.corpus = Some(words.next().unwrap_or_else(|| usage()).into()),
            _ => numbers.push(word.parse::<u64>().unwrap_or_else(|_| usage())),
        }
    }
    let [seed, count] = numbers[..] else { usage() };
    (options.seed, options.count) = (seed, count);
    options
}

/// Where text and cells lie during a call.
struct Bench {
    levels: Levels,
    text: Guarded,
    cells: Guarded,
}

impl Bench {
    fn of(levels: Levels) -> Bench {
        Bench { levels, text: Guarded::new(1 << 17), cells: Guarded::new(1 << 14) }
    }

    /// The answer and the cells after it; the text must be untouched.
    fn call(&mut self, text: &[u8], before: &[i32], at_end: bool) -> (Answer, Vec<i32>) {
        let lent = self.text.bytes(text, at_end);
        let cells = self.cells.cells(before, at_end);
        // An empty list is handed over as null half of the time.
        let start = if text.is_empty() && at_end { std::ptr::null() } else { lent.as_ptr() };
        let first = if before.is_empty() && at_end { std::ptr::null_mut() } else { cells.as_mut_ptr() };
        let answer = unsafe { (self.levels)(start, text.len(), first, before.len()) };
        let untouched: &[u8] = lent;
        assert!(untouched == text, "the text was written to");
        (answer, cells.to_vec())
    }
}

#[derive(Default)]
struct Summary {
    accepted: u64,
    refused: BTreeMap<u32, u64>,
    kinds: BTreeMap<&'static str, u64>,
    all: Report,
    unsteady: u64,
    steady: HashMap<(i32, i32, i32), bool>,
    misread: BTreeMap<String, u64>,
}

impl Summary {
    fn add(&mut self, kind: &'static str, report: Report) {
        *self.kinds.entry(kind).or_default() += 1;
        if report.refusal != 0 {
            *self.refused.entry(report.refusal).or_default() += 1;
            return;
        }
        self.accepted += 1;
        self.all.gather(&report);
        for (figures, taken) in report.shown {
            self.unsteady += (*self.steady.entry(figures).or_insert(taken) != taken) as u64;
        }
    }

    fn line(&self, options: &Options, seconds: f64) -> String {
        let refused: Vec<String> = self.refused.iter().map(|(number, count)| format!("{number}:{count}")).collect();
        let kinds: Vec<String> = self.kinds.iter().map(|(kind, count)| format!("{kind} {count}")).collect();
        format!(
            "differential: seed {} texts {} ({}); accepted {}; refused {}; {} unsteady {}; {}; {:.1} s",
            options.seed,
            options.count,
            kinds.join(", "),
            self.accepted,
            refused.join(" "),
            self.all.marks(),
            self.unsteady,
            self.all.largest_difference(),
            seconds,
        )
    }
}

/// A text of a difference, as it is.
fn show_text(name: &str, text: &[u8]) {
    println!("{name}, {} bytes:", text.len());
    let _ = std::io::stdout().write_all(text);
    println!("<end>");
}

fn fail(options: &Options, index: u64, case: &Case, answer: &Answer, found: &Difference) -> ! {
    println!("difference: seed {} text {index} ({}), {} cells", options.seed, case.kind, case.cells);
    println!("{:?}: {}", found.part, found.words);
    println!("answer: {answer:?}");
    show_text("text", &case.text);
    exit(1)
}

/// Text, answer, cells and bare levels, for a comparison by another program.
fn dump(index: u64, case: &Case, answer: &Answer, after: &[i32]) {
    let mut out = std::io::stdout().lock();
    let _ = writeln!(out, "case {index} {} {}", case.text.len(), after.len());
    let _ = out.write_all(&case.text);
    let periods = answer.periods().map(|p| format!("{} {} {} {}", p.silent, p.level, p.close, p.met));
    let cells: Vec<String> = after.iter().map(|cell| cell.to_string()).collect();
    let _ = writeln!(out, "\nanswer {} {} {}", answer.refusal, answer.line, periods.join(" "));
    let _ = writeln!(out, "cells {}", cells.join(" "));
    let bare =
        |study: &Study, period| Workings::of(study).bare_level(period).map_or("silent".to_string(), |m| m.to_string());
    if let (0, Ok(study)) = (answer.refusal, read(&case.text)) {
        let _ = writeln!(out, "bare {} {}", bare(&study, Period::Day), bare(&study, Period::Night));
    }
}

/// One text: checked, and at times answered again over other cells, where nothing may differ.
fn try_text(options: &Options, bench: &mut Bench, index: u64, summary: &mut Summary) {
    let case = case(options.seed, index);
    let random = &mut Random::new(!options.seed, index);
    let before: Vec<i32> = (0..case.cells).map(|_| random.word() as i32).collect();
    let at_end = random.chance(75);
    let (answer, after) = bench.call(&case.text, &before, at_end);
    if options.dump {
        return dump(index, &case, &answer, &after);
    }
    match check(&case.text, &before, &after, &answer) {
        Ok(report) => summary.add(case.kind, report),
        Err(found) if options.plain.is_some() => {
            let good = if read(&case.text).is_ok() { "good" } else { "bad" };
            *summary.misread.entry(format!("{good} {:?}", found.part)).or_default() += 1;
        }
        Err(found) => fail(options, index, &case, &answer, &found),
    }
    if options.plain.is_none() && random.chance(15) {
        let other: Vec<i32> = before.iter().map(|cell| !cell).collect();
        let (again, _) = bench.call(&case.text, &other, !at_end);
        if again != answer {
            let words = format!("over other cells: {again:?}");
            fail(options, index, &case, &answer, &Difference { part: Part::Cells, words });
        }
    }
}

/// The plain program's misreadings, of good texts and of bad ones.
fn plain_line(name: &str, summary: &Summary) -> String {
    let of = |kind: &str| -> u64 {
        summary.misread.iter().filter(|(name, _)| name.starts_with(kind)).map(|(_, count)| count).sum()
    };
    let parts: Vec<String> = summary.misread.iter().map(|(name, count)| format!("{name} {count}")).collect();
    let refused: u64 = summary.refused.values().sum();
    let (good, bad) = (of("good"), of("bad"));
    // A text with too few cells counts here as refused, though its text is good.
    format!(
        "{name}: misread {good} of {} good texts and {bad} of {} others ({})",
        summary.accepted + good,
        refused + bad,
        parts.join(", ")
    )
}

/// The texts and a share of pairs, each in a file of its own; the fuzzer divides a pair at its NUL byte.
fn write_corpus(options: &Options, directory: &Path) -> std::io::Result<()> {
    std::fs::create_dir_all(directory)?;
    let write = |name: String, bytes: &[u8]| std::fs::write(directory.join(name), bytes);
    (0..options.count).try_for_each(|index| write(format!("text-{index}"), &case(options.seed, index).text))?;
    (0..options.count / merged::TEXTS_TO_A_PAIR).try_for_each(|index| {
        let pair = second::drawings::case(options.seed, index).texts.join(&0);
        write(format!("pair-{index}"), &pair)
    })
}

/// All texts, or the one that is asked for; gives the summary's lines, none where another run is asked for.
fn run(options: &Options, levels: Levels) -> Vec<String> {
    let Some(range) = options.range(Run::Texts, options.count) else {
        return Vec::new();
    };
    let mut bench = Bench::of(levels);
    let mut summary = Summary::default();
    let start = Instant::now();
    for index in range {
        note_current(Run::Texts, index);
        try_text(options, &mut bench, index, &mut summary);
    }
    let mut lines = vec![summary.line(options, start.elapsed().as_secs_f64())];
    lines.extend(options.plain.map(|(name, _)| plain_line(name, &summary)));
    lines
}

fn main() {
    let options = options();
    if let Some(directory) = &options.corpus {
        return write_corpus(&options, directory).expect("corpus written");
    }
    let Some(levels) = options.plain.map(|(_, levels)| levels).or(PRODUCT) else {
        eprintln!(
            "built without archives: set RAILNOISE_ARCHIVE and RAILNOISE_REQUESTS_ARCHIVE, or build with \
             --features mock"
        );
        exit(2)
    };
    for number in [4, 6, 7, 8, 11] {
        unsafe { signal(number, crashed) };
    }
    let lines = run(&options, levels);
    if options.dump {
        return;
    }
    lines.iter().for_each(|line| println!("{line}"));
    if options.plain.is_some() {
        return;
    }
    if let Some(line) = entitlement::PRODUCT.and_then(|entitlement| entitlement::run(&options, entitlement, levels)) {
        println!("{line}");
    }
    if let Some(line) = merged::PRODUCT.and_then(|merged| merged::run(&options, merged, levels)) {
        println!("{line}");
    }
    if let Some(line) = speed::PRODUCT.and_then(|highest| speed::run(&options, highest, levels)) {
        println!("{line}");
    }
}
