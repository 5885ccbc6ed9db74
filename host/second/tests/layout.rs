//! The answers' structs against the headers, as the C compiler lays those out, and the headers' limits.

use std::io::Write;
use std::mem::{offset_of, size_of};
use std::process::{Command, Stdio};

use second::interface::{
    Answer, Combined, EntitlementAnswer, EntitlementPeriod, MergedAnswer, PeriodAnswer, SpeedAnswer, MOST_CELLS,
};
use second::reader::TEXT_LIMIT;
use second::study::{ENTRY_LIMIT, SEGMENT_LIMIT};

/// A claim for the C compiler: the struct's size, and the place of each field.
macro_rules! same {
    ($text:ident, $c:literal, $rust:ty, $($field:ident),*) => {
        $text += &format!("_Static_assert(sizeof({}) == {}, \"size\");\n", $c, size_of::<$rust>());
        $(
            let (name, place) = (stringify!($field), offset_of!($rust, $field));
            $text += &format!("_Static_assert(offsetof({}, {name}) == {place}, \"{name}\");\n", $c);
        )*
    };
}

#[test]
fn structs_and_limits_are_as_the_headers_say() {
    let mut text = String::from("#include \"railnoise_requests.h\"\n_Static_assert(sizeof(bool) == 1, \"bool\");\n");
    same!(text, "railnoise_period", PeriodAnswer, silent, level, close, met);
    same!(text, "railnoise_answer", Answer, refusal, line, day, night);
    same!(text, "railnoise_combined", Combined, silent, level, close);
    same!(
        text,
        "railnoise_entitlement_period",
        EntitlementPeriod,
        prevailing,
        relevant,
        reaches,
        rises,
        contributes,
        entitled
    );
    same!(text, "railnoise_entitlement_answer", EntitlementAnswer, refusal, text, line, day, night, entitled);
    same!(text, "railnoise_merged_answer", MergedAnswer, refusal, text, line, day, night);
    same!(text, "railnoise_speed_answer", SpeedAnswer, refusal, line, speed);
    for (name, value) in [
        ("RAILNOISE_TEXT_LIMIT", TEXT_LIMIT),
        ("RAILNOISE_SEGMENT_LIMIT", SEGMENT_LIMIT),
        ("RAILNOISE_ENTRY_LIMIT", ENTRY_LIMIT),
        ("RAILNOISE_MOST_CELLS", MOST_CELLS),
    ] {
        text += &format!("_Static_assert({name} == {value}, \"{name}\");\n");
    }
    let include = concat!(env!("CARGO_MANIFEST_DIR"), "/../../include");
    let mut compiler = Command::new("gcc")
        .args(["-std=c11", "-Wall", "-Wextra", "-Werror", "-fsyntax-only", "-I", include, "-x", "c", "-"])
        .stdin(Stdio::piped())
        .spawn()
        .expect("gcc runs");
    compiler.stdin.take().expect("a pipe").write_all(text.as_bytes()).expect("claims written");
    assert!(compiler.wait().expect("gcc ends").success());
}
