//! Results that are a little wrong, for the tests of both checks.

use second::interface::PeriodAnswer;

/// What a count or a number is wrong by: one too many, one too few.
pub const STEPS: [u32; 2] = [1, u32::MAX];

/// Results of a period that differ from a given one in one place.
pub fn period_slips(period: PeriodAnswer) -> Vec<PeriodAnswer> {
    let numbers = STEPS.into_iter().flat_map(|step| {
        [
            PeriodAnswer { level: period.level.wrapping_add(step as i32), ..period },
            PeriodAnswer { close: period.close.wrapping_add(step), ..period },
        ]
    });
    let flags = [
        PeriodAnswer { silent: period.silent ^ 1, ..period },
        PeriodAnswer { met: period.met ^ 1, ..period },
        PeriodAnswer { met: period.met + 2, ..period },
    ];
    numbers.chain(flags).collect()
}
