//! The C interface's answers, as include/railnoise.h and include/railnoise_requests.h lay them out.

use crate::reader::Refusal;

/// Bytes in place of C's bool: a product that writes another value must be seen, not misread.
#[repr(C)]
#[derive(Clone, Copy, PartialEq, Eq, Debug, Default)]
pub struct PeriodAnswer {
    pub silent: u8,
    pub level: i32,
    pub close: u32,
    pub met: u8,
}

#[repr(C)]
#[derive(Clone, Copy, PartialEq, Eq, Debug, Default)]
pub struct Answer {
    pub refusal: u32,
    pub line: u32,
    pub day: PeriodAnswer,
    pub night: PeriodAnswer,
}

/// Cells that are enough for every study.
pub const MOST_CELLS: usize = 192;

pub type Levels = unsafe extern "C" fn(*const u8, usize, *mut i32, usize) -> Answer;

impl PeriodAnswer {
    pub const SILENT: PeriodAnswer = PeriodAnswer { silent: 1, level: 0, close: 0, met: 0 };

    /// Tenths; none where silent.
    pub fn figure(&self) -> Option<i64> {
        (self.silent == 0).then_some(self.level as i64)
    }
}

impl Answer {
    pub fn refused(refusal: Refusal) -> Answer {
        Answer { refusal: refusal.number, line: refusal.line, day: PeriodAnswer::SILENT, night: PeriodAnswer::SILENT }
    }

    pub fn periods(&self) -> [PeriodAnswer; 2] {
        [self.day, self.night]
    }
}

/// Two levels combined.
#[repr(C)]
#[derive(Clone, Copy, PartialEq, Eq, Debug, Default)]
pub struct Combined {
    pub silent: u8,
    pub level: i32,
    pub close: u8,
}

#[repr(C)]
#[derive(Clone, Copy, PartialEq, Eq, Debug, Default)]
pub struct EntitlementPeriod {
    pub prevailing: Combined,
    pub relevant: Combined,
    pub reaches: u8,
    pub rises: u8,
    pub contributes: u8,
    pub entitled: u8,
}

#[repr(C)]
#[derive(Clone, Copy, PartialEq, Eq, Debug, Default)]
pub struct EntitlementAnswer {
    pub refusal: u32,
    pub text: u32,
    pub line: u32,
    pub day: EntitlementPeriod,
    pub night: EntitlementPeriod,
    pub entitled: u8,
}

impl Combined {
    pub const SILENT: Combined = Combined { silent: 1, level: 0, close: 0 };

    /// Tenths; none where silent.
    pub fn figure(&self) -> Option<i64> {
        (self.silent == 0).then_some(self.level as i64)
    }
}

impl EntitlementPeriod {
    pub const SILENT: EntitlementPeriod = EntitlementPeriod {
        prevailing: Combined::SILENT,
        relevant: Combined::SILENT,
        reaches: 0,
        rises: 0,
        contributes: 0,
        entitled: 0,
    };
}

impl EntitlementAnswer {
    /// `text` is the refused text's place, 1 to 4.
    pub fn refused(text: u32, refusal: Refusal) -> EntitlementAnswer {
        let silent = EntitlementPeriod::SILENT;
        let Refusal { number, line } = refusal;
        EntitlementAnswer { refusal: number, text, line, day: silent, night: silent, entitled: 0 }
    }

    pub fn periods(&self) -> [EntitlementPeriod; 2] {
        [self.day, self.night]
    }
}

/// The answer for two drawings.
#[repr(C)]
#[derive(Clone, Copy, PartialEq, Eq, Debug, Default)]
pub struct MergedAnswer {
    pub refusal: u32,
    pub text: u32,
    pub line: u32,
    pub day: PeriodAnswer,
    pub night: PeriodAnswer,
}

pub type MergedLevels = unsafe extern "C" fn(*const u8, usize, *const u8, usize, *mut i32, usize) -> MergedAnswer;

impl MergedAnswer {
    /// `text` is the refused text's number, 1 or 2; else 0.
    pub fn of(text: u32, answer: Answer) -> MergedAnswer {
        let Answer { refusal, line, day, night } = answer;
        MergedAnswer { refusal, text, line, day, night }
    }

    /// All but the text's number: the answer as it would be for one text.
    pub fn whole(&self) -> Answer {
        let MergedAnswer { refusal, line, day, night, .. } = *self;
        Answer { refusal, line, day, night }
    }

    pub fn periods(&self) -> [PeriodAnswer; 2] {
        [self.day, self.night]
    }
}

/// On a text with its length, the entry's number, whether by night, the limit. What is handed over is ours, so the
/// night is a true bool.
pub type HighestSpeed = unsafe extern "C" fn(*const u8, usize, u32, bool, i32) -> SpeedAnswer;

/// The answer to a request for the highest speed.
#[repr(C)]
#[derive(Clone, Copy, PartialEq, Eq, Debug, Default)]
pub struct SpeedAnswer {
    pub refusal: u32,
    pub line: u32,
    /// km/h.
    pub speed: u32,
}

impl SpeedAnswer {
    pub fn refused(refusal: Refusal) -> SpeedAnswer {
        SpeedAnswer { refusal: refusal.number, line: refusal.line, speed: 0 }
    }

    pub fn answered(speed: i32) -> SpeedAnswer {
        SpeedAnswer { speed: speed as u32, ..SpeedAnswer::default() }
    }
}
