//! What came up in a run of requests.

use std::collections::BTreeMap;

use crate::entitlement::{combinations, in_period, Explanation, Level, OTHER_AFTER};
use crate::interface::{EntitlementAnswer, EntitlementPeriod};
use crate::levels::{Mark, Period, PERIODS};
use crate::reader::read;
use crate::requests::Case;

/// Tenths around 1.0 dB: where a condition just fails, and where it just holds.
const EDGES: [i64; 3] = [9, 10, 11];

#[derive(Default)]
pub struct Tally {
    pub kinds: BTreeMap<&'static str, u64>,
    /// By the marks of emptiness.
    pub patterns: BTreeMap<[bool; 4], u64>,
    /// Texts behind a mark that would be refused, and refusals of a text after such a one.
    pub unread: u64,
    pub passed_over: u64,
    /// By the place of the refused text.
    pub refused: [u64; 4],
    pub answered: u64,
    /// Houses that are entitled, and periods.
    pub houses: u64,
    pub entitled: [u64; 2],
    /// Periods in which each condition fails and holds: it reaches, it rises, it contributes.
    pub conditions: [[u64; 2]; 3],
    /// Periods in which a set has no trains though it is not marked as empty, by its place.
    pub trainless: [u64; 4],
    /// Periods whose prevailing and whose relevant level is silent.
    pub silent: [u64; 2],
    /// Combinations with a mark that is required; with a free one, not taken and taken.
    pub required: u64,
    pub free: [u64; 2],
    /// Answers with more than one choice of the studies' levels.
    pub several: u64,
    /// Periods whose relevant level is 0.9, 1.0 and 1.1 dB above the prevailing one, and above the other lines after.
    pub rises: [u64; 3],
    pub contributions: [u64; 3],
    /// By period: the relevant level 0.6 and 0.5 dB below the limit, where it just fails and just reaches it.
    pub limits: [[u64; 2]; 2],
}

fn count_edge(counts: &mut [u64; 3], level: Level, other: Level) {
    if let (Some(level), Some(other)) = (level, other) {
        for (count, edge) in counts.iter_mut().zip(EDGES) {
            *count += (level - other == edge) as u64;
        }
    }
}

impl Tally {
    /// An allowed answer, with what explains it unless it is a refusal.
    pub fn add(&mut self, case: &Case, answer: &EntitlementAnswer, explanation: Option<Explanation>) {
        *self.kinds.entry(case.kind).or_default() += 1;
        *self.patterns.entry(case.empty).or_default() += 1;
        let unread = case.request().map(|lines| lines.empty && !lines.text.is_empty() && read(lines.text).is_err());
        self.unread += unread.iter().filter(|&&unread| unread).count() as u64;
        let Some(Explanation { levels, choices }) = explanation else {
            let set = answer.text as usize - 1;
            self.refused[set] += 1;
            self.passed_over += unread[..set].contains(&true) as u64;
            return;
        };
        self.answered += 1;
        self.houses += answer.entitled as u64;
        self.several += (choices > 1) as u64;
        for (period, shown) in PERIODS.into_iter().zip(answer.periods()) {
            let levels = in_period(&levels, period);
            for set in (0..4).filter(|&set| levels[set].is_none() && !case.empty[set]) {
                self.trainless[set] += 1;
            }
            self.add_period(period, &shown, levels);
        }
    }

    fn add_period(&mut self, period: Period, shown: &EntitlementPeriod, levels: [Level; 4]) {
        self.entitled[period as usize] += shown.entitled as u64;
        for (counts, holds) in self.conditions.iter_mut().zip([shown.reaches, shown.rises, shown.contributes]) {
            counts[holds as usize] += 1;
        }
        for (total, shown) in combinations(levels).into_iter().zip([shown.prevailing, shown.relevant]) {
            match total.map(|total| total.mark) {
                Some(Mark::Required) => self.required += 1,
                Some(Mark::Free) => self.free[shown.close as usize] += 1,
                _ => {}
            }
        }
        let (prevailing, relevant) = (shown.prevailing.figure(), shown.relevant.figure());
        self.silent[0] += prevailing.is_none() as u64;
        self.silent[1] += relevant.is_none() as u64;
        count_edge(&mut self.rises, relevant, prevailing);
        count_edge(&mut self.contributions, relevant, levels[OTHER_AFTER]);
        for (count, below) in self.limits[period as usize].iter_mut().zip([6, 5]) {
            *count += (relevant == Some(10 * period.limit() - below)) as u64;
        }
    }

    pub fn line(&self, seed: u64, seconds: f64) -> String {
        let kinds: Vec<String> = self.kinds.iter().map(|(kind, count)| format!("{kind} {count}")).collect();
        let by_place = |[first, second, third, fourth]: [u64; 4]| format!("1:{first} 2:{second} 3:{third} 4:{fourth}");
        let [reaches, rises, contributes] = self.conditions.map(|[fails, holds]| format!("{holds} not {fails}"));
        let edges = |[under, at, over]: [u64; 3]| format!("0.9:{under} 1.0:{at} 1.1:{over}");
        let [[day_under, day_at], [night_under, night_at]] = self.limits;
        format!(
            "entitlement: seed {seed} cases {} ({}); refused {}; {} patterns empty, {} refusable unread {} before a \
             refused; answered {}, entitled {} by day {} by night {} houses; reaches {reaches}, rises {rises}, \
             contributes {contributes}; rise {}; contribution {}; day 67.4:{day_under} 67.5:{day_at} night \
             62.4:{night_under} 62.5:{night_at}; without trains {}; silent {} prevailing {} relevant; marks required \
             {}, free {} taken {} not taken, several levels {}; {seconds:.1} s",
            self.kinds.values().sum::<u64>(),
            kinds.join(", "),
            by_place(self.refused),
            self.patterns.len(),
            self.unread,
            self.passed_over,
            self.answered,
            self.entitled[0],
            self.entitled[1],
            self.houses,
            edges(self.rises),
            edges(self.contributions),
            by_place(self.trainless),
            self.silent[0],
            self.silent[1],
            self.required,
            self.free[1],
            self.free[0],
            self.several,
        )
    }
}
