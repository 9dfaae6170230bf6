//! How often an opening of a reader gave each report, and a step each answer.
use crate::reports::OF_OPENING;
use std::collections::BTreeMap;
use std::fmt;

/// The answers of a step, by their numbers.
pub const ANSWERS: [&str; 3] = ["ended", "phase", "gap"];

#[derive(Clone, Debug, Default, PartialEq, Eq)]
pub struct Readings {
    pub images: u64,
    reports: BTreeMap<u32, u64>,
    steps: [u64; 3],
    forged: [u64; 3],
}

impl Readings {
    pub fn note_opening(&mut self, report: u32) {
        *self.reports.entry(report).or_default() += 1;
    }

    /// An answer of a step, 0 to 2, on a place from an opening or on a forged one.
    pub fn note_step(&mut self, answer: u8, forged: bool) {
        let row = if forged { &mut self.forged } else { &mut self.steps };
        row[usize::from(answer)] += 1;
    }

    pub fn add(&mut self, other: &Readings) {
        self.images += other.images;
        other
            .reports
            .iter()
            .for_each(|(r, many)| *self.reports.entry(*r).or_default() += many);
        (0..3).for_each(|i| self.steps[i] += other.steps[i]);
        (0..3).for_each(|i| self.forged[i] += other.forged[i]);
    }

    pub fn openings(&self) -> u64 {
        self.reports.values().sum()
    }

    /// Reports and answers that were not reached, and reports that W1 does not let an opening give.
    pub fn gaps(&self) -> Vec<String> {
        let missing = OF_OPENING.iter().filter(|report| !self.reports.contains_key(report));
        let wrong = self.reports.keys().filter(|report| !OF_OPENING.contains(report));
        let mut gaps: Vec<String> = missing.map(|report| format!("report {report} not reached")).collect();
        gaps.extend(wrong.map(|report| format!("report {report} given")));
        for (answer, name) in ANSWERS.iter().enumerate() {
            if self.steps[answer] == 0 || self.forged[answer] == 0 {
                gaps.push(format!("{name} not reached"));
            }
        }
        gaps
    }
}

impl fmt::Display for Readings {
    fn fmt(&self, f: &mut fmt::Formatter) -> fmt::Result {
        write!(f, "{} openings of series in {} images: ", self.openings(), self.images)?;
        let reports: Vec<String> = self
            .reports
            .iter()
            .map(|(r, many)| format!("report {r} {many}"))
            .collect();
        write!(f, "{}\nsteps: ", reports.join(", "))?;
        let answers = |row: [u64; 3]| {
            (0..3)
                .map(|i| format!("{} {}", ANSWERS[i], row[i]))
                .collect::<Vec<_>>()
                .join(", ")
        };
        write!(f, "{}; on forged places: {}", answers(self.steps), answers(self.forged))
    }
}
