//! How often each operation gave each report, and what else a run counts.
use crate::calls::{Answer, Call};
use crate::reports::POSSIBLE;
use std::fmt;

#[derive(Clone, Debug, Default, PartialEq, Eq)]
pub struct Table {
    reports: [[u64; 13]; 12],
    checks: [u64; 2],
    /// Calls on images that were sound before, those of them that were read both ways, and calls on other images.
    pub sound: u64,
    pub both: u64,
    pub other: u64,
    /// Walks seen from their first call to the end key, ids that they named, and calls of the longest.
    pub walks: u64,
    pub named: u64,
    pub longest: u64,
}

impl Table {
    pub fn note(&mut self, call: &Call, answer: &Answer) {
        match self.reports.get_mut(call.operation()) {
            Some(row) => row[usize::from(answer.report).min(12)] += 1,
            None => self.checks[usize::from(answer.sound)] += 1,
        }
    }

    pub fn calls(&self) -> u64 {
        self.reports.iter().flatten().chain(&self.checks).sum()
    }

    pub fn add(&mut self, other: &Table) {
        let theirs = other.reports.iter().flatten();
        self.reports.iter_mut().flatten().zip(theirs).for_each(|(a, b)| *a += b);
        (0..2).for_each(|i| self.checks[i] += other.checks[i]);
        self.sound += other.sound;
        self.both += other.both;
        self.other += other.other;
        self.walks += other.walks;
        self.named += other.named;
        self.longest = self.longest.max(other.longest);
    }

    pub fn note_walk(&mut self, named: u64, calls: u64) {
        self.walks += 1;
        self.named += named;
        self.longest = self.longest.max(calls);
    }

    /// Reports that document 01 lets an operation give and that were not reached, and reports it may not give and gave.
    pub fn gaps(&self) -> Vec<String> {
        let mut gaps = Vec::new();
        for ((name, possible), row) in POSSIBLE.iter().zip(&self.reports) {
            for (report, reached) in (0..13).zip(row) {
                if possible.contains(&report) != (*reached > 0) {
                    gaps.push(format!("{name} report {report}: {reached} times"));
                }
            }
        }
        if self.checks.contains(&0) {
            gaps.push(format!("Check no and yes: {:?}", self.checks));
        }
        gaps
    }
}

impl fmt::Display for Table {
    fn fmt(&self, f: &mut fmt::Formatter) -> fmt::Result {
        write!(f, "{:10}", "report")?;
        (0..13).try_for_each(|report| write!(f, "{report:>9}"))?;
        for ((name, possible), row) in POSSIBLE.iter().zip(&self.reports) {
            write!(f, "\n{name:10}")?;
            for (report, reached) in (0..13).zip(row) {
                match possible.contains(&report) || *reached > 0 {
                    true => write!(f, "{reached:>9}")?,
                    false => write!(f, "{:>9}", "-")?,
                }
            }
        }
        let [no, yes] = self.checks;
        write!(f, "\nCheck      yes {yes}, no {no}\n{} calls: ", self.calls())?;
        let (sound, both, other) = (self.sound, self.both, self.other);
        write!(
            f,
            "{sound} on sound images ({both} of them read both ways), {other} on others; "
        )?;
        let (walks, named, longest) = (self.walks, self.named, self.longest);
        write!(
            f,
            "{walks} walks ended, {named} ids named, {longest} calls in the longest"
        )
    }
}
