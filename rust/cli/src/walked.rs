//! A walk by keys, call by call: what it has come to.
use crate::json::Field;
use crate::Answer;
use zolvortug::Report;

/// What a walk has come to: how many calls, their charges, and the report where one was refused.
#[derive(Default)]
pub struct Walked {
    calls: i64,
    charge: i64,
    refused: Option<Report>,
}

impl Walked {
    /// Takes a call's answer in; its value, where it was not refused.
    pub fn take<T>(&mut self, called: zolvortug::Answer<T>) -> Option<T> {
        self.calls += 1;
        let (charge, value) = match called {
            Ok(paid) => (paid.charge, Some(paid.value)),
            Err(no) => {
                self.refused = Some(no.report);
                (no.charge, None)
            }
        };
        self.charge += charge.0;
        value
    }

    pub fn answer(self, text: String, mut fields: Vec<Field>) -> Answer {
        fields.push(("calls", self.calls.into()));
        Answer {
            charge: Some(self.charge),
            refused: self.refused,
            ..Answer::new(text, fields)
        }
    }
}
