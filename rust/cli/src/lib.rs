//! The command `zolvortug`: the proved store over image files. What an answer is, how it is told, and the exit status.
mod advice;
mod arguments;
mod changing;
mod demo;
pub mod diagnosis;
mod given;
mod help;
pub mod image_file;
mod json;
pub mod layout;
mod reading;
mod recorder;
mod series;
pub mod series_faults;
pub mod tariff_file;
mod terminal;
pub mod time;
mod verbs;
mod walked;

use arguments::Arguments;
use json::{Field, Json};
use std::ffi::OsString;
use std::io::{self, ErrorKind, Write};
use zolvortug::Report;

pub const NOT_SOUND: u8 = 1;
pub const USAGE: u8 = 2;
pub const FILE: u8 = 3;
/// The command itself is at fault.
pub const BROKEN: u8 = 4;
pub const REFUSED: u8 = 100;

/// Why a command has no answer: it was called wrongly, or a file failed it.
pub enum Stop {
    Usage(String),
    File(String),
}

impl From<String> for Stop {
    fn from(what: String) -> Stop {
        Stop::Usage(what)
    }
}

/// An answer, for a person and as fields of JSON.
#[derive(Default)]
pub struct Answer {
    text: Vec<u8>,
    fields: Vec<Field>,
    charge: Option<i64>,
    refused: Option<Report>,
    /// What to do about a refusal, where it is not what the report says to every verb.
    hint: Option<String>,
    not_sound: bool,
    /// A file was changed.
    changed: bool,
    /// Standard output is the image's: the answer is told on standard error, after the image where there is a new one.
    stream: Option<Vec<u8>>,
}

impl Answer {
    fn new(text: impl Into<Vec<u8>>, fields: Vec<Field>) -> Answer {
        Answer {
            text: text.into(),
            fields,
            ..Answer::default()
        }
    }

    /// The answer of a call of the store: what it says of its value, the charge, and the report where it was refused.
    fn of<T>(called: zolvortug::Answer<T>, say: impl FnOnce(T) -> Answer) -> Answer {
        match called {
            Ok(paid) => Answer {
                charge: Some(paid.charge.0),
                ..say(paid.value)
            },
            Err(no) => Answer {
                charge: Some(no.charge.0),
                refused: Some(no.report),
                ..Answer::default()
            },
        }
    }

    /// The report, its name where it is a refusal, the fields, the charge.
    fn as_json(&mut self) -> String {
        let mut fields = vec![("report", Json::Number(self.refused.map_or(0, Report::number).into()))];
        fields.extend(self.refused.map(|r| ("name", Json::Text(format!("{r:?}")))));
        fields.append(&mut self.fields);
        fields.extend(self.charge.map(|c| ("charge", Json::Number(c))));
        format!("{}\n", Json::Record(fields))
    }

    fn status(&self) -> u8 {
        match self.refused {
            Some(report) => REFUSED + report.number(),
            None if self.not_sound => NOT_SOUND,
            None => 0,
        }
    }
}

/// Runs the command with the words after its name, and gives its exit status.
pub fn run(given: Vec<OsString>) -> u8 {
    let told = match verbs::find(given) {
        Ok(asked) => asked.run().and_then(|answer| tell(answer, &asked.arguments)),
        Err(verbs::Other::Help(text)) => put(io::stdout(), "the help", text.as_bytes()).map(|()| 0),
        Err(verbs::Other::Wrong(text)) => Err(Stop::Usage(text)),
    };
    let (status, what) = match told {
        Ok(status) => return status,
        Err(Stop::Usage(what)) => (USAGE, what),
        Err(Stop::File(what)) => (FILE, what),
    };
    let _ = writeln!(io::stderr(), "zolvortug: {what}");
    status
}

fn tell(mut answer: Answer, arguments: &Arguments) -> Result<u8, Stop> {
    let json = arguments.has("json");
    let said = if json {
        answer.as_json().into_bytes()
    } else {
        std::mem::take(&mut answer.text)
    };
    match &answer.stream {
        None if answer.changed => put(io::stdout(), "the change was made, and its answer", &said)?,
        None => put(io::stdout(), "the answer", &said)?,
        Some(image) => {
            all_of(io::stdout(), image).map_err(|e| unwritten("the image", &e))?;
            put(io::stderr(), "the answer", &said)?;
        }
    }
    let mut aside = String::new();
    if let (false, true, Some(charge)) = (json, arguments.has("tariff"), answer.charge) {
        aside += &format!("charge {charge}\n");
    }
    if let Some(report) = answer.refused {
        aside += &format!("zolvortug: {}\n", advice::sentence(report, answer.hint.as_deref()));
    }
    let _ = all_of(io::stderr(), aside.as_bytes());
    Ok(answer.status())
}

/// Writes all of a text. A reader that has gone away wants no more of it.
fn put(to: impl Write, what: &str, text: &[u8]) -> Result<(), Stop> {
    match all_of(to, text) {
        Err(e) if e.kind() != ErrorKind::BrokenPipe => Err(unwritten(what, &e)),
        _ => Ok(()),
    }
}

fn all_of(mut to: impl Write, bytes: &[u8]) -> io::Result<()> {
    to.write_all(bytes)?;
    to.flush()
}

fn unwritten(what: &str, e: &io::Error) -> Stop {
    Stop::File(format!("{what} could not be written: {}", image_file::said(e)))
}
