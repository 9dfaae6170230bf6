//! The verb `series`: a client's series place by place, then how many phases and gaps it has, where the gaps lie, and a
//! picture of them.
use crate::advice::what_to_do;
use crate::arguments::Arguments;
use crate::given::{client, store_read};
use crate::json::Json;
use crate::series_faults::{faults, series_of};
use crate::terminal::{shortened, width, Paint};
use crate::{Answer, Stop};
use std::fmt::Write;
use std::ops::RangeInclusive;
use zolvortug::{Client, Report, Sample, SAMPLES};

pub fn series(a: &Arguments) -> Result<Answer, Stop> {
    let (store, client) = (store_read(a)?, client(a)?);
    let number = a.number("series")?.unwrap_or_default();
    let samples: Vec<Sample> = match store.series(client, number) {
        Ok(reader) => reader.collect(),
        Err(report) => return Ok(refused(report, store.image(), client, number)),
    };
    let (ranges, short) = (gaps(&samples), a.has("summary"));
    let gaps = samples.iter().filter(|sample| **sample == Sample::Gap).count();
    let (mut text, before) = match short {
        true => (String::new(), ""),
        false => (places(&samples), "# "),
    };
    let counts = format!("{} places: {} phases, {gaps} gaps", samples.len(), samples.len() - gaps);
    let lines = [counts].into_iter().chain(shortened(ranges.iter().map(told).collect()));
    for line in lines.chain(picture(&samples, width(), Paint::for_output())) {
        text += &format!("{before}{line}\n");
    }
    let mut fields = vec![
        ("places", samples.len().into()),
        ("phases", (samples.len() - gaps).into()),
        ("gaps", gaps.into()),
        ("ranges", Json::List(ranges.iter().map(range).collect())),
    ];
    if !short {
        fields.push(("samples", Json::List(samples.into_iter().map(sample).collect())));
    }
    Ok(Answer::new(text, fields))
}

/// A refused opening, with what the command finds: the series that there are, or the blocks at fault.
fn refused(report: Report, image: &[u8], client: Client, series: u32) -> Answer {
    let (lines, fields) = match report {
        Report::NoSeries => {
            let there = series_of(image, client);
            let line = |(series, blocks): (&u32, &usize)| format!("the client's blocks of series {series}: {blocks}");
            let lines = there.iter().map(line).collect();
            (
                lines,
                vec![("series", Json::List(there.into_keys().map(Json::from).collect()))],
            )
        }
        Report::BadTag | Report::SequenceTwice => {
            let faults = faults(image, client, series);
            let listed = faults.iter().cloned().map(Json::Text).collect();
            (faults, vec![("faults", Json::List(listed))])
        }
        _ => (Vec::new(), Vec::new()),
    };
    let mut hint = what_to_do(report).to_string();
    for line in shortened(lines) {
        hint += &format!("\n  {line}");
    }
    Answer {
        refused: Some(report),
        hint: Some(hint),
        ..Answer::new("", fields)
    }
}

/// A line for each place. A phase is a whole number of picoseconds.
fn places(samples: &[Sample]) -> String {
    let mut text = String::new();
    for (place, sample) in samples.iter().enumerate() {
        let _ = match sample {
            Sample::Phase(phase) => writeln!(text, "{place} {}", *phase as i64),
            Sample::Gap => writeln!(text, "{place} gap"),
        };
    }
    text
}

fn sample(sample: Sample) -> Json {
    match sample {
        Sample::Phase(phase) => Json::Number(phase as i64),
        Sample::Gap => Json::Null,
    }
}

type Range = RangeInclusive<usize>;

/// The places that are gaps, as ranges.
fn gaps(samples: &[Sample]) -> Vec<Range> {
    let mut found: Vec<Range> = Vec::new();
    for (place, _) in samples.iter().enumerate().filter(|(_, s)| **s == Sample::Gap) {
        match found.last_mut() {
            Some(last) if last.end() + 1 == place => *last = *last.start()..=place,
            _ => found.push(place..=place),
        }
    }
    found
}

fn range(range: &Range) -> Json {
    Json::Record(vec![
        ("first", (*range.start()).into()),
        ("last", (*range.end()).into()),
    ])
}

/// A range of gaps, with the sequences that it touches.
fn told(range: &Range) -> String {
    let (first, last) = (range.start(), range.end());
    let (from, to) = (first / SAMPLES, last / SAMPLES);
    let places = match first == last {
        true => format!("gap at {first}"),
        false => format!("gaps from {first} to {last}"),
    };
    match from == to {
        true => format!("{places}, sequence {from}"),
        false => format!("{places}, sequences {from} to {to}"),
    }
}

/// The series on a line of so many signs, each for as many places, and what the signs mean.
fn picture(samples: &[Sample], width: usize, paint: Paint) -> [String; 2] {
    let columns = width.saturating_sub(4).clamp(1, samples.len());
    let edge = |column: usize| column * samples.len() / columns;
    let signs: Vec<char> = (0..columns)
        .map(|column| sign(&samples[edge(column)..edge(column + 1)]))
        .collect();
    let painted = |run: &[char]| {
        let text: String = run.iter().collect();
        match run[0] {
            '=' => paint.good(&text),
            '.' => paint.bad(&text),
            _ => paint.bold(&text),
        }
    };
    let line: String = signs.chunk_by(|one, next| one == next).map(painted).collect();
    let meaning = "= phases, - phases and gaps, . gaps";
    [format!("[{line}]"), meaning.into()]
}

/// Whether all, some or none of the places are phases.
fn sign(places: &[Sample]) -> char {
    match places.iter().filter(|sample| **sample == Sample::Gap).count() {
        0 => '=',
        gaps if gaps == places.len() => '.',
        _ => '-',
    }
}
