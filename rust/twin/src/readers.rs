//! The library's reader of a series beside the second program's reading: each opening, and each step to the end and
//! beyond; then steps on places that no opening gave.
use crate::calls::{series_open, series_step, Place, Sampled};
use crate::forgery::{forged_image, forged_place};
use crate::pair::Lent;
use crate::random::Random;
use crate::readings::{Readings, ANSWERS};
use crate::recordings::Recording;
use crate::series::{self, Places, SLOTS};

/// Steps made after the last place.
const BEYOND: usize = 3;
const NOWHERE: Place = Place {
    n: 0,
    client: 0,
    series: 0,
    block: 0,
    sequence: 0,
    slot: 0,
    at: 0,
    end: 0,
    report: 0,
};

/// Reads as many random recordings on both sides; the first has the seed itself, each later one the next. `done` is
/// told of each. A difference comes with its seed, which leads to it again.
pub fn stream(seed: u64, recordings: u64, table: &mut Readings, done: impl Fn(u64)) -> Result<(), String> {
    for seed in seed..seed + recordings {
        let mut random = Random::new(seed);
        one(&mut random, table).map_err(|what| format!("recording of seed {seed}: {what}"))?;
        table.images += 1;
        done(1);
    }
    Ok(())
}

fn one(random: &mut Random, table: &mut Readings) -> Result<(), String> {
    let recording = Recording::random(random);
    let mut image = Lent::default();
    image.set(&recording.image);
    for (client, series) in &recording.asked {
        let asked = |what| format!("client {client}, series {series}, {} blocks: {what}", recording.n);
        let place = compare(*client, *series, image.get(), table).map_err(asked)?;
        forged(random, place, recording.n, image.get(), table).map_err(asked)?;
    }
    match image.get() == recording.image && image.guarded() {
        true => Ok(()),
        false => Err("the image or bytes beside it changed".into()),
    }
}

/// Opens on both sides and steps to the end and beyond. The place that the library opened with, or what differs.
pub fn compare(client: u32, series: u32, image: &[u8], table: &mut Readings) -> Result<Place, String> {
    let (given, expected) = (series_open(client, series, image), series::read(client, series, image));
    table.note_opening(given.report);
    match &expected {
        Ok(places) => {
            let n = (image.len() - 3 * 512) as u32 / 576;
            let end = places.len() as u32;
            #[rustfmt::skip]
            let opened = Place { n, client, series, end, ..NOWHERE };
            same(&given, &opened)?;
            through(given, places, image, table)?;
        }
        Err(report) => {
            let refused = Place {
                report: *report as u32,
                ..NOWHERE
            };
            if given != refused {
                return Err(format!("opened {given:?}, expected {refused:?}"));
            }
            through(given, &Vec::new(), image, table)?;
        }
    }
    Ok(given)
}

/// Where two places are the same but for the library's own three fields.
fn same(given: &Place, expected: &Place) -> Result<(), String> {
    #[rustfmt::skip]
    let Place { block, sequence, slot, .. } = *given;
    #[rustfmt::skip]
    let expected = Place { block, sequence, slot, ..*expected };
    match *given == expected {
        true => Ok(()),
        false => Err(format!("place {given:?}, expected {expected:?}")),
    }
}

/// Steps from a place just opened to the end and beyond; then from that place again, which must answer as before.
fn through(opened: Place, places: &Places, image: &[u8], table: &mut Readings) -> Result<(), String> {
    let mut place = opened;
    for expected in places {
        place = one_place(place, Some(*expected), image, table)?;
    }
    for _ in 0..BEYOND {
        place = one_place(place, None, image, table)?;
    }
    one_place(opened, places.first().copied(), image, table).map(|_| ())
}

/// A step from a place where a phase or a gap is expected, or the end where there is none; the place after it.
fn one_place(place: Place, expected: Option<Option<i32>>, image: &[u8], table: &mut Readings) -> Result<Place, String> {
    let (given, after) = step(place, image, false, table)?;
    let right = match expected {
        None => given.answer == 0,
        Some(None) => given.answer == 2,
        Some(Some(sample)) => given.answer == 1 && given.phase.to_bits() == f64::from(sample).to_bits(),
    };
    match right {
        true => Ok(after),
        false => Err(format!("at {} {given:?}, expected {expected:?}", place.at)),
    }
}

/// One step and the place after it, and what holds for every step: the answer's number, the phase's NaN, and how the
/// place moves.
fn step(place: Place, image: &[u8], forged: bool, table: &mut Readings) -> Result<(Sampled, Place), String> {
    let mut after = place;
    let given = series_step(&mut after, image);
    let name = ANSWERS.get(usize::from(given.answer));
    let name = name.ok_or_else(|| format!("step from {place:?}: {given:?}"))?;
    table.note_step(given.answer, forged);
    if given.phase.is_nan() == (given.answer == 1) {
        return Err(format!("{name} with the phase {}", given.phase));
    }
    match given.answer {
        0 if after == place => Ok((given, after)),
        0 => Err(format!("ended, but {place:?} came back as {after:?}")),
        _ => {
            let at = place.at.wrapping_add(1);
            same(&after, &Place { at, ..place })?;
            Ok((given, after))
        }
    }
}

/// Steps on places that no opening gave, on images that they were not opened on, and on images of any length.
fn forged(random: &mut Random, real: Place, n: u32, image: &[u8], table: &mut Readings) -> Result<(), String> {
    for _ in 0..3 {
        let mut place = forged_place(random, real, n);
        let other = forged_image(random, place.n, image);
        for _ in 0..SLOTS + 2 {
            let (given, after) = step(place, &other, true, table)?;
            if given.answer == 0 {
                break;
            }
            if other.len() < 4 {
                return Err(format!("{given:?} on an image of {} bytes", other.len()));
            }
            place = after;
        }
    }
    Ok(())
}
