//! The demonstration: a clean-up falls between two calls of a walk. This store's walk misses nothing; the old store's,
//! whose key was the number of blocks listed, misses a block, and a good oscillator looks bad.
use crate::arguments::Arguments;
use crate::given::failed;
use crate::image_file::{self, is_stream};
use crate::recorder::{unforeseen, Recorder, BLOCKS, BLOCK_TIME, GAIN, NOISE};
use crate::terminal::{padded, Paint};
use crate::{Answer, Stop};
use std::io::ErrorKind;
use std::path::Path;
use zolvortug::{Client, Id, Key, Walk, MOST};

const WALKER: Client = Client(2);
const IDS_A_CALL: usize = 2;

pub fn demo(a: &Arguments) -> Result<Answer, Stop> {
    let (force, paint) = (a.has("force"), Paint::for_output());
    let told = match a.word(0).map(Path::new) {
        Some(path) if is_stream(path) => return Err(Stop::Usage("the demonstration keeps its image in a file".into())),
        Some(path) => {
            let name = path.display();
            let try_ids = format!("The image is kept: try `zolvortug ids {name} --client 2`,\n");
            story(path, force, paint)? + &try_ids + &format!("or `zolvortug series {name} --client 2 --series 2`.\n")
        }
        None => {
            let go_on = "`zolvortug demo FILE` keeps the image; then try `zolvortug ids FILE --client 2`.\n";
            in_a_folder(|path| story(path, force, paint))? + go_on
        }
    };
    Ok(Answer::new(told, Vec::new()))
}

/// Does something with a file in a new folder, which then goes.
fn in_a_folder<T>(what: impl FnOnce(&Path) -> Result<T, Stop>) -> Result<T, Stop> {
    let mut turn = 0;
    let folder = loop {
        let folder = std::env::temp_dir().join(format!("zolvortug-demo-{}-{turn}", std::process::id()));
        match std::fs::create_dir(&folder) {
            Ok(()) => break folder,
            Err(e) if e.kind() == ErrorKind::AlreadyExists => turn += 1,
            Err(e) => return Err(failed(&folder, e.into())),
        }
    };
    let done = what(&folder.join("store.img"));
    let _ = std::fs::remove_dir_all(&folder);
    done
}

fn story(path: &Path, force: bool, paint: Paint) -> Result<String, Stop> {
    let mut recorder = Recorder::make(path, force)?;
    recorder.record()?;
    let all = recorder.standing(WALKER)?;
    let setting = setting(&recorder, paint);
    let (table, ours, old) = walks(&mut recorder, &all, paint)?;
    let stored = row("stored now", &owners(&recorder, paint), "");
    drop(recorder);
    let image = image_file::read(path).map_err(|fault| failed(path, fault))?;
    let sound = if zolvortug::check(&image) {
        paint.good("sound")
    } else {
        paint.bad("not sound")
    };
    Ok(format!(
        "{setting}\n{table}\n{stored}\n{}\nThe image on the disk is {sound}. That no walk misses a block, whatever \
         falls between its calls, is proved:\ncrates/demands/specs/Demand3.antt says it.\n\n",
        consequence(&ours, &old, paint)
    ))
}

fn setting(recorder: &Recorder, paint: Paint) -> String {
    let title = format!("Three channels of a recorder store phase samples in an image of {BLOCKS} blocks.");
    let mut letters = 'A'..;
    let letter = |owner: Option<Client>| match owner {
        Some(WALKER) => letters.next().map(String::from),
        _ => Some(" ".into()),
    };
    let letters: Vec<String> = recorder.owners().into_iter().filter_map(letter).collect();
    let text = format!(
        "\nChannel 2 has the six blocks A to F. It lists them {IDS_A_CALL} at a time, and reads each as it is named.\n\
         After the first call block A has expired, and a clean-up removes it.\n"
    );
    paint.bold(&title)
        + "\n\n"
        + &row("stored by channel", &owners(recorder, paint), "")
        + &row("", letters.join(" ").trim_end(), "")
        + &text
}

/// A sign for each block: its owner, or a dot where it is free.
fn owners(recorder: &Recorder, paint: Paint) -> String {
    let sign = |owner: Option<Client>| match owner {
        Some(WALKER) => paint.bold(&WALKER.0.to_string()),
        Some(client) => client.0.to_string(),
        None => paint.faint("."),
    };
    recorder.owners().into_iter().map(sign).collect::<Vec<_>>().join(" ")
}

/// What the calculator makes of the samples, joined in the order in which they were listed.
fn consequence(ours: &Listing, old: &Listing, paint: Paint) -> String {
    let step = |listing: &Listing| format!("{} ps", listing.largest_step());
    let deviation = |listing: &Listing| format!("{:.1} ps", listing.deviation());
    paint.bold("The calculator joins the samples that it was given.")
        + &format!(" This oscillator gains {GAIN} ps each sample, with at most {NOISE} ps of noise.\n\n")
        + &row("largest step", &step(ours), &paint.bad(&step(old)))
        + &row("Allan deviation", &deviation(ours), &paint.bad(&deviation(old)))
        + "\nThe oscillator never made that step: the old key turns a good one down.\n"
}

/// A listing in progress: the blocks named, and their samples joined in that order.
#[derive(Default)]
struct Listing {
    named: Vec<Id>,
    joined: Vec<i64>,
    ended: bool,
}

impl Listing {
    fn take(&mut self, recorder: &Recorder, ids: &[Id]) -> Result<(), Stop> {
        for id in ids {
            self.named.push(*id);
            self.joined.extend(recorder.phases(WALKER, *id)?);
        }
        Ok(())
    }

    fn missed(&self, all: &[Id]) -> Vec<Id> {
        all.iter().copied().filter(|id| !self.named.contains(id)).collect()
    }

    fn largest_step(&self) -> i64 {
        self.joined.windows(2).map(|x| (x[1] - x[0]).abs()).max().unwrap_or(0)
    }

    /// The Allan deviation for one sample interval.
    fn deviation(&self) -> f64 {
        let squares = self.joined.windows(3).map(|x| (x[2] - 2 * x[1] + x[0]).pow(2));
        let (triples, sum) = squares.fold((0, 0), |(n, sum), square| (n + 1, sum + square));
        (sum as f64 / (2 * triples) as f64).sqrt()
    }
}

/// Both listings of the same store, call by call, the clean-up after the first; and the table that shows them.
fn walks(recorder: &mut Recorder, all: &[Id], paint: Paint) -> Result<(String, Listing, Listing), Stop> {
    let (mut ours, mut old) = (Listing::default(), Listing::default());
    let mut walk = recorder.store().walk(WALKER, IDS_A_CALL as u32);
    let mut table = row("", &paint.bold("this store"), &paint.bold("the old store"))
        + &row("the key is", "a block number", "the number of blocks listed")
        + "\n";
    for call in 1.. {
        let our_cell = our_call(recorder, &mut walk, &mut ours, all)?;
        let old_cell = old_call(recorder, &mut old, all)?;
        table += &row(&format!("call {call}"), &our_cell, &old_cell);
        if call == 1 {
            recorder.change(2 * BLOCK_TIME, |store, now| {
                store.scavenge(Client::MANAGER, Key::START, now)
            })?;
            table += &row(
                "clean-up",
                &paint.faint("removes A, and the first of the other channels"),
                "",
            );
        }
        if ours.ended && old.ended {
            break;
        }
    }
    let missed = |listing: &Listing| match &letters(all, &listing.missed(all))[..] {
        "" => paint.good("nothing"),
        some => paint.bad(some),
    };
    table += &row("missed", &missed(&ours), &missed(&old));
    Ok((table, ours, old))
}

fn our_call(recorder: &Recorder, walk: &mut Walk, ours: &mut Listing, all: &[Id]) -> Result<String, Stop> {
    if ours.ended {
        return Ok(String::new());
    }
    let mut room = [Id(0); MOST];
    let ids = walk.step(&recorder.store(), &mut room).map_err(unforeseen)?.value;
    ours.take(recorder, ids)?;
    ours.ended = walk.ended();
    Ok(cell(
        &letters(all, ids),
        ours.ended,
        &format!("from block {}", walk.key().block()),
    ))
}

/// The old store's call: of the blocks that stand, it skips as many as were listed.
fn old_call(recorder: &Recorder, old: &mut Listing, all: &[Id]) -> Result<String, Stop> {
    if old.ended {
        return Ok(String::new());
    }
    let standing = recorder.standing(WALKER)?;
    let ids: Vec<Id> = standing
        .iter()
        .copied()
        .skip(old.named.len())
        .take(IDS_A_CALL)
        .collect();
    old.take(recorder, &ids)?;
    old.ended = old.named.len() >= standing.len();
    Ok(cell(
        &letters(all, &ids),
        old.ended,
        &format!("after {} blocks", old.named.len()),
    ))
}

fn cell(named: &str, ended: bool, next: &str) -> String {
    match ended {
        true => format!("{named:<6}the end"),
        false => format!("{named:<6}next: {next}"),
    }
}

/// The blocks' letters: the first that the channel stored is A.
fn letters(all: &[Id], ids: &[Id]) -> String {
    let letter = |id: &Id| {
        all.iter()
            .zip('A'..)
            .find(|(of, _)| *of == id)
            .map_or('?', |(_, letter)| letter)
    };
    ids.iter()
        .map(|id| letter(id).to_string())
        .collect::<Vec<_>>()
        .join(" ")
}

fn row(name: &str, ours: &str, old: &str) -> String {
    let left = if old.is_empty() {
        ours.to_string()
    } else {
        padded(ours, 30)
    };
    format!("  {name:<20}{left}{old}\n")
}
