//! docs/MANUAL.md is held against the library and the command: what it shows is what they do.
mod common;
use common::Folder;
use std::process::Command;
use zolvortug::{series_block, Client, Id, Key, Refused, Report, Sample, Store, Tariff, Tick, MOST};
use zolvortug_cli::tariff_file::parse;

const MANUAL: &str = include_str!("../../../docs/MANUAL.md");
const HERE: &str = include_str!("manual.rs");

/// Ten prices of 10, error price 1, rate 2.
fn prices() -> Tariff {
    parse(include_str!("../../../examples/prices")).unwrap()
}

/// The manual's block of code in a language, of a section.
fn code(section: &str, language: &str) -> &'static str {
    let (_, rest) = MANUAL.split_once(&format!("\n## {section}\n")).expect(section);
    let section = rest.split("\n## ").next().expect("a section");
    let (_, rest) = section.split_once(&format!("```{language}\n")).expect(language);
    rest.split_once("```\n").expect("an end").0
}

/// What stands in this file between two lines that say so.
fn here(name: &str) -> &'static str {
    let (_, rest) = HERE
        .split_once(&format!("// The manual's Rust, {name}, between two lines.\n"))
        .expect(name);
    rest.split_once("// The end of it.").expect("an end").0
}

fn fresh(blocks: u32) -> Vec<u8> {
    let mut image = vec![0; zolvortug::size_of_image(blocks).unwrap()];
    zolvortug::format(blocks, &mut image).unwrap();
    image
}

// The manual's Rust, linking, between two lines.
/// Lists a client's ids, then removes what has expired; how many blocks that was.
fn tidy(image: &mut [u8], prices: Tariff, mut now: Tick) -> Result<usize, Refused> {
    let mut store = Store::new(image, prices);
    let (mut walk, mut ids) = (store.walk(Client(3), 64), [Id(0); MOST]);
    while !walk.ended() {
        for id in walk.step(&store, &mut ids)?.value {
            println!("{:016x}", id.0);
        }
    }
    let (mut removed, mut next) = (0, Some(Key::START));
    while let Some(key) = next {
        let pass = store.scavenge(Client::MANAGER, key, now)?.value;
        (removed, next) = (removed + pass.count, pass.next);
        now.0 += 1; // each call is a change and needs a later time
    }
    Ok(removed)
}
// The end of it.

// The manual's Rust, series, between two lines.
/// Stores samples as a block of series 9, then reads the whole series; how many gaps it has.
fn record(store: &mut Store<Vec<u8>>, sequence: u32, samples: &[Option<i32>], now: Tick) -> Result<usize, Report> {
    let block = series_block(9, sequence, samples).ok_or(Report::BadTag)?;
    store.create(Client(3), Tick(500), &block, now)?;
    let mut gaps = 0;
    for (place, sample) in store.series(Client(3), 9)?.enumerate() {
        match sample {
            Sample::Phase(phase) => println!("{place}: {phase} ps"),
            Sample::Gap => gaps += 1,
        }
    }
    Ok(gaps)
}
// The end of it.

#[test]
fn the_rust_works() {
    for (name, section) in [("linking", "Linking it"), ("series", "Series")] {
        let (_, shown) = code(section, "rust").split_once("\n\n").unwrap();
        assert_eq!(shown, here(name));
    }
    let mut image = fresh(128);
    let mut store = Store::new(&mut image[..], prices());
    store.create(Client(3), Tick(5), &[0; 528], Tick(4)).unwrap();
    assert_eq!(tidy(&mut image, prices(), Tick(6)), Ok(1));
    let mut store = Store::new(fresh(8), prices());
    assert_eq!(record(&mut store, 1, &[Some(-5), None], Tick(4)), Ok(255));
    assert_eq!(record(&mut store, 1, &[Some(5)], Tick(5)), Err(Report::SequenceTwice));
    assert_eq!(record(&mut store, 4096, &[Some(5)], Tick(6)), Err(Report::BadTag));
}

#[test]
fn the_c_works() {
    let report_and_id = "report 0, charge 810\ndd8c40005e01c000\n";
    let phases = "128 of 256: -5 ps\n130 of 256: 40 ps\n";
    for (section, said) in [("Linking it", report_and_id), ("Series", phases)] {
        run_c(code(section, "c"), said);
    }
}

fn run_c(program: &str, said: &str) {
    let f = Folder::new();
    std::fs::write(f.path("recorder.c"), program).unwrap();
    let root = concat!(env!("CARGO_MANIFEST_DIR"), "/../..");
    let built = Command::new("cc")
        .args(["-std=c11", "-Wall", "-Wextra", "-Wpedantic", "-Werror"])
        .arg(format!("-I{root}/include"))
        .arg(f.path("recorder.c"))
        .arg(format!("{root}/target/staticlib/libzolvortug.a"))
        .arg("-o")
        .arg(f.path("recorder"))
        .status();
    assert!(built.unwrap().success());
    f.shell("timeout 20 ./recorder").ends(0).says(said);
}

/// The session with the demonstration's image: each command, and what it says.
#[test]
fn the_series_of_the_demonstration() {
    let f = Folder::new();
    let (_, session) = MANUAL.split_once("    $ zolvortug demo demo.img").expect("a session");
    let session = format!("    $ zolvortug demo demo.img{}", session.split("\n\n").next().unwrap());
    let lines: Vec<&str> = session.lines().map(str::trim_start).collect();
    let commands = lines.iter().filter_map(|line| line.strip_prefix("$ "));
    let script = commands.collect::<Vec<&str>>().join("\n");
    let said: String = lines
        .iter()
        .filter(|line| !line.starts_with('$'))
        .map(|line| format!("{line}\n"))
        .collect();
    f.shell(&format!("unset COLUMNS\n{script}")).ends(0).says(&said);
    let kept = "The image is kept: try `zolvortug ids demo.img --client 2`,\n\
                or `zolvortug series demo.img --client 2 --series 2`.\n";
    assert!(String::from_utf8(f.bytes("story.txt")).unwrap().ends_with(kept));
}

/// The header shown byte by byte, and the other bytes that the call changed.
#[test]
fn the_header_is_right() {
    let before = fresh(8);
    let mut image = before.clone();
    let bytes: Vec<u8> = (0..528).map(|i| i as u8).collect();
    Store::new(&mut image[..], prices())
        .create(Client(3), Tick(500), &bytes, Tick(100))
        .unwrap();
    let rows = MANUAL.lines().filter_map(|line| {
        let (at, rest) = line.strip_prefix("    ")?.split_once(": ")?;
        let at = usize::from_str_radix(at, 16).ok().filter(|_| at.len() == 2)?;
        let bytes: Vec<u8> = rest
            .split(' ')
            .take(8)
            .map(|b| u8::from_str_radix(b, 16).unwrap())
            .collect();
        Some((at, bytes))
    });
    let rows: Vec<(usize, Vec<u8>)> = rows.collect();
    assert_eq!(rows.len(), 8);
    for (at, bytes) in rows {
        assert_eq!(image[at..at + 8], bytes, "{at:x}");
    }
    let changed: Vec<usize> = (64..image.len()).filter(|i| image[*i] != before[*i]).collect();
    assert_eq!((image[512], image[1048], image[5656]), (0xfe, 1, 0x64));
    assert_eq!(image[1536..1539], [0x10, 0x11, 0x12]);
    assert!(
        changed
            .iter()
            .all(|i| [512, 1048, 5656].contains(i) || (1536..2048).contains(i)),
        "{changed:?}"
    );
}

/// One block through four calls, and what each costs.
#[test]
fn the_charges_are_right() {
    let mut image = fresh(8);
    let mut store = Store::new(&mut image[..], prices());
    let me = Client(3);
    let created = store.create(me, Tick(500), &[0; 528], Tick(100)).unwrap();
    let moved = store.set_expiry(me, created.value, Tick(300), Tick(150)).unwrap();
    let replaced = store.replace(me, created.value, &[0; 528], Tick(200)).unwrap();
    let destroyed = store.destroy(me, replaced.value, Tick(250)).unwrap();
    let charges = [created.charge, moved.charge, replaced.charge, destroyed.charge].map(|c| c.0);
    assert_eq!(charges, [810, -390, 10, -90]);
    for charge in charges {
        assert!(MANUAL.contains(&format!(" = {charge} |")), "{charge}");
    }
    assert!(MANUAL.contains(&format!("The sum is {}:", charges.iter().sum::<i64>())));
}

#[test]
fn every_report_has_its_row() {
    for report in Report::ALL {
        let row = format!("\n| {} | {report:?} | ", report.number());
        assert_eq!(MANUAL.matches(&row).count(), 1, "{report:?}");
    }
}

/// Every verb stands in the manual as its help has it, without what is optional; and no other.
#[test]
fn every_verb_has_its_line() {
    let f = Folder::new();
    let verbs = f.verbs();
    let wanted: Vec<String> = verbs.iter().map(|verb| called(&f, verb)).collect();
    let (_, section) = MANUAL.split_once("## The command\n").unwrap();
    let lines = section.lines().skip_while(|l| !l.starts_with("    zolvortug"));
    let shown: Vec<&str> = lines.take_while(|l| !l.is_empty()).map(str::trim).collect();
    let mut wanted: Vec<&str> = wanted.iter().map(String::as_str).collect();
    let mut sorted = shown.clone();
    wanted.sort();
    sorted.sort();
    assert_eq!(sorted, wanted);
}

fn called(f: &Folder, verb: &str) -> String {
    let help = f.run(&format!("help {verb}")).ends(0).out;
    let synopsis = help.split("\n\n").next().unwrap().replace("\n   ", "");
    let keep = |part: &str| part == "FILE]" || !part.ends_with(']');
    let mut parts = synopsis.split(" [");
    let mut line = parts.next().unwrap().to_string();
    for part in parts.filter(|part| keep(part)) {
        line += &format!(" [{part}");
    }
    line
}
