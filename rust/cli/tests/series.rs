//! The verb `series`: its lines, its summary and its picture; what it says of a series that is refused.
mod common;
use common::{Folder, Said};
use std::time::{Duration, Instant};
use zolvortug::{series_block, Client, Report, Store, Tariff, Tick, BLOCK};
use zolvortug_cli::series_faults::faults;

const ME: Client = Client(3);
const SERIES: &str = "series i --client 3 --series 9";

/// An image of so many blocks, with these of clients, created at 100 and on.
fn image(blocks: u32, given: &[(Client, [u8; BLOCK])]) -> Vec<u8> {
    let mut image = vec![0; zolvortug::size_of_image(blocks).unwrap()];
    zolvortug::format(blocks, &mut image).unwrap();
    let mut store = Store::new(&mut image[..], Tariff::default());
    for ((client, bytes), now) in given.iter().zip(100..) {
        store.create(*client, Tick(90_000), bytes, Tick(now)).unwrap();
    }
    image
}

/// Client 3's blocks of series 9, in the file i.
fn keep(f: &Folder, blocks: &[[u8; BLOCK]]) {
    let given: Vec<(Client, [u8; BLOCK])> = blocks.iter().map(|block| (ME, *block)).collect();
    std::fs::write(f.path("i"), image(16, &given)).unwrap();
}

fn block(sequence: u32, samples: &[Option<i32>]) -> [u8; BLOCK] {
    series_block(9, sequence, samples).unwrap()
}

/// The summary on a terminal of so many columns.
fn summary(f: &Folder, columns: &str) -> Said {
    f.shell(&format!("{columns} zolvortug {SERIES} --summary")).ends(0)
}

const SIGNS: &str = "= phases, - phases and gaps, . gaps\n";

#[test]
fn a_line_a_place() {
    let f = Folder::new();
    let full: Vec<Option<i32>> = (0..128).map(|i| Some(1_048_576 - i)).collect();
    keep(&f, &[block(2, &full), block(0, &[Some(0), None, Some(-1_048_576)])]);
    let gaps = |from: u32, to: u32| (from..=to).map(|place| format!("{place} gap\n")).collect::<String>();
    let phases: String = (0..128).map(|i| format!("{} {}\n", 256 + i, 1_048_576 - i)).collect();
    let places = format!("0 0\n1 gap\n2 -1048576\n{}{phases}", gaps(3, 255));
    let counts = "384 places: 130 phases, 254 gaps\ngap at 1, sequence 0\ngaps from 3 to 255, sequences 0 to 1\n";
    let picture = format!("[-{}-{}]\n", ".".repeat(49), "=".repeat(25));
    let short = counts.to_string() + &picture + SIGNS;
    let after: String = short.lines().map(|line| format!("# {line}\n")).collect();
    f.shell(&format!("unset COLUMNS; zolvortug {SERIES}"))
        .ends(0)
        .says(&(places + &after));
    assert_eq!(summary(&f, "COLUMNS=80").says(&short).err, "");
    f.shell("zolvortug series - --client 3 --series 9 --summary < i | head -n 1")
        .ends(0)
        .says("384 places: 130 phases, 254 gaps\n");
}

#[test]
fn as_json() {
    let f = Folder::new();
    keep(&f, &[block(0, &[Some(5), None, Some(-7)])]);
    let counts = "\"report\":0,\"places\":128,\"phases\":2,\"gaps\":126";
    let ranges = "\"ranges\":[{\"first\":1,\"last\":1},{\"first\":3,\"last\":127}]";
    let samples = format!("\"samples\":[5,null,-7{}]", ",null".repeat(125));
    f.run(&format!("{SERIES} --json"))
        .ends(0)
        .says(&format!("{{{counts},{ranges},{samples}}}\n"));
    f.run(&format!("{SERIES} --json --summary"))
        .ends(0)
        .says(&format!("{{{counts},{ranges}}}\n"));
}

/// One sign a place where there is room, and each sign of as many places, all to the last, where there is not.
#[test]
fn the_picture() {
    let f = Folder::new();
    let samples: Vec<Option<i32>> = (0..128).map(|i| (i % 64 < 33).then_some(i)).collect();
    keep(&f, &[block(0, &samples)]);
    let picture = |columns: &str| summary(&f, columns).out.lines().nth_back(1).unwrap().to_string();
    let half = "=".repeat(33) + &".".repeat(31);
    assert_eq!(picture("COLUMNS=132"), format!("[{half}{half}]"));
    assert_eq!(picture("COLUMNS=5000"), format!("[{half}{half}]"));
    assert_eq!(picture("COLUMNS=131").len(), 129);
    assert_eq!(picture("COLUMNS=8"), "[=-=-]");
    assert_eq!(picture("COLUMNS=12"), "[==-.==-.]");
    assert_eq!(picture("COLUMNS=7"), "[---]");
    for narrow in ["COLUMNS=5", "COLUMNS=4", "COLUMNS=0"] {
        assert_eq!(picture(narrow), "[-]");
    }
    for unsaid in ["unset COLUMNS;", "COLUMNS=", "COLUMNS=wide"] {
        assert_eq!(picture(unsaid).len(), 78);
    }
    keep(&f, &[block(0, &[Some(1); 128])]);
    let all = format!("128 places: 128 phases, 0 gaps\n[{}]\n{SIGNS}", "=".repeat(6));
    summary(&f, "COLUMNS=10").says(&all);
    keep(&f, &[block(0, &[None])]);
    let none = "128 places: 0 phases, 128 gaps\ngaps from 0 to 127, sequence 0\n[......]\n";
    summary(&f, "COLUMNS=10").says(&format!("{none}{SIGNS}"));
}

/// A person is told twenty ranges, and how many more there are.
#[test]
fn many_ranges() {
    let f = Folder::new();
    let samples: Vec<Option<i32>> = (0..128).map(|i| (i % 2 == 0).then_some(i)).collect();
    keep(&f, &[block(1, &samples)]);
    let said = summary(&f, "COLUMNS=12").out;
    let lines: Vec<&str> = said.lines().collect();
    assert_eq!(lines.len(), 24);
    assert_eq!(lines[1], "gaps from 0 to 127, sequence 0");
    assert_eq!(lines[20], "gap at 165, sequence 1");
    assert_eq!(lines[21], "and 45 more; --json tells them all");
    let json = f.run(&format!("{SERIES} --summary --json")).ends(0).out;
    assert_eq!(json.matches("\"first\"").count(), 65);
}

/// A block that is destroyed leaves 128 gaps in its place; with the last one the series ends earlier.
#[test]
fn a_block_that_is_not_there() {
    let f = Folder::new();
    f.run("format i --blocks 8").ends(0);
    let store = |sequence: u32| {
        let create = format!("create i --client 3 --expires never --now {}", 100 + sequence);
        f.fed(&create, &block(sequence, &[Some(1); 128])).ends(0).line()
    };
    let ids: Vec<String> = (0..4).map(store).collect();
    let first = || f.run(&format!("{SERIES} --summary")).ends(0).line();
    assert_eq!(first(), "512 places: 512 phases, 0 gaps");
    let destroy = |id: &str| f.run(&format!("destroy i {id} --client 3")).ends(0);
    destroy(&ids[1]);
    assert_eq!(first(), "512 places: 384 phases, 128 gaps");
    let said = f.run(&format!("{SERIES} --summary")).out;
    assert_eq!(said.lines().nth(1), Some("gaps from 128 to 255, sequence 1"));
    destroy(&ids[3]);
    assert_eq!(first(), "384 places: 256 phases, 128 gaps");
}

/// Each refusal with its status, its sentence, and what the command found.
#[test]
fn refusals() {
    let f = Folder::new();
    let (right, mut wrong) = (block(1, &[Some(5)]), block(2, &[Some(5)]));
    wrong[8] = 129;
    keep(
        &f,
        &[right, block(2, &[Some(5)]), block(3, &[None]), right, right, right],
    );
    let twice = f.bytes("i");
    let mut harmed = twice.clone();
    harmed[64 * 9] = 1;
    std::fs::write(f.path("harmed"), &harmed).unwrap();
    std::fs::write(f.path("blank"), vec![0; twice.len()]).unwrap();
    std::fs::write(f.path("bad"), image(16, &[(ME, right), (ME, right), (ME, wrong)])).unwrap();
    for (report, sentence, words) in [
        (
            1,
            "BadImage: the trailer is not that of",
            "series blank --client 64 --series 9",
        ),
        (
            2,
            "BadUser: there is no such client",
            "series harmed --client 64 --series 9",
        ),
        (9, "Damaged: a header or a count", "series harmed --client 3 --series 8"),
        (
            13,
            "NoSeries: no block of the client belongs",
            "series i --client 3 --series 8",
        ),
        (
            14,
            "BadTag: a block of the series has a tag",
            "series bad --client 3 --series 9",
        ),
        (15, "SequenceTwice: two blocks of the series", SERIES),
    ] {
        let said = f.run(words).ends(100 + report).says("");
        let begin = format!("zolvortug: refused: {report} {sentence}");
        assert!(said.err.starts_with(&begin), "{said:?}");
        assert_eq!(said.err.lines().count() > 1, report > 9, "{said:?}");
    }
    assert!(f.bytes("i") == twice);
    let name = |image: &str, client: u32, at: usize| {
        let ids = f.run(&format!("ids {image} --client {client}")).ends(0).out;
        format!("block {at}, id {}", ids.lines().nth(at).unwrap())
    };
    let last = |words: &str| f.run(words).err.lines().last().unwrap().to_string();
    assert_eq!(
        last("series i --client 3 --series 8"),
        "  the client's blocks of series 9: 6"
    );
    let fault = format!(
        "{}: its number of samples is 129, and not from 1 to 128",
        name("bad", 3, 2)
    );
    assert_eq!(last("series bad --client 3 --series 9"), format!("  {fault}"));
    let fault = format!("sequence 1: {}; {}", name("i", 3, 0), name("i", 3, 5));
    assert_eq!(last(SERIES), format!("  {fault}"));
    assert_eq!(f.run(SERIES).err.lines().count(), 4);
}

#[test]
fn refusals_as_json() {
    let f = Folder::new();
    let right = block(1, &[Some(5)]);
    let other = series_block(4_000_000_000, 0, &[None]).unwrap();
    keep(&f, &[right, other, right]);
    f.run("series i --client 3 --series 8 --json")
        .ends(113)
        .says("{\"report\":13,\"name\":\"NoSeries\",\"series\":[9,4000000000]}\n");
    f.run("series i --client 4 --series 9 --json")
        .ends(113)
        .says("{\"report\":13,\"name\":\"NoSeries\",\"series\":[]}\n");
    f.run("series i --client 64 --series 9 --json")
        .ends(102)
        .says("{\"report\":2,\"name\":\"BadUser\"}\n");
    let ids = f.run("ids i --client 3").ends(0).out;
    let ids: Vec<&str> = ids.lines().collect();
    f.run(&format!("{SERIES} --json --summary")).ends(115).says(&format!(
        "{{\"report\":15,\"name\":\"SequenceTwice\",\"faults\":[\"sequence 1: block 0, id {}; block 2, id {}\"]}}\n",
        ids[0], ids[2]
    ));
    f.run("series i --client 3 --series 4000000000 --summary").ends(0);
}

#[test]
fn wrongly_called() {
    let f = Folder::new();
    keep(&f, &[]);
    for (words, what) in [
        ("series i --client 3", "--series S is missing"),
        ("series i --series 3", "--client C is missing"),
        ("series i --client 3 --series nine", "'nine' is no number"),
        ("series i --client 3 --series 4294967296", "is no number that fits"),
        ("series i --client 3 --series 9 --tariff p", "there is no --tariff here"),
        (
            "series i --client 3 --series 9 --summary=yes",
            "--summary takes no value",
        ),
    ] {
        f.run(words).ends(2).says("").warns(what);
    }
}

/// The command's reasons agree with the proved reader, whichever bit of a block of the series is changed.
#[test]
fn faults_agree_with_the_reader() {
    let samples = [Some(1_048_576), None, Some(-1_048_576), Some(0)];
    let (right, mut stranger) = (block(2, &samples), [7; BLOCK]);
    stranger[..4].copy_from_slice(&[9, 0, 1, 0]);
    let mut seen = [0; 16];
    for bit in 0..8 * BLOCK {
        let mut changed = right;
        changed[bit / 8] ^= 1 << (bit % 8);
        let blocks = [
            (ME, block(3, &samples)),
            (Client(4), right),
            (ME, changed),
            (ME, block(259, &samples)),
            (ME, stranger),
        ];
        let image = image(8, &blocks);
        let report = zolvortug::Reader::open(&image, ME, 9).err();
        let found = faults(&image, ME, 9);
        assert_eq!(
            found.len(),
            usize::from(report.is_some()),
            "bit {bit}: {report:?} {found:?}"
        );
        let start = match report {
            Some(Report::SequenceTwice) => "sequence 3: block 0, id ",
            _ => "block 2, id ",
        };
        assert!(found.iter().all(|fault| fault.starts_with(start)), "{found:?}");
        seen[usize::from(report.map_or(0, Report::number))] += 1;
    }
    assert_eq!(seen[15], 1);
    assert!(
        seen[0] > 32 && seen[14] > 4000 && seen[0] + seen[14] + seen[15] == 8 * BLOCK,
        "{seen:?}"
    );
}

/// What is said of each kind of fault.
#[test]
fn each_fault() {
    let right = block(2, &[Some(5), None]);
    let cases: [(usize, [u8; 4], &str); 6] = [
        (4, [0, 16, 0, 0], "its sequence is 4096, and not below 4096"),
        (8, [0; 4], "its number of samples is 0, and not from 1 to 128"),
        (12, [0, 0, 0, 1], "a byte of its tag that is to be zero is not"),
        (
            16,
            [1, 0, 16, 0],
            "sample 0 is 1048577, and not from -1048576 to 1048576",
        ),
        (
            20,
            [1, 0, 0, 128],
            "sample 1 is -2147483647, and not from -1048576 to 1048576",
        ),
        (
            24,
            [5, 0, 0, 0],
            "slot 2 is after its 2 samples, and holds 5 in place of the mark",
        ),
    ];
    for (at, bytes, what) in cases {
        let mut wrong = right;
        wrong[at..at + 4].copy_from_slice(&bytes);
        let found = faults(&image(8, &[(ME, wrong)]), ME, 9);
        assert_eq!(found.len(), 1);
        assert!(found[0].ends_with(&format!(": {what}")), "{found:?}");
    }
}

/// The longest series, by 4,096 blocks and by one: quick, and a reader that goes away is no failure.
#[test]
fn the_longest() {
    let f = Folder::new();
    let blocks: Vec<_> = (0..4096)
        .rev()
        .map(|q| (ME, block(q, &[Some(q as i32); 128])))
        .collect();
    std::fs::write(f.path("full"), image(4096, &blocks)).unwrap();
    std::fs::write(f.path("one"), image(8, &blocks[..1])).unwrap();
    let begin = Instant::now();
    let said = f.run("series full --client 3 --series 9").ends(0).out;
    assert!(begin.elapsed() < Duration::from_secs(10), "{:?}", begin.elapsed());
    let lines: Vec<&str> = said.lines().collect();
    assert_eq!(
        lines[524_287..524_289],
        ["524287 4095", "# 524288 places: 524288 phases, 0 gaps"]
    );
    let said = f.run("series one --client 3 --series 9 --summary").ends(0).out;
    let start = "524288 places: 128 phases, 524160 gaps\ngaps from 0 to 524159, sequences 0 to 4094\n[...";
    assert!(said.starts_with(start), "{said}");
    f.shell("set -o pipefail; zolvortug series full --client 3 --series 9 | head -n 1")
        .ends(0)
        .says("0 0\n");
    f.shell("zolvortug series one --client 3 --series 9 > /dev/full")
        .ends(3)
        .warns("the answer could not be written: No space left on device");
}
