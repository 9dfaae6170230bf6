//! The command, verb by verb: what it prints, and its exit status.
mod common;
use common::Folder;
use std::time::{SystemTime, UNIX_EPOCH};
use zolvortug::{Client, Store, Tariff, Tick};
use zolvortug_cli::time::moment;

const PRICES: &str = include_str!("../../../examples/prices");
const BLOCK: [u8; 528] = [7; 528];
/// The ids of the fourteen calls: made from 100 and block 0, 101 and block 1, 110 and block 1.
const FIRST: &str = "dd8c40005e01c000";
const THIRD: &str = "fe6c59d935936d1f";
const SIXTH: &str = "6bf669d90ff4dd1f";

/// Document 01's fourteen calls by the command: the exit status tells the report.
#[test]
fn fourteen_calls() {
    let f = Folder::new();
    std::fs::write(f.path("prices"), PRICES).unwrap();
    f.run("format i --blocks 8").ends(0).says("i: 8 blocks, 6144 bytes\n");
    let call = |words: &str, status: i32, charge: i64| {
        f.fed(&format!("{words} --tariff prices"), &BLOCK)
            .ends(status)
            .warns(&format!("charge {charge}\n"))
    };
    call("create i --client 3 --now 100 --expires 500", 0, 810).says(&format!("{FIRST}\n"));
    call("create i --client 3 --now 100 --expires 500", 104, 1).says("");
    call("create i --client 5 --now 101 --expires 50", 0, 10).says(&format!("{THIRD}\n"));
    call(&format!("expire i {FIRST} --client 5 --now 102 --expires 300"), 111, 1).says("");
    call(&format!("expire i {FIRST} --client 3 --now 103 --expires 300"), 0, -390).says("");
    call(&format!("replace i {THIRD} --client 5 --now 110"), 0, 10).says(&format!("{SIXTH}\n"));
    call(&format!("read i {THIRD}"), 110, 1).says("");
    call("ids i --client 3 --count 1", 0, 20).says(&format!("{FIRST}\n"));
    call("scavenge i --client 3 --now 200", 105, 1).says("removed 0\n");
    let told = "owner    5\ncreated  2020-01-01T00:00:00.110Z\nexpires  2020-01-01T00:00:00.101Z\n";
    call(&format!("status i {SIXTH}"), 0, 10).says(told);
    call("scavenge i --now 300", 0, 10).says("removed 1\n");
    call(&format!("destroy i {FIRST} --client 3 --now 350"), 0, 110).says("");
    call("count i --client 3", 0, 10).says("0\n");
}

#[test]
fn answers_as_json() {
    let f = Folder::new();
    f.run("format i --blocks 8 --json")
        .ends(0)
        .says("{\"report\":0,\"blocks\":8,\"bytes\":6144}\n");
    let created = "{\"report\":0,\"id\":\"dd8c40005e01c000\",\"now\":\"2020-01-01T00:00:00.100Z\",\"charge\":0}\n";
    f.fed("create i --client 3 --now 100 --expires 500 --json", &BLOCK)
        .ends(0)
        .says(created);
    let read = format!(
        "{{\"report\":0,\"tag\":\"{}\",\"data\":\"{}\",\"charge\":0}}\n",
        "07".repeat(16),
        "07".repeat(512)
    );
    f.run(&format!("read i {FIRST} --json")).ends(0).says(&read);
    let info = "\"owner\":3,\"created\":\"2020-01-01T00:00:00.100Z\",\"expires\":\"2020-01-01T00:00:00.500Z\"";
    f.run(&format!("status i {FIRST} --json"))
        .ends(0)
        .says(&format!("{{\"report\":0,{info},\"charge\":0}}\n"));
    let ids = "{\"report\":0,\"ids\":[\"dd8c40005e01c000\"],\"calls\":1,\"charge\":0}\n";
    f.run("ids i --client 3 --json").ends(0).says(ids);
    f.run("count i --client 3 --json")
        .ends(0)
        .says("{\"report\":0,\"count\":1,\"charge\":0}\n");
    let profile = format!("{{\"report\":0,\"entries\":[{{{info}}}],\"calls\":1,\"charge\":0}}\n");
    f.run("profile i --json").ends(0).says(&profile);
    let sound = "{\"report\":0,\"sound\":true,\"blocks\":8,\"used\":1,\"clock\":\"2020-01-01T00:00:00.100Z\"}\n";
    f.run("check i --json").ends(0).says(sound);
    let scavenged = "{\"report\":0,\"removed\":1,\"calls\":1,\"charge\":0}\n";
    f.run("scavenge i --now 501 --json").ends(0).says(scavenged);
    let refused = "{\"report\":10,\"name\":\"NoSuchBlock\",\"charge\":0}\n";
    f.run(&format!("destroy i {FIRST} --client 3 --now 502 --json"))
        .ends(110)
        .says(refused);
}

/// Every report that an operation can give the command, with its sentence; series.rs has the reader's.
#[test]
fn refusals() {
    let f = Folder::new();
    let mut image = vec![0; zolvortug::size_of_image(8).unwrap()];
    std::fs::write(f.path("blank"), &image).unwrap();
    f.run("format i --blocks 8").ends(0);
    let id = f
        .fed("create i --client 3 --now 100 --expires 500", &BLOCK)
        .ends(0)
        .line();
    zolvortug::format(8, &mut image).unwrap();
    image[0] = 9;
    std::fs::write(f.path("harmed"), &image).unwrap();
    let rows = [
        (
            1,
            "BadImage: the trailer is not that of",
            "count blank --client 3".to_string(),
        ),
        (
            1,
            "BadImage: an image has a multiple of 8 blocks",
            "format j --blocks 12".to_string(),
        ),
        (2, "BadUser: there is no such client", "count i --client 64".to_string()),
        (
            2,
            "BadUser: there is no such client",
            format!("read i {id} --client 64"),
        ),
        (
            2,
            "BadUser: there is no such client",
            format!("status i {id} --client 64"),
        ),
        (
            3,
            "BadTime: a time is out of range",
            format!("destroy i {id} --client 3 --now 0"),
        ),
        (
            3,
            "BadTime: a time is out of range",
            format!("expire i {id} --client 3 --now 101 --expires 1099511627776"),
        ),
        (
            4,
            "ClockNotLater: now is not after",
            format!("destroy i {id} --client 3 --now 100"),
        ),
        (
            5,
            "NotManager: this is the manager's to do",
            "profile i --client 1".to_string(),
        ),
        (
            7,
            "BadCount: a call names 1 to 64 ids",
            "ids i --client 3 --count 65".to_string(),
        ),
        (
            8,
            "BadRoom: a block is 528 bytes",
            "create i --client 3 --expires never --data prices".to_string(),
        ),
        (9, "Damaged: a header or a count", "ids harmed --client 3".to_string()),
        (
            10,
            "NoSuchBlock: no stored block has this id",
            "read i 0000000000000000".to_string(),
        ),
        (
            11,
            "NotOwner: the block is another client's",
            format!("destroy i {id} --client 4"),
        ),
    ];
    std::fs::write(f.path("prices"), PRICES).unwrap();
    let before = f.bytes("i");
    for (report, sentence, words) in rows {
        let said = f.run(&words).ends(100 + report).says("");
        assert!(
            said.err
                .starts_with(&format!("zolvortug: refused: {report} {sentence}")),
            "{said:?}"
        );
    }
    assert!(f.bytes("i") == before);
    for _ in 0..7 {
        f.fed("create i --client 3 --expires never", &BLOCK).ends(0);
    }
    f.fed("create i --client 3 --expires never", &BLOCK)
        .ends(112)
        .warns("zolvortug: refused: 12 NoSpace: every block is in use");
}

#[test]
fn wrongly_called() {
    let f = Folder::new();
    f.run("format i --blocks 8").ends(0);
    for (words, what) in [
        ("", "a verb is missing"),
        ("list i", "there is no verb 'list'"),
        ("check", "FILE is missing"),
        ("check i i", "'i' is one word too many"),
        ("check -i", "there is no -i here"),
        ("demo -", "keeps its image in a file"),
        (
            "destroy i 0000000000000000 --client 3 --tariff - --data -",
            "there is no --data here",
        ),
        ("count - --client 3 --tariff -", "only one of them"),
        ("format j", "--blocks N is missing"),
        ("format j --blocks", "--blocks asks for a value, N"),
        ("format j --blocks eight", "'eight' is no number"),
        ("format j --blocks 8 --blocks 8", "--blocks stands twice"),
        ("format j --blocks 8 --force=yes", "--force takes no value"),
        ("check i --now 5", "there is no --now here"),
        ("create i --client 3", "--expires TIME is missing"),
        ("create i --client 3 --expires tomorrow", "'tomorrow' is no time"),
        ("create i --client 3 --expires +5", "'+5' is no span of time"),
        ("create i --client 3 --expires never --tag 07", "is not 32 hex digits"),
        ("create - --client 3 --expires never", "only one of them"),
        ("destroy i 12 --client 3", "'12' is no id"),
        ("destroy i 0x00000000000000 --client 3", "is no id"),
        (
            "destroy i 0000000000000000 --client 3 --now 2019-01-01T00:00:00Z",
            "is before 2020",
        ),
    ] {
        f.run(words).ends(2).says("").warns(what);
    }
    assert_eq!(f.names(), ["i"]);
}

/// Each verb's help has an example, and all of them together are a session that works.
#[test]
fn examples_of_the_help_work() {
    let f = Folder::new();
    let verbs = f.verbs();
    assert_eq!(verbs.len(), 14);
    let mut script = String::from("set -e\n");
    for verb in verbs {
        let help = f.run(&format!("help {verb}")).ends(0).out;
        assert_eq!(f.run(&format!("{verb} --help")).ends(0).out, help);
        assert!(help.lines().all(|line| line.len() <= 120), "{help}");
        let example = help.split_once("example:\n").expect("an example").1.trim();
        assert!(example.contains(&format!("zolvortug {verb}")), "{help}");
        script += &match &verb[..] {
            "create" => format!("ID=$({example})\n"),
            _ => format!("{example}\n"),
        };
    }
    f.shell(&script).ends(0);
    assert_eq!(f.bytes("block.bin")[..14], *b"phase samples\n");
}

#[test]
fn standard_input_and_output() {
    let f = Folder::new();
    std::fs::write(f.path("block"), BLOCK).unwrap();
    let id = f
        .shell(
            "set -e -o pipefail
             zolvortug format - --blocks 8 2>/dev/null |
                 zolvortug create - --client 3 --now 100 --expires 500 --data block 2>id |
                 zolvortug create - --client 3 --now 101 --expires 500 --data block 2>/dev/null > i
             cat id",
        )
        .ends(0)
        .line();
    assert_eq!(id, FIRST);
    f.shell("zolvortug check - < i")
        .ends(0)
        .says("-: sound; 2 of 8 blocks used, clock 2020-01-01T00:00:00.101Z\n");
    let read = f.shell("zolvortug read - dd8c40005e01c000 < i").ends(0);
    assert_eq!(read.raw, BLOCK);
    f.shell("zolvortug destroy - dd8c40005e01c000 --client 4 < i")
        .ends(111)
        .says("");
    f.shell("zolvortug scavenge - --now 501 < i > j && zolvortug count j --client 3")
        .ends(0)
        .says("0\n")
        .warns("removed 2");
    f.shell("zolvortug check - < /dev/null")
        .ends(1)
        .says("-: not sound\n  too short: it has 0 bytes, and the smallest image 6144 bytes (8 blocks)\n");
}

/// After a refusal nothing goes where the image would go; and an image that is not taken is a failure.
#[test]
fn a_refused_or_broken_pipe() {
    let f = Folder::new();
    std::fs::write(f.path("block"), BLOCK).unwrap();
    f.run("format i --blocks 4096").ends(0);
    let refused = "{\"report\":10,\"name\":\"NoSuchBlock\",\"charge\":0}\n";
    f.shell("zolvortug destroy - 0000000000000000 --client 4 --json < i")
        .ends(110)
        .says("")
        .warns(refused);
    let mut image = f.bytes("i");
    image[64 * 70] = 9;
    std::fs::write(f.path("j"), &image).unwrap();
    f.shell("zolvortug scavenge - --cut-after 1 < i")
        .ends(2)
        .says("")
        .warns("a pipe has no writes");
    let refused = "{\"report\":9,\"name\":\"Damaged\",\"charge\":0}\n";
    f.shell("zolvortug scavenge - --json < j")
        .ends(109)
        .says("")
        .warns(refused);
    f.shell(
        "set -o pipefail; zolvortug create - --client 3 --expires never --data block < i | head -c 100 > /dev/null",
    )
    .ends(3)
    .warns("zolvortug: the image could not be written: Broken pipe\n");
}

#[test]
fn data_and_tags() {
    let f = Folder::new();
    f.run("format i --blocks 8").ends(0);
    let create = |options: &str, data: &[u8]| f.fed(&format!("create i --client 3 --expires never {options}"), data);
    create("", &BLOCK[..527]).ends(108);
    create("", &[7; 529]).ends(108);
    create("--pad", &[7; 529]).ends(108);
    create("--tag 000102030405060708090a0b0c0d0e0f", &BLOCK).ends(108);
    let id = create("--tag 000102030405060708090a0b0c0d0e0f", &BLOCK[..512])
        .ends(0)
        .line();
    f.run(&format!("read i {id} -o block"))
        .ends(0)
        .says("block: 528 bytes\n");
    assert_eq!(
        f.bytes("block")[..18],
        [0, 1, 2, 3, 4, 5, 6, 7, 8, 9, 10, 11, 12, 13, 14, 15, 7, 7]
    );
    f.run(&format!("read i {id} -o block"))
        .ends(3)
        .warns("block: there already");
    f.run(&format!("read i {id} --out=block --force")).ends(0);
    f.run(&format!("read i {id} --out=i --force"))
        .ends(2)
        .warns("its own image");
    let id = create("--pad", b"abc").ends(0).line();
    let read = f.run(&format!("read i {id} -o -")).ends(0);
    assert_eq!((&read.raw[..4], read.raw.len()), (&b"abc\0"[..], 528));
}

/// Without --now the time is the system's, or just after the image's clock where that is ahead.
#[test]
fn the_time_of_a_call() {
    let f = Folder::new();
    f.run("format i --blocks 8").ends(0);
    let now_of = |said: String| {
        let (_, rest) = said.split_once("\"now\":\"").unwrap();
        moment(rest.split('"').next().unwrap()).unwrap().0
    };
    let unix = || SystemTime::now().duration_since(UNIX_EPOCH).unwrap().as_millis() as u64 - 1_577_836_800_000;
    let before = unix();
    let now = now_of(f.fed("create i --client 3 --expires +1d --json", &BLOCK).ends(0).out);
    assert!((before..=unix()).contains(&now), "{before} {now}");
    f.fed("create i --client 3 --expires never --now 2050-01-01T00:00:00Z", &BLOCK)
        .ends(0);
    let said = f.fed("create i --client 3 --expires never --json", &BLOCK).ends(0).out;
    assert_eq!(now_of(said), moment("2050-01-01T00:00:00.001Z").unwrap().0);
    f.fed("create i --client 3 --expires never --now 1099511627775", &BLOCK)
        .ends(0);
    f.fed("create i --client 3 --expires never", &BLOCK)
        .ends(103)
        .warns("refused: 3 BadTime");
}

/// A span counts from now; blocks are told in their order.
#[test]
fn spans_and_profiles() {
    let f = Folder::new();
    f.run("format i --blocks 8").ends(0);
    let id = f
        .fed("create i --client 63 --now 100 --expires +10s", &BLOCK)
        .ends(0)
        .line();
    f.fed("create i --client 3 --now 200 --expires +250ms", &BLOCK).ends(0);
    let row = "created 2020-01-01T00:00:00.200Z  expires 2020-01-01T00:00:00.450Z\n";
    let first = "owner 63  created 2020-01-01T00:00:00.100Z  expires 2020-01-01T00:00:10.100Z\n";
    f.run("profile i")
        .ends(0)
        .says(&format!("{first}owner 3   {row}"))
        .warns("");
    f.run(&format!("expire i {id} --client 63 --now 300 --expires +1m"))
        .ends(0)
        .says("");
    let moved = "owner 63  created 2020-01-01T00:00:00.100Z  expires 2020-01-01T00:01:00.300Z\n";
    let said = f.run("profile i").ends(0).says(&format!("{moved}owner 3   {row}"));
    assert_eq!(said.err, "", "without a tariff no charge is told");
    f.run("check i")
        .ends(0)
        .says("i: sound; 2 of 8 blocks used, clock 2020-01-01T00:00:00.300Z\n");
}

/// A person is told twenty faults, and how many more there are.
#[test]
fn many_faults() {
    let f = Folder::new();
    f.run("format i --blocks 64").ends(0);
    let mut image = f.bytes("i");
    (0..25).for_each(|block| image[64 * block] = 9);
    std::fs::write(f.path("i"), &image).unwrap();
    let said = f.run("check i").ends(1).out;
    let lines: Vec<&str> = said.lines().collect();
    assert_eq!(lines.len(), 22);
    assert_eq!(lines[20], "  block 19: its first byte is 9, and neither 0 nor 1");
    assert_eq!(lines[21], "  and 5 more; --json tells them all");
    assert_eq!(
        f.run("check i --json").ends(1).out.matches("its first byte").count(),
        25
    );
    std::fs::write(f.path("i"), &image[..33792]).unwrap();
    f.run("check i")
        .ends(1)
        .says("i: not sound\n  the last 512 bytes are no trailer: cut to this length, or no image\n");
    image.resize(2_360_832, 0);
    std::fs::write(f.path("i"), &image).unwrap();
    f.run("check i")
        .ends(1)
        .says("i: not sound\n  too long: an image of 64 blocks ends at 38400 bytes, and more follow\n");
}

/// A whole scavenge has many calls, and each its own time.
#[test]
fn long_walks() {
    let f = Folder::new();
    f.run("format i --blocks 4096").ends(0);
    f.fed("create i --client 63 --now 5 --expires 10", &BLOCK).ends(0);
    let said = "{\"report\":0,\"removed\":1,\"calls\":64,\"charge\":0}\n";
    f.run("scavenge i --now 100 --json").ends(0).says(said);
    f.run("check i")
        .ends(0)
        .says("i: sound; 0 of 4096 blocks used, clock 2020-01-01T00:00:00.163Z\n");
    f.run("ids i --client 63 --json")
        .ends(0)
        .says("{\"report\":0,\"ids\":[],\"calls\":64,\"charge\":0}\n");
    f.shell("zolvortug profile i").ends(0).says("");
}

/// A refusal in the middle of a walk: what came before it is told.
#[test]
fn damage_in_the_middle_of_a_walk() {
    let f = Folder::new();
    f.run("format i --blocks 128").ends(0);
    let id = f
        .fed("create i --client 3 --now 100 --expires 500", &BLOCK)
        .ends(0)
        .line();
    let mut image = f.bytes("i");
    image[64 * 70 + 1] = 1;
    std::fs::write(f.path("i"), &image).unwrap();
    f.run("ids i --client 3")
        .ends(109)
        .says(&format!("{id}\n"))
        .warns("refused: 9 Damaged");
    f.run("check i").ends(1).says(
        "i: not sound\n  block 70: unused, and yet its header is not all zero\n  \
         blocks that can still be read: 1; --json has their ids\n",
    );
    f.run("check i --json").ends(1).says(&format!(
        "{{\"report\":0,\"sound\":false,\"faults\":[\"block 70: unused, and yet its header is not all zero\"],\
         \"readable\":[{{\"block\":0,\"owner\":3,\"id\":\"{id}\"}}]}}\n"
    ));
    let refused = format!("{{\"report\":9,\"name\":\"Damaged\",\"ids\":[\"{id}\"],\"calls\":2,\"charge\":0}}\n");
    f.run("ids i --client 3 --json").ends(109).says(&refused);
    f.run("scavenge i --now 501").ends(109).says("removed 1\n");
}

#[test]
fn an_answer_that_cannot_be_written() {
    let f = Folder::new();
    std::fs::write(f.path("prices"), PRICES).unwrap();
    f.run("format i --blocks 8").ends(0);
    f.shell("zolvortug check i > /dev/full")
        .ends(3)
        .warns("the answer could not be written: No space left on device");
    f.shell("head -c 528 /dev/zero | zolvortug create i --client 3 --expires never > /dev/full")
        .ends(3)
        .warns("the change was made, and its answer could not be written: No space left on device");
    let mut image = vec![0; zolvortug::size_of_image(4096).unwrap()];
    zolvortug::format(4096, &mut image).unwrap();
    let mut store = Store::new(&mut image[..], Tariff::default());
    for now in 1..=4096 {
        store.create(Client(3), Tick(now), &BLOCK, Tick(now)).unwrap();
    }
    std::fs::write(f.path("full"), &image).unwrap();
    f.shell("set -o pipefail; zolvortug profile full | head -n 1")
        .ends(0)
        .says("owner 3   created 2020-01-01T00:00:00.001Z  expires 2020-01-01T00:00:00.001Z\n");
    f.shell("zolvortug read i 0000000000000000 2> /dev/full").ends(110);
    f.shell("zolvortug count i --client 3 --tariff prices 2> /dev/full")
        .ends(0)
        .says("1\n");
}

#[test]
fn forms_of_help() {
    let f = Folder::new();
    let help = f.run("help").ends(0).out;
    for words in ["--help", "-h", "help --help"] {
        f.run(words).ends(0).says(&help);
    }
    let help = f.run("help create").ends(0).out;
    for words in [
        "--help create",
        "-h create",
        "create --help",
        "create -h",
        "create i --client 3 --help",
    ] {
        f.run(words).ends(0).says(&help);
    }
    f.run("help list").ends(2).warns("there is no verb 'list'");
    f.run("--version").ends(0).says("zolvortug 0.1.0\n");
}

#[test]
fn the_demonstration() {
    let f = Folder::new();
    f.shell("TMPDIR=$PWD zolvortug demo")
        .ends(0)
        .says(include_str!("demo.out"));
    assert!(f.names().is_empty());
    f.shell("mkdir zolvortug-demo-$$-0; TMPDIR=$PWD exec zolvortug demo")
        .ends(0)
        .says(include_str!("demo.out"));
    assert_eq!(f.names().len(), 1);
    f.run("demo i").ends(0);
    f.run("check i")
        .ends(0)
        .says("i: sound; 15 of 32 blocks used, clock 2026-01-01T00:17:04.012Z\n");
    f.run("demo i").ends(3).warns("i: there already");
    f.run("demo i --force").ends(0);
}
