//! The verbs: what each takes, what it says of itself, and what it does.
use crate::arguments::{Arguments, Opt};
use crate::changing::{create, destroy, expire, format, replace, scavenge};
use crate::demo::demo;
use crate::help;
use crate::reading::{check, count, ids, profile, read, status};
use crate::series::series;
use crate::{Answer, Stop};
use std::ffi::OsString;

/// A verb: the words that it takes, and that it may take; the options that it needs, and that it allows.
pub struct Verb {
    pub name: &'static str,
    pub words: &'static [&'static str],
    pub maybe: &'static [&'static str],
    pub needed: &'static [Opt],
    pub optional: &'static [Opt],
    pub what: &'static str,
    pub more: &'static str,
    pub example: &'static str,
    pub run: fn(&Arguments) -> Result<Answer, Stop>,
}

impl Verb {
    pub fn options(&self) -> impl Iterator<Item = &'static Opt> {
        self.needed.iter().chain(self.optional)
    }
}

/// What was asked for.
pub struct Asked {
    verb: &'static Verb,
    pub arguments: Arguments,
}

impl Asked {
    pub fn run(&self) -> Result<Answer, Stop> {
        (self.verb.run)(&self.arguments)
    }
}

/// What else the words may be.
pub enum Other {
    Help(String),
    Wrong(String),
}

/// Finds the verb that the words begin with, and reads the rest for it.
pub fn find(given: Vec<OsString>) -> Result<Asked, Other> {
    let asks = |word: &OsString| word == "help" || word == "--help" || word == "-h";
    let for_help = given.first().is_some_and(asks);
    let mut words = given.into_iter().skip(usize::from(for_help));
    let name = words.next().unwrap_or_default();
    let rest: Vec<OsString> = words.collect();
    if for_help && (name.is_empty() || asks(&name)) {
        return Err(Other::Help(help::of_command()));
    }
    if name == "--version" {
        return Err(Other::Help(format!("zolvortug {}\n", env!("CARGO_PKG_VERSION"))));
    }
    let Some(verb) = VERBS.iter().find(|v| name == v.name) else {
        return Err(Other::Wrong(unknown(&name.to_string_lossy())));
    };
    if for_help || rest.iter().take_while(|w| *w != "--").any(|w| w != "help" && asks(w)) {
        return Err(Other::Help(help::of_verb(verb)));
    }
    let arguments = Arguments::read(verb, rest).map_err(|what| Other::Wrong(wrong(verb, &what)))?;
    Ok(Asked { verb, arguments })
}

fn unknown(name: &str) -> String {
    let names: Vec<&str> = VERBS.iter().map(|v| v.name).collect();
    let what = match name {
        "" => "a verb is missing".to_string(),
        _ => format!("there is no verb '{name}'"),
    };
    format!("{what}; the verbs are {}. `zolvortug help` says more", names.join(", "))
}

fn wrong(verb: &Verb, what: &str) -> String {
    format!(
        "{what}\nusage: {}\n`zolvortug help {}` says more",
        help::synopsis(verb),
        verb.name
    )
}

const fn opt(name: &'static str, value: &'static str, what: &'static str) -> Opt {
    Opt { name, value, what }
}

const CLIENT: Opt = opt("client", "C", "the client, 0 to 63; the manager is 0");
const PAYER: Opt = opt(
    "client",
    "C",
    "the client that asks, 0 to 63; without it the manager, 0",
);
const MANAGER: Opt = opt(
    "client",
    "C",
    "the client that asks: the manager, 0, as without it; others are refused",
);
const TARIFF: Opt = opt(
    "tariff",
    "PRICES",
    "a file of twelve lines `name = number`; without it all is free",
);
const NOW: Opt = opt(
    "now",
    "TIME",
    "the time of the call; without it the system's clock, or just after the image's",
);
const EXPIRES: Opt = opt(
    "expires",
    "TIME",
    "2026-12-01T00:00:00Z, a number of ticks, +30d, +12h, +5m, +10s, +250ms or never",
);
const DATA: Opt = opt(
    "data",
    "FROM",
    "a file of 528 bytes, or - for standard input, as without it",
);
const TAG: Opt = opt(
    "tag",
    "HEX",
    "the first 16 bytes as 32 hex digits; the data is then 512 bytes",
);
const JSON: Opt = opt("json", "", "the answer as JSON, one object on one line");
const PAD: Opt = opt("pad", "", "fills data that is too short up with zero bytes");
const CUT: Opt = opt(
    "cut-after",
    "W",
    "for tests: stops dead after W writes, as if the plug were pulled",
);
const BLOCKS: Opt = opt("blocks", "N", "the number of blocks, a multiple of 8 from 8 to 4096");
const FORCE: Opt = opt("force", "", "replaces a file that is there already");
const COUNT: Opt = opt("count", "K", "at most so many ids a call, 1 to 64; without it 64");
const OUT: Opt = opt(
    "out",
    "FILE",
    "a new file for the block's bytes; -o for short; without it standard output",
);

const SERIES: Opt = opt(
    "series",
    "S",
    "the number of the series, with which its blocks' tags begin",
);
const SUMMARY: Opt = opt("summary", "", "leaves out the lines for the places");

pub const VERBS: &[Verb] = &[
    Verb {
        name: "demo",
        words: &[],
        maybe: &["FILE"],
        needed: &[],
        optional: &[FORCE],
        what: "shows a walk that misses nothing, beside the old store's",
        more: "Three channels store samples in a new image, and one of them lists its blocks while a clean-up falls\n\
               between two calls. With FILE the image is kept there, to go on with.",
        example: "zolvortug demo",
        run: demo,
    },
    Verb {
        name: "format",
        words: &["FILE"],
        maybe: &[],
        needed: &[BLOCKS],
        optional: &[FORCE, JSON],
        what: "makes a new image",
        more: "The file is written under another name, and named when it is on the disk.",
        example: "zolvortug format store.img --blocks 4096",
        run: format,
    },
    Verb {
        name: "check",
        words: &["FILE"],
        maybe: &[],
        needed: &[],
        optional: &[JSON],
        what: "says whether an image is sound, and if it is not, what is wrong",
        more:
            "Exit status 0 where it is sound, 1 where it is not. The verdict is the proved check's; the reasons below\n\
               it are looked for by the command.",
        example: "zolvortug check store.img",
        run: check,
    },
    Verb {
        name: "create",
        words: &["FILE"],
        maybe: &[],
        needed: &[CLIENT, EXPIRES],
        optional: &[DATA, TAG, PAD, TARIFF, NOW, JSON, CUT],
        what: "stores a block of 528 bytes and prints its id",
        more: "The block goes to the lowest free place. It expires at the later of now and the expiry.",
        example: "echo 'phase samples' | zolvortug create store.img --client 3 --expires +30d --pad",
        run: create,
    },
    Verb {
        name: "read",
        words: &["FILE", "ID"],
        maybe: &[],
        needed: &[],
        optional: &[OUT, FORCE, PAYER, TARIFF, JSON],
        what: "gives a block's 528 bytes",
        more: "At a terminal they are shown in hex; else they are written as they are.",
        example: "zolvortug read store.img $ID -o block.bin",
        run: read,
    },
    Verb {
        name: "status",
        words: &["FILE", "ID"],
        maybe: &[],
        needed: &[],
        optional: &[PAYER, TARIFF, JSON],
        what: "gives a block's owner, when it was created and when it expires",
        more: "Times are printed as RFC 3339; a tick is a millisecond from the start of 2020.",
        example: "zolvortug status store.img $ID --json",
        run: status,
    },
    Verb {
        name: "replace",
        words: &["FILE", "ID"],
        maybe: &[],
        needed: &[CLIENT],
        optional: &[DATA, TAG, PAD, TARIFF, NOW, JSON, CUT],
        what: "puts other bytes in a block's place and prints its new id",
        more: "The block keeps its number and its expiry. It works in a full store.",
        example: "ID=$(echo 'more samples' | zolvortug replace store.img $ID --client 3 --pad)",
        run: replace,
    },
    Verb {
        name: "expire",
        words: &["FILE", "ID"],
        maybe: &[],
        needed: &[CLIENT, EXPIRES],
        optional: &[TARIFF, NOW, JSON, CUT],
        what: "sets when a block expires",
        more: "It expires at the later of now and the expiry: `--expires 0` lets it expire now.",
        example: "zolvortug expire store.img $ID --client 3 --expires never",
        run: expire,
    },
    Verb {
        name: "ids",
        words: &["FILE"],
        maybe: &[],
        needed: &[CLIENT],
        optional: &[COUNT, TARIFF, JSON],
        what: "lists the ids of a client's blocks: a whole walk",
        more: "One id a line, in the order of the blocks. The file is read at one moment, and the walk goes over that.",
        example: "zolvortug ids store.img --client 3",
        run: ids,
    },
    Verb {
        name: "series",
        words: &["FILE"],
        maybe: &[],
        needed: &[CLIENT, SERIES],
        optional: &[SUMMARY, JSON],
        what: "gives a client's series place by place: phases, and where the gaps are",
        more: "One line a place: its phase in picoseconds, or gap. Then, after #, how many there are, where the gaps\n\
               lie, and a picture of them. It is free.\n\
               A block belongs to the series whose number its tag begins with.\n\
               Its tag is series (4 bytes), sequence (4, below 4096), number of samples (1, from 1 to 128), 7 zeros.\n\
               Its data is 128 samples of 4 bytes, signed, each from -2^20 to 2^20; -2^31 marks one that was not\n\
               taken, and slots after the last hold that mark. No two blocks have one sequence.\n\
               Sample i of sequence q has place 128*q + i. A block that is not there is 128 gaps.",
        example: "zolvortug demo demo.img\nzolvortug series demo.img --client 2 --series 2 --summary",
        run: series,
    },
    Verb {
        name: "count",
        words: &["FILE"],
        maybe: &[],
        needed: &[CLIENT],
        optional: &[TARIFF, JSON],
        what: "gives the number of a client's blocks",
        more: "Blocks that have expired and still stand are counted.",
        example: "zolvortug count store.img --client 3",
        run: count,
    },
    Verb {
        name: "destroy",
        words: &["FILE", "ID"],
        maybe: &[],
        needed: &[CLIENT],
        optional: &[TARIFF, NOW, JSON, CUT],
        what: "removes a block",
        more:
            "What it cost beyond now is given back. The bytes of its data stay in the image until the place is used\n\
               again.",
        example: "zolvortug destroy store.img $ID --client 3",
        run: destroy,
    },
    Verb {
        name: "scavenge",
        words: &["FILE"],
        maybe: &[],
        needed: &[],
        optional: &[MANAGER, TARIFF, NOW, JSON, CUT],
        what: "removes the blocks that expired before now: a whole walk",
        more:
            "Each call looks at 64 blocks, and its changes are on the disk before the next. The first call's time is\n\
               now; each later one's is the system's clock again, or with --now the next millisecond.",
        example: "zolvortug scavenge store.img",
        run: scavenge,
    },
    Verb {
        name: "profile",
        words: &["FILE"],
        maybe: &[],
        needed: &[],
        optional: &[MANAGER, TARIFF, JSON],
        what: "gives owner, created and expires of every stored block: a whole walk",
        more: "One block a line, in the order of the blocks.",
        example: "zolvortug profile store.img",
        run: profile,
    },
];
