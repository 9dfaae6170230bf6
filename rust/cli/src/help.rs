//! The help: of the command, and of each verb, from the one table of verbs.
use crate::arguments::Opt;
use crate::verbs::{Verb, VERBS};

fn option(opt: &Opt) -> String {
    match opt.value {
        "" => format!("--{}", opt.name),
        value => format!("--{} {value}", opt.name),
    }
}

/// How a verb is called.
pub fn synopsis(verb: &Verb) -> String {
    let words = verb.words.iter().map(|w| w.to_string());
    let maybe = verb.maybe.iter().map(|w| format!("[{w}]"));
    let needed = verb.needed.iter().map(option);
    let rest = verb.optional.iter().map(|o| format!("[{}]", option(o)));
    wrapped(
        format!("zolvortug {}", verb.name),
        words.chain(maybe).chain(needed).chain(rest),
    )
}

/// Parts after a beginning, on lines of at most 100 signs.
fn wrapped(begin: String, parts: impl Iterator<Item = String>) -> String {
    let (mut text, mut line) = (String::new(), begin);
    for part in parts {
        if line.len() + part.len() >= 100 {
            text += &format!("{line}\n");
            line = "   ".into();
        }
        line += &format!(" {part}");
    }
    text + &line
}

pub fn of_verb(verb: &Verb) -> String {
    let mut text = format!("{}\n\n{}\n\n{}\n\n", synopsis(verb), verb.what, verb.more);
    for opt in verb.options() {
        text += &format!("  {:<18}{}\n", option(opt), opt.what);
    }
    text + "\nexample:\n" + &verb.example.lines().map(|l| format!("  {l}\n")).collect::<String>()
}

pub fn of_command() -> String {
    let mut text = String::from("zolvortug: a proved block store for clock recorders, over image files\n\n");
    for verb in VERBS {
        text += &format!("  {:<10}{}\n", verb.name, verb.what);
    }
    text + "\n\
        `zolvortug help VERB` says more, with an example. FILE may be -: the image then comes from standard input,\n\
        and a changed one goes to standard output.\n\
        \n\
        exit status: 0 done, 1 not sound, 2 wrongly called, 3 a file failed, 4 a fault of the command itself,\n\
        100 + n refused with report n\n"
}
