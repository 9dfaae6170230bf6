//! What a verb was given: words, `--name value`, `--name=value` and `--flag`, in any order.
use crate::verbs::Verb;
use std::ffi::{OsStr, OsString};
use std::os::unix::ffi::OsStrExt;
use std::path::Path;
use std::str::FromStr;

/// An option: its name, what its value is called (none where it is a flag), and what it is for.
#[derive(Clone, Copy)]
pub struct Opt {
    pub name: &'static str,
    pub value: &'static str,
    pub what: &'static str,
}

pub struct Arguments {
    verb: &'static Verb,
    words: Vec<OsString>,
    options: Vec<(&'static str, OsString)>,
}

impl Arguments {
    /// Reads what stands after the verb, and holds it against what the verb takes.
    pub fn read(verb: &'static Verb, given: Vec<OsString>) -> Result<Arguments, String> {
        let mut read = Arguments {
            verb,
            words: Vec::new(),
            options: Vec::new(),
        };
        let mut given = given.into_iter();
        while let Some(word) = given.next() {
            match word.as_bytes() {
                b"--" => read.words.extend(given.by_ref()),
                b"-o" => read.take("out", None, &mut given)?,
                [b'-', b'-', option @ ..] => {
                    let mut parts = option.splitn(2, |byte| *byte == b'=');
                    let name = String::from_utf8_lossy(parts.next().unwrap_or_default());
                    read.take(&name, parts.next().map(OsStr::from_bytes), &mut given)?
                }
                [b'-', _, ..] => return Err(format!("there is no {} here; after -- it is a word", word.display())),
                _ => read.words.push(word),
            }
        }
        read.complete()
    }

    fn take(
        &mut self,
        name: &str,
        joined: Option<&OsStr>,
        rest: &mut impl Iterator<Item = OsString>,
    ) -> Result<(), String> {
        let option = self
            .verb
            .options()
            .find(|o| o.name == name)
            .ok_or(format!("there is no --{name} here"))?;
        let value = match (option.value, joined) {
            ("", None) => OsString::new(),
            ("", Some(_)) => return Err(format!("--{name} takes no value")),
            (_, Some(value)) => value.to_os_string(),
            (value, None) => rest.next().ok_or(format!("--{name} asks for a value, {value}"))?,
        };
        if self.has(name) {
            return Err(format!("--{name} stands twice"));
        }
        self.options.push((option.name, value));
        Ok(())
    }

    fn complete(self) -> Result<Arguments, String> {
        let verb = self.verb;
        if let Some(missing) = verb.words.get(self.words.len()) {
            return Err(format!("{missing} is missing"));
        }
        if self.words.iter().any(|word| word.is_empty()) {
            return Err("a word is empty".into());
        }
        if let Some(more) = self.words.get(verb.words.len() + verb.maybe.len()) {
            return Err(format!("'{}' is one word too many", more.display()));
        }
        if let Some(option) = verb.needed.iter().find(|o| !self.has(o.name)) {
            return Err(format!("--{} {} is missing", option.name, option.value));
        }
        Ok(self)
    }

    pub fn has(&self, name: &str) -> bool {
        self.value(name).is_some()
    }

    fn value(&self, name: &str) -> Option<&OsStr> {
        self.options.iter().find(|o| o.0 == name).map(|o| o.1.as_os_str())
    }

    pub fn path(&self, name: &str) -> Option<&Path> {
        self.value(name).map(Path::new)
    }

    pub fn text(&self, name: &str) -> Option<String> {
        self.value(name).map(|v| v.to_string_lossy().into_owned())
    }

    pub fn number<T: FromStr>(&self, name: &str) -> Result<Option<T>, String> {
        let parsed = |text: String| {
            text.parse()
                .map_err(|_| format!("--{name}: '{text}' is no number that fits"))
        };
        self.text(name).map(parsed).transpose()
    }

    pub fn word(&self, i: usize) -> Option<&OsStr> {
        self.words.get(i).map(|w| w.as_os_str())
    }

    /// Whether the verb takes a block's bytes.
    pub fn takes_data(&self) -> bool {
        self.verb.options().any(|o| o.name == "data")
    }

    /// The image's file, which is the first word of every verb that has one.
    pub fn file(&self) -> &Path {
        Path::new(self.word(0).unwrap_or_default())
    }
}
