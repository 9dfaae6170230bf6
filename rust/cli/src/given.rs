//! What the verbs are given, read: the image, the client, the tariff, an id, a block's bytes.
use crate::arguments::Arguments;
use crate::image_file::{self, is_stream, said, FileFault};
use crate::layout::DISK;
use crate::{tariff_file, time, Stop};
use std::fs::File;
use std::io::{self, IsTerminal, Read};
use std::path::Path;
use zolvortug::{Client, Id, Store, Tariff, Tick, BLOCK};

pub fn failed(path: &Path, fault: FileFault) -> Stop {
    let (FileFault::Length(what) | FileFault::Other(what)) = fault;
    Stop::File(format!("{}: {what}", path.display()))
}

pub fn client(a: &Arguments) -> Result<Client, Stop> {
    Ok(a.number("client")?.map_or(Client::MANAGER, Client))
}

pub fn tariff(a: &Arguments) -> Result<Tariff, Stop> {
    let Some(path) = a.path("tariff") else {
        return Ok(Tariff::default());
    };
    let named = |what: String| Stop::File(format!("{}: {what}", path.display()));
    let text = input(path, LONGEST_TARIFF)?;
    tariff_file::parse(&String::from_utf8_lossy(&text)).map_err(named)
}

const LONGEST_TARIFF: usize = 65536;

/// At most so many bytes of a file, or of standard input.
fn input(path: &Path, most: usize) -> Result<Vec<u8>, Stop> {
    let mut bytes = Vec::new();
    let read = if is_stream(path) {
        io::stdin().take(most as u64).read_to_end(&mut bytes)
    } else {
        File::open(path).and_then(|file| file.take(most as u64).read_to_end(&mut bytes))
    };
    read.map_err(|e| Stop::File(format!("{}: {}", path.display(), said(&e))))?;
    Ok(bytes)
}

/// Standard input is one thing only: the image, the data, or the tariff.
pub fn one_stream(a: &Arguments) -> Result<(), Stop> {
    let data = a.takes_data().then(|| a.path("data").unwrap_or(Path::new("-")));
    let given = [Some(a.file()), data, a.path("tariff")];
    if given.into_iter().flatten().filter(|path| is_stream(path)).count() > 1 {
        return Err(Stop::Usage(
            "standard input can be the image, the data or the tariff, and only one of them".into(),
        ));
    }
    Ok(())
}

/// The store as its file stands now, to be read.
pub fn store_read(a: &Arguments) -> Result<Store<Vec<u8>>, Stop> {
    one_stream(a)?;
    let tariff = tariff(a)?;
    let image = image_file::read(a.file()).map_err(|fault| failed(a.file(), fault))?;
    Ok(Store::new(image, tariff))
}

pub fn id_given(a: &Arguments) -> Result<Id, Stop> {
    let text = a.word(1).unwrap_or_default().to_string_lossy();
    let bytes = hex(&text).and_then(|bytes| bytes.try_into().ok());
    let wrong = || {
        Stop::Usage(format!(
            "'{text}' is no id: an id is 16 hex digits, as create prints it"
        ))
    };
    bytes.map(|bytes| Id(u64::from_be_bytes(bytes))).ok_or_else(wrong)
}

pub fn shown_id(id: Id) -> String {
    format!("{:016x}", id.0)
}

/// The bytes that pairs of hex digits spell.
fn hex(text: &str) -> Option<Vec<u8>> {
    let digits: Option<Vec<u8>> = text.chars().map(|c| c.to_digit(16).map(|d| d as u8)).collect();
    let pairs = digits.filter(|digits| digits.len() % 2 == 0)?;
    Some(pairs.chunks(2).map(|pair| pair[0] << 4 | pair[1]).collect())
}

pub fn expiry_given(a: &Arguments, now: Tick) -> Result<Tick, Stop> {
    Ok(time::expiry(&a.text("expires").unwrap_or_default(), now)?)
}

/// The bytes that a block is to hold. Whether they are 528 is the store's to judge.
pub fn block_given(a: &Arguments) -> Result<Vec<u8>, Stop> {
    one_stream(a)?;
    let mut bytes = a.text("tag").map_or(Ok(Vec::new()), |text| tag(&text))?;
    if !a.has("data") && io::stdin().is_terminal() {
        return Err(Stop::Usage(
            "the data is missing: give --data a file, or send it to standard input".into(),
        ));
    }
    bytes.extend(input(a.path("data").unwrap_or(Path::new("-")), BLOCK + 1)?);
    if a.has("pad") && bytes.len() < BLOCK {
        bytes.resize(BLOCK, 0);
    }
    Ok(bytes)
}

fn tag(text: &str) -> Result<Vec<u8>, Stop> {
    let bytes = hex(text).filter(|bytes| bytes.len() == BLOCK - DISK);
    bytes.ok_or_else(|| Stop::Usage(format!("--tag: '{text}' is not 32 hex digits")))
}

/// Standard output takes an image only where it is no terminal.
pub fn ready_for_an_image() -> Result<(), Stop> {
    if io::stdout().is_terminal() {
        return Err(Stop::Usage(
            "with - the image goes to standard output: send it to a file or a pipe".into(),
        ));
    }
    Ok(())
}
