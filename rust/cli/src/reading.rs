//! The verbs that read an image: its file as it stood at one moment.
use crate::arguments::Arguments;
use crate::given::{client, failed, id_given, shown_id, store_read};
use crate::image_file::{self, are_one_file, is_stream, FileFault};
use crate::json::{Field, Json};
use crate::layout::{blocks_of, clock, disk_block, word, Layout, DISK};
use crate::terminal::{shortened, Progress};
use crate::walked::Walked;
use crate::{diagnosis, time, Answer, Stop};
use std::io::{self, IsTerminal};
use zolvortug::{Client, Id, Key, Tick, BLOCK, ENTRY, MOST};

pub fn check(a: &Arguments) -> Result<Answer, Stop> {
    let name = a.file().display().to_string();
    let image = match image_file::read(a.file()) {
        Ok(image) => image,
        Err(FileFault::Length(what)) => return Ok(not_sound(&name, vec![what], Vec::new())),
        Err(fault) => return Err(failed(a.file(), fault)),
    };
    let (true, Some(layout)) = (zolvortug::check(&image), Layout::of(image.len())) else {
        return Ok(not_sound(&name, diagnosis::faults(&image), diagnosis::readable(&image)));
    };
    let counts = disk_block(&image, layout.counts());
    let used: u64 = (0..DISK).step_by(8).map(|at| word(counts, at, 8)).sum();
    let at = time::shown(Tick(clock(&image)));
    let text = format!("{name}: sound; {used} of {} blocks used, clock {at}\n", layout.blocks);
    let fields = vec![
        ("sound", true.into()),
        ("blocks", layout.blocks.into()),
        ("used", (used as usize).into()),
        ("clock", at.into()),
    ];
    Ok(Answer::new(text, fields))
}

fn not_sound(name: &str, faults: Vec<String>, readable: Vec<(usize, Client, Id)>) -> Answer {
    let mut text = format!("{name}: not sound\n");
    for line in shortened(faults.clone()) {
        text += &format!("  {line}\n");
    }
    if !readable.is_empty() {
        text += &format!(
            "  blocks that can still be read: {}; --json has their ids\n",
            readable.len()
        );
    }
    let entry = |(block, owner, id): (usize, Client, Id)| {
        Json::Record(vec![
            ("block", block.into()),
            ("owner", owner.0.into()),
            ("id", shown_id(id).into()),
        ])
    };
    let fields = vec![
        ("sound", false.into()),
        ("faults", Json::List(faults.into_iter().map(Json::Text).collect())),
        ("readable", Json::List(readable.into_iter().map(entry).collect())),
    ];
    Answer {
        not_sound: true,
        ..Answer::new(text, fields)
    }
}

pub fn read(a: &Arguments) -> Result<Answer, Stop> {
    let (id, store) = (id_given(a)?, store_read(a)?);
    let mut block = [0; BLOCK];
    let called = store.read(client(a)?, id, &mut block);
    let (Ok(_), Some(out)) = (&called, a.path("out").filter(|out| !is_stream(out))) else {
        return Ok(Answer::of(called, |()| shown_block(&block)));
    };
    if are_one_file(out, a.file()) {
        return Err(Stop::Usage(
            "the block would replace its own image; give --out another name".into(),
        ));
    }
    image_file::create(out, &block, a.has("force")).map_err(|fault| failed(out, fault))?;
    let text = format!("{}: {BLOCK} bytes\n", out.display());
    Ok(Answer::of(called, |()| {
        Answer::new(text, vec![("bytes", BLOCK.into())])
    }))
}

fn shown_block(block: &[u8; BLOCK]) -> Answer {
    let hex = |bytes: &[u8]| bytes.iter().map(|b| format!("{b:02x}")).collect::<String>();
    let (tag, data) = block.split_at(BLOCK - DISK);
    let text = if io::stdout().is_terminal() {
        let rows = block.chunks(16).enumerate();
        rows.map(|(i, row)| format!("{:3}  {}\n", 16 * i, hex(row)))
            .collect::<String>()
            .into_bytes()
    } else {
        block.to_vec()
    };
    Answer::new(text, vec![("tag", hex(tag).into()), ("data", hex(data).into())])
}

pub fn status(a: &Arguments) -> Result<Answer, Stop> {
    let (id, store) = (id_given(a)?, store_read(a)?);
    let called = store.status(client(a)?, id);
    Ok(Answer::of(called, |info| {
        let text = format!(
            "owner    {}\ncreated  {}\nexpires  {}\n",
            info.owner.0,
            time::shown(info.created),
            time::shown(info.expires)
        );
        Answer::new(text, entry(info.owner, info.created, info.expires))
    }))
}

fn entry(owner: Client, created: Tick, expires: Tick) -> Vec<Field> {
    vec![
        ("owner", owner.0.into()),
        ("created", time::shown(created).into()),
        ("expires", time::shown(expires).into()),
    ]
}

pub fn count(a: &Arguments) -> Result<Answer, Stop> {
    let called = store_read(a)?.count(client(a)?);
    Ok(Answer::of(called, |n| {
        Answer::new(format!("{n}\n"), vec![("count", n.into())])
    }))
}

pub fn ids(a: &Arguments) -> Result<Answer, Stop> {
    let store = store_read(a)?;
    let mut walk = store.walk(client(a)?, a.number("count")?.unwrap_or(MOST as u32));
    let (mut walked, mut progress) = (Walked::default(), Progress::over(blocks_of(store.image())));
    let (mut room, mut named) = ([Id(0); MOST], Vec::new());
    while !walk.ended() {
        let Some(ids) = walked.take(walk.step(&store, &mut room)) else {
            break;
        };
        named.extend(ids.iter().map(|id| shown_id(*id)));
        progress.at(walk.key().block());
    }
    let text = named.iter().map(|id| format!("{id}\n")).collect();
    let ids = named.into_iter().map(Json::Text).collect();
    Ok(walked.answer(text, vec![("ids", Json::List(ids))]))
}

pub fn profile(a: &Arguments) -> Result<Answer, Stop> {
    let (store, client) = (store_read(a)?, client(a)?);
    let (mut walked, mut progress) = (Walked::default(), Progress::over(blocks_of(store.image())));
    let (mut room, mut text, mut rows) = ([0; ENTRY * MOST], String::new(), Vec::new());
    let mut key = Some(Key::START);
    while let Some(at) = key {
        let Some(pass) = walked.take(store.profile(client, at, &mut room)) else {
            break;
        };
        for row in room.chunks(ENTRY).take(pass.count) {
            let (owner, created, expires) = (word(row, 0, 8), Tick(word(row, 8, 8)), Tick(word(row, 16, 8)));
            text += &format!(
                "owner {owner:<2}  created {}  expires {}\n",
                time::shown(created),
                time::shown(expires)
            );
            rows.push(Json::Record(entry(Client(owner as u32), created, expires)));
        }
        key = pass.next;
        progress.at(at.block());
    }
    Ok(walked.answer(text, vec![("entries", Json::List(rows))]))
}
