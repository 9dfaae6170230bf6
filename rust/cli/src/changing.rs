//! The verbs that change an image, and what they share: the image, and what each change is given.
use crate::arguments::Arguments;
use crate::given::{
    block_given, client, expiry_given, failed, id_given, one_stream, ready_for_an_image, shown_id, tariff,
};
use crate::image_file::{self, is_stream, ImageFile};
use crate::layout::{blocks_of, clock};
use crate::terminal::Progress;
use crate::walked::Walked;
use crate::{time, Answer, Stop};
use zolvortug::{Client, Id, Key, Store, Tariff, Tick};

pub fn format(a: &Arguments) -> Result<Answer, Stop> {
    let blocks: u32 = a.number("blocks")?.unwrap_or_default();
    let mut image = vec![0; zolvortug::size_of_image(blocks).unwrap_or(0)];
    if let Err(report) = zolvortug::format(blocks, &mut image) {
        return Ok(Answer {
            refused: Some(report),
            hint: Some("an image has a multiple of 8 blocks, from 8 to 4096. Give --blocks such a number.".into()),
            ..Answer::default()
        });
    }
    let text = format!("{}: {blocks} blocks, {} bytes\n", a.file().display(), image.len());
    let fields = vec![("blocks", blocks.into()), ("bytes", image.len().into())];
    let answer = Answer::new(text, fields);
    if is_stream(a.file()) {
        ready_for_an_image()?;
        return Ok(Answer {
            stream: Some(image),
            ..answer
        });
    }
    image_file::create(a.file(), &image, a.has("force")).map_err(|fault| failed(a.file(), fault))?;
    Ok(Answer {
        changed: true,
        ..answer
    })
}

pub fn create(a: &Arguments) -> Result<Answer, Stop> {
    let bytes = block_given(a)?;
    let on = Changing::open(a)?;
    let expiry = expiry_given(a, on.now)?;
    on.call(|store, client, now| store.create(client, expiry, &bytes, now), new_id)
}

pub fn replace(a: &Arguments) -> Result<Answer, Stop> {
    let (id, bytes) = (id_given(a)?, block_given(a)?);
    Changing::open(a)?.call(|store, client, now| store.replace(client, id, &bytes, now), new_id)
}

fn new_id(id: Id) -> Answer {
    let id = shown_id(id);
    Answer::new(format!("{id}\n"), vec![("id", id.into())])
}

pub fn destroy(a: &Arguments) -> Result<Answer, Stop> {
    let id = id_given(a)?;
    Changing::open(a)?.call(
        |store, client, now| store.destroy(client, id, now),
        |()| Answer::default(),
    )
}

pub fn expire(a: &Arguments) -> Result<Answer, Stop> {
    let id = id_given(a)?;
    let on = Changing::open(a)?;
    let expiry = expiry_given(a, on.now)?;
    on.call(
        |store, client, now| store.set_expiry(client, id, expiry, now),
        |()| Answer::default(),
    )
}

pub fn scavenge(a: &Arguments) -> Result<Answer, Stop> {
    let mut on = Changing::open(a)?;
    let (mut walked, mut progress) = (Walked::default(), Progress::over(blocks_of(&on.image)));
    let (mut removed, mut key) = (0, Some(Key::START));
    while let Some(at) = key {
        let (client, now) = (on.client, on.now);
        let Some(pass) = walked.take(on.store().scavenge(client, at, now)) else {
            break;
        };
        on.commit()?;
        removed += pass.count;
        key = pass.next;
        progress.at(at.block());
        on.now = next_time(a, &on);
    }
    drop(progress);
    let text = format!("removed {removed}\n");
    Ok(on.told(walked.answer(text, vec![("removed", removed.into())])))
}

/// The time of the call after one at this time.
fn next_time(a: &Arguments, on: &Changing) -> Tick {
    let after = Tick(on.now.0 + 1);
    if a.has("now") {
        after
    } else {
        after.max(time::system())
    }
}

/// An image that a verb changes, with what each change is given.
struct Changing {
    image: Vec<u8>,
    file: Option<ImageFile>,
    tariff: Tariff,
    client: Client,
    now: Tick,
}

impl Changing {
    fn open(a: &Arguments) -> Result<Changing, Stop> {
        one_stream(a)?;
        let (tariff, client, cut) = (tariff(a)?, client(a)?, a.number("cut-after")?);
        let mut file = None;
        let image = if is_stream(a.file()) {
            ready_for_an_image()?;
            image_file::read(a.file())
        } else {
            ImageFile::open(a.file()).map(|opened| file.insert(opened).bytes().to_vec())
        };
        let image = image.map_err(|fault| failed(a.file(), fault))?;
        match (&mut file, cut) {
            (Some(file), Some(writes)) => file.cut_after(writes),
            (None, Some(_)) => return Err(Stop::Usage("a pipe has no writes that --cut-after could count".into())),
            _ => {}
        }
        let now = match a.text("now") {
            Some(text) => time::moment(&text)?,
            None => time::system().max(Tick(clock(&image).saturating_add(1))),
        };
        Ok(Changing {
            image,
            file,
            tariff,
            client,
            now,
        })
    }

    fn store(&mut self) -> Store<&mut [u8]> {
        Store::new(&mut self.image, self.tariff)
    }

    /// Brings what was changed to the disk.
    fn commit(&mut self) -> Result<(), Stop> {
        match &mut self.file {
            None => Ok(()),
            Some(file) => file.commit(&self.image).map_err(|fault| failed(file.path(), fault)),
        }
    }

    /// One call, its changes on the disk, and its answer.
    fn call<T>(
        mut self,
        call: impl FnOnce(&mut Store<&mut [u8]>, Client, Tick) -> zolvortug::Answer<T>,
        say: impl FnOnce(T) -> Answer,
    ) -> Result<Answer, Stop> {
        let (client, now) = (self.client, self.now);
        let called = call(&mut self.store(), client, now);
        self.commit()?;
        let answer = Answer::of(called, |value| {
            let mut said = say(value);
            said.fields.push(("now", time::shown(now).into()));
            said
        });
        Ok(self.told(answer))
    }

    /// Where the image came from standard input, a changed one goes to standard output. After a refusal none does, so
    /// the calls before it have come to nothing.
    fn told(self, answer: Answer) -> Answer {
        match (self.file, answer.refused) {
            (Some(_), refused) => Answer {
                changed: refused.is_none(),
                ..answer
            },
            (None, None) => Answer {
                stream: Some(self.image),
                ..answer
            },
            (None, Some(_)) => Answer {
                text: Vec::new(),
                fields: Vec::new(),
                stream: Some(Vec::new()),
                ..answer
            },
        }
    }
}
