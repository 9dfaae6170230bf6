//! Walks watched from the first call to the end key: demand 3 on what the library named, beside what the model says was
//! stored.
use crate::calls::{walk_from, Answer, Call, Walk};
use crate::model::{Store, END_KEY};
use crate::random::Random;
use std::collections::BTreeSet;

pub struct Watch {
    walk: Walk,
    /// By the walk's record and its step, or by GetIds with the keys carried by hand.
    by_record: bool,
    /// The ids that the client had stored at the first call.
    first: Option<BTreeSet<u64>>,
    named: BTreeSet<u64>,
    calls: u32,
}

fn demand(holds: bool, what: &str) -> Result<(), String> {
    match holds {
        true => Ok(()),
        false => Err(format!("demand 3: {what}")),
    }
}

impl Watch {
    /// In a large store always with the largest count, so that it comes to an end.
    pub fn new(random: &mut Random, clients: &[u32], n: u32) -> Watch {
        let (client, any) = (random.pick(clients), 1 + random.block(64));
        let few = random.pick(&[1, 1, 2, 7, any]);
        let count = if n > 128 || random.one_in(6) { 64 } else { few };
        Watch {
            walk: walk_from(client, count),
            by_record: random.one_in(2),
            first: None,
            named: BTreeSet::new(),
            calls: 0,
        }
    }

    pub fn ended(&self) -> bool {
        self.walk.ended
    }

    pub fn named(&self) -> u64 {
        self.named.len() as u64
    }

    pub fn calls(&self) -> u64 {
        self.calls.into()
    }

    /// The next call of the walk and the room for its ids, which is sometimes too small; the walk then goes on from
    /// where it was.
    pub fn call(&self, random: &mut Random) -> (Call, usize) {
        let Walk { client, count, key, .. } = self.walk;
        let exact = 8 * count as usize;
        let room = random.pick(&[exact, exact, exact, exact + 3, exact - 1]);
        match self.by_record {
            true => (Call::Step { walk: self.walk }, room),
            false => (Call::GetIds { client, key, count }, room),
        }
    }

    /// Holds an answer against the store at the call, which a listing does not change.
    pub fn saw(&mut self, answer: &Answer, buffer: &[u8], store: &Store) -> Result<(), String> {
        if answer.report != 0 {
            let same = answer.walk.is_none_or(|walk| walk == self.walk);
            return demand(same && answer.key == self.walk.key, "a refusal leaves record and key");
        }
        let (own, ids) = (store.ids(self.walk.client), buffer.chunks_exact(8));
        for id in ids.take(answer.entries as usize) {
            let id = u64::from_le_bytes(id.try_into().expect("8 bytes"));
            demand(own.contains(&id), "an id named is stored and the client's")?;
            demand(self.named.insert(id), "no id is named twice")?;
        }
        self.first.get_or_insert_with(|| own.clone());
        self.calls += 1;
        let (key, ended) = (answer.key, answer.key == END_KEY);
        self.walk = answer.walk.unwrap_or(Walk {
            key,
            ended,
            ..self.walk
        });
        demand(
            self.calls <= store.n,
            "a walk has as many calls as there are blocks, at most",
        )?;
        match self.walk.ended {
            true => self.complete(&own),
            false => Ok(()),
        }
    }

    /// An id never comes back, so one stored at the first call and at the last was stored throughout.
    fn complete(&self, last: &BTreeSet<u64>) -> Result<(), String> {
        let first = self.first.as_ref().expect("a first call");
        let mut throughout = first.intersection(last);
        let all = throughout.all(|id| self.named.contains(id));
        demand(all, "what stood throughout is named")
    }
}
