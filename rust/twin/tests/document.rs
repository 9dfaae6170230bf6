//! Document 01's own cases, each made on the library and on the second program: the fourteen calls, the list to run
//! besides, and the errors seen or nearly made.
use twin::calls::{size, walk_from, Answer, Call, Tariff, Walk};
use twin::encoding::{is_size, length};
use twin::identifiers::{disguise, made};
use twin::pair::Pair;

const PRICES: Tariff = Tariff {
    create: 10,
    read: 10,
    status: 10,
    destroy: 10,
    replace: 10,
    setexpiry: 10,
    getids: 10,
    getcount: 10,
    scavenge: 10,
    profile: 10,
    error: 1,
    rate: 2,
};
const END: u32 = 65_535;
const LAST: u64 = (1 << 40) - 1;

/// Both programs over one image; a difference between them ends the test.
struct Both(Pair);

impl Both {
    fn fresh(n: u32) -> Both {
        let mut both = Both(Pair::of(&vec![0x5a; length(n)]));
        assert_eq!(both.call(Call::Format { n }, 0).report, 0);
        both
    }

    fn call(&mut self, call: Call, room: usize) -> Answer {
        let buffer: Vec<u8> = (0..room).map(|i| i as u8 | 1).collect();
        self.0
            .call(&call, &PRICES, &buffer)
            .unwrap_or_else(|what| panic!("a difference: {what}"))
    }

    fn create(&mut self, client: u32, now: u64, expiry: u64) -> Answer {
        self.call(Call::Create { client, expiry, now }, 528)
    }

    fn destroy(&mut self, client: u32, id: u64, now: u64) -> Answer {
        self.call(Call::Destroy { client, id, now }, 0)
    }

    #[rustfmt::skip]
    fn set_expiry(&mut self, client: u32, id: u64, now: u64, expiry: u64) -> Answer {
        self.call(Call::SetExpiry { client, id, expiry, now }, 0)
    }

    fn get_ids(&mut self, client: u32, key: u32, count: u32) -> Answer {
        self.call(Call::GetIds { client, key, count }, 8 * count as usize)
    }

    fn scavenge(&mut self, client: u32, now: u64, key: u32) -> Answer {
        self.call(Call::Scavenge { client, key, now }, 0)
    }

    fn count(&mut self, client: u32) -> u32 {
        self.call(Call::GetCount { client }, 0).count
    }

    fn sound(&mut self) -> bool {
        self.call(Call::Check, 0).sound
    }

    /// The ids that the last listing named.
    fn named(&self, answer: &Answer) -> Vec<u64> {
        let ids = self.0.buffer().chunks_exact(8).take(answer.entries as usize);
        ids.map(|id| u64::from_le_bytes(id.try_into().unwrap())).collect()
    }

    /// Changes a byte of the image on both sides.
    fn harm(&mut self, at: usize, byte: u8) {
        let mut image = self.0.image().to_vec();
        image[at] = byte;
        self.0.set(&image);
    }
}

fn refused(report: u8, key: u32) -> Answer {
    Answer {
        report,
        charge: 1,
        key,
        ..Answer::default()
    }
}

#[test]
fn fourteen_calls() {
    let mut both = Both::fresh(8);
    let first = both.create(3, 100, 500);
    assert_eq!((first.report, first.id, first.charge), (0, disguise(409_600), 810));
    assert_eq!(both.create(3, 100, 500), refused(4, 0));
    let second = both.create(5, 101, 50);
    assert_eq!((second.id, second.charge), (made(101, 1), 10));
    let told = both.call(
        Call::Status {
            client: 9,
            id: second.id,
        },
        0,
    );
    assert_eq!((told.owner, told.created, told.expires), (5, 101, 101));
    assert_eq!(both.set_expiry(5, first.id, 102, 300), refused(11, 0));
    assert_eq!(both.set_expiry(3, first.id, 103, 300).charge, -390);
    #[rustfmt::skip]
    let third = both.call(Call::Replace { client: 5, id: second.id, now: 110 }, 528);
    assert_eq!((third.report, third.id, third.charge), (0, disguise(450_561), 10));
    assert_eq!(
        both.call(
            Call::Status {
                client: 5,
                id: third.id
            },
            0
        )
        .expires,
        101
    );
    assert_eq!(
        both.call(
            Call::Read {
                client: 5,
                id: second.id
            },
            528
        ),
        refused(10, 0)
    );
    let answer = both.get_ids(3, 0, 1);
    assert_eq!((answer.report, answer.key, both.named(&answer)), (0, 1, vec![first.id]));
    let answer = both.get_ids(3, 1, 1);
    assert_eq!((answer.report, answer.key, answer.entries), (0, END, 0));
    assert_eq!(both.scavenge(3, 200, 0), refused(5, 0));
    let answer = both.scavenge(0, 300, 0);
    assert_eq!((answer.report, answer.count, answer.key), (0, 1, END));
    assert_eq!(both.destroy(3, first.id, 350).charge, 110);
    assert_eq!(both.count(3), 0);
    assert_eq!(both.get_ids(3, 8, 1), refused(6, 8));
    assert!(both.sound());
}

#[test]
fn lengths_and_the_trailer_of_8() {
    assert_eq!([8, 56, 4096].map(length), [6_144, 33_792, 2_360_832]);
    let both = Both::fresh(8);
    assert_eq!(
        both.0.image()[5632..5652],
        *b"\x08\0\0\0\x0b\0\0\0\x0a\0\0\0\x09\0\0\0\x08\0\0\0"
    );
    for n in (0..5000).chain([1 << 26, (1 << 26) + 8, u32::MAX]) {
        assert_eq!(size(n), if is_size(n) { length(n) } else { 0 }, "size of {n} blocks");
    }
}

#[test]
fn format_takes_8_and_4096_and_not_0_12_4104() {
    for (n, report) in [(8, 0), (4096, 0), (0, 1), (12, 1), (4104, 1)] {
        let mut both = Both(Pair::of(&vec![0x5a; length(n)]));
        assert_eq!(both.call(Call::Format { n }, 0).report, report, "Format of {n}");
        assert_eq!(both.sound(), report == 0);
    }
}

#[test]
fn client_63_and_64() {
    let mut both = Both::fresh(8);
    assert_eq!(both.create(63, 1, 9).report, 0);
    assert_eq!(both.create(64, 2, 9), refused(2, 0));
    assert_eq!(
        (both.count(63), both.call(Call::GetCount { client: 64 }, 0)),
        (1, refused(2, 0))
    );
}

#[test]
fn count_64_and_65() {
    let mut both = Both::fresh(72);
    (1..=72).for_each(|now| assert_eq!(both.create(3, now, 0).report, 0));
    let answer = both.get_ids(3, 0, 64);
    assert_eq!((answer.report, answer.entries, answer.key), (0, 64, 64));
    assert_eq!(both.get_ids(3, 0, 65), refused(7, 0));
    assert_eq!(both.get_ids(3, 0, 0), refused(7, 0));
}

#[test]
fn now_at_the_last_time_and_past_it() {
    let mut both = Both::fresh(8);
    assert_eq!(both.create(3, LAST + 1, 0), refused(3, 0));
    assert_eq!(both.create(3, LAST, LAST + 1), refused(3, 0));
    assert_eq!(both.create(3, LAST, 0).report, 0);
    assert_eq!(both.create(3, LAST, 0), refused(4, 0));
    assert_eq!(both.create(3, LAST + 1, 0), refused(3, 0));
}

#[test]
fn key_n_less_1_and_n() {
    let mut both = Both::fresh(8);
    assert_eq!((both.get_ids(3, 7, 1).key, both.get_ids(3, 8, 1)), (END, refused(6, 8)));
    assert_eq!(
        (both.scavenge(0, 1, 7).key, both.scavenge(0, 2, 8)),
        (END, refused(6, 8))
    );
    let [last, past] = [7, 8].map(|key| both.call(Call::Profile { client: 0, key }, 1536));
    assert_eq!((last.key, past), (END, refused(6, 8)));
}

#[test]
fn room_for_ids_exact_and_one_less() {
    let mut both = Both::fresh(8);
    both.create(3, 1, 9);
    #[rustfmt::skip]
    let call = Call::GetIds { client: 3, key: 0, count: 7 };
    assert_eq!((both.call(call, 56).entries, both.call(call, 55)), (1, refused(8, 0)));
    let profile = Call::Profile { client: 0, key: 0 };
    assert_eq!(
        (both.call(profile, 1536).entries, both.call(profile, 1535)),
        (1, refused(8, 0))
    );
}

#[test]
fn last_free_block_and_full_store() {
    let mut both = Both::fresh(8);
    let ids: Vec<u64> = (1..=7).map(|now| both.create(3, now, 99).id).collect();
    assert_eq!(both.create(3, 8, 99).id, made(8, 7));
    assert_eq!((both.create(3, 9, 99), both.count(3)), (refused(12, 0), 8));
    #[rustfmt::skip]
    let replaced = both.call(Call::Replace { client: 3, id: ids[4], now: 10 }, 528);
    assert_eq!((replaced.report, replaced.id), (0, made(10, 4)));
    assert_eq!(
        (both.destroy(3, ids[2], 11).report, both.create(5, 12, 0).id),
        (0, made(12, 2))
    );
}

#[test]
fn a_key_does_not_count_blocks_named() {
    let mut both = Both::fresh(8);
    let ids: Vec<u64> = (1..=3).map(|now| both.create(3, now, 10 * now).id).collect();
    let first = both.get_ids(3, 0, 1);
    assert_eq!((first.key, both.named(&first)), (1, vec![ids[0]]));
    assert_eq!(both.scavenge(0, 15, 0).count, 1);
    let rest = both.get_ids(3, first.key, 64);
    assert_eq!((rest.key, both.named(&rest)), (END, ids[1..].to_vec()));
}

#[test]
fn a_refusal_gives_back_its_key_and_nothing_named_is_not_the_end() {
    let mut both = Both::fresh(72);
    for now in 1..=72 {
        both.create(if now > 70 { 3 } else { 5 }, now, 0);
    }
    assert_eq!(both.get_ids(64, 5, 1), refused(2, 5));
    assert_eq!(both.get_ids(3, END, 1), refused(6, END));
    let nothing = both.get_ids(3, 5, 2);
    assert_eq!((nothing.report, nothing.entries, nothing.key), (0, 0, 69));
    let last = both.get_ids(3, 69, 2);
    assert_eq!((both.named(&last), last.key), (vec![made(71, 70), made(72, 71)], END));
}

#[test]
fn a_block_is_known_to_exist_before_its_owner_is_asked() {
    let mut both = Both::fresh(8);
    let id = both.create(3, 1, 9).id;
    assert_eq!(both.destroy(5, id, 2), refused(11, 0));
    assert_eq!(both.destroy(3, id, 3).report, 0);
    assert_eq!(both.destroy(5, id, 4), refused(10, 0));
    assert_eq!(both.set_expiry(5, made(1, 6), 4, 9), refused(10, 0));
}

#[test]
fn a_block_that_expires_now_stays() {
    let mut both = Both::fresh(8);
    both.create(3, 1, 20);
    assert_eq!((both.scavenge(0, 20, 0).count, both.count(3)), (0, 1));
    assert_eq!((both.scavenge(0, 21, 0).count, both.count(3)), (1, 0));
}

#[test]
fn scavenge_removes_nothing_where_it_meets_damage() {
    let mut both = Both::fresh(8);
    (1..=8).for_each(|now| assert_eq!(both.create(3, now, 0).report, 0));
    let before = both.0.image().to_vec();
    both.harm(64 * 7 + 63, 1);
    assert_eq!(both.scavenge(0, 20, 0), refused(9, 0));
    both.harm(64 * 7 + 63, 0);
    both.harm(64 * 8 + 512 + 8 * 3, 7);
    assert_eq!(both.scavenge(0, 20, 0), refused(9, 0));
    both.harm(64 * 8 + 512 + 8 * 3, 8);
    assert_eq!(both.0.image(), before);
    assert_eq!(both.scavenge(0, 20, 0).count, 8);
}

#[test]
fn damage_at_the_last_header_visited_leaves_the_buffer() {
    let mut both = Both::fresh(8);
    (1..=8).for_each(|now| assert_eq!(both.create(3, now, 0).report, 0));
    both.harm(64 * 7, 2);
    assert_eq!((both.get_ids(3, 2, 6), both.get_ids(3, 2, 5).key), (refused(9, 2), 7));
    assert_eq!(both.call(Call::Profile { client: 0, key: 0 }, 1536), refused(9, 0));
}

#[test]
fn steps_of_a_walk_to_its_end_and_after() {
    let mut both = Both::fresh(8);
    let id = both.create(3, 1, 9).id;
    let start = walk_from(3, 1);
    #[rustfmt::skip]
    assert_eq!(start, Walk { client: 3, count: 1, key: 0, ended: false });
    let step = |both: &mut Both, walk, room| both.call(Call::Step { walk }, room);
    let answer = step(&mut both, start, 7);
    assert_eq!((answer.report, answer.walk, answer.key), (8, Some(start), 0));
    let answer = step(&mut both, start, 8);
    assert_eq!((both.named(&answer), answer.key), (vec![id], 1));
    let answer = step(&mut both, answer.walk.unwrap(), 8);
    let ended = answer.walk.unwrap();
    assert!(ended.ended && ended.key == END && answer.entries == 0);
    both.0.set(b"no image");
    let after = step(&mut both, ended, 0);
    assert_eq!(
        (after.report, after.charge, after.key, after.entries, after.walk),
        (0, 0, END, 0, Some(ended))
    );
}

/// A record that says ended with another key than the end key, which no step makes.
#[test]
fn an_ended_record_is_looked_at_before_anything_else() {
    let mut both = Both::fresh(8);
    #[rustfmt::skip]
    let walk = Walk { client: 99, count: 0, key: 5, ended: true };
    let answer = both.call(Call::Step { walk }, 3);
    assert_eq!(
        (answer.report, answer.charge, answer.key, answer.walk),
        (0, 0, END, Some(walk))
    );
}
