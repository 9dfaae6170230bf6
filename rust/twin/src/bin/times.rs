//! Times of the proved library beside plain safe Rust at N = 4,096, as a table. The two take turns on images of their
//! own, which are compared byte for byte after each turn; and read the same series, of which they give the same sums.
//!
//!     tools/make-library
//!     cargo run --release --manifest-path rust/Cargo.toml --target-dir target/rust --bin times
use std::hint::black_box;
use std::time::Instant;
use twin::calls::{series_open, series_step};
use twin::plain;
use twin::plain_series::{self, Answer};
use twin::random::Random;
use twin::recordings::{image_of, Written};
use zolvortug::{Client, Id, Key, Store, Tariff, Tick};

const N: usize = 4096;
const PRICES: Tariff = Tariff {
    create: 10,
    read: 10,
    status: 10,
    destroy: 10,
    replace: 10,
    setexpiry: 10,
    getids: 10,
    getcount: 10,
    scavenge: 10,
    profile: 10,
    error: 1,
    rate: 2,
};

/// One of the two, by the operations that are timed. Each gives a number that its turn adds up.
trait Engine {
    fn format(img: &mut [u8]);
    fn check(img: &[u8]) -> bool;
    fn create(img: &mut [u8], client: u32, expiry: u64, bytes: &[u8], now: u64) -> u64;
    fn read(img: &[u8], client: u32, id: u64, buffer: &mut [u8]) -> i64;
    fn status(img: &[u8], client: u32, id: u64) -> u64;
    fn destroy(img: &mut [u8], client: u32, id: u64, now: u64) -> i64;
    fn replace(img: &mut [u8], client: u32, id: u64, bytes: &[u8], now: u64) -> u64;
    fn set_expiry(img: &mut [u8], client: u32, id: u64, expiry: u64, now: u64) -> i64;
    fn get_count(img: &[u8], client: u32) -> u32;
    fn get_ids(img: &[u8], client: u32, key: u32, ids: &mut [u8]) -> usize;
    fn scavenge(img: &mut [u8], key: u32, now: u64) -> usize;
    fn profile(img: &[u8], key: u32, buffer: &mut [u8]) -> usize;
    /// Opens a reader of the series that is timed, and gives the number of its places.
    fn open(img: &[u8]) -> u64;
    /// Steps such a reader to its end, and notes the time a step.
    fn steps(img: &[u8], t: &mut Turn, row: usize);
}

struct Proved;
struct Plain;

/// The client and the series that are read.
const CHANNEL: u32 = 1;
const SERIES: u32 = 7;

fn store<M: AsRef<[u8]>>(img: M) -> Store<M> {
    Store::new(img, PRICES)
}

impl Engine for Proved {
    fn format(img: &mut [u8]) {
        zolvortug::format(N as u32, img).unwrap();
    }
    fn check(img: &[u8]) -> bool {
        zolvortug::check(img)
    }
    fn create(img: &mut [u8], client: u32, expiry: u64, bytes: &[u8], now: u64) -> u64 {
        store(img)
            .create(Client(client), Tick(expiry), bytes, Tick(now))
            .unwrap()
            .value
            .0
    }
    fn read(img: &[u8], client: u32, id: u64, buffer: &mut [u8]) -> i64 {
        store(img).read(Client(client), Id(id), buffer).unwrap().charge.0
    }
    fn status(img: &[u8], client: u32, id: u64) -> u64 {
        store(img).status(Client(client), Id(id)).unwrap().value.expires.0
    }
    fn destroy(img: &mut [u8], client: u32, id: u64, now: u64) -> i64 {
        store(img).destroy(Client(client), Id(id), Tick(now)).unwrap().charge.0
    }
    fn replace(img: &mut [u8], client: u32, id: u64, bytes: &[u8], now: u64) -> u64 {
        store(img)
            .replace(Client(client), Id(id), bytes, Tick(now))
            .unwrap()
            .value
            .0
    }
    fn set_expiry(img: &mut [u8], client: u32, id: u64, expiry: u64, now: u64) -> i64 {
        let mut s = store(img);
        s.set_expiry(Client(client), Id(id), Tick(expiry), Tick(now))
            .unwrap()
            .charge
            .0
    }
    fn get_count(img: &[u8], client: u32) -> u32 {
        store(img).count(Client(client)).unwrap().value
    }
    fn get_ids(img: &[u8], client: u32, key: u32, ids: &mut [u8]) -> usize {
        store(img)
            .ids(Client(client), Key::at(key), 64, ids)
            .unwrap()
            .value
            .count
    }
    fn scavenge(img: &mut [u8], key: u32, now: u64) -> usize {
        store(img)
            .scavenge(Client::MANAGER, Key::at(key), Tick(now))
            .unwrap()
            .value
            .count
    }
    fn profile(img: &[u8], key: u32, buffer: &mut [u8]) -> usize {
        store(img)
            .profile(Client::MANAGER, Key::at(key), buffer)
            .unwrap()
            .value
            .count
    }
    fn open(img: &[u8]) -> u64 {
        series_open(CHANNEL, SERIES, img).end.into()
    }
    fn steps(img: &[u8], t: &mut Turn, row: usize) {
        let mut place = series_open(CHANNEL, SERIES, img);
        t.row(row, place.end as usize, || {
            let (mut sum, mut gaps) = (0.0, 0);
            loop {
                let sampled = series_step(&mut place, img);
                match sampled.answer {
                    0 => return summed(sum, gaps),
                    1 => sum += sampled.phase,
                    _ => gaps += 1,
                }
            }
        });
    }
}

impl Engine for Plain {
    fn format(img: &mut [u8]) {
        plain::format(N as u32, img).unwrap();
    }
    fn check(img: &[u8]) -> bool {
        plain::check(img)
    }
    fn create(img: &mut [u8], client: u32, expiry: u64, bytes: &[u8], now: u64) -> u64 {
        plain::create(&PRICES, client, expiry, bytes, now, img).unwrap().0
    }
    fn read(img: &[u8], client: u32, id: u64, buffer: &mut [u8]) -> i64 {
        plain::read(&PRICES, client, id, buffer, img).unwrap().1
    }
    fn status(img: &[u8], client: u32, id: u64) -> u64 {
        plain::status(&PRICES, client, id, img).unwrap().0 .2
    }
    fn destroy(img: &mut [u8], client: u32, id: u64, now: u64) -> i64 {
        plain::destroy(&PRICES, client, id, now, img).unwrap().1
    }
    fn replace(img: &mut [u8], client: u32, id: u64, bytes: &[u8], now: u64) -> u64 {
        plain::replace(&PRICES, client, id, bytes, now, img).unwrap().0
    }
    fn set_expiry(img: &mut [u8], client: u32, id: u64, expiry: u64, now: u64) -> i64 {
        plain::set_expiry(&PRICES, client, id, expiry, now, img).unwrap().1
    }
    fn get_count(img: &[u8], client: u32) -> u32 {
        plain::get_count(&PRICES, client, img).unwrap().0
    }
    fn get_ids(img: &[u8], client: u32, key: u32, ids: &mut [u8]) -> usize {
        plain::get_ids(&PRICES, client, key as usize, 64, ids, img)
            .unwrap()
            .0
             .0
    }
    fn scavenge(img: &mut [u8], key: u32, now: u64) -> usize {
        plain::scavenge(&PRICES, 0, key as usize, now, img).unwrap().0 .0
    }
    fn profile(img: &[u8], key: u32, buffer: &mut [u8]) -> usize {
        plain::profile(&PRICES, 0, key as usize, buffer, img).unwrap().0 .0
    }
    fn open(img: &[u8]) -> u64 {
        let mut table = [0; 4096];
        let reader = plain_series::open(CHANNEL, SERIES, img, &mut table);
        reader.expect("a series").end() as u64
    }
    fn steps(img: &[u8], t: &mut Turn, row: usize) {
        let mut table = [0; 4096];
        let reader = plain_series::open(CHANNEL, SERIES, img, &mut table);
        let mut reader = reader.expect("a series");
        t.row(row, reader.end(), || {
            let (mut sum, mut gaps) = (0.0, 0);
            loop {
                match reader.step() {
                    Answer::Ended => return summed(sum, gaps),
                    Answer::Phase(phase) => sum += phase,
                    Answer::Gap => gaps += 1,
                }
            }
        });
    }
}

/// A whole number below 2^53 and a number of gaps, as one.
fn summed(sum: f64, gaps: u64) -> u64 {
    (sum as i64 as u64).wrapping_mul(31).wrapping_add(gaps)
}

/// Rows from this one on are of readers, an opening and a step for each recording.
const READERS: usize = 16;
const ROWS: [&str; READERS + 10] = [
    "Format",
    "Create, filling the store",
    "Check, full",
    "Read",
    "Status",
    "SetExpiry",
    "Replace",
    "GetCount",
    "GetIds, 64 headers, 1 named",
    "Profile, 64 used",
    "Scavenge, 64 headers, none gone",
    "Destroy",
    "Check, fresh",
    "GetIds, 64 headers, 64 named",
    "Scavenge, 64 removed",
    "walk of 4,096 headers",
    "open a series, 4,096 blocks in order",
    "a sample of it",
    "open a series, in reverse",
    "a sample of it",
    "open a series, shuffled",
    "a sample of it",
    "open a series, one sequence in eight there",
    "a sample of it",
    "open a series, one of three channels in turn",
    "a sample of it",
];

/// Nanoseconds of each row in one turn, and the sum of what the calls gave.
struct Turn {
    times: [f64; ROWS.len()],
    sum: u64,
}

impl Turn {
    fn row(&mut self, row: usize, calls: usize, work: impl FnOnce() -> u64) {
        let began = Instant::now();
        self.sum = self.sum.wrapping_add(black_box(work()));
        self.times[row] = began.elapsed().as_nanos() as f64 / calls as f64;
    }
}

/// Block numbers in an order that no cache foresees.
fn shuffled(seed: &mut u64) -> Vec<usize> {
    let mut order: Vec<usize> = (0..N).collect();
    for i in (1..N).rev() {
        *seed = seed.wrapping_mul(6364136223846793005).wrapping_add(1442695040888963407);
        order.swap(i, (*seed >> 33) as usize % (i + 1));
    }
    order
}

/// The images whose series are read. Each has N blocks, and one sample in 100 is marked.
fn recordings() -> [Vec<u8>; 5] {
    let (mut random, last) = (Random::new(1), N as u32 - 1);
    let mut order: Vec<u32> = (0..=last).collect();
    random.shuffle(&mut order);
    let mut image = |block: &dyn Fn(u32) -> (u32, u32)| {
        let mut samples = || match random.one_in(100) {
            true => i32::MIN,
            false => random.block(1 << 21) as i32 - (1 << 20),
        };
        let written = (0..=last).map(block).map(|(owner, sequence)| {
            let samples = [(); 128].map(|()| samples());
            Written::full(owner, SERIES, sequence, samples)
        });
        image_of(N as u32, &written.collect::<Vec<_>>())
    };
    [
        image(&|b| (CHANNEL, b)),
        image(&|b| (CHANNEL, last - b)),
        image(&|b| (CHANNEL, order[b as usize])),
        image(&|b| (if b % 8 == 0 { CHANNEL } else { CHANNEL + 1 }, b)),
        image(&|b| (CHANNEL + b % 3, b / 3)),
    ]
}

fn read_series<E: Engine>(recordings: &[Vec<u8>], t: &mut Turn) {
    for (i, img) in recordings.iter().enumerate() {
        let row = READERS + 2 * i;
        t.row(row, 8, || (0..8).map(|_| E::open(black_box(img))).sum());
        E::steps(img, t, row + 1);
    }
}

fn turn<E: Engine>(img: &mut [u8], seed: &mut u64) -> Turn {
    let mut t = Turn {
        times: [0.0; ROWS.len()],
        sum: 0,
    };
    let bytes = black_box([7u8; 528]);
    let (mut buffer, mut ids, mut entries) = ([0u8; 528], [0u8; 512], [0u8; 1536]);
    let mut made = vec![0; N];
    let order = shuffled(seed);
    let now = std::cell::Cell::new(1);
    let tick = || {
        now.set(now.get() + 1);
        now.get()
    };
    t.row(0, 1, || {
        E::format(img);
        0
    });
    t.row(12, 1, || E::check(img) as u64);
    t.row(1, N, || {
        for (i, id) in made.iter_mut().enumerate() {
            let at = tick();
            *id = E::create(img, i as u32 % 64, at + 1_000_000, &bytes, at);
        }
        0
    });
    t.row(2, 1, || E::check(img) as u64);
    t.row(3, N, || {
        order
            .iter()
            .map(|i| E::read(img, 1, made[*i], &mut buffer) as u64)
            .sum()
    });
    t.row(4, N, || order.iter().map(|i| E::status(img, 1, made[*i])).sum());
    t.row(5, N, || {
        let mut sum = 0;
        for i in &order {
            let at = tick();
            sum += E::set_expiry(img, *i as u32 % 64, made[*i], at + 2_000_000, at);
        }
        sum as u64
    });
    t.row(6, N, || {
        for i in &order {
            made[*i] = E::replace(img, *i as u32 % 64, made[*i], &bytes, tick());
        }
        0
    });
    t.row(7, N, || (0..N).map(|i| E::get_count(img, i as u32 % 64) as u64).sum());
    let keys = || (0..N as u32).step_by(64);
    t.row(8, 64, || keys().map(|k| E::get_ids(img, 5, k, &mut ids) as u64).sum());
    t.times[15] = 64.0 * t.times[8];
    t.row(9, 64, || keys().map(|k| E::profile(img, k, &mut entries) as u64).sum());
    t.row(10, 64, || keys().map(|k| E::scavenge(img, k, tick()) as u64).sum());
    t.row(11, N, || {
        let mut sum = 0;
        for i in &order {
            sum += E::destroy(img, *i as u32 % 64, made[*i], tick());
        }
        sum as u64
    });
    for _ in 0..N {
        let at = tick();
        E::create(img, 5, at, &bytes, at);
    }
    t.row(13, 64, || keys().map(|k| E::get_ids(img, 5, k, &mut ids) as u64).sum());
    tick();
    t.row(14, 64, || keys().map(|k| E::scavenge(img, k, tick()) as u64).sum());
    t.sum += made.iter().fold(0, |a: u64, x| a.wrapping_add(*x)) & 0xffff_ffff;
    t.sum += ids
        .iter()
        .chain(&entries)
        .chain(&buffer)
        .map(|x| *x as u64)
        .sum::<u64>();
    t
}

/// A time, with its fraction where it is short.
fn ns(time: f64) -> String {
    match time < 100.0 {
        true => format!("{time:.2}"),
        false => format!("{time:.0}"),
    }
}

/// The least and the median.
fn two(turns: &[Turn], row: usize) -> (f64, f64) {
    let mut times: Vec<f64> = turns.iter().map(|t| t.times[row]).collect();
    times.sort_by(f64::total_cmp);
    (times[0], times[times.len() / 2])
}

fn main() {
    let turns = std::env::args()
        .nth(1)
        .map_or(101, |a| a.parse().expect("a number of turns"));
    let (mut x, mut y) = (vec![0; plain::size_of(N)], vec![0; plain::size_of(N)]);
    let (mut s, mut u) = (1, 1);
    let recordings = recordings();
    let (mut proved, mut plain) = (vec![], vec![]);
    for _ in 0..turns {
        plain.push(turn::<Plain>(&mut x, &mut s));
        proved.push(turn::<Proved>(&mut y, &mut u));
        assert!(x == y, "the images differ");
        read_series::<Plain>(&recordings, plain.last_mut().unwrap());
        read_series::<Proved>(&recordings, proved.last_mut().unwrap());
        assert_eq!(
            plain.last().unwrap().sum,
            proved.last().unwrap().sum,
            "the answers differ"
        );
    }
    println!("| N = 4,096, {turns} turns | plain Rust, ns | proved, ns | ratio of the least | of the medians |");
    println!("|---|---|---|---|---|");
    for (row, name) in ROWS.iter().enumerate() {
        let ((a, b), (c, d)) = (two(&plain, row), two(&proved, row));
        println!("| {name} | {} | {} | {:.2} | {:.2} |", ns(a), ns(c), c / a, d / b);
    }
}
