//! Times of the proved library beside SQLite in memory at N = 4,096, as a table. It needs Debian's libsqlite3-dev.
//! cargo run --release --manifest-path rust/Cargo.toml --target-dir target/rust --features sqlite --bin peers
use foreign::{thread_time, Connection, Row, Statement, Value};
use std::hint::black_box;
use twin::plain;
use zolvortug::{Client, Id, Key, Store, Tariff, Tick, BLOCK, MOST};

const N: usize = 4096;
const CLIENTS: usize = 64;
const PASSES: usize = 32;
const LONG: u64 = 1_000_000;
const LISTED: u32 = 5;

/// One of the two, by the operations that are timed. The store makes its ids; SQLite is told them. A walk is told how
/// many blocks the client has, so that SQLite need not ask for more, and takes room for 64 ids beyond them.
trait Engine {
    fn create(&mut self, client: u32, id: u64, expiry: u64, bytes: &[u8], now: u64) -> u64;
    fn read(&mut self, client: u32, id: u64, buffer: &mut [u8]);
    fn status(&mut self, client: u32, id: u64) -> u64;
    fn destroy(&mut self, client: u32, id: u64, now: u64);
    fn replace(&mut self, client: u32, id: u64, new: u64, bytes: &[u8], now: u64) -> u64;
    fn set_expiry(&mut self, client: u32, id: u64, expiry: u64, now: u64);
    fn get_count(&mut self, client: u32) -> u64;
    fn walk(&mut self, client: u32, owned: usize, ids: &mut [u8]) -> u64;
    fn scavenge(&mut self, now: u64) -> u64;
}

struct Proved(Store<Vec<u8>>);

impl Proved {
    fn new() -> Proved {
        let mut image = vec![0; plain::size_of(N)];
        zolvortug::format(N as u32, &mut image).unwrap();
        let prices = Tariff {
            rate: 2,
            ..Tariff::default()
        };
        Proved(Store::new(image, prices))
    }
}

impl Engine for Proved {
    fn create(&mut self, client: u32, _: u64, expiry: u64, bytes: &[u8], now: u64) -> u64 {
        let made = self.0.create(Client(client), Tick(expiry), bytes, Tick(now));
        made.unwrap().value.0
    }
    fn read(&mut self, client: u32, id: u64, buffer: &mut [u8]) {
        self.0.read(Client(client), Id(id), buffer).unwrap();
    }
    fn status(&mut self, client: u32, id: u64) -> u64 {
        let info = self.0.status(Client(client), Id(id)).unwrap().value;
        info.owner.0 as u64 + info.created.0 + info.expires.0
    }
    fn destroy(&mut self, client: u32, id: u64, now: u64) {
        self.0.destroy(Client(client), Id(id), Tick(now)).unwrap();
    }
    fn replace(&mut self, client: u32, id: u64, _: u64, bytes: &[u8], now: u64) -> u64 {
        let made = self.0.replace(Client(client), Id(id), bytes, Tick(now));
        made.unwrap().value.0
    }
    fn set_expiry(&mut self, client: u32, id: u64, expiry: u64, now: u64) {
        let done = self.0.set_expiry(Client(client), Id(id), Tick(expiry), Tick(now));
        done.unwrap();
    }
    fn get_count(&mut self, client: u32) -> u64 {
        self.0.count(Client(client)).unwrap().value as u64
    }
    fn walk(&mut self, client: u32, _: usize, ids: &mut [u8]) -> u64 {
        let (mut key, mut count) = (Some(Key::START), 0);
        while let Some(from) = key {
            let room = &mut ids[8 * count..8 * (count + MOST)];
            let pass = self.0.ids(Client(client), from, MOST as u32, room).unwrap().value;
            count += pass.count;
            key = pass.next;
        }
        count as u64
    }
    fn scavenge(&mut self, mut now: u64) -> u64 {
        let (mut key, mut count) = (Some(Key::START), 0);
        while let Some(from) = key {
            let pass = self.0.scavenge(Client::MANAGER, from, Tick(now)).unwrap().value;
            count += pass.count;
            key = pass.next;
            now += 1;
        }
        count as u64
    }
}

/// Debian's SQLite wipes what it deletes unless it is told not to; the store does not wipe the data of a block.
const TABLE: [&str; 6] = [
    "pragma journal_mode = off",
    "pragma synchronous = off",
    "pragma secure_delete = off",
    "create table blocks (id integer primary key, owner integer not null, created integer not null,
     expires integer not null, data blob not null)",
    "create index by_owner on blocks (owner, id)",
    "create index by_expiry on blocks (expires)",
];

/// The statements, each prepared once. A call is a transaction of its own.
struct Peer {
    insert: Statement,
    data: Statement,
    status: Statement,
    delete: Statement,
    begin: Statement,
    expires: Statement,
    commit: Statement,
    update: Statement,
    count: Statement,
    list: Statement,
    scavenge: Statement,
}

impl Peer {
    fn new() -> Peer {
        let db = Connection::in_memory();
        for sql in TABLE {
            db.prepare(sql).each(&[], |_| ());
        }
        Peer {
            insert: db.prepare("insert into blocks (id, owner, created, expires, data) values (?, ?, ?, ?, ?)"),
            data: db.prepare("select data from blocks where id = ?"),
            status: db.prepare("select owner, created, expires from blocks where id = ?"),
            delete: db.prepare("delete from blocks where id = ? and owner = ?"),
            begin: db.prepare("begin"),
            expires: db.prepare("select expires from blocks where id = ? and owner = ?"),
            commit: db.prepare("commit"),
            update: db.prepare("update blocks set expires = ? where id = ? and owner = ?"),
            count: db.prepare("select count(*) from blocks where owner = ?"),
            list: db.prepare("select id from blocks where owner = ? and id > ? order by id limit 64"),
            scavenge: db.prepare("delete from blocks where expires < ?"),
        }
    }
}

fn number(x: u64) -> Value<'static> {
    Value::Number(x as i64)
}

/// An id as a signed key of the same order. No id is 0, so that every key is above the least.
fn signed(id: u64) -> i64 {
    (id ^ 1 << 63) as i64
}

fn unsigned(key: i64) -> u64 {
    key as u64 ^ 1 << 63
}

fn key(id: u64) -> Value<'static> {
    Value::Number(signed(id))
}

impl Engine for Peer {
    fn create(&mut self, client: u32, id: u64, expiry: u64, bytes: &[u8], now: u64) -> u64 {
        let (owner, expires) = (number(client as u64), number(expiry.max(now)));
        self.insert
            .change(&[key(id), owner, number(now), expires, Value::Bytes(bytes)]);
        id
    }
    fn read(&mut self, _: u32, id: u64, buffer: &mut [u8]) {
        self.data.first(&[key(id)], |row| row.copy(0, buffer));
    }
    fn status(&mut self, _: u32, id: u64) -> u64 {
        let told = |row: &Row| row.number(0) + row.number(1) + row.number(2);
        self.status.first(&[key(id)], told) as u64
    }
    fn destroy(&mut self, client: u32, id: u64, _: u64) {
        assert_eq!(self.delete.change(&[key(id), number(client as u64)]), 1);
    }
    fn replace(&mut self, client: u32, id: u64, new: u64, bytes: &[u8], now: u64) -> u64 {
        self.begin.change(&[]);
        let expires = self
            .expires
            .first(&[key(id), number(client as u64)], |row| row.number(0));
        self.destroy(client, id, now);
        self.create(client, new, expires as u64, bytes, now);
        self.commit.change(&[]);
        new
    }
    fn set_expiry(&mut self, client: u32, id: u64, expiry: u64, now: u64) {
        let changed = self
            .update
            .change(&[number(expiry.max(now)), key(id), number(client as u64)]);
        assert_eq!(changed, 1);
    }
    fn get_count(&mut self, client: u32) -> u64 {
        self.count.first(&[number(client as u64)], |row| row.number(0)) as u64
    }
    fn walk(&mut self, client: u32, owned: usize, ids: &mut [u8]) -> u64 {
        let (mut last, mut count) = (i64::MIN, 0);
        while count < owned {
            let before = count;
            self.list.each(&[number(client as u64), Value::Number(last)], |row| {
                last = row.number(0);
                ids[8 * count..8 * count + 8].copy_from_slice(&unsigned(last).to_le_bytes());
                count += 1;
            });
            assert!(count > before, "ids are missing");
        }
        count as u64
    }
    fn scavenge(&mut self, now: u64) -> u64 {
        self.scavenge.change(&[number(now)]) as u64
    }
}

/// What both do in a turn: the blocks in an order that no cache foresees, the ids that the store gives to them when it
/// is filled, when each is replaced and when it is filled again, and the tick at which the turn begins.
struct Plan {
    order: Vec<usize>,
    created: Vec<u64>,
    replaced: Vec<u64>,
    refilled: Vec<u64>,
    bytes: [u8; BLOCK],
    began: u64,
}

/// The parts of a turn that have a time, N ticks each.
#[derive(Clone, Copy)]
enum Part {
    Create,
    SetExpiry,
    Replace,
    Scavenge,
    Destroy,
    Refill,
    Clear,
    End,
}

impl Plan {
    fn new(turn: usize, seed: &mut u64) -> Plan {
        let mut plan = Plan {
            order: shuffled(seed),
            created: vec![],
            replaced: vec![0; N],
            refilled: vec![],
            bytes: black_box([7; BLOCK]),
            began: 1 + (turn * N * Part::End as usize) as u64,
        };
        for step in 0..N {
            let (at, block) = (step as u64, plan.order[step]);
            plan.created.push(plain::id_of(plan.now(Part::Create, step), at));
            plan.refilled.push(plain::id_of(plan.now(Part::Refill, step), at));
            plan.replaced[block] = plain::id_of(plan.now(Part::Replace, step), block as u64);
        }
        plan
    }

    fn now(&self, part: Part, step: usize) -> u64 {
        self.began + (N * part as usize + step) as u64
    }

    /// Each block in the plan's order, its owner, and now.
    fn steps(&self, part: Part) -> impl Iterator<Item = (usize, u32, u64)> + '_ {
        let steps = self.order.iter().enumerate();
        steps.map(move |(step, block)| (*block, owner(*block), self.now(part, step)))
    }
}

fn shuffled(seed: &mut u64) -> Vec<usize> {
    let mut order: Vec<usize> = (0..N).collect();
    for i in (1..N).rev() {
        *seed = seed.wrapping_mul(6364136223846793005).wrapping_add(1442695040888963407);
        order.swap(i, (*seed >> 33) as usize % (i + 1));
    }
    order
}

/// The client of a block: the blocks of each are spread over the store.
fn owner(block: usize) -> u32 {
    (block % CLIENTS) as u32
}

fn total(numbers: impl Iterator<Item = u64>) -> u64 {
    numbers.fold(0, u64::wrapping_add)
}

fn create(e: &mut impl Engine, p: &Plan) -> u64 {
    let at = |block| p.now(Part::Create, block);
    total((0..N).map(|b| e.create(owner(b), p.created[b], at(b) + LONG, &p.bytes, at(b))))
}

fn read(e: &mut impl Engine, p: &Plan) -> u64 {
    let mut buffer = [0; BLOCK];
    for block in &p.order {
        e.read(1, p.created[*block], black_box(&mut buffer));
    }
    total(buffer.iter().map(|x| *x as u64))
}

fn status(e: &mut impl Engine, p: &Plan, ids: &[u64]) -> u64 {
    total(p.order.iter().map(|block| e.status(1, ids[*block])))
}

fn set_expiry(e: &mut impl Engine, p: &Plan) -> u64 {
    for (block, client, now) in p.steps(Part::SetExpiry) {
        e.set_expiry(client, p.created[block], now + 2 * LONG, now);
    }
    0
}

fn replace(e: &mut impl Engine, p: &Plan) -> u64 {
    let steps = p.steps(Part::Replace);
    total(steps.map(|(b, client, now)| e.replace(client, p.created[b], p.replaced[b], &p.bytes, now)))
}

fn get_count(e: &mut impl Engine) -> u64 {
    total((0..N).map(|block| e.get_count(owner(block))))
}

/// Each client's blocks, by a walk of its own.
fn walks(e: &mut impl Engine, ids: &mut [u8]) -> u64 {
    let owned = N / CLIENTS;
    total((0..CLIENTS).map(|c| e.walk(c as u32, owned, &mut ids[8 * owned * c..])))
}

/// All blocks, which are one client's, by walks of N / 64 calls.
fn get_ids(e: &mut impl Engine, ids: &mut [u8]) -> u64 {
    total((0..PASSES).map(|_| e.walk(LISTED, N, ids)))
}

fn scavenge(e: &mut impl Engine, p: &Plan) -> u64 {
    total((0..PASSES).map(|pass| e.scavenge(p.now(Part::Scavenge, pass * MOST))))
}

fn destroy(e: &mut impl Engine, p: &Plan) -> u64 {
    for (block, client, now) in p.steps(Part::Destroy) {
        e.destroy(client, p.replaced[block], now);
    }
    0
}

/// The store full of one client's blocks, which expire at once.
fn refill(e: &mut impl Engine, p: &Plan) -> u64 {
    let at = |block| p.now(Part::Refill, block);
    total((0..N).map(|b| e.create(LISTED, p.refilled[b], 0, &p.bytes, at(b))))
}

#[derive(Clone, Copy)]
enum Line {
    Create,
    Read,
    Status,
    Destroy,
    Replace,
    SetExpiry,
    GetCount,
    GetIds,
    Walk,
    Scavenge,
}

const LINES: [&str; 10] = [
    "create",
    "read",
    "status",
    "destroy",
    "replace",
    "set_expiry",
    "get_count",
    "one GetIds call, 64 headers visited, 64 named",
    "walk of a client whose 64 blocks are spread over the store (64 calls against 1)",
    "Scavenge pass over the store, none expired (64 calls against 1)",
];

/// Nanoseconds of each line in one turn, and the sum of what the calls gave.
struct Turn {
    times: [f64; LINES.len()],
    sum: u64,
}

impl Turn {
    fn line(&mut self, line: Line, calls: usize, work: impl FnOnce() -> u64) {
        let began = thread_time();
        let sum = black_box(work());
        self.times[line as usize] = (thread_time() - began) as f64 / calls as f64;
        self.add(sum);
    }

    fn add(&mut self, sum: u64) {
        self.sum = self.sum.wrapping_mul(31).wrapping_add(sum);
    }

    /// The ids that were listed; the two list them in different orders.
    fn add_ids(&mut self, ids: &[u8]) {
        let ids = ids.chunks_exact(8).take(N);
        self.add(total(ids.map(|x| u64::from_le_bytes(x.try_into().unwrap()))));
    }
}

fn turn(e: &mut impl Engine, p: &Plan) -> Turn {
    let mut ids = vec![0; 8 * (N + MOST)];
    let mut t = Turn {
        times: [0.0; LINES.len()],
        sum: 0,
    };
    t.line(Line::Create, N, || create(e, p));
    t.line(Line::Read, N, || read(e, p));
    t.line(Line::Status, N, || status(e, p, &p.created));
    t.line(Line::SetExpiry, N, || set_expiry(e, p));
    t.line(Line::Replace, N, || replace(e, p));
    t.add(status(e, p, &p.replaced));
    t.line(Line::GetCount, N, || get_count(e));
    t.line(Line::Walk, CLIENTS, || walks(e, &mut ids));
    t.add_ids(&ids);
    t.line(Line::Scavenge, PASSES, || scavenge(e, p));
    t.line(Line::Destroy, N, || destroy(e, p));
    t.add(refill(e, p));
    t.line(Line::GetIds, PASSES * N / MOST, || get_ids(e, &mut ids));
    t.add_ids(&ids);
    t.add(e.scavenge(p.now(Part::Clear, 0)));
    t
}

/// Two turns, of which the second is counted: the first brings back to the caches what the other of the two drove out.
fn warm_turn(e: &mut impl Engine, plans: &[Plan; 2]) -> Turn {
    turn(e, &plans[0]);
    turn(e, &plans[1])
}

/// The least and the median.
fn two(turns: &[Turn], line: usize) -> [f64; 2] {
    let mut times: Vec<f64> = turns.iter().map(|t| t.times[line]).collect();
    times.sort_by(f64::total_cmp);
    [times[0], times[times.len() / 2]]
}

fn quicker(proved: f64, peer: f64) -> String {
    let times = peer / proved;
    let digits = if times < 1.0 { 3 } else { 0 };
    format!("{times:.digits$}")
}

fn print(proved: &[Turn], peer: &[Turn]) {
    let (turns, version) = (proved.len(), foreign::sqlite_version());
    print!("| operation, N = 4,096, least of {turns} turns (median) | proved, ns ");
    println!("| SQLite {version} in memory, ns | times quicker |");
    println!("|---|---|---|---|");
    for (line, name) in LINES.iter().enumerate() {
        let ([a, b], [c, d]) = (two(proved, line), two(peer, line));
        let (least, median) = (quicker(a, c), quicker(b, d));
        println!("| {name} | {a:.0} ({b:.0}) | {c:.0} ({d:.0}) | {least} ({median}) |");
    }
}

fn main() {
    let turns = std::env::args()
        .nth(1)
        .map_or(31, |a| a.parse().expect("a number of turns"));
    let (mut store, mut base, mut seed) = (Proved::new(), Peer::new(), 1);
    let (mut proved, mut peer) = (vec![], vec![]);
    for i in 0..turns {
        let plans = [2 * i, 2 * i + 1].map(|turn| Plan::new(turn, &mut seed));
        proved.push(warm_turn(&mut store, &plans));
        peer.push(warm_turn(&mut base, &plans));
        assert_eq!(proved[i].sum, peer[i].sum, "the answers differ");
    }
    print(&proved, &peer);
}

/// All that is unsafe: the thread's own time, which a busy machine does not lengthen, and as much of SQLite as is used.
/// A connection and its statements live as long as the program, and raw pointers keep them on one thread.
mod foreign {
    use std::ffi::{c_char, c_int, c_uint, c_void, CStr, CString};
    use std::ptr::{copy_nonoverlapping, null, null_mut};

    extern "C" {
        fn clock_gettime(clock: c_int, time: *mut [i64; 2]) -> c_int;
    }

    #[link(name = "sqlite3")]
    extern "C" {
        fn sqlite3_libversion() -> *const c_char;
        fn sqlite3_open_v2(name: *const c_char, db: *mut *mut c_void, flags: c_int, vfs: *const c_char) -> c_int;
        fn sqlite3_prepare_v3(
            db: *mut c_void,
            sql: *const c_char,
            length: c_int,
            flags: c_uint,
            statement: *mut *mut c_void,
            tail: *mut *const c_char,
        ) -> c_int;
        fn sqlite3_bind_parameter_count(statement: *mut c_void) -> c_int;
        fn sqlite3_bind_int64(statement: *mut c_void, at: c_int, x: i64) -> c_int;
        fn sqlite3_bind_blob(s: *mut c_void, at: c_int, x: *const c_void, n: c_int, keep: *const c_void) -> c_int;
        fn sqlite3_step(statement: *mut c_void) -> c_int;
        fn sqlite3_reset(statement: *mut c_void) -> c_int;
        fn sqlite3_column_int64(statement: *mut c_void, at: c_int) -> i64;
        fn sqlite3_column_blob(statement: *mut c_void, at: c_int) -> *const c_void;
        fn sqlite3_column_bytes(statement: *mut c_void, at: c_int) -> c_int;
        fn sqlite3_changes64(db: *mut c_void) -> i64;
    }

    const THREAD: c_int = 3;
    const OK: c_int = 0;
    const ROW: c_int = 100;
    const DONE: c_int = 101;
    const READ_WRITE: c_int = 2;
    const CREATE: c_int = 4;
    const MEMORY: c_int = 0x80;
    const NO_MUTEX: c_int = 0x8000;
    const PERSISTENT: c_uint = 1;

    /// Nanoseconds for which this thread has run.
    pub fn thread_time() -> i64 {
        let mut time = [0; 2];
        // SAFETY: a place for the seconds and the nanoseconds, 8 bytes each on x86-64 Linux.
        let report = unsafe { clock_gettime(THREAD, &mut time) };
        assert_eq!(report, 0);
        time[0] * 1_000_000_000 + time[1]
    }

    pub fn sqlite_version() -> &'static str {
        // SAFETY: a string that always stands.
        unsafe { CStr::from_ptr(sqlite3_libversion()) }.to_str().unwrap()
    }

    pub struct Connection(*mut c_void);

    impl Connection {
        pub fn in_memory() -> Connection {
            let (mut db, flags) = (null_mut(), READ_WRITE | CREATE | MEMORY | NO_MUTEX);
            // SAFETY: a name that ends in 0, and a place for the connection.
            let report = unsafe { sqlite3_open_v2(c":memory:".as_ptr(), &mut db, flags, null()) };
            assert_eq!(report, OK);
            Connection(db)
        }

        pub fn prepare(&self, sql: &str) -> Statement {
            let (text, mut at) = (CString::new(sql).unwrap(), null_mut());
            // SAFETY: an open connection, a text that ends in 0, and a place for the statement.
            let report = unsafe { sqlite3_prepare_v3(self.0, text.as_ptr(), -1, PERSISTENT, &mut at, null_mut()) };
            assert_eq!(report, OK, "{sql}");
            // SAFETY: a statement just made.
            let values = unsafe { sqlite3_bind_parameter_count(at) } as usize;
            Statement { db: self.0, at, values }
        }
    }

    pub enum Value<'a> {
        Number(i64),
        Bytes(&'a [u8]),
    }

    pub struct Statement {
        db: *mut c_void,
        at: *mut c_void,
        values: usize,
    }

    impl Statement {
        /// Every value is given anew before each run, so that none that is no longer lent is looked at.
        fn bind(&mut self, values: &[Value]) {
            assert_eq!(values.len(), self.values);
            for (i, value) in (1..).zip(values) {
                // SAFETY: bytes with their own length, lent to the end of the run.
                let report = match value {
                    Value::Number(x) => unsafe { sqlite3_bind_int64(self.at, i, *x) },
                    Value::Bytes(x) => unsafe {
                        sqlite3_bind_blob(self.at, i, x.as_ptr().cast(), x.len() as c_int, null())
                    },
                };
                assert_eq!(report, OK);
            }
        }

        /// Whether there is a row.
        fn step(&mut self) -> bool {
            // SAFETY: a statement of an open connection.
            let report = unsafe { sqlite3_step(self.at) };
            assert!(report == ROW || report == DONE, "SQLite reports {report}");
            report == ROW
        }

        fn reset(&mut self) {
            // SAFETY: a statement of an open connection.
            let report = unsafe { sqlite3_reset(self.at) };
            assert_eq!(report, OK);
        }

        /// Shows every row.
        pub fn each(&mut self, values: &[Value], mut show: impl FnMut(&Row)) {
            self.bind(values);
            while self.step() {
                show(&Row(self.at));
            }
            self.reset();
        }

        /// Shows the first row, which there must be.
        pub fn first<T>(&mut self, values: &[Value], show: impl FnOnce(&Row) -> T) -> T {
            self.bind(values);
            assert!(self.step(), "no row");
            let shown = show(&Row(self.at));
            self.reset();
            shown
        }

        /// The number of rows that it changed.
        pub fn change(&mut self, values: &[Value]) -> i64 {
            self.each(values, |_| ());
            // SAFETY: an open connection.
            unsafe { sqlite3_changes64(self.db) }
        }
    }

    /// The row at which a statement stands.
    pub struct Row(*mut c_void);

    impl Row {
        pub fn number(&self, at: c_int) -> i64 {
            // SAFETY: SQLite tests the column's number and its type.
            unsafe { sqlite3_column_int64(self.0, at) }
        }

        pub fn copy(&self, at: c_int, buffer: &mut [u8]) {
            // SAFETY: as many bytes as SQLite says, to a buffer of as many; nothing runs between.
            unsafe {
                let from = sqlite3_column_blob(self.0, at);
                assert_eq!(sqlite3_column_bytes(self.0, at) as usize, buffer.len());
                copy_nonoverlapping(from.cast(), buffer.as_mut_ptr(), buffer.len());
            }
        }
    }
}
