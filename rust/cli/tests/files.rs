//! Image files are kept safe: what stands on the disk after a failure, a cut, or two commands at once.
mod common;
use common::{Folder, Said};
use std::fs::{self, File};
use std::os::unix::fs::PermissionsExt;
use std::thread::sleep;
use std::time::Duration;
use zolvortug::{Client, Id, Key, Store, Tariff, Tick};
use zolvortug_cli::image_file::{writes, BlockWrite};
use zolvortug_cli::layout::Layout;

const BLOCK: [u8; 528] = [7; 528];
const OTHER: [u8; 528] = [9; 528];
const CREATE: &str = "create i --client 3 --expires never";

/// An image of 16 blocks with three of client 3's, of which the first two expire at 500.
fn stored(f: &Folder) -> Vec<String> {
    f.run("format i --blocks 16").ends(0);
    let create = |(now, expires): (u32, u32)| {
        f.fed(&format!("create i --client 3 --now {now} --expires {expires}"), &BLOCK)
            .ends(0)
            .line()
    };
    [(100, 500), (101, 500), (102, 9000)].map(create).to_vec()
}

#[test]
fn a_file_that_is_no_image() {
    let f = Folder::new();
    stored(&f);
    let image = f.bytes("i");
    let longer = [&image[..], &[0; 100]].concat();
    for (bytes, what) in [
        (
            &image[..0],
            "too short: it has 0 bytes, and the smallest image 6144 bytes (8 blocks)",
        ),
        (
            &image[..6143],
            "too short: it has 6143 bytes, and the smallest image 6144 bytes (8 blocks)",
        ),
        (
            &image[..9000],
            "cut, or no image: it has 9000 bytes, and the nearest images 6144 bytes (8 blocks) and 10752 bytes \
             (16 blocks)",
        ),
        (
            &longer,
            "too long: an image of 16 blocks ends at 10752 bytes, and more follow",
        ),
        (
            &[1; 2_360_833],
            "too long: the largest image has 2360832 bytes (4096 blocks)",
        ),
    ] {
        fs::write(f.path("i"), bytes).unwrap();
        f.run("check i").ends(1).says(&format!("i: not sound\n  {what}\n"));
        f.run("ids i --client 3")
            .ends(3)
            .says("")
            .warns(&format!("zolvortug: i: {what}\n"));
        f.fed(CREATE, &BLOCK).ends(3).says("").warns(what);
        assert!(f.bytes("i") == bytes);
    }
    f.run("check /dev/zero").ends(1);
    f.fed("create /dev/zero --client 3 --expires never", &BLOCK)
        .ends(3)
        .warns("not a regular file");
    f.run("check none")
        .ends(3)
        .warns("zolvortug: none: No such file or directory\n");
}

#[test]
fn a_directory() {
    let f = Folder::new();
    fs::create_dir(f.path("d")).unwrap();
    f.run("check d").ends(3).warns("d: a directory");
    f.fed("create d --client 3 --expires never", &BLOCK)
        .ends(3)
        .warns("d: a directory");
    f.run("format d --blocks 8").ends(3).warns("d: a directory");
    f.run("format d --blocks 8 --force").ends(3).warns("d: a directory");
    f.run("format none/i --blocks 8")
        .ends(3)
        .warns("none/i: No such file or directory");
    assert_eq!(f.names(), ["d"]);
}

#[test]
fn a_read_only_file() {
    let f = Folder::new();
    let ids = stored(&f);
    let before = f.bytes("i");
    fs::set_permissions(f.path("i"), fs::Permissions::from_mode(0o444)).unwrap();
    f.fed(CREATE, &BLOCK).ends(3).warns("i: read-only");
    f.run(&format!("destroy i {} --client 3", ids[0]))
        .ends(3)
        .warns("i: read-only");
    f.run("format i --blocks 8 --force").ends(3).warns("i: read-only");
    f.run("count i --client 3").ends(0).says("3\n");
    assert!(f.bytes("i") == before);
}

#[test]
fn format_replaces_only_by_force() {
    let f = Folder::new();
    stored(&f);
    let before = f.bytes("i");
    f.run("format i --blocks 8")
        .ends(3)
        .warns("i: there already; --force replaces it");
    assert!(f.bytes("i") == before);
    f.run("format i --blocks 8 --force").ends(0);
    assert_eq!(f.bytes("i").len(), 6144);
    fs::set_permissions(f.path("i"), fs::Permissions::from_mode(0o600)).unwrap();
    std::os::unix::fs::symlink("i", f.path("link")).unwrap();
    f.run("format link --blocks 24 --force").ends(0);
    assert_eq!(f.bytes("i").len(), zolvortug::size_of_image(24).unwrap());
    assert_eq!(fs::metadata(f.path("i")).unwrap().permissions().mode() & 0o777, 0o600);
    std::os::unix::fs::symlink("nowhere", f.path("dangling")).unwrap();
    f.run("format dangling --blocks 8")
        .ends(3)
        .warns("dangling: not a regular file");
    assert_eq!(f.names(), ["dangling", "i", "link"]);
}

/// A file may not grow beyond a limit: the system refuses the write as it does on a full disk.
#[test]
fn a_write_that_fails() {
    let f = Folder::new();
    f.shell("ulimit -f 100; trap '' XFSZ; zolvortug format i --blocks 4096")
        .ends(3)
        .warns("i: File too large: nothing was made");
    assert!(f.names().is_empty());
    stored(&f);
    let before = f.bytes("i");
    f.shell("ulimit -f 5; trap '' XFSZ; head -c 528 /dev/zero | zolvortug create i --client 3 --expires never")
        .ends(3)
        .says("")
        .warns("i: File too large: nothing was changed");
    assert!(f.bytes("i") == before);
}

/// A disk of 64 KiB of its own, where the system lets a user have one: full when an image is made, and full when a
/// block of an image with holes is written.
#[test]
fn a_full_disk() {
    let f = Folder::new();
    let disk = |script: &str| {
        let inside = format!("mkdir d && mount -t tmpfs -o size=64k tmpfs d && cd d && {script}");
        f.shell(&format!("rm -rf d; unshare -rm bash -c '{inside}'"))
    };
    if disk("true").status != Some(0) {
        eprintln!("this system gives a user no disk of his own: the full disk was not tried");
        return;
    }
    disk("zolvortug format i --blocks 128; echo $? $(ls)")
        .says("3\n")
        .warns("i: No space left on device: nothing was made");
    disk(
        "zolvortug format j --blocks 64 > /dev/null && cp --sparse=always j i && rm j
         cat /dev/zero > fill 2> /dev/null
         head -c 528 /dev/urandom | zolvortug create i --client 3 --now 100 --expires never; echo $?
         zolvortug check i",
    )
    .says("3\ni: sound; 0 of 64 blocks used, clock 2020-01-01T00:00:00.100Z\n")
    .warns("i: No space left on device: half done, 2 of 5 blocks were written");
}

#[test]
fn two_commands_at_once() {
    let f = Folder::new();
    fs::write(f.path("block"), BLOCK).unwrap();
    f.run("format i --blocks 64").ends(0);
    let create = format!("{CREATE} --data block");
    let started: Vec<_> = (0..48).map(|_| f.start(&create)).collect();
    let ended = started
        .into_iter()
        .map(|child| Said::of(&create, child.wait_with_output().unwrap()));
    let mut ids: Vec<String> = ended.map(|said| said.ends(0).line()).collect();
    ids.sort();
    ids.dedup();
    assert_eq!(ids.len(), 48);
    f.run("count i --client 3").ends(0).says("48\n");
    let mut listed: Vec<String> = f
        .run("ids i --client 3")
        .ends(0)
        .out
        .lines()
        .map(str::to_string)
        .collect();
    listed.sort();
    assert_eq!(listed, ids);
    f.run("check i").ends(0);
}

#[test]
fn two_formats_at_once() {
    let f = Folder::new();
    let started: Vec<_> = (0..12).map(|_| f.start("format i --blocks 4096")).collect();
    let done = started
        .into_iter()
        .map(|child| Said::of("format", child.wait_with_output().unwrap()));
    let done: Vec<_> = done.map(|said| said.status).collect();
    assert_eq!(done.iter().filter(|status| **status == Some(0)).count(), 1);
    assert_eq!(done.iter().filter(|status| **status == Some(3)).count(), 11);
    assert_eq!(f.names(), ["i"]);
    f.run("check i").ends(0);
}

/// Waits until the command stands before a lock.
fn until_it_waits(child: &std::process::Child) {
    let place = format!("/proc/{}/wchan", child.id());
    for _ in 0..2000 {
        let at = fs::read_to_string(&place).unwrap_or_default();
        if at.contains("lock") {
            return;
        }
        sleep(Duration::from_millis(5));
    }
    panic!("the command does not wait");
}

/// A command waits for the one that has the file. If another file has come in its place by then, it takes that one.
#[test]
fn a_command_waits_for_the_file() {
    let f = Folder::new();
    stored(&f);
    let before = f.bytes("i");
    let held = File::open(f.path("i")).unwrap();
    held.lock().unwrap();
    let mut waiting = [
        "scavenge i --now 501",
        "count i --client 3",
        "format i --blocks 8 --force",
    ]
    .map(|words| f.start(words));
    waiting.iter().for_each(until_it_waits);
    assert!(waiting.iter_mut().all(|child| child.try_wait().unwrap().is_none()));
    let [scavenge, count, format] = waiting;
    let mut other = before.clone();
    Store::new(&mut other[..], Tariff::default())
        .create(Client(3), Tick(200), &BLOCK, Tick(200))
        .unwrap();
    fs::write(f.path("other"), &other).unwrap();
    let next = File::open(f.path("other")).unwrap();
    next.lock().unwrap();
    fs::rename(f.path("other"), f.path("i")).unwrap();
    held.unlock().unwrap();
    [&scavenge, &count, &format].into_iter().for_each(until_it_waits);
    assert!(f.bytes("i") == other);
    next.unlock().unwrap();
    let ended = |child: std::process::Child| Said::of("", child.wait_with_output().unwrap());
    let (scavenge, count, format) = (ended(scavenge), ended(count), ended(format).ends(0));
    assert!(
        ["removed 3\n", "removed 0\n"].contains(&&scavenge.out[..]) && scavenge.status == Some(0),
        "{scavenge:?}"
    );
    assert!(
        ["4\n", "1\n", "0\n"].contains(&&count.out[..]) && count.status == Some(0),
        "{count:?}"
    );
    assert_eq!([scavenge.err, count.err, format.err], ["", "", ""]);
    assert_eq!(f.names(), ["i"]);
    assert_eq!(f.bytes("i").len(), 6144);
}

/// A disk block's turn: trailer, data, then headers from the lowest, map and counts, as they stand in the image.
fn turn(layout: Layout, write: &BlockWrite) -> usize {
    match write.block {
        block if block == layout.trailer() => 0,
        block if block >= layout.data(0) => 1,
        block => 2 + block,
    }
}

/// The commands whose cuts are tried, on what `stored` makes, and how many blocks each writes.
fn changes(ids: &[String]) -> [(String, usize); 5] {
    [
        ("create i --client 5 --now 600 --expires 700".into(), 5),
        (format!("replace i {} --client 3 --now 600", ids[1]), 4),
        (format!("destroy i {} --client 3 --now 600", ids[1]), 4),
        (format!("expire i {} --client 3 --now 600 --expires 700", ids[1]), 2),
        ("scavenge i --now 600".into(), 4),
    ]
}

/// Each command, cut after each of its writes: the blocks before the cut are new and the others old; only blocks that
/// differ are written, in the order; and no id ever shows bytes that were not stored under it.
#[test]
fn a_command_killed_between_two_writes() {
    let f = Folder::new();
    let ids = stored(&f);
    let before = f.bytes("i");
    let layout = Layout::of(before.len()).unwrap();
    for (words, number) in changes(&ids) {
        fs::write(f.path("i"), &before).unwrap();
        let new = f.fed(&words, &OTHER).ends(0).line();
        let after = f.bytes("i");
        f.run("check i").ends(0);
        let steps = writes(&before, &after);
        assert_eq!(steps.len(), number, "{words}");
        let turns: Vec<usize> = steps.iter().map(|w| turn(layout, w)).collect();
        assert!(turns.is_sorted() || words.starts_with("replace"), "{words}: {turns:?}");
        let mut disk = before.clone();
        for (cut, step) in steps.iter().enumerate() {
            fs::write(f.path("i"), &before).unwrap();
            let said = f.fed(&format!("{words} --cut-after {cut}"), &OTHER);
            assert_eq!((said.status, &said.out[..]), (None, ""), "{said:?}");
            assert!(f.bytes("i") == disk, "{words}, cut after {cut}");
            no_id_shows_another_block(&disk, &ids, &new);
            let at = 512 * step.block;
            disk[at..at + 512].copy_from_slice(&step.bytes);
        }
        assert!(disk == after, "{words}");
    }
}

/// Each call of a scavenge is on the disk before the next begins.
#[test]
fn a_scavenge_killed_in_its_second_call() {
    let f = Folder::new();
    f.run("format i --blocks 128").ends(0);
    let mut image = f.bytes("i");
    let mut store = Store::new(&mut image[..], Tariff::default());
    for now in 1..=100 {
        store.create(Client(3), Tick(150), &BLOCK, Tick(now)).unwrap();
    }
    let before = store.image().to_vec();
    let first = store.scavenge(Client(0), Key::START, Tick(200)).unwrap().value;
    let between = store.image().to_vec();
    store.scavenge(Client(0), first.next.unwrap(), Tick(201)).unwrap();
    let steps = [writes(&before, &between), writes(&between, store.image())].concat();
    let blocks: Vec<usize> = steps.iter().map(|write| write.block).collect();
    let layout = Layout::of(before.len()).unwrap();
    let (trailer, map, counts) = (layout.trailer(), layout.map(), layout.counts());
    let wanted = [
        vec![trailer],
        (0..8).collect(),
        vec![map, counts, trailer],
        (8..13).collect(),
        vec![map, counts],
    ];
    assert_eq!(blocks, wanted.concat());
    let mut disk = before.clone();
    for (cut, step) in steps.iter().enumerate() {
        fs::write(f.path("i"), &before).unwrap();
        f.run(&format!("scavenge i --now 200 --cut-after {cut}"));
        assert!(f.bytes("i") == disk, "cut after {cut}");
        disk[512 * step.block..512 * (step.block + 1)].copy_from_slice(&step.bytes);
    }
}

/// Of two images that differ everywhere, all blocks are written, in the order.
#[test]
fn the_order_of_all_blocks() {
    let from = vec![0; zolvortug::size_of_image(64).unwrap()];
    let to = vec![0xff; from.len()];
    let blocks: Vec<usize> = writes(&from, &to).iter().map(|write| write.block).collect();
    let wanted = [vec![74], (10..74).collect(), (0..10).collect()];
    assert_eq!(blocks, wanted.concat());
}

/// What the system is asked for, in order: each write is on the disk before the next; a new file before it is named.
#[test]
fn each_write_is_synced() {
    let f = Folder::new();
    stored(&f);
    fs::write(f.path("block"), BLOCK).unwrap();
    let traced = |words: &str| {
        let calls = "pwrite64,write,fdatasync,fsync,linkat,rename";
        let traced = f.shell(&format!(
            "strace -o trace -e trace={calls} zolvortug {words} > /dev/null && cat trace"
        ));
        let names = traced
            .out
            .lines()
            .filter_map(|line| line.split_once('(').map(|(name, _)| name.to_string()));
        names.filter(|name| !name.contains(' ')).collect::<Vec<String>>()
    };
    let calls = traced(&format!("{CREATE} --data block"));
    if calls.is_empty() {
        eprintln!("strace is not here: what the system is asked for was not looked at");
        return;
    }
    assert_eq!(calls[..10], ["pwrite64", "fdatasync"].repeat(5));
    let id = f.run("ids i --client 3").ends(0).line();
    let new = ["write", "fsync", "linkat", "fsync"];
    assert_eq!(traced(&format!("read i {id} -o out"))[..4], new);
    assert_eq!(traced("format j --blocks 8")[..4], new);
    assert_eq!(
        traced("format j --blocks 8 --force")[..4],
        ["write", "fsync", "rename", "fsync"]
    );
}

/// A draft takes no name that somebody has, and leaves it alone.
#[test]
fn a_draft_has_a_name_of_its_own() {
    let f = Folder::new();
    f.shell("echo mine > .zolvortug-$$-0.new; exec zolvortug format i --blocks 8")
        .ends(0);
    let names = f.names();
    assert_eq!((names.len(), &names[1][..]), (2, "i"), "{names:?}");
    assert_eq!(f.bytes(&names[0]), b"mine\n");
}

/// A file that is replaced stays locked until another has its name: what is stored meanwhile is stored in the new one.
#[test]
fn a_command_beside_a_slow_format() {
    let f = Folder::new();
    stored(&f);
    fs::write(f.path("block"), BLOCK).unwrap();
    if f.shell("strace -V").status != Some(0) {
        eprintln!("strace is not here: no format could be made slow");
        return;
    }
    let said = f.shell(&format!(
        "strace -o /dev/null -e trace=fsync -e inject=fsync:delay_enter=500000:when=1 \
             zolvortug format i --blocks 8 --force &
         while ! ls .zolvortug-*.new; do sleep 0.01; done > /dev/null 2>&1
         zolvortug {CREATE} --data block; wait"
    ));
    said.ends(0);
    f.run("count i --client 3").ends(0).says("1\n");
    assert_eq!(f.bytes("i").len(), 6144);
}

/// Replace writes the trailer, the header as unused, the data, then the new header.
#[test]
fn replace_withdraws_the_header_first() {
    let f = Folder::new();
    let ids = stored(&f);
    let before = f.bytes("i");
    f.fed(&format!("replace i {} --client 3 --now 600", ids[1]), &OTHER)
        .ends(0);
    let after = f.bytes("i");
    let layout = Layout::of(before.len()).unwrap();
    let steps = writes(&before, &after);
    let blocks: Vec<usize> = steps.iter().map(|w| w.block).collect();
    assert_eq!(blocks, [layout.trailer(), 0, layout.data(1), 0]);
    assert_eq!(steps[1].bytes[64..128], [0; 64]);
    assert_eq!(steps[1].bytes[..64], before[..64]);
    assert_eq!(steps[1].bytes[128..], before[128..512]);
    assert_eq!(steps[3].bytes, after[..512]);
}

fn no_id_shows_another_block(image: &[u8], ids: &[String], new: &str) {
    let store = Store::new(image, Tariff::default());
    let old = ids.iter().map(|id| (&id[..], BLOCK));
    for (id, bytes) in old.chain([(new, OTHER)]) {
        let Ok(id) = u64::from_str_radix(id, 16) else { continue };
        let mut read = [0; 528];
        if store.read(Client(3), Id(id), &mut read).is_ok() {
            assert!(read == bytes, "{id:016x}");
        }
    }
}
