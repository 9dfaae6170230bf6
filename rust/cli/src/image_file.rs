//! Image files. A file is read whole and locked. Of a changed image the blocks that differ are written, each on the
//! disk before the next, in an order from which a recorder that loses power can be mended.
use crate::layout::{disk_block, ends_image, header, sizes, word, Layout, DISK, HEADER};
use std::fs::{self, File, OpenOptions, TryLockError};
use std::io::{self, ErrorKind, IsTerminal, Read, Write};
use std::os::unix::fs::{FileExt, MetadataExt};
use std::path::{Path, PathBuf};

/// Why a file failed, in words that follow its name: its length is no image's, or something else.
pub enum FileFault {
    Length(String),
    Other(String),
}

impl From<io::Error> for FileFault {
    fn from(e: io::Error) -> FileFault {
        FileFault::Other(said(&e))
    }
}

/// What the system says of an error, without its number.
pub fn said(e: &io::Error) -> String {
    let text = e.to_string();
    text.split(" (os error").next().unwrap_or(&text).to_string()
}

fn other<T>(what: &str) -> Result<T, FileFault> {
    Err(FileFault::Other(what.to_string()))
}

/// Whether a name stands for standard input or output.
pub fn is_stream(path: &Path) -> bool {
    path == Path::new("-")
}

/// The bytes of an image, from a file or from standard input: as they stood at one moment.
pub fn read(path: &Path) -> Result<Vec<u8>, FileFault> {
    if is_stream(path) {
        whole(io::stdin().lock())
    } else {
        whole(locked(path, Access::Read)?)
    }
}

/// All bytes of an image, and no more of a longer file than it takes to see that it is none.
fn whole(mut from: impl Read) -> Result<Vec<u8>, FileFault> {
    let most = sizes().map(|(_, size)| size).max().unwrap_or(0);
    let mut bytes = Vec::new();
    from.by_ref().take(most as u64 + 1).read_to_end(&mut bytes)?;
    match Layout::of(bytes.len()) {
        Some(_) => Ok(bytes),
        None => Err(FileFault::Length(wrong_length(&bytes))),
    }
}

fn wrong_length(bytes: &[u8]) -> String {
    if let Some(what) = too_long(bytes) {
        return what;
    }
    let has = bytes.len();
    let named = |(n, size)| format!("{size} bytes ({n} blocks)");
    let below = sizes().take_while(|(_, size)| *size < has).last().map(named);
    let above = sizes().find(|(_, size)| *size > has).map(named);
    match (below, above) {
        (Some(below), Some(above)) => {
            format!("cut, or no image: it has {has} bytes, and the nearest images {below} and {above}")
        }
        (Some(below), None) => format!("too long: the largest image has {below}"),
        (_, above) => format!(
            "too short: it has {has} bytes, and the smallest image {}",
            above.unwrap_or_default()
        ),
    }
}

/// What is said of bytes that begin with an image and go on after it.
pub fn too_long(bytes: &[u8]) -> Option<String> {
    let (n, size) = sizes().find(|(n, size)| *size < bytes.len() && ends_image(&bytes[..*size], *n))?;
    Some(format!(
        "too long: an image of {n} blocks ends at {size} bytes, and more follow"
    ))
}

#[derive(Clone, Copy, PartialEq)]
enum Access {
    Read,
    Change,
}

/// Opens a file and locks it: against others that change it, and where it is to be changed, against all others. While
/// it waited, `format --force` may have put another file in its place: then it takes that one.
fn locked(path: &Path, access: Access) -> Result<File, FileFault> {
    loop {
        let file = opened(path, access)?;
        match access {
            Access::Change => wait_for(file.try_lock(), || file.lock())?,
            Access::Read if file.metadata()?.is_file() => wait_for(file.try_lock_shared(), || file.lock_shared())?,
            Access::Read => return Ok(file),
        }
        if is_same(&file.metadata()?, &fs::metadata(path)?) {
            return Ok(file);
        }
    }
}

fn opened(path: &Path, access: Access) -> Result<File, FileFault> {
    let of = fs::metadata(path)?;
    let change = access == Access::Change;
    if of.is_dir() {
        return other("a directory, and no image");
    }
    if change && !of.is_file() {
        return other("not a regular file, so it cannot be changed");
    }
    if change && of.permissions().readonly() {
        return other("read-only");
    }
    Ok(OpenOptions::new().read(true).write(change).open(path)?)
}

/// Takes a lock, or waits until no other command has it, and says so where somebody looks.
fn wait_for(tried: Result<(), TryLockError>, lock: impl FnOnce() -> io::Result<()>) -> Result<(), FileFault> {
    match tried {
        Ok(()) => Ok(()),
        Err(TryLockError::Error(e)) => Err(e.into()),
        Err(TryLockError::WouldBlock) => {
            let mut err = io::stderr();
            if err.is_terminal() {
                let _ = writeln!(err, "zolvortug: another command has this file; waiting for it to end");
            }
            Ok(lock()?)
        }
    }
}

/// Whether two names lead to one file.
fn is_same(one: &fs::Metadata, other: &fs::Metadata) -> bool {
    (one.dev(), one.ino()) == (other.dev(), other.ino())
}

pub fn are_one_file(one: &Path, other: &Path) -> bool {
    let found = (fs::metadata(one), fs::metadata(other));
    matches!(found, (Ok(one), Ok(other)) if is_same(&one, &other))
}

/// An image file that is to be changed: locked against other commands until it is dropped.
pub struct ImageFile {
    file: File,
    path: PathBuf,
    disk: Vec<u8>,
    power: usize,
}

impl ImageFile {
    pub fn open(path: &Path) -> Result<ImageFile, FileFault> {
        let file = locked(path, Access::Change)?;
        let disk = whole(&file)?;
        Ok(ImageFile {
            file,
            path: path.to_path_buf(),
            disk,
            power: usize::MAX,
        })
    }

    /// Stops the command dead after so many writes, as if the plug were pulled. The tests use it.
    pub fn cut_after(&mut self, writes: usize) {
        self.power = writes;
    }

    pub fn path(&self) -> &Path {
        &self.path
    }

    /// The image as it stands on the disk.
    pub fn bytes(&self) -> &[u8] {
        &self.disk
    }

    /// Takes the file to another image of its length, write by write.
    pub fn commit(&mut self, image: &[u8]) -> Result<(), FileFault> {
        let writes = writes(&self.disk, image);
        for (done, write) in writes.iter().enumerate() {
            if self.power == 0 {
                std::process::abort();
            }
            self.power -= 1;
            let at = DISK * write.block;
            let wrote = self.file.write_all_at(&write.bytes, at as u64);
            wrote.map_err(|e| half_done(&e, done, writes.len()))?;
            self.file
                .sync_data()
                .map_err(|e| half_done(&e, done + 1, writes.len()))?;
            self.disk[at..at + DISK].copy_from_slice(&write.bytes);
        }
        Ok(())
    }
}

fn half_done(e: &io::Error, done: usize, of: usize) -> FileFault {
    let state = match done {
        0 => "nothing was changed".to_string(),
        _ => format!("half done, {done} of {of} blocks were written; `zolvortug check` tells more"),
    };
    FileFault::Other(format!("{}: {state}", said(e)))
}

/// Makes a file of these bytes: under another name first, and named when it is on the disk. With `force` a file that is
/// there is replaced, when no command has it, and its permissions are kept.
pub fn create(path: &Path, bytes: &[u8], force: bool) -> Result<(), FileFault> {
    let path = fs::canonicalize(path).unwrap_or(path.to_path_buf());
    let held = match fs::symlink_metadata(&path) {
        Err(e) if e.kind() == ErrorKind::NotFound => None,
        Err(e) => return Err(e.into()),
        Ok(of) if of.is_dir() => return other("a directory"),
        Ok(of) if !of.is_file() => return other("not a regular file"),
        Ok(_) if !force => return other(THERE),
        Ok(_) => Some(locked(&path, Access::Change)?),
    };
    let folder = path
        .parent()
        .filter(|p| !p.as_os_str().is_empty())
        .unwrap_or(Path::new("."));
    let (draft, file) = draft_in(folder)?;
    let done = written(file, bytes, held.as_ref()).and_then(|()| named(&draft, &path, held.is_some()));
    if let Err(e) = done {
        let _ = fs::remove_file(&draft);
        return match e.kind() {
            ErrorKind::AlreadyExists => other(THERE),
            _ => Err(FileFault::Other(format!("{}: nothing was made", said(&e)))),
        };
    }
    match File::open(folder) {
        Ok(folder) => Ok(folder.sync_all()?),
        Err(_) => Ok(()),
    }
}

const THERE: &str = "there already; --force replaces it";

/// A new file in a folder, under a name that nobody has.
fn draft_in(folder: &Path) -> io::Result<(PathBuf, File)> {
    let mut turn = 0;
    loop {
        let path = folder.join(format!(".zolvortug-{}-{turn}.new", std::process::id()));
        match OpenOptions::new().write(true).create_new(true).open(&path) {
            Err(e) if e.kind() == ErrorKind::AlreadyExists => turn += 1,
            made => return made.map(|file| (path, file)),
        }
    }
}

fn written(mut draft: File, bytes: &[u8], held: Option<&File>) -> io::Result<()> {
    if let Some(file) = held {
        draft.set_permissions(file.metadata()?.permissions())?;
    }
    draft.write_all(bytes)?;
    draft.sync_all()
}

/// Gives a draft its name: in the place of a file that is held, or as a second name, which no file may have; where the
/// file system has no second names, by a look beforehand.
fn named(draft: &Path, path: &Path, held: bool) -> io::Result<()> {
    if held {
        return fs::rename(draft, path);
    }
    match fs::hard_link(draft, path) {
        Err(e) if matches!(e.kind(), ErrorKind::PermissionDenied | ErrorKind::Unsupported) && !path.exists() => {
            fs::rename(draft, path)
        }
        linked => linked.and_then(|()| fs::remove_file(draft)),
    }
}

/// A disk block and the bytes that it is to have.
#[derive(Clone, PartialEq, Eq, Debug)]
pub struct BlockWrite {
    pub block: usize,
    pub bytes: Vec<u8>,
}

/// The writes that take one image to another of its length: trailer, data, header blocks from the lowest, map, counts,
/// and of these the blocks that differ. Where a block's id changes under stored data, as Replace does, its header is
/// written as unused before its data: so no id ever shows another block's data.
pub fn writes(from: &[u8], to: &[u8]) -> Vec<BlockWrite> {
    let Some(layout) = Layout::of(from.len()).filter(|_| from.len() == to.len()) else {
        return Vec::new();
    };
    let between = withdrawn(from, to, layout);
    let data = layout.data(0)..layout.trailer();
    let rest = data.chain(0..layout.map()).chain([layout.map(), layout.counts()]);
    let mut writes = changed(from, to, [layout.trailer()]);
    writes.extend(changed(from, &between, 0..layout.map()));
    writes.extend(changed(&between, to, rest));
    writes
}

fn changed(from: &[u8], to: &[u8], blocks: impl IntoIterator<Item = usize>) -> Vec<BlockWrite> {
    let differs = |block: &usize| disk_block(from, *block) != disk_block(to, *block);
    let write = |block| BlockWrite {
        block,
        bytes: disk_block(to, block).to_vec(),
    };
    blocks.into_iter().filter(differs).map(write).collect()
}

/// The image before, with each header unused that holds one id before and another after.
fn withdrawn(from: &[u8], to: &[u8], layout: Layout) -> Vec<u8> {
    let mut between = from.to_vec();
    for block in 0..layout.blocks {
        let (old, new) = (header(from, block), header(to, block));
        if old[0] == 1 && new[0] == 1 && word(old, 8, 8) != word(new, 8, 8) {
            between[HEADER * block..HEADER * (block + 1)].fill(0);
        }
    }
    between
}
