//! What the tests of the command share: a folder of their own, and calls of the command in it.
#![allow(dead_code)]
use std::fs;
use std::io::Write;
use std::path::{Path, PathBuf};
use std::process::{Child, Command, Output, Stdio};
use std::sync::atomic::{AtomicU32, Ordering};

pub const COMMAND: &str = env!("CARGO_BIN_EXE_zolvortug");

/// A folder that goes when the test has passed.
pub struct Folder(pub PathBuf);

impl Folder {
    pub fn new() -> Folder {
        static NEXT: AtomicU32 = AtomicU32::new(0);
        let name = format!(
            "zolvortug-{}-{}",
            std::process::id(),
            NEXT.fetch_add(1, Ordering::Relaxed)
        );
        let path = std::env::temp_dir().join(name);
        fs::create_dir(&path).unwrap();
        Folder(path)
    }

    pub fn path(&self, name: &str) -> PathBuf {
        self.0.join(name)
    }

    pub fn bytes(&self, name: &str) -> Vec<u8> {
        fs::read(self.path(name)).unwrap()
    }

    pub fn names(&self) -> Vec<String> {
        let mut names: Vec<String> = fs::read_dir(&self.0)
            .unwrap()
            .map(|e| e.unwrap().file_name().into_string().unwrap())
            .collect();
        names.sort();
        names
    }

    pub fn start(&self, words: &str) -> Child {
        let mut command = Command::new(COMMAND);
        command.current_dir(&self.0).args(words.split_whitespace());
        command
            .stdin(Stdio::piped())
            .stdout(Stdio::piped())
            .stderr(Stdio::piped())
            .spawn()
            .unwrap()
    }

    /// Runs the command with words that have no spaces, and with what it reads.
    pub fn fed(&self, words: &str, input: &[u8]) -> Said {
        let mut child = self.start(words);
        let _ = child.stdin.take().unwrap().write_all(input);
        Said::of(words, child.wait_with_output().unwrap())
    }

    pub fn run(&self, words: &str) -> Said {
        self.fed(words, b"")
    }

    /// The verbs that the help lists.
    pub fn verbs(&self) -> Vec<String> {
        let help = self.run("help").ends(0).out;
        let listed = help
            .lines()
            .filter_map(|line| line.strip_prefix("  ")?.split(' ').next());
        listed.map(str::to_string).collect()
    }

    /// Runs a script in a shell in which the command is called zolvortug.
    pub fn shell(&self, script: &str) -> Said {
        let at = Path::new(COMMAND).parent().unwrap().display();
        let path = format!("{at}:{}", std::env::var("PATH").unwrap());
        let mut shell = Command::new("bash");
        shell
            .current_dir(&self.0)
            .env("PATH", path)
            .args(["-c", script])
            .stdin(Stdio::null());
        Said::of(script, shell.output().unwrap())
    }
}

impl Drop for Folder {
    fn drop(&mut self) {
        if !std::thread::panicking() {
            fs::remove_dir_all(&self.0).unwrap();
        }
    }
}

/// What a call of the command said.
#[derive(Debug)]
pub struct Said {
    pub words: String,
    pub status: Option<i32>,
    pub raw: Vec<u8>,
    pub out: String,
    pub err: String,
}

impl Said {
    pub fn of(words: &str, output: Output) -> Said {
        Said {
            words: words.to_string(),
            status: output.status.code(),
            out: String::from_utf8_lossy(&output.stdout).into_owned(),
            raw: output.stdout,
            err: String::from_utf8_lossy(&output.stderr).into_owned(),
        }
    }

    /// Holds the exit status against what it should be.
    #[track_caller]
    pub fn ends(self, status: i32) -> Said {
        assert_eq!(self.status, Some(status), "{self:?}");
        self
    }

    #[track_caller]
    pub fn says(self, out: &str) -> Said {
        assert_eq!(self.out, out, "{self:?}");
        self
    }

    #[track_caller]
    pub fn warns(self, part: &str) -> Said {
        assert!(self.err.contains(part), "{self:?}");
        self
    }

    /// The first line of standard output.
    pub fn line(&self) -> String {
        self.out.lines().next().unwrap_or_default().to_string()
    }
}
