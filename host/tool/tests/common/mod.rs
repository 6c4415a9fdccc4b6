//! What the test programs share: a folder of its own for each test, and the tool as a process.
#![allow(dead_code)]

use std::collections::BTreeMap;
use std::fs::{self, File, TryLockError};
use std::io::{ErrorKind, Write};
use std::path::{Path, PathBuf};
use std::process::{Child, Command, Output, Stdio};
use std::sync::atomic::{AtomicUsize, Ordering};
use std::thread::sleep;
use std::time::{Duration, Instant};

/// The tool.
pub const TOOL: &str = env!("CARGO_BIN_EXE_ruzkemp");

/// The options of `format` for N, F, s and H.
pub const fn numbers([sectors, first, slice, keys]: [&str; 4]) -> [&str; 8] {
    [
        "--sectors",
        sectors,
        "--first",
        first,
        "--slice",
        slice,
        "--keys",
        keys,
    ]
}

/// Those of document 01's small unit.
pub const NUMBERS: [&str; 8] = numbers(["20", "10", "2", "1"]);

static FOLDERS: AtomicUsize = AtomicUsize::new(0);

/// A temporary folder; the tool runs in it.
pub struct Folder(PathBuf);

/// How a run of the tool ended.
#[derive(Debug)]
pub struct Done {
    pub status: i32,
    pub out: String,
    pub err: String,
}

impl From<Output> for Done {
    fn from(output: Output) -> Done {
        Done {
            status: output.status.code().expect("it was not killed"),
            out: String::from_utf8(output.stdout).expect("UTF-8"),
            err: String::from_utf8(output.stderr).expect("UTF-8"),
        }
    }
}

impl Folder {
    pub fn new() -> Folder {
        loop {
            let number = FOLDERS.fetch_add(1, Ordering::Relaxed);
            let name = format!("ruzkemp-test-{}-{number}", std::process::id());
            let path = std::env::temp_dir().join(name);
            match fs::create_dir(&path) {
                Ok(()) => return Folder(path),
                // One that was killed before may have had the same process number.
                Err(error) if error.kind() == ErrorKind::AlreadyExists => (),
                Err(error) => panic!("no temporary folder {}: {error}", path.display()),
            }
        }
    }

    pub fn path(&self) -> &Path {
        &self.0
    }

    pub fn file(&self, name: &str) -> PathBuf {
        self.0.join(name)
    }

    pub fn read(&self, name: &str) -> Vec<u8> {
        fs::read(self.file(name)).expect("the file is there")
    }

    /// An image's words.
    pub fn words(&self, name: &str) -> Vec<u16> {
        let bytes = self.read(name);
        let pairs = bytes.chunks_exact(2);
        pairs
            .map(|pair| u16::from_be_bytes([pair[0], pair[1]]))
            .collect()
    }

    pub fn write(&self, name: &str, bytes: &[u8]) {
        fs::write(self.file(name), bytes).expect("the file is written");
    }

    /// Every file with its bytes; links are followed.
    pub fn snapshot(&self) -> BTreeMap<String, Vec<u8>> {
        let found = fs::read_dir(&self.0).expect("the folder is there");
        let mut files = BTreeMap::new();
        for file in found.map(|file| file.expect("an entry of the folder")) {
            let name = file.file_name().into_string().expect("UTF-8");
            let bytes = fs::read(file.path()).unwrap_or_default();
            files.insert(name, bytes);
        }
        files
    }

    pub fn command(&self, arguments: &[&str]) -> Command {
        let mut command = Command::new(TOOL);
        command.args(arguments).current_dir(&self.0);
        command
    }

    /// Runs the tool.
    pub fn run(&self, arguments: &[&str]) -> Done {
        let output = self.command(arguments).stdin(Stdio::null()).output();
        output.expect("the tool runs").into()
    }

    /// Runs the tool under a limit, as options of the shell's ulimit.
    pub fn limited(&self, limit: &str, arguments: &[&str]) -> Done {
        let mut shell = Command::new("sh");
        let script = format!("ulimit {limit}; exec \"$0\" \"$@\"");
        shell.arg("-c").arg(script).arg(TOOL).args(arguments);
        shell.current_dir(&self.0).stdin(Stdio::null());
        shell.output().expect("sh runs").into()
    }

    /// Runs the tool with something on its standard input.
    pub fn run_with(&self, arguments: &[&str], input: &[u8]) -> Done {
        let mut command = self.command(arguments);
        command.stdin(Stdio::piped());
        command.stdout(Stdio::piped()).stderr(Stdio::piped());
        let mut child = command.spawn().expect("the tool runs");
        let mut stdin = child.stdin.take().expect("a pipe");
        // A tool that has failed already reads no further.
        let _ = stdin.write_all(input);
        drop(stdin);
        child.wait_with_output().expect("the tool ends").into()
    }

    /// Runs the tool, which has to succeed; its standard output.
    pub fn good(&self, arguments: &[&str]) -> String {
        let done = self.run(arguments);
        assert_eq!(done.status, 0, "{arguments:?}: {done:?}");
        assert_eq!(done.err, "", "{arguments:?}");
        done.out
    }

    /// Runs the tool, which has to fail with a status and words on standard error, and to leave
    /// every file of the folder as it was.
    pub fn bad(&self, arguments: &[&str], status: i32, words: &str) -> Done {
        let before = self.snapshot();
        let done = self.run(arguments);
        self.judge(arguments, &before, &done, status, words);
        done
    }

    pub fn judge(
        &self,
        arguments: &[&str],
        before: &BTreeMap<String, Vec<u8>>,
        done: &Done,
        status: i32,
        words: &str,
    ) {
        assert_eq!(done.status, status, "{arguments:?}: {done:?}");
        assert!(done.err.contains(words), "{arguments:?}: {done:?}");
        assert!(done.err.starts_with("ruzkemp: "), "{arguments:?}: {done:?}");
        assert!(*before == self.snapshot(), "{arguments:?} changed a file");
    }

    /// Document 01's small unit.
    pub fn small(&self, name: &str) {
        self.good(&[&["format", name], &NUMBERS[..]].concat());
    }
}

impl Drop for Folder {
    fn drop(&mut self) {
        let _ = fs::remove_dir_all(&self.0);
    }
}

/// Waits until a running tool has locked a file. A tool that meets the lock with which this asks
/// only waits for it.
pub fn wait_for_lock(path: &Path, child: &mut Child) {
    let is_locked = || {
        let file = File::open(path).expect("it is there");
        let asked = file.try_lock_shared();
        // To close the file would not do: a process that another thread is starting has a copy of
        // the descriptor, with the lock, until it becomes its program.
        let _ = file.unlock();
        matches!(asked, Err(TryLockError::WouldBlock))
    };
    let began = Instant::now();
    while !is_locked() {
        let ended = child.try_wait().expect("it is a child");
        assert!(ended.is_none(), "it ended without a lock: {ended:?}");
        assert!(began.elapsed() < Duration::from_secs(60), "no lock is seen");
        sleep(Duration::from_millis(1));
    }
}

/// The words of sector `sector` from `word` on.
pub fn sector(words: &[u16], sector: usize, word: usize, number: usize) -> &[u16] {
    &words[sector * 256 + word..][..number]
}
