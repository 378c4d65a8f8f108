//! Runs of the comparison program, and files for it.

use std::io::Write;
use std::path::{Path, PathBuf};
use std::process::{Command, Stdio};
use std::sync::Mutex;

/// Held while a file is written and while a program is started: a script that another thread's child still has open cannot be run.
static STARTING: Mutex<()> = Mutex::new(());

pub struct Ended {
    pub status: Option<i32>,
    pub out: String,
    pub err: String,
}

pub fn compare(args: &[&str], input: &[u8]) -> Ended {
    let started = {
        let _held = STARTING.lock();
        Command::new(env!("CARGO_BIN_EXE_compare")).args(args).stdin(Stdio::piped()).stdout(Stdio::piped()).stderr(Stdio::piped()).spawn()
    };
    let mut child = started.expect("the program starts");
    let (mut pipe, input) = (child.stdin.take().expect("its input"), input.to_vec());
    let writing = std::thread::spawn(move || { let _ = pipe.write_all(&input); });
    let out = child.wait_with_output().expect("its output");
    writing.join().expect("its input is written");
    let text = |bytes: Vec<u8>| String::from_utf8(bytes).expect("text");
    Ended { status: out.status.code(), out: text(out.stdout), err: text(out.stderr) }
}

/// A file of the repository.
pub fn stored(path: &str) -> String {
    std::fs::read_to_string(Path::new(env!("CARGO_MANIFEST_DIR")).join("..").join(path)).expect("a file of the repository")
}

/// Writes a file of a test's own folder; answers its path.
pub fn written(test: &str, name: &str, content: &str) -> PathBuf {
    let folder = Path::new(env!("CARGO_TARGET_TMPDIR")).join(test);
    let _held = STARTING.lock();
    std::fs::create_dir_all(&folder).expect("the test's folder");
    let path = folder.join(name);
    std::fs::write(&path, content).expect("the test's file");
    path
}
