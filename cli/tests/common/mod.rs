//! Calls of the program for the tests.
#![allow(dead_code)]

use std::fs;
use std::io::Write;
use std::path::{Path, PathBuf};
use std::process::{Command, Stdio};
use std::sync::atomic::{AtomicUsize, Ordering};

pub struct Said {
    pub status: i32,
    pub out: String,
    pub err: String,
    pub bytes: Vec<u8>,
}

/// The program with these arguments in the repository's top folder, and bytes on its standard input.
pub fn audala(args: &[&str], input: &[u8]) -> Said {
    let mut command = Command::new(env!("CARGO_BIN_EXE_audala"));
    command.args(args);
    said(command, input)
}

/// A shell command line in which $AUDALA is the program.
pub fn shell(line: &str) -> Said {
    let mut command = Command::new("sh");
    command.args(["-c", line]).env("AUDALA", env!("CARGO_BIN_EXE_audala"));
    said(command, b"")
}

/// A shell command line in a folder, in which $AUDALA is the program.
pub fn said_in(folder: &Folder, line: &str) -> Said {
    let mut command = Command::new("sh");
    command.args(["-c", line]).env("AUDALA", env!("CARGO_BIN_EXE_audala"));
    said_at(&folder.0, command, b"")
}

fn said(command: Command, input: &[u8]) -> Said {
    said_at(&Path::new(env!("CARGO_MANIFEST_DIR")).join(".."), command, input)
}

fn said_at(folder: &Path, mut command: Command, input: &[u8]) -> Said {
    command.current_dir(folder).stdin(Stdio::piped()).stdout(Stdio::piped()).stderr(Stdio::piped());
    let mut child = command.spawn().expect("the program starts");
    let _ = child.stdin.take().expect("standard input is a pipe").write_all(input);
    let output = child.wait_with_output().expect("the program ends");
    let text = |bytes: &[u8]| String::from_utf8_lossy(bytes).into_owned();
    Said {
        status: output.status.code().unwrap_or(-1),
        out: text(&output.stdout),
        err: text(&output.stderr),
        bytes: output.stdout,
    }
}

/// A folder of its own for a test, removed with it.
pub struct Folder(PathBuf);

impl Folder {
    pub fn new() -> Folder {
        static COUNT: AtomicUsize = AtomicUsize::new(0);
        let name = format!("audala-test-{}-{}", std::process::id(), COUNT.fetch_add(1, Ordering::Relaxed));
        let path = std::env::temp_dir().join(name);
        fs::create_dir(&path).expect("a folder can be made");
        Folder(path)
    }

    pub fn file(&self, name: &str) -> String {
        self.0.join(name).to_string_lossy().into_owned()
    }

    pub fn write(&self, name: &str, bytes: &[u8]) -> String {
        fs::write(self.0.join(name), bytes).expect("a file can be written");
        self.file(name)
    }

    /// The names of all files, hidden ones too.
    pub fn names(&self) -> Vec<String> {
        let entries = fs::read_dir(&self.0).expect("the folder can be read");
        let mut names: Vec<String> =
            entries.map(|entry| entry.unwrap().file_name().to_string_lossy().into_owned()).collect();
        names.sort();
        names
    }
}

impl Drop for Folder {
    fn drop(&mut self) {
        let _ = fs::remove_dir_all(&self.0);
    }
}
