//! Runs the command, and tells what it said.

use crate::folder::Folder;
use std::ffi::OsStr;
use std::io::Write;
use std::process::{Child, Command, Stdio};
use std::thread;

/// What a run ended with.
#[derive(Debug, PartialEq, Eq)]
pub struct Said {
    pub code: i32,
    pub out: Vec<u8>,
    pub err: String,
}

impl Said {
    /// The output, of a run that was done and said nothing else.
    #[track_caller]
    pub fn done(self) -> String {
        assert_eq!((self.code, self.err.as_str()), (0, ""), "{:?}", self.out);
        String::from_utf8(self.out).unwrap()
    }

    /// The one line that it said of an error.
    #[track_caller]
    pub fn refused(self, code: i32) -> String {
        assert_eq!((self.code, self.out), (code, Vec::new()), "{}", self.err);
        let line = self.err.strip_suffix('\n').expect("it ends its line");
        assert!(
            !line.contains('\n') && line.starts_with("dilluvas: "),
            "{line}"
        );
        line.to_owned()
    }

    /// That nothing was there, and nothing said of it.
    #[track_caller]
    pub fn absent(self) {
        assert_eq!(
            (self.code, self.out, self.err.as_str()),
            (1, Vec::new(), "")
        );
    }
}

pub fn program(words: &[impl AsRef<OsStr>]) -> Command {
    let mut command = Command::new(env!("CARGO_BIN_EXE_dilluvas"));
    command.args(words);
    command
        .stdin(Stdio::piped())
        .stdout(Stdio::piped())
        .stderr(Stdio::piped());
    command
}

/// Runs the command by these words, with an input.
pub fn with_input(words: &[impl AsRef<OsStr>], input: &[u8]) -> Said {
    let mut child = program(words).spawn().unwrap();
    let mut stdin = child.stdin.take().unwrap();
    let input = input.to_vec();
    // it may write before it has read all, or read nothing
    let feeding = thread::spawn(move || drop(stdin.write_all(&input)));
    let said = said(child);
    feeding.join().unwrap();
    said
}

pub fn run(words: &[impl AsRef<OsStr>]) -> Said {
    with_input(words, b"")
}

fn said(child: Child) -> Said {
    let output = child.wait_with_output().unwrap();
    Said {
        code: output.status.code().expect("no signal ended it"),
        out: output.stdout,
        err: String::from_utf8(output.stderr).unwrap(),
    }
}

/// A file of a folder, which commands are run over.
pub struct Store {
    pub folder: Folder,
}

impl Store {
    pub fn new(name: &str) -> Store {
        Store {
            folder: Folder::new(&format!("command-{name}")),
        }
    }

    pub fn path(&self) -> String {
        self.folder.file().to_str().unwrap().to_owned()
    }

    pub fn run(&self, words: &[&str]) -> Said {
        self.with_input(words, b"")
    }

    pub fn with_input(&self, words: &[&str], input: &[u8]) -> Said {
        let path = self.path();
        with_input(&[&[path.as_str()], words].concat(), input)
    }
}
