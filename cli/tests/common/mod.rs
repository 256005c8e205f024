//! Runs the program in a folder of the test's own.
#![allow(dead_code)]
use std::fs;
use std::io::Write;
use std::path::{Path, PathBuf};
use std::process::{Command, Output, Stdio};

pub const PROGRAM: &str = env!("CARGO_BIN_EXE_yirvagul");

/// Document 01's sheet, and one that wants the same otherwise.
pub const RIG: &[u8] = include_bytes!("../../../examples/rig.sheet");
pub const CUSTOMER: &[u8] = include_bytes!("../../../examples/customer.sheet");
pub const LOG: &[u8] = include_bytes!("../../../examples/rig.log");

/// A record of the rig with a valve number that no symbol has.
pub const ODD: &[u8] = b"\x06\x40\x7d\x00\xff\xf0\x00\x07";

/// A folder with the two sheets and the example log.
pub struct Folder(PathBuf);

impl Folder {
    pub fn new(name: &str) -> Folder {
        let path = Path::new(env!("CARGO_TARGET_TMPDIR")).join(name);
        let _ = fs::remove_dir_all(&path);
        fs::create_dir_all(&path).unwrap();
        let folder = Folder(path);
        folder.write("rig.sheet", RIG);
        folder.write("customer.sheet", CUSTOMER);
        folder.write("rig.log", LOG);
        folder
    }

    pub fn path(&self) -> &Path {
        &self.0
    }

    pub fn write(&self, name: &str, bytes: &[u8]) {
        fs::write(self.0.join(name), bytes).unwrap();
    }

    pub fn read(&self, name: &str) -> Vec<u8> {
        fs::read(self.0.join(name)).unwrap()
    }

    /// The names of files that no test wrote beside the sheets and the log.
    pub fn others(&self) -> Vec<String> {
        let entries = fs::read_dir(&self.0).unwrap();
        let mut names: Vec<String> = entries
            .map(|entry| entry.unwrap().file_name().into_string().unwrap())
            .filter(|name| !["rig.sheet", "customer.sheet", "rig.log"].contains(&&name[..]))
            .collect();
        names.sort();
        names
    }

    pub fn run(&self, words: &str) -> Ran {
        self.run_with(words, b"")
    }

    /// Runs the program with words that are parted by blanks and bytes on standard input.
    pub fn run_with(&self, words: &str, input: &[u8]) -> Ran {
        let mut child = Command::new(PROGRAM)
            .args(words.split_whitespace())
            .current_dir(&self.0)
            .stdin(Stdio::piped())
            .stdout(Stdio::piped())
            .stderr(Stdio::piped())
            .spawn()
            .unwrap();
        let mut stdin = child.stdin.take().unwrap();
        let input = input.to_vec();
        let writer = std::thread::spawn(move || {
            // a program that does not read to the end closes its end
            let _ = stdin.write_all(&input);
        });
        let output = child.wait_with_output().unwrap();
        writer.join().unwrap();
        Ran::new(output)
    }

    /// Runs a line of the shell, in which `$y` is the program.
    pub fn shell(&self, line: &str) -> Ran {
        let mut shell = Command::new("bash");
        shell.arg("-c").arg(line).env("y", PROGRAM);
        Ran::new(shell.current_dir(&self.0).output().unwrap())
    }
}

/// What a run left.
#[derive(Debug)]
pub struct Ran {
    pub status: i32,
    pub out: Vec<u8>,
    pub error: String,
}

impl Ran {
    fn new(output: Output) -> Ran {
        Ran {
            status: output.status.code().expect("no signal ends it"),
            out: output.stdout,
            error: String::from_utf8(output.stderr).unwrap(),
        }
    }

    /// It ended with a status, wrote nothing, and said so much on standard error.
    #[track_caller]
    pub fn said(&self, status: i32, error: &str) {
        assert_eq!((self.status, &self.error[..]), (status, error));
        assert_eq!(self.out, b"");
    }

    /// It was done, and wrote these bytes.
    #[track_caller]
    pub fn wrote(&self, out: &[u8], error: &str) {
        assert_eq!((self.status, &self.error[..]), (0, error));
        assert!(self.out == out, "{self:?}");
    }
}
