//! The words behind a command: files, flags, and options with a value.
use crate::failure::Failure;
use std::ffi::{OsStr, OsString};
use std::os::unix::ffi::{OsStrExt, OsStringExt};

#[derive(Default)]
pub struct Arguments {
    files: Vec<OsString>,
    flags: Vec<&'static str>,
    options: Vec<(&'static str, OsString)>,
}

impl Arguments {
    /// Sorts the words. A value stands behind its option or behind its `=`; after `--` all are files.
    pub fn new(
        words: Vec<OsString>,
        flags: &[&'static str],
        options: &[&'static str],
    ) -> Result<Arguments, Failure> {
        let mut found = Arguments::default();
        let mut words = words.into_iter();
        while let Some(word) = words.next() {
            let bytes = word.as_bytes();
            if bytes == b"--" {
                found.files.extend(words);
                break;
            }
            if !bytes.starts_with(b"-") || bytes == b"-" {
                found.files.push(word);
                continue;
            }
            let said = word.to_string_lossy();
            if let Some(flag) = flags.iter().find(|flag| word == **flag) {
                found.flags.push(flag);
                continue;
            }
            let (name, value) = match bytes.iter().position(|&byte| byte == b'=') {
                Some(at) => (&bytes[..at], Some(bytes[at + 1..].to_vec())),
                None => (bytes, None),
            };
            let Some(option) = options.iter().find(|option| option.as_bytes() == name) else {
                return Err(Failure::usage(format!("there is no option {said}")));
            };
            if found.option(option).is_some() {
                return Err(Failure::usage(format!("{option} is there twice")));
            }
            let value = value.map(OsString::from_vec).or_else(|| words.next());
            let value = value.ok_or_else(|| Failure::usage(format!("{option} has no value")))?;
            found.options.push((option, value));
        }
        Ok(found)
    }

    /// The files, which are as many as their names.
    pub fn files<const N: usize>(&self, names: [&str; N]) -> Result<[&OsStr; N], Failure> {
        let n = self.files.len();
        self.all().try_into().map_err(|_| {
            let names = names.join(" ");
            Failure::usage(match N {
                1 => format!("it takes one file, {names}, and {n} are there"),
                _ => format!("it takes {N} files, {names}, and {n} are there"),
            })
        })
    }

    /// The files with these names, and one or more behind them.
    pub fn files_and_more<const N: usize>(
        &self,
        names: [&str; N],
        more: &str,
    ) -> Result<([&OsStr; N], Vec<&OsStr>), Failure> {
        let (mut first, n) = (self.all(), self.files.len());
        let others = first.split_off(N.min(n));
        match first.try_into() {
            Ok(first) if !others.is_empty() => Ok((first, others)),
            _ => Err(Failure::usage(format!(
                "it takes {} files or more, {} {more}, and {n} are there",
                N + 1,
                names.join(" ")
            ))),
        }
    }

    fn all(&self) -> Vec<&OsStr> {
        self.files.iter().map(OsString::as_os_str).collect()
    }

    pub fn has(&self, flag: &str) -> bool {
        self.flags.contains(&flag)
    }

    pub fn option(&self, name: &str) -> Option<&OsStr> {
        let mut options = self.options.iter();
        options
            .find(|(option, _)| *option == name)
            .map(|(_, value)| value.as_os_str())
    }
}
