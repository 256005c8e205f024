//! Where a converted log goes.
use super::input::new_file;
use super::run::Run;
use super::{LogError, Totals};
use crate::error::{Buffer, Short};
use crate::Error;
use std::fmt;
use std::fs::{self, File, OpenOptions};
use std::io::{self, ErrorKind, Write};
use std::path::{Path, PathBuf};

/// The output of a log.
#[non_exhaustive]
pub enum Output<'a> {
    /// Bytes in memory, at least as many as the converted log has. Those behind it stay.
    Buffer(&'a mut [u8]),
    /// The file of this path, new or in the place of another. What is no plain file, as a device or a pipe, is opened and written to.
    Path(&'a Path),
    /// An open file, or anything else that is written to.
    File(&'a mut dyn Write),
}

impl fmt::Debug for Output<'_> {
    fn fmt(&self, f: &mut fmt::Formatter) -> fmt::Result {
        match self {
            Output::Buffer(bytes) => write!(f, "Buffer({} bytes)", bytes.len()),
            Output::Path(path) => write!(f, "Path({path:?})"),
            Output::File(_) => f.write_str("File(..)"),
        }
    }
}

impl<'a> From<&'a mut [u8]> for Output<'a> {
    fn from(bytes: &'a mut [u8]) -> Self {
        Output::Buffer(bytes)
    }
}

impl<'a, const N: usize> From<&'a mut [u8; N]> for Output<'a> {
    fn from(bytes: &'a mut [u8; N]) -> Self {
        Output::Buffer(bytes)
    }
}

impl<'a> From<&'a Path> for Output<'a> {
    fn from(path: &'a Path) -> Self {
        Output::Path(path)
    }
}

impl<'a> From<&'a PathBuf> for Output<'a> {
    fn from(path: &'a PathBuf) -> Self {
        Output::Path(path)
    }
}

impl<'a> From<&'a mut File> for Output<'a> {
    fn from(file: &'a mut File) -> Self {
        Output::File(file)
    }
}

/// An output that was looked at, and not changed yet.
pub(super) enum Target<'a> {
    Buffer(&'a mut [u8]),
    Replaced(Replaced),
    /// With its name, for messages.
    Written(Box<dyn Write + 'a>, String),
}

/// A plain file that is to be there anew, with the permissions that it has.
pub(super) struct Replaced {
    /// For messages.
    name: String,
    path: PathBuf,
    permissions: Option<fs::Permissions>,
}

impl<'a> Output<'a> {
    pub(super) fn look(self) -> Result<Target<'a>, LogError> {
        Ok(match self {
            Output::Buffer(bytes) => Target::Buffer(bytes),
            Output::File(file) => Target::Written(Box::new(file), "the output".into()),
            Output::Path(path) => {
                let name = path.display().to_string();
                look_at(path, &name)
                    .map_err(|error| LogError::io(format!("write {name}"), error))?
            }
        })
    }
}

fn look_at<'a>(path: &Path, name: &str) -> io::Result<Target<'a>> {
    let (path, permissions) = match fs::metadata(path) {
        Err(e) if e.kind() == ErrorKind::NotFound => (behind_links(path), None),
        Err(e) => return Err(e),
        Ok(meta) => {
            // a file that may not be written is not replaced either
            let file = OpenOptions::new().write(true).open(path)?;
            if !meta.is_file() {
                return Ok(Target::Written(Box::new(file), name.into()));
            }
            (path.canonicalize()?, Some(meta.permissions()))
        }
    };
    Ok(Target::Replaced(Replaced {
        name: name.into(),
        path,
        permissions,
    }))
}

/// Where links lead to that lead to no file yet. More than 40 are taken for a circle, as the system does.
fn behind_links(path: &Path) -> PathBuf {
    let mut path = path.to_path_buf();
    for _ in 0..40 {
        let Ok(target) = fs::read_link(&path) else {
            break;
        };
        path.pop();
        path.push(target);
    }
    path
}

impl<'a> Target<'a> {
    /// Whether all parts are gone over before the first byte is written.
    pub fn is_checked_first(&self) -> bool {
        !matches!(self, Target::Replaced(_))
    }

    /// Takes the whole output of a run.
    pub fn take(self, mut run: Run<'a>) -> Result<Totals, LogError> {
        match self {
            Target::Replaced(replaced) => replaced.take(run),
            Target::Buffer(bytes) => {
                let needs = run.feed.output_bytes().unwrap_or(u64::MAX);
                if needs > bytes.len() as u64 {
                    let short = Short {
                        buffer: Buffer::Destination,
                        holds: bytes.len() as u64,
                        needs,
                    };
                    return Err(Error::Room { short: Some(short) }.into());
                }
                run.check()?;
                run.feed.lent = Some(bytes);
                run.convert(&mut |_| Ok(()))
            }
            Target::Written(mut to, name) => {
                let failed = |error| LogError::io(format!("write {name}"), error);
                run.check()?;
                let totals = run.convert(&mut |part| to.write_all(part).map_err(failed))?;
                to.flush().map_err(failed)?;
                Ok(totals)
            }
        }
    }
}

impl Replaced {
    fn take(self, mut run: Run) -> Result<Totals, LogError> {
        let failed = |error| LogError::io(format!("write {}", self.name), error);
        let mut beside = Beside::new(&self.path).map_err(failed)?;
        let totals = run.convert(&mut |part| beside.file.write_all(part).map_err(failed))?;
        beside
            .finish(self.permissions, &self.path)
            .map_err(failed)?;
        Ok(totals)
    }
}

/// Puts these bytes into the file of a path, as a log into [`Output::Path`].
pub(crate) fn replace(path: &Path, bytes: &[u8]) -> Result<(), LogError> {
    let name = path.display().to_string();
    let failed = |error| LogError::io(format!("write {name}"), error);
    match look_at(path, &name).map_err(failed)? {
        Target::Replaced(replaced) => {
            let mut beside = Beside::new(&replaced.path).map_err(failed)?;
            beside.file.write_all(bytes).map_err(failed)?;
            beside.finish(replaced.permissions, &replaced.path)
        }
        Target::Written(mut to, _) => to.write_all(bytes).and_then(|()| to.flush()),
        Target::Buffer(_) => unreachable!("a path is no buffer"),
    }
    .map_err(failed)
}

/// A file in the folder of another, to be renamed to it; it is removed if that does not come about.
struct Beside {
    file: File,
    path: PathBuf,
}

impl Beside {
    fn new(path: &Path) -> io::Result<Beside> {
        let folder = match path.parent() {
            Some(folder) if folder != Path::new("") => folder,
            _ => Path::new("."),
        };
        let (file, path) = new_file(folder, &mut OpenOptions::new())?;
        Ok(Beside { file, path })
    }

    fn finish(self, permissions: Option<fs::Permissions>, path: &Path) -> io::Result<()> {
        if let Some(permissions) = permissions {
            self.file.set_permissions(permissions)?;
        }
        // what the system could not write to the disk is told only now
        self.file.sync_all()?;
        fs::rename(&self.path, path)
    }
}

impl Drop for Beside {
    fn drop(&mut self) {
        // after the renaming there is none of this name
        let _ = fs::remove_file(&self.path);
    }
}
