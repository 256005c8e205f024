//! Where a log or its background comes from.
use super::LogError;
use std::fs::{self, File, OpenOptions};
use std::io::{self, Cursor, ErrorKind, Read, Seek, SeekFrom, Write};
use std::path::{Path, PathBuf};
use std::sync::atomic::{AtomicU64, Ordering};
use std::{env, fmt, process};

/// What can be read twice, as a [`File`] or a [`Cursor`].
pub trait ReadSeek: Read + Seek {}

impl<T: Read + Seek + ?Sized> ReadSeek for T {}

/// A log, or a background.
#[non_exhaustive]
pub enum Input<'a> {
    /// Bytes in memory.
    Buffer(&'a [u8]),
    /// The file of this path.
    Path(&'a Path),
    /// An open file, from where it stands to its end. If it turns out to be a pipe, it is taken for a stream.
    File(&'a mut dyn ReadSeek),
    /// A stream, which can be read only once.
    Stream(&'a mut dyn Read),
}

impl fmt::Debug for Input<'_> {
    fn fmt(&self, f: &mut fmt::Formatter) -> fmt::Result {
        match self {
            Input::Buffer(bytes) => write!(f, "Buffer({} bytes)", bytes.len()),
            Input::Path(path) => write!(f, "Path({path:?})"),
            Input::File(_) => f.write_str("File(..)"),
            Input::Stream(_) => f.write_str("Stream(..)"),
        }
    }
}

impl<'a> From<&'a [u8]> for Input<'a> {
    fn from(bytes: &'a [u8]) -> Self {
        Input::Buffer(bytes)
    }
}

impl<'a, const N: usize> From<&'a [u8; N]> for Input<'a> {
    fn from(bytes: &'a [u8; N]) -> Self {
        Input::Buffer(bytes)
    }
}

impl<'a> From<&'a Vec<u8>> for Input<'a> {
    fn from(bytes: &'a Vec<u8>) -> Self {
        Input::Buffer(bytes)
    }
}

impl<'a> From<&'a Path> for Input<'a> {
    fn from(path: &'a Path) -> Self {
        Input::Path(path)
    }
}

impl<'a> From<&'a PathBuf> for Input<'a> {
    fn from(path: &'a PathBuf) -> Self {
        Input::Path(path)
    }
}

impl<'a> From<&'a mut File> for Input<'a> {
    fn from(file: &'a mut File) -> Self {
        Input::File(file)
    }
}

/// An input that is open.
pub(crate) struct Source<'a> {
    /// For messages, as "rig.log" or "the log".
    name: String,
    reader: Reader<'a>,
}

enum Reader<'a> {
    /// The bytes from `start` on can be read again; `left` of the `len` are still to be read.
    Again {
        file: Box<dyn ReadSeek + 'a>,
        start: u64,
        len: u64,
        left: u64,
    },
    Once(Box<dyn Read + 'a>),
}

impl<'a> Source<'a> {
    /// Opens an input; what it is called where it has no path.
    pub fn open(input: Input<'a>, what: &str) -> Result<Self, LogError> {
        let name = match &input {
            Input::Path(path) => path.display().to_string(),
            _ => what.into(),
        };
        let failed = |error| LogError::io(format!("read {name}"), error);
        let reader = match input {
            Input::Buffer(bytes) => Reader::again(Cursor::new(bytes), 0, bytes.len() as u64),
            Input::Path(path) => {
                let file = File::open(path).map_err(failed)?;
                let meta = file.metadata().map_err(failed)?;
                // what has no length before it is read is no plain file
                if meta.is_file() && meta.len() > 0 {
                    Reader::again(file, 0, meta.len())
                } else {
                    Reader::Once(Box::new(file))
                }
            }
            Input::File(file) => match extent(file) {
                Ok((start, len)) if len > 0 => Reader::again(file, start, len),
                _ => Reader::Once(Box::new(file)),
            },
            Input::Stream(stream) => Reader::Once(Box::new(stream)),
        };
        Ok(Source { name, reader })
    }

    /// The same, so that it can be read again: a stream goes through a temporary file.
    pub fn again(self) -> Result<Self, LogError> {
        let Reader::Once(mut stream) = self.reader else {
            return Ok(self);
        };
        let folder = env::temp_dir();
        let failed = |error| {
            LogError::io(
                format!("write a temporary file in {}", folder.display()),
                error,
            )
        };
        let mut file = temporary(&folder).map_err(failed)?;
        let mut buffer = vec![0; 1 << 16];
        let mut len = 0;
        loop {
            let n = read(&mut stream, &mut buffer)
                .map_err(|error| LogError::io(format!("read {}", self.name), error))?;
            if n == 0 {
                break;
            }
            file.write_all(&buffer[..n]).map_err(failed)?;
            len += n as u64;
        }
        file.rewind().map_err(failed)?;
        Ok(Source {
            name: self.name,
            reader: Reader::again(file, 0, len),
        })
    }

    /// How many bytes there are, where that is known.
    pub fn len(&self) -> Option<u64> {
        match self.reader {
            Reader::Again { len, .. } => Some(len),
            Reader::Once(_) => None,
        }
    }

    /// Goes back to where it started.
    pub fn rewind(&mut self) -> Result<(), LogError> {
        match &mut self.reader {
            Reader::Again {
                file,
                start,
                len,
                left,
            } => {
                *left = *len;
                file.seek(SeekFrom::Start(*start)).map(|_| ())
            }
            Reader::Once(_) => Err(ErrorKind::Unsupported.into()),
        }
        .map_err(|error| LogError::io(format!("read {} again", self.name), error))
    }

    /// Reads until the buffer is full or nothing is left, and gives how many bytes it read. Of a file, no more than it had when it was opened.
    pub fn fill(&mut self, buffer: &mut [u8]) -> Result<usize, LogError> {
        match &mut self.reader {
            Reader::Once(stream) => read(stream, buffer),
            Reader::Again { file, left, .. } => {
                let want = buffer
                    .len()
                    .min(usize::try_from(*left).unwrap_or(usize::MAX));
                match file.read_exact(&mut buffer[..want]) {
                    Err(e) if e.kind() == ErrorKind::UnexpectedEof => Err(io::Error::new(
                        ErrorKind::UnexpectedEof,
                        "it became shorter while it was read",
                    )),
                    Err(e) => Err(e),
                    Ok(()) => {
                        *left -= want as u64;
                        Ok(want)
                    }
                }
            }
        }
        .map_err(|error| LogError::io(format!("read {}", self.name), error))
    }
}

impl<'a> Reader<'a> {
    fn again(file: impl ReadSeek + 'a, start: u64, len: u64) -> Self {
        Reader::Again {
            file: Box::new(file),
            start,
            len,
            left: len,
        }
    }
}

/// Where an open file stands, and how many bytes follow.
fn extent(file: &mut dyn ReadSeek) -> io::Result<(u64, u64)> {
    let start = file.stream_position()?;
    let end = file.seek(SeekFrom::End(0))?;
    file.seek(SeekFrom::Start(start))?;
    Ok((start, end.saturating_sub(start)))
}

/// Reads until the buffer is full or nothing is left.
fn read(stream: &mut dyn Read, buffer: &mut [u8]) -> io::Result<usize> {
    let mut filled = 0;
    while filled < buffer.len() {
        match stream.read(&mut buffer[filled..]) {
            Ok(0) => break,
            Ok(n) => filled += n,
            Err(e) if e.kind() == ErrorKind::Interrupted => {}
            Err(e) => return Err(e),
        }
    }
    Ok(filled)
}

/// A new file in a folder, with a name that nothing has.
pub(super) fn new_file(folder: &Path, options: &mut OpenOptions) -> io::Result<(File, PathBuf)> {
    static NEXT: AtomicU64 = AtomicU64::new(0);
    loop {
        let next = NEXT.fetch_add(1, Ordering::Relaxed);
        let path = folder.join(format!(".yirvagul-{}-{next}.part", process::id()));
        match options.write(true).create_new(true).open(&path) {
            Err(e) if e.kind() == ErrorKind::AlreadyExists => {}
            file => return Ok((file?, path)),
        }
    }
}

/// A file that only this process can reach, and that is gone when it is closed.
fn temporary(folder: &Path) -> io::Result<File> {
    let mut options = OpenOptions::new();
    options.read(true);
    #[cfg(unix)]
    std::os::unix::fs::OpenOptionsExt::mode(&mut options, 0o600);
    let (file, path) = new_file(folder, &mut options)?;
    fs::remove_file(path)?;
    Ok(file)
}
