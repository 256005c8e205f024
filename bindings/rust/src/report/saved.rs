//! A report as bytes: a first line that says what they are, the version, the lengths of sheet and memory, these two, and a check sum. Numbers are little-endian.
use super::Report;
use crate::log::{replace, LogError};
use crate::Error;
use std::path::Path;
use std::{fmt, fs, io};

const FIRST_LINE: &[u8] = b"yirvagul report\n";
const VERSION: u32 = 1;

/// A sheet's and a memory's most bytes leave a saved report well below this.
const MOST_BYTES: u64 = 1 << 20;

/// Why bytes are no report.
#[derive(Debug)]
#[non_exhaustive]
pub enum SavedError {
    /// They do not start as a saved report does.
    NoReport,
    /// They are of a version that this crate does not know.
    Version(u32),
    /// They were cut, or changed.
    Damaged,
    /// The library refuses the sheet or the memory in them.
    Refused(Error),
    /// Reading failed.
    #[non_exhaustive]
    Io {
        /// What could not be done, as "read season.report".
        doing: String,
        /// Why.
        error: io::Error,
    },
}

impl fmt::Display for SavedError {
    fn fmt(&self, f: &mut fmt::Formatter) -> fmt::Result {
        match self {
            SavedError::NoReport => f.write_str("this is no saved report: name another file, or begin a new report"),
            SavedError::Version(version) => write!(f, "this report was saved in version {version} of the format, and version {VERSION} is known here: use a newer yirvagul"),
            SavedError::Damaged => f.write_str("this saved report is damaged: take a copy of it, or begin a new report"),
            SavedError::Refused(error) => write!(f, "this saved report holds what no report does: {error}"),
            SavedError::Io { doing, error } => write!(f, "cannot {doing}: {error}"),
        }
    }
}

impl std::error::Error for SavedError {
    fn source(&self) -> Option<&(dyn std::error::Error + 'static)> {
        match self {
            SavedError::Refused(error) => Some(error),
            SavedError::Io { error, .. } => Some(error),
            _ => None,
        }
    }
}

impl Report {
    /// The report as bytes, to be kept: its sheet, its numbers and a check sum. Python's `Report.from_bytes` takes them too.
    pub fn to_bytes(&self) -> Vec<u8> {
        let mut bytes = FIRST_LINE.to_vec();
        let lengths = [VERSION, self.sheet.len() as u32, self.memory.len() as u32];
        bytes.extend(lengths.iter().flat_map(|n| n.to_le_bytes()));
        bytes.extend(&self.sheet);
        bytes.extend(self.memory.iter().flat_map(|word| word.to_le_bytes()));
        bytes.extend(check_sum(&bytes).to_le_bytes());
        bytes
    }

    /// The report that [`Report::to_bytes`] gave. Bytes that were changed or cut are refused.
    pub fn from_bytes(bytes: &[u8]) -> Result<Report, SavedError> {
        let mut rest = bytes.strip_prefix(FIRST_LINE).ok_or(SavedError::NoReport)?;
        let version = number(&mut rest)?;
        if version != VERSION {
            return Err(SavedError::Version(version));
        }
        let (sheet, words) = (number(&mut rest)?, number(&mut rest)?);
        let sheet = take(&mut rest, u64::from(sheet))?;
        let words = take(&mut rest, 8 * u64::from(words))?.chunks_exact(8);
        let sum = number(&mut rest)?;
        if !rest.is_empty() || sum != check_sum(&bytes[..bytes.len() - 4]) {
            return Err(SavedError::Damaged);
        }
        let mut report = Report::new(sheet).map_err(SavedError::Refused)?;
        if words.len() != report.memory.len() {
            return Err(SavedError::Damaged);
        }
        let words = words.map(|word| i64::from_le_bytes(word.try_into().expect("eight bytes")));
        report.memory = words.collect();
        report.read().map_err(SavedError::Refused)?;
        Ok(report)
    }

    /// Keeps the report in a file. The bytes go to a file beside it, which is renamed when it is complete; so a failure leaves the path as it was.
    pub fn save(&self, path: impl AsRef<Path>) -> Result<(), LogError> {
        replace(path.as_ref(), &self.to_bytes())
    }

    /// The report that a file keeps.
    pub fn load(path: impl AsRef<Path>) -> Result<Report, SavedError> {
        let path = path.as_ref();
        let failed = |error| SavedError::Io {
            doing: format!("read {}", path.display()),
            error,
        };
        let file = fs::File::open(path).map_err(failed)?;
        let mut bytes = Vec::new();
        let mut limited = io::Read::take(file, MOST_BYTES);
        io::Read::read_to_end(&mut limited, &mut bytes).map_err(failed)?;
        Report::from_bytes(&bytes)
    }
}

/// The next bytes.
fn take<'a>(rest: &mut &'a [u8], len: u64) -> Result<&'a [u8], SavedError> {
    if (rest.len() as u64) < len {
        return Err(SavedError::Damaged);
    }
    let (taken, left) = rest.split_at(len as usize);
    *rest = left;
    Ok(taken)
}

fn number(rest: &mut &[u8]) -> Result<u32, SavedError> {
    let bytes = take(rest, 4)?.try_into().expect("four bytes");
    Ok(u32::from_le_bytes(bytes))
}

/// CRC-32, as zlib has it.
fn check_sum(bytes: &[u8]) -> u32 {
    let shifted = |crc: u32| crc >> 1 ^ (0xedb8_8320 & (crc & 1).wrapping_neg());
    !bytes.iter().fold(!0, |crc, byte| {
        (0..8).fold(crc ^ u32::from(*byte), |crc, _| shifted(crc))
    })
}
