//! Converts records of instrument logs from one binary layout to another, reports on the numbers of many logs, compares two logs, tells which bits of a source
//! record a result can turn on, lists a layout's leaves, and edits atomic layouts.
//!
//! A layout sheet is text: lines ended by byte 10, fields parted by one tab. Here two pressures of 12 bits become whole 16-bit numbers:
//!
//! ```
//! use yirvagul::{convert_copying, Handling};
//!
//! let rig = b"int\t2\tBE\t4\t12\tzero\tzero\tunsigned\n";
//! let plain = b"int\t2\tLE\t0\t16\tzero\tzero\tunsigned\n";
//! let mut out = [0; 4];
//! let exceptions = convert_copying(rig, plain, 2, Handling::Stop, b"\x06\x40\x7d\x00", &mut out)?;
//! assert_eq!(exceptions, 0);
//! assert_eq!(out, [100, 0, 0xd0, 0x07]); // 100 and 2000
//! # Ok::<(), yirvagul::Error>(())
//! ```
//!
//! - [`convert_copying`] and [`convert_in_place`] convert up to 65,536 records in one call, and [`convert_log`] a log of any length.
//! - [`Handling`] says what becomes of numbers that do not fit; a word in the destination sheet goes before it.
//! - [`compare`] gives each leaf where two logs differ, whatever their layouts.
//! - [`Report`] adds up log after log: the lowest, the highest, the sum and the number of samples of each int.
//! - [`reach`] says which bits of a source record could have changed the result, [`source_bits`] what the others are.
//! - [`leaf_list`] says where a sheet's numbers lie, [`record_size`] how many bytes its record has.
//! - [`Layout`] is the layout of one number, with setters.
//! - A refused call gives an [`Error`], which says what is wrong, where, and what to do.
//!
//! This is a safe wrapper over libcapi.a, whose calls are proved; include/yirvagul.h says what each does. All unsafe code is in one module. A call allocates
//! nothing and keeps nothing, takes at most [`STACK_BYTES`] of its thread's stack, and any number of threads can make calls at once.
#![deny(unsafe_code, missing_docs, missing_debug_implementations)]

mod compare;
mod error;
mod explain;
mod layout;
mod log;
#[allow(unsafe_code)]
mod raw;
mod reach;
mod report;
mod sheet;
#[cfg(test)]
mod tests;

pub use compare::{compare, Difference, Differences};
pub use error::{Buffer, Error, Given, Kind, Short};
use explain::Call;
pub use layout::{Class, Layout, Order, Pad, Sign};
pub use log::{
    convert_log, convert_log_parts, Input, LogConverter, LogError, Output, Part, Parts, Progress,
    ReadSeek, Totals, WhichLog,
};
use raw::Sheets;
pub use reach::{reach, source_bits, Bit, Mask, SourceBits, SourceLeaf, MASK_BYTES};
pub use report::{Report, Row, SavedError, Summary};

/// The words that the working table needs.
pub const TABLE_WORDS: usize = 8192;

/// A buffer of this many bytes holds the leaf list of any sheet.
pub const LIST_BYTES: usize = 14 + 4096 * 12;

/// A list of k differences has at most [`COMPARE_HEADER_BYTES`] + k × [`COMPARE_LINE_BYTES`] bytes.
pub const COMPARE_HEADER_BYTES: usize = 23;

/// As of [`COMPARE_HEADER_BYTES`].
pub const COMPARE_LINE_BYTES: usize = 53;

/// The most bytes that any call takes of its thread's stack.
pub const STACK_BYTES: usize = 163_840;

/// The most that a call takes that converts, reports or compares where the destination record (the reader's, the second log's) has at most 128 bytes; and a
/// call that does none of these, as [`Converter::reach`].
pub const SMALL_STACK_BYTES: usize = 49_152;

/// What to do with numbers that do not fit, where the destination sheet does not say it.
///
/// A `member` line may end in one more field, `clamp` or `stop`. A leaf obeys the innermost member on its way in the destination that has such a word, and the
/// call where none has. So a call with [`Handling::Clamp`] can give [`Error::Stop`], and one with [`Handling::Stop`] can be done with exceptions. A source sheet
/// may have words without effect, and a [`Report`] clamps whatever they say.
///
/// ```
/// use yirvagul::{convert_copying, Handling};
///
/// let rig = b"int\t2\tBE\t0\t16\tzero\tzero\tunsigned\ncomp\t4\nmember\toil\t0\t0\nmember\tboost\t2\t0\n";
/// let bytes = b"int\t1\tLE\t0\t8\tzero\tzero\tunsigned\ncomp\t2\nmember\toil\t0\t0\tclamp\nmember\tboost\t1\t0\tstop\n";
/// let mut out = [0; 2];
/// // the oil is 300, which no byte holds, and may clamp
/// assert_eq!(convert_copying(rig, bytes, 1, Handling::Stop, &[1, 44, 0, 7], &mut out), Ok(1));
/// assert_eq!(out, [255, 7]);
/// // the boost may not
/// let error = convert_copying(rig, bytes, 1, Handling::Clamp, &[0, 7, 1, 44], &mut out).unwrap_err();
/// assert_eq!(
///     error.to_string(),
///     "STOP (8): the number 300 for byte 1 of record 0, member `boost`, is above the destination's range, \
///      and the destination sheet says stop for `boost`: widen the destination, or write clamp there"
/// );
/// ```
#[derive(Clone, Copy, Debug, PartialEq, Eq, Hash)]
pub enum Handling {
    /// Write the nearest that fits, and count it.
    Clamp,
    /// Refuse before anything is written. The plain forms, which name no handling, do this.
    Stop,
}

/// The calls over one working table, which is kept between them. The functions of the same names make a table for each call.
///
/// ```
/// use yirvagul::{Converter, Handling};
///
/// let byte = b"int\t1\tLE\t0\t8\tzero\tzero\tunsigned\n";
/// let pair = b"int\t2\tBE\t0\t16\tzero\tzero\tunsigned\n";
/// let mut converter = Converter::new();
/// for number in 0..3 {
///     let mut out = [0; 2];
///     converter.convert_copying(byte, pair, 1, Handling::Stop, &[number], &mut out)?;
///     assert_eq!(out, [0, number]);
/// }
/// # Ok::<(), yirvagul::Error>(())
/// ```
#[derive(Clone, Debug)]
pub struct Converter {
    table: Vec<u32>,
}

impl Default for Converter {
    fn default() -> Self {
        Converter::with_table(vec![0; TABLE_WORDS])
    }
}

impl Converter {
    /// With a table of [`TABLE_WORDS`] words.
    pub fn new() -> Self {
        Converter::default()
    }

    /// With a table of one's own, of [`TABLE_WORDS`] words at least.
    pub fn with_table(table: Vec<u32>) -> Self {
        Converter { table }
    }

    /// Converts count records of source into destination, whose own bytes are the background: bits that no matched leaf fixes stay, and so do pads that are
    /// `keep`. Gives how many leaves raised an exception. Bytes behind the count records stay.
    pub fn convert_copying(
        &mut self,
        source_sheet: &[u8],
        destination_sheet: &[u8],
        count: u64,
        handling: Handling,
        source: &[u8],
        destination: &mut [u8],
    ) -> Result<u64, Error> {
        let sheets = sheets(source_sheet, destination_sheet, count);
        let table = &mut self.table;
        let answer = raw::convert_copying(&sheets, handling as u32, source, destination, table);
        let call = Call::Copying(&sheets, source.len(), destination.len());
        explain::outcome(answer, &call, table)
    }

    /// The same with [`Handling::Stop`]. At an [`Error::Stop`] nothing was written, and it names the record, the byte, the kind and the number: correct the
    /// sheet or the log there, or name [`Handling::Clamp`] in [`Converter::convert_copying`].
    pub fn convert_copying_plain(
        &mut self,
        source_sheet: &[u8],
        destination_sheet: &[u8],
        count: u64,
        source: &[u8],
        destination: &mut [u8],
    ) -> Result<u64, Error> {
        let sheets = sheets(source_sheet, destination_sheet, count);
        let table = &mut self.table;
        let answer = raw::convert_copying_plain(&sheets, source, destination, table);
        let call = Call::Copying(&sheets, source.len(), destination.len());
        explain::outcome(answer, &call, table)
    }

    /// Converts count records where they lie; the background gives the bits that no matched leaf fixes. With S and D for the sizes of a source and a
    /// destination record, the buffer has count × max(S, D) bytes at least, the background count × D. Afterwards bytes up to count × D are the converted
    /// records, those up to count × S (if S is larger) are zero, and later ones stay.
    pub fn convert_in_place(
        &mut self,
        source_sheet: &[u8],
        destination_sheet: &[u8],
        count: u64,
        handling: Handling,
        buffer: &mut [u8],
        background: &[u8],
    ) -> Result<u64, Error> {
        let sheets = sheets(source_sheet, destination_sheet, count);
        let table = &mut self.table;
        let answer = raw::convert_in_place(&sheets, handling as u32, buffer, background, table);
        let call = Call::InPlace(&sheets, buffer.len(), background.len());
        explain::outcome(answer, &call, table)
    }

    /// The same with [`Handling::Stop`]. At an [`Error::Stop`] nothing was written, and it names the record, the byte, the kind and the number: correct the
    /// sheet or the log there, or name [`Handling::Clamp`] in [`Converter::convert_in_place`].
    pub fn convert_in_place_plain(
        &mut self,
        source_sheet: &[u8],
        destination_sheet: &[u8],
        count: u64,
        buffer: &mut [u8],
        background: &[u8],
    ) -> Result<u64, Error> {
        let sheets = sheets(source_sheet, destination_sheet, count);
        let table = &mut self.table;
        let answer = raw::convert_in_place_plain(&sheets, buffer, background, table);
        let call = Call::InPlace(&sheets, buffer.len(), background.len());
        explain::outcome(answer, &call, table)
    }

    /// Writes the list of differences of count records of two logs into a buffer, and gives its length, which is [`COMPARE_HEADER_BYTES`] exactly if nothing
    /// differs. Bytes past it stay. The list has a header, `record`, `at`, `first` and `second` parted by tabs, then a line for each difference.
    /// [`compare`](crate::compare()) says what differs, takes logs of any length and gives the differences as numbers.
    pub fn compare_into(
        &mut self,
        first_sheet: &[u8],
        second_sheet: &[u8],
        count: u64,
        first: &[u8],
        second: &[u8],
        list: &mut [u8],
    ) -> Result<usize, Error> {
        let sheets = sheets(first_sheet, second_sheet, count);
        let table = &mut self.table;
        let answer = raw::compare(&sheets, first, second, list, table);
        let call = Call::Compare(&sheets, first, second, list.len());
        explain::outcome(answer, &call, table).map(|len| len as usize)
    }

    /// Writes the leaf list of a sheet into a buffer, and gives its length. Bytes past it stay. [`LIST_BYTES`] are enough for any sheet.
    pub fn leaf_list_into(&mut self, sheet: &[u8], list: &mut [u8]) -> Result<usize, Error> {
        let answer = raw::leaf_list(sheet, list, &mut self.table);
        let call = Call::List(sheet, list.len());
        explain::outcome(answer, &call, &mut self.table).map(|len| len as usize)
    }

    /// The leaf list of a sheet: a header, then a line for each leaf, in byte order.
    pub fn leaf_list(&mut self, sheet: &[u8]) -> Result<String, Error> {
        let mut list = vec![0; LIST_BYTES];
        let len = self.leaf_list_into(sheet, &mut list)?;
        Ok(String::from_utf8_lossy(&list[..len]).into_owned())
    }

    /// The size of a sheet's record in bytes, 1 to 4,096.
    pub fn record_size(&mut self, sheet: &[u8]) -> Result<usize, Error> {
        let answer = raw::record_size(sheet, &mut self.table);
        explain::outcome(answer, &Call::Size(sheet), &mut self.table).map(|size| size as usize)
    }
}

fn sheets<'a>(source: &'a [u8], destination: &'a [u8], count: u64) -> Sheets<'a> {
    Sheets {
        source,
        destination,
        count,
    }
}

/// [`Converter::convert_copying`] with a table of its own.
///
/// ```
/// use yirvagul::{convert_copying, Error, Given, Handling, Kind};
///
/// let byte = b"int\t1\tLE\t0\t8\tzero\tzero\tunsigned\n";
/// let signed = b"int\t1\tLE\t0\t8\tzero\tzero\tsigned\n";
/// let mut out = [0; 2];
/// // 255 is above the range of a signed byte
/// let error = convert_copying(byte, signed, 2, Handling::Stop, &[5, 255], &mut out).unwrap_err();
/// assert!(matches!(error, Error::Stop { record: 1, at: 0, kind: Kind::Above, given: Given::Whole(255), .. }));
/// assert_eq!(
///     error.to_string(),
///     "STOP (8): the number 255 for byte 0 of record 1 is above the destination's range: widen the destination, or clamp"
/// );
/// assert_eq!(out, [0; 2]);
/// assert_eq!(convert_copying(byte, signed, 2, Handling::Clamp, &[5, 255], &mut out), Ok(1));
/// assert_eq!(out, [5, 127]);
/// ```
pub fn convert_copying(
    source_sheet: &[u8],
    destination_sheet: &[u8],
    count: u64,
    handling: Handling,
    source: &[u8],
    destination: &mut [u8],
) -> Result<u64, Error> {
    let mut c = Converter::new();
    c.convert_copying(
        source_sheet,
        destination_sheet,
        count,
        handling,
        source,
        destination,
    )
}

/// [`Converter::convert_copying_plain`] with a table of its own.
///
/// ```
/// use yirvagul::{convert_copying_plain, Error};
///
/// let pair = b"int\t2\tBE\t0\t16\tzero\tzero\tunsigned\n";
/// let byte = b"int\t1\tLE\t0\t8\tzero\tzero\tunsigned\n";
/// let mut out = [0; 2];
/// assert_eq!(convert_copying_plain(pair, byte, 2, &[0, 5, 0, 255], &mut out), Ok(0));
/// assert_eq!(out, [5, 255]);
/// // 256 does not fit a byte
/// let refused = convert_copying_plain(pair, byte, 2, &[0, 7, 1, 0], &mut out);
/// assert!(matches!(refused, Err(Error::Stop { record: 1, .. })));
/// assert_eq!(out, [5, 255]);
/// ```
pub fn convert_copying_plain(
    source_sheet: &[u8],
    destination_sheet: &[u8],
    count: u64,
    source: &[u8],
    destination: &mut [u8],
) -> Result<u64, Error> {
    Converter::new().convert_copying_plain(
        source_sheet,
        destination_sheet,
        count,
        source,
        destination,
    )
}

/// [`Converter::convert_in_place`] with a table of its own.
///
/// ```
/// use yirvagul::{convert_in_place, Handling};
///
/// let byte = b"int\t1\tLE\t0\t8\tzero\tzero\tunsigned\n";
/// let pair = b"int\t2\tBE\t0\t16\tzero\tzero\tunsigned\n";
/// let mut buffer = [0x0a, 0x0b, 0x77, 0x77];
/// convert_in_place(byte, pair, 2, Handling::Stop, &mut buffer, &[0; 4])?;
/// assert_eq!(buffer, [0, 0x0a, 0, 0x0b]);
/// # Ok::<(), yirvagul::Error>(())
/// ```
pub fn convert_in_place(
    source_sheet: &[u8],
    destination_sheet: &[u8],
    count: u64,
    handling: Handling,
    buffer: &mut [u8],
    background: &[u8],
) -> Result<u64, Error> {
    let mut c = Converter::new();
    c.convert_in_place(
        source_sheet,
        destination_sheet,
        count,
        handling,
        buffer,
        background,
    )
}

/// [`Converter::convert_in_place_plain`] with a table of its own.
pub fn convert_in_place_plain(
    source_sheet: &[u8],
    destination_sheet: &[u8],
    count: u64,
    buffer: &mut [u8],
    background: &[u8],
) -> Result<u64, Error> {
    Converter::new().convert_in_place_plain(
        source_sheet,
        destination_sheet,
        count,
        buffer,
        background,
    )
}

/// [`Converter::leaf_list`] with a table of its own.
///
/// ```
/// let sheet = b"bits\t1\tLE\t0\t8\tzero\tzero\narray\t0\t2\n";
/// assert_eq!(yirvagul::leaf_list(sheet)?, "at\tsize\tclass\n0\t1\tbits\n1\t1\tbits\n");
/// # Ok::<(), yirvagul::Error>(())
/// ```
pub fn leaf_list(sheet: &[u8]) -> Result<String, Error> {
    Converter::new().leaf_list(sheet)
}

/// [`Converter::record_size`] with a table of its own.
///
/// ```
/// let sheet = b"bits\t1\tLE\t0\t8\tzero\tzero\ncomp\t12\nmember\tflags\t3\t0\n";
/// assert_eq!(yirvagul::record_size(sheet)?, 12);
/// # Ok::<(), yirvagul::Error>(())
/// ```
pub fn record_size(sheet: &[u8]) -> Result<usize, Error> {
    Converter::new().record_size(sheet)
}
