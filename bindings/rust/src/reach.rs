//! Which bits of a source record a conversion can turn on: the library's mask, and what this crate's own reading of the sheets tells of the other bits.
use crate::explain::{self, Call};
use crate::sheet::{self, Class, Type};
use crate::{raw, Converter, Error};
use std::fmt;

/// A mask of this many bytes serves any two sheets.
pub const MASK_BYTES: usize = 4096;

/// The bits of a source record that a conversion can turn on: a byte for each byte of the record, in which those bits are one.
#[derive(Clone, PartialEq, Eq, Hash)]
pub struct Mask {
    bytes: Vec<u8>,
}

impl Mask {
    /// Its bytes, as many as a source record has.
    pub fn as_bytes(&self) -> &[u8] {
        &self.bytes
    }

    /// Whether a bit of a byte of the record is in it: bit 0 is the lowest of the byte. No bit behind the record is.
    pub fn has(&self, byte: usize, bit: u32) -> bool {
        bit < 8 && self.bytes.get(byte).is_some_and(|b| b >> bit & 1 == 1)
    }

    /// How many bits are in it.
    pub fn count(&self) -> u32 {
        self.bytes.iter().map(|byte| byte.count_ones()).sum()
    }
}

impl AsRef<[u8]> for Mask {
    fn as_ref(&self) -> &[u8] {
        &self.bytes
    }
}

impl From<Mask> for Vec<u8> {
    fn from(mask: Mask) -> Vec<u8> {
        mask.bytes
    }
}

/// Its bytes in hex.
impl fmt::Debug for Mask {
    fn fmt(&self, f: &mut fmt::Formatter) -> fmt::Result {
        write!(f, "Mask({:02x?})", self.bytes)
    }
}

/// What a bit of a source record is to a conversion.
#[derive(Clone, Copy, Debug, PartialEq, Eq, Hash)]
pub enum Bit {
    /// A significant bit of a matched leaf. It can show in the result.
    Significant,
    /// A pad bit of a matched leaf.
    Pad,
    /// A bit of a leaf that is not matched, a significant one or a pad bit.
    Unmatched,
    /// In no leaf.
    Gap,
}

impl Bit {
    /// All of them, the one that shows first.
    pub const ALL: [Bit; 4] = [Bit::Significant, Bit::Pad, Bit::Unmatched, Bit::Gap];

    /// The letter that stands for it in pictures: N, p, u or g.
    pub fn letter(self) -> char {
        match self {
            Bit::Significant => 'N',
            Bit::Pad => 'p',
            Bit::Unmatched => 'u',
            Bit::Gap => 'g',
        }
    }
}

/// A leaf of the source, and where its number goes.
#[derive(Clone, Debug, PartialEq, Eq)]
#[non_exhaustive]
pub struct SourceLeaf {
    /// Its name, as `boost[1]`; empty where the record itself is the leaf. A matched leaf has the same name in the destination.
    pub name: String,
    /// Its first byte in the source record.
    pub at: usize,
    /// Its bytes.
    pub size: usize,
    /// The first byte in the destination record of the leaf that it is matched with; none if there is no such leaf.
    pub destination: Option<usize>,
}

/// What each bit of a source record is to a conversion, and the record's leaves.
#[derive(Clone, Debug, PartialEq, Eq)]
pub struct SourceBits {
    mask: Mask,
    leaves: Vec<SourceLeaf>,
}

impl SourceBits {
    /// The bits that can show, as [`reach`] gives them.
    pub fn mask(&self) -> &Mask {
        &self.mask
    }

    #[cfg(test)]
    pub(crate) fn set_mask_byte(&mut self, byte: usize, value: u8) {
        self.mask.bytes[byte] = value;
    }

    /// The leaves of the source, in byte order.
    pub fn leaves(&self) -> &[SourceLeaf] {
        &self.leaves
    }

    /// The leaf that has a byte of the record; none in a gap.
    pub fn leaf_at(&self, byte: usize) -> Option<&SourceLeaf> {
        let behind = self.leaves.partition_point(|leaf| leaf.at <= byte);
        let leaf = self.leaves[..behind].last()?;
        (byte < leaf.at + leaf.size).then_some(leaf)
    }

    /// What a bit of a byte of the record is: bit 0 is the lowest of the byte. Significant bits are the mask's alone.
    pub fn bit(&self, byte: usize, bit: u32) -> Bit {
        let leaf = self.leaf_at(byte);
        let is_matched = leaf.is_some_and(|leaf| leaf.destination.is_some());
        if self.mask.has(byte, bit) {
            debug_assert!(
                is_matched,
                "bit {bit} of byte {byte} is in the mask, and in no matched leaf"
            );
            return Bit::Significant;
        }
        match leaf {
            Some(_) if is_matched => Bit::Pad,
            Some(_) => Bit::Unmatched,
            None => Bit::Gap,
        }
    }

    /// How many bits of the record are of a sort.
    pub fn count(&self, sort: Bit) -> usize {
        let bytes = 0..self.mask.bytes.len();
        let bits = bytes.flat_map(|byte| (0..8).map(move |bit| (byte, bit)));
        bits.filter(|&(byte, bit)| self.bit(byte, bit) == sort)
            .count()
    }
}

impl Converter {
    /// Which bits of a source record a conversion between two sheets can turn on: the significant bits of the matched source leaves, and no others.
    ///
    /// Two sources with the same bits there, in every record, convert alike. And, where no word makes a matched leaf obey stop, each of these bits shows: some
    /// two sources that differ in it alone convert otherwise by clamping, in the count or in the converted bytes. (Not those of an enum without a value, where
    /// each number raises alike: where such a leaf obeys stop, it shows in the number that STOP carries.) The mask is the same whatever the words are.
    ///
    /// It takes at most 49,152 bytes of its thread's stack.
    pub fn reach(&mut self, source_sheet: &[u8], destination_sheet: &[u8]) -> Result<Mask, Error> {
        let sheets = crate::sheets(source_sheet, destination_sheet, 0);
        let mut bytes = vec![0; MASK_BYTES];
        let answer = raw::reach(&sheets, &mut bytes, &mut self.table);
        let size = explain::outcome(answer, &Call::Reach(&sheets), &mut self.table)?;
        bytes.truncate(size as usize);
        Ok(Mask { bytes })
    }

    /// The same, and what every other bit of a source record is, with the names of its leaves.
    pub fn source_bits(
        &mut self,
        source_sheet: &[u8],
        destination_sheet: &[u8],
    ) -> Result<SourceBits, Error> {
        let mask = self.reach(source_sheet, destination_sheet)?;
        let types = (sheet::read(source_sheet), sheet::read(destination_sheet));
        let leaves = match &types {
            (Ok(source), Ok(destination)) => leaves(source, destination),
            _ => {
                debug_assert!(false, "the library read sheets that this crate cannot read");
                Vec::new()
            }
        };
        Ok(SourceBits { mask, leaves })
    }
}

/// [`Converter::reach`] with a table of its own.
///
/// ```
/// // 12 bits above four pad bits, in two bytes: a byte of the mask for each
/// let little = b"int\t2\tLE\t4\t12\tzero\tzero\tunsigned\n";
/// let big = b"int\t2\tBE\t4\t12\tzero\tzero\tunsigned\n";
/// let plain = b"int\t2\tLE\t0\t16\tzero\tzero\tunsigned\n";
/// assert_eq!(yirvagul::reach(little, plain)?.as_bytes(), [0xf0, 0xff]);
/// let mask = yirvagul::reach(big, plain)?;
/// assert_eq!(mask.as_bytes(), [0xff, 0xf0]);
/// assert!(mask.has(1, 4) && !mask.has(1, 3));
/// # Ok::<(), yirvagul::Error>(())
/// ```
pub fn reach(source_sheet: &[u8], destination_sheet: &[u8]) -> Result<Mask, Error> {
    Converter::new().reach(source_sheet, destination_sheet)
}

/// [`Converter::source_bits`] with a table of its own.
///
/// ```
/// use yirvagul::Bit;
///
/// let from = b"int\t1\tLE\t0\t7\tzero\tzero\tunsigned\ncomp\t3\nmember\tboost\t0\t0\nmember\toil\t2\t0\n";
/// let to = b"int\t1\tLE\t0\t8\tzero\tzero\tunsigned\ncomp\t6\nmember\tboost\t5\t0\n";
/// let bits = yirvagul::source_bits(from, to)?;
/// assert_eq!((bits.bit(0, 6), bits.bit(0, 7)), (Bit::Significant, Bit::Pad));
/// assert_eq!((bits.bit(1, 0), bits.bit(2, 0)), (Bit::Gap, Bit::Unmatched));
/// assert_eq!(bits.leaves()[0].destination, Some(5));
/// # Ok::<(), yirvagul::Error>(())
/// ```
pub fn source_bits(source_sheet: &[u8], destination_sheet: &[u8]) -> Result<SourceBits, Error> {
    Converter::new().source_bits(source_sheet, destination_sheet)
}

/// The source's leaves in byte order, of two types that have a path.
fn leaves(source: &Type, destination: &Type) -> Vec<SourceLeaf> {
    let mut found = Vec::new();
    descend(
        source,
        0,
        Some((destination, 0)),
        &mut String::new(),
        &mut found,
    );
    found.sort_by_key(|leaf| leaf.at);
    found
}

/// Goes down the source, and down the destination as far as it has the same names, with the byte at which each stands.
fn descend(
    source: &Type,
    at: u32,
    destination: Option<(&Type, u32)>,
    way: &mut String,
    found: &mut Vec<SourceLeaf>,
) {
    let len = way.len();
    match &source.class {
        Class::Comp { members } => {
            for member in members {
                let same = destination.and_then(|(of, to)| match &of.class {
                    Class::Comp { members } => {
                        let other = members.iter().find(|other| other.name == member.name)?;
                        Some((&*other.of, to + other.at))
                    }
                    _ => None,
                });
                sheet::push_name(way, &member.name);
                descend(&member.of, at + member.at, same, way, found);
                way.truncate(len);
            }
        }
        Class::Array { base, dimensions } => {
            for element in 0..sheet::count(dimensions) {
                let same = destination.and_then(|(of, to)| match &of.class {
                    Class::Array { base, .. } => Some((&**base, to + element * base.size)),
                    _ => None,
                });
                sheet::push_element(way, dimensions, element);
                descend(base, at + element * base.size, same, way, found);
                way.truncate(len);
            }
        }
        _ => found.push(SourceLeaf {
            name: way.clone(),
            at: at as usize,
            size: source.size as usize,
            destination: destination.map(|(_, to)| to as usize),
        }),
    }
}
