//! Layouts of int and bits types, and the setters.
use crate::raw::{self, Words};
use crate::Error;

/// The class of an atomic layout.
#[derive(Clone, Copy, Debug, PartialEq, Eq, Hash)]
pub enum Class {
    /// A number, with a sign or without.
    Int,
    /// A bitfield: an unsigned number.
    Bits,
}

/// Which end of a container its lowest byte is at: the lowest address (LE) or the highest (BE).
#[derive(Clone, Copy, Debug, PartialEq, Eq, Hash)]
pub enum Order {
    /// Little-endian.
    LE,
    /// Big-endian.
    BE,
}

/// What a write puts beside the significant bits.
#[derive(Clone, Copy, Debug, PartialEq, Eq, Hash)]
pub enum Pad {
    /// Zeros.
    Zero,
    /// Ones.
    One,
    /// The background's own bits.
    Keep,
}

/// How the number is read from its bits.
#[derive(Clone, Copy, Debug, PartialEq, Eq, Hash)]
pub enum Sign {
    /// From 0 up; so is every bits layout.
    Unsigned,
    /// Two's complement.
    Signed,
}

/// A layout of an int or bits type. A setter that refuses it leaves it as it was.
///
/// ```
/// use yirvagul::{Class, Error, Layout, Order, Pad, Sign};
///
/// let mut pressure = Layout {
///     class: Class::Int,
///     size: 2,
///     order: Order::BE,
///     offset: 4,
///     precision: 12,
///     lsb: Pad::Zero,
///     msb: Pad::Zero,
///     sign: Sign::Unsigned,
/// };
/// pressure.set_field(4, 20)?;
/// assert_eq!((pressure.size, pressure.offset, pressure.precision), (3, 4, 20));
/// assert_eq!(pressure.set_size(9), Err(Error::Range));
/// # Ok::<(), Error>(())
/// ```
#[derive(Clone, Copy, Debug, PartialEq, Eq, Hash)]
pub struct Layout {
    /// Int or bits.
    pub class: Class,
    /// The container's bytes, 1 to 8.
    pub size: u32,
    /// The container's byte order.
    pub order: Order,
    /// The number's lowest bit; offset + precision is at most 8 × size.
    pub offset: u32,
    /// The number's bits, 1 to 64.
    pub precision: u32,
    /// The bits below the number.
    pub lsb: Pad,
    /// The bits above the number.
    pub msb: Pad,
    /// The number's sign; of a bits layout, [`Sign::Unsigned`].
    pub sign: Sign,
}

impl Layout {
    fn words(self) -> Words {
        [
            self.class as u32,
            self.size,
            self.order as u32,
            self.offset,
            self.precision,
            self.lsb as u32,
            self.msb as u32,
            self.sign as u32,
        ]
    }

    /// Runs a setter on the words. The setters change no class, and give codes for codes.
    fn edit(&mut self, setter: impl FnOnce(&mut Words) -> u32) -> Result<(), Error> {
        let mut w = self.words();
        let number = setter(&mut w);
        if number != 0 {
            return Err(Error::from_answer([number.into(), 0, 0, 0, 0, 0, 0, 0]));
        }
        let pad = |code| [Pad::Zero, Pad::One, Pad::Keep][code as usize];
        *self = Layout {
            class: self.class,
            size: w[1],
            order: [Order::LE, Order::BE][w[2] as usize],
            offset: w[3],
            precision: w[4],
            lsb: pad(w[5]),
            msb: pad(w[6]),
            sign: [Sign::Unsigned, Sign::Signed][w[7] as usize],
        };
        Ok(())
    }

    /// Another size, 1 to 8 bytes. Precision and offset shrink to what the size holds.
    pub fn set_size(&mut self, size: u32) -> Result<(), Error> {
        self.edit(|w| raw::set_size(w, size))
    }

    /// Another byte order.
    pub fn set_order(&mut self, order: Order) -> Result<(), Error> {
        self.edit(|w| raw::set_order(w, order as u32))
    }

    /// Another field: exactly this offset, and this precision of 1 to 64 bits. Where they end past the size, it grows to the least that holds them; refused if
    /// it would pass 8.
    pub fn set_field(&mut self, offset: u32, precision: u32) -> Result<(), Error> {
        self.edit(|w| raw::set_field(w, offset, precision))
    }

    /// Other pads, of the bits below the number and of those above it.
    pub fn set_pads(&mut self, lsb: Pad, msb: Pad) -> Result<(), Error> {
        self.edit(|w| raw::set_pads(w, lsb as u32, msb as u32))
    }

    /// Another sign. Refused on a bits layout.
    pub fn set_sign(&mut self, sign: Sign) -> Result<(), Error> {
        self.edit(|w| raw::set_sign(w, sign as u32))
    }
}
