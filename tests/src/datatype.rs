//! Datatypes, as a tree.

use std::rc::Rc;

#[derive(Clone, Copy, Debug, PartialEq, Eq)]
pub enum Order {
    LittleEndian,
    BigEndian,
}

#[derive(Clone, Copy, Debug, PartialEq, Eq)]
pub enum Pad {
    Zero,
    One,
    Keep,
}

#[derive(Clone, Copy, Debug, PartialEq, Eq)]
pub struct Atomic {
    /// In bytes.
    pub size: u64,
    pub order: Order,
    /// In bits, as the precision.
    pub offset: u64,
    pub precision: u64,
    pub lsb: Pad,
    pub msb: Pad,
    pub signed: bool,
}

impl Atomic {
    /// "Atomic size 1..8 bytes, precision 1..64, offset + precision at most
    /// 8 × size."
    pub fn is_valid(&self) -> bool {
        (1..=8).contains(&self.size)
            && (1..=64).contains(&self.precision)
            && self.offset + self.precision <= 8 * self.size
    }
}

#[derive(Debug)]
pub struct Value {
    pub name: Vec<u8>,
    pub number: i128,
}

/// What a member line asks for where a leaf below it raises an exception.
#[derive(Clone, Copy, Debug, PartialEq, Eq)]
pub enum Word {
    Clamp,
    Stop,
}

#[derive(Debug)]
pub struct Member {
    pub name: Vec<u8>,
    /// In bytes from the start of its compound.
    pub at: u64,
    pub datatype: Rc<Datatype>,
    pub word: Option<Word>,
}

#[derive(Debug)]
pub enum Datatype {
    Int(Atomic),
    Bits(Atomic),
    /// An IEEE 754 binary64, by the layout in which its 64 bits are a number.
    Real(Atomic),
    Enum {
        base: Atomic,
        values: Vec<Value>,
    },
    Comp {
        size: u64,
        members: Vec<Member>,
    },
    Array {
        base: Rc<Datatype>,
        dimensions: Vec<u64>,
    },
}

impl Datatype {
    /// "A leaf `real⇥8⇥LE` or `BE`."
    pub fn real(order: Order) -> Datatype {
        Datatype::Real(Atomic {
            size: 8,
            order,
            offset: 0,
            precision: 64,
            lsb: Pad::Zero,
            msb: Pad::Zero,
            signed: false,
        })
    }

    /// In bytes.
    pub fn size(&self) -> u64 {
        match self {
            Datatype::Int(layout) | Datatype::Bits(layout) | Datatype::Real(layout) => layout.size,
            Datatype::Enum { base, .. } => base.size,
            Datatype::Comp { size, .. } => *size,
            Datatype::Array { base, dimensions } => {
                dimensions.iter().product::<u64>() * base.size()
            }
        }
    }
}
