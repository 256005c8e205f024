//! Layout sheets: from text to datatypes, or to the first faulty line.

use crate::datatype::{Atomic, Datatype, Member, Value};
use crate::field::{name, natural, order, pad, whole, word};
use crate::number;
use std::rc::Rc;

/// What the lines so far have said.
#[derive(Default)]
struct Read {
    types: Vec<Rc<Datatype>>,
    /// Value and member lines together.
    rows: usize,
}

/// The sheet's type, or the number of the first faulty line.
pub fn read(sheet: &[u8]) -> Result<Rc<Datatype>, u64> {
    if sheet.len() > 16_384 {
        return Err(0);
    }
    let mut read = Read::default();
    let mut rest = sheet;
    let mut line = 1_u64;
    while !rest.is_empty() {
        let end = rest.iter().position(|&byte| byte == 10).ok_or(line)?;
        judge(&mut read, &rest[..end]).ok_or(line)?;
        rest = &rest[end + 1..];
        line += 1;
    }
    // Only an empty sheet comes here without a type.
    read.types.pop().ok_or(1)
}

/// Takes one line in, or gives nothing if it is faulty.
fn judge(read: &mut Read, line: &[u8]) -> Option<()> {
    let fields: Vec<&[u8]> = line.split(|&byte| byte == 9).collect();
    match fields[0] {
        b"int" => add_type(read, Datatype::Int(atomic(&fields, true)?)),
        b"bits" => add_type(read, Datatype::Bits(atomic(&fields, false)?)),
        b"real" => add_type(read, real(&fields)?),
        b"enum" => {
            let datatype = enumeration(read, &fields)?;
            add_type(read, datatype)
        }
        b"comp" => add_type(read, compound(&fields)?),
        b"array" => {
            let datatype = array(read, &fields)?;
            add_type(read, datatype)
        }
        b"value" => add_value(read, &fields),
        b"member" => add_member(read, &fields),
        _ => None,
    }
}

/// "At most 64 types."
fn add_type(read: &mut Read, datatype: Datatype) -> Option<()> {
    if read.types.len() >= 64 {
        return None;
    }
    read.types.push(Rc::new(datatype));
    Some(())
}

fn atomic(fields: &[&[u8]], has_sign: bool) -> Option<Atomic> {
    if fields.len() != if has_sign { 8 } else { 7 } {
        return None;
    }
    let layout = Atomic {
        size: natural(fields[1])?,
        order: order(fields[2])?,
        offset: natural(fields[3])?,
        precision: natural(fields[4])?,
        lsb: pad(fields[5])?,
        msb: pad(fields[6])?,
        signed: match fields.get(7) {
            None | Some(&b"unsigned") => false,
            Some(&b"signed") => true,
            _ => return None,
        },
    };
    layout.is_valid().then_some(layout)
}

/// "`real⇥8⇥LE` or `BE`."
fn real(fields: &[&[u8]]) -> Option<Datatype> {
    if fields.len() != 3 || fields[1] != b"8" {
        return None;
    }
    Some(Datatype::real(order(fields[2])?))
}

fn enumeration(read: &Read, fields: &[&[u8]]) -> Option<Datatype> {
    if fields.len() != 2 {
        return None;
    }
    match *earlier_type(read, fields[1], read.types.len())? {
        Datatype::Int(base) => Some(Datatype::Enum {
            base,
            values: Vec::new(),
        }),
        _ => None,
    }
}

fn compound(fields: &[&[u8]]) -> Option<Datatype> {
    if fields.len() != 2 {
        return None;
    }
    let size = natural(fields[1])?;
    (1..=4096).contains(&size).then_some(Datatype::Comp {
        size,
        members: Vec::new(),
    })
}

fn array(read: &Read, fields: &[&[u8]]) -> Option<Datatype> {
    if !(3..=6).contains(&fields.len()) {
        return None;
    }
    let base = earlier_type(read, fields[1], read.types.len())?;
    let mut size = base.size();
    let mut dimensions = Vec::new();
    for field in &fields[2..] {
        let dimension = natural(field)?;
        // Factor by factor: the whole product can pass 64 bits.
        size *= dimension;
        if dimension < 1 || size > 4096 {
            return None;
        }
        dimensions.push(dimension);
    }
    Some(Datatype::Array { base, dimensions })
}

/// "A type named on a line has a lower number than the type it is used in."
fn earlier_type(read: &Read, field: &[u8], user: usize) -> Option<Rc<Datatype>> {
    let number = natural(field)? as usize;
    (number < user).then(|| read.types[number].clone())
}

/// "At most 256 value and member lines together."
fn add_row(read: &mut Read) -> Option<&mut Datatype> {
    read.rows += 1;
    if read.rows > 256 {
        return None;
    }
    let last = read.types.last_mut()?;
    Some(Rc::get_mut(last).expect("no line has used the last type yet"))
}

fn add_value(read: &mut Read, fields: &[&[u8]]) -> Option<()> {
    if fields.len() != 3 {
        return None;
    }
    let name = name(fields[1])?;
    let number = whole(fields[2])?;
    let Datatype::Enum { base, values } = add_row(read)? else {
        return None;
    };
    let (smallest, largest) = number::range(base);
    if number < smallest || number > largest {
        return None;
    }
    if values.iter().any(|v| v.name == name || v.number == number) {
        return None;
    }
    values.push(Value { name, number });
    Some(())
}

/// Document 02, 2026-12: "a `member` line may end in a further field".
fn add_member(read: &mut Read, fields: &[&[u8]]) -> Option<()> {
    let word = match fields.len() {
        4 => None,
        5 => Some(word(fields[4])?),
        _ => return None,
    };
    let name = name(fields[1])?;
    let at = natural(fields[2])?;
    let user = read.types.len().checked_sub(1)?;
    let datatype = earlier_type(read, fields[3], user)?;
    let Datatype::Comp { size, members } = add_row(read)? else {
        return None;
    };
    let end = at + datatype.size();
    if end > *size || members.iter().any(|m| m.name == name) {
        return None;
    }
    if members
        .iter()
        .any(|m| at < m.at + m.datatype.size() && m.at < end)
    {
        return None;
    }
    members.push(Member {
        name,
        at,
        datatype,
        word,
    });
    Some(())
}
