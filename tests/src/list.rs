//! The leaf list.

use crate::call::{After, Answer, table_after};
use crate::datatype::Datatype;
use crate::number;
use crate::paths;
use crate::sheet;

/// The list of a datatype's leaves as text, in byte order.
pub fn text(datatype: &Datatype) -> Vec<u8> {
    let mut leaves = paths::leaves(datatype);
    leaves.sort_by_key(|leaf| leaf.at);
    let mut text = String::from("at\tsize\tclass\n");
    for leaf in leaves {
        let class = match leaf.datatype {
            Datatype::Int(_) => "int",
            Datatype::Bits(_) => "bits",
            Datatype::Real(_) => "real",
            _ => "enum",
        };
        let size = number::layout(leaf.datatype).size;
        text.push_str(&format!("{}\t{size}\t{class}\n", leaf.at));
    }
    text.into_bytes()
}

/// "Checks 2, 3, 7 apply; bytes past the list are unchanged; done carries
/// the list's length in bytes in place of the count."
pub fn leaf_list(sheet: &[u8], list: &[u8], table: &[u32]) -> After {
    let mut written = list.to_vec();
    let answer = fill(sheet, &mut written, table).unwrap_or_else(|refusal| refusal);
    After {
        answer,
        written,
        table: table_after(&answer, table),
    }
}

fn fill(sheet: &[u8], list: &mut [u8], table: &[u32]) -> Result<Answer, Answer> {
    if table.len() < 8192 {
        return Err(Answer::refused(2));
    }
    let datatype = sheet::read(sheet).map_err(|line| Answer::faulty(3, line))?;
    let text = text(&datatype);
    if list.len() < text.len() {
        return Err(Answer::refused(7));
    }
    list[..text.len()].copy_from_slice(&text);
    Ok(Answer::done(text.len() as u64))
}
