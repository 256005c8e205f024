//! Words on members (document 02, 2026-12).

use crate::datatype::{Datatype, Word};
use crate::paths::Step;

/// What each member on a way down a datatype says, outermost first.
pub fn on_way(datatype: &Datatype, way: &[Step]) -> Vec<Option<Word>> {
    let mut said = Vec::new();
    let mut below = datatype;
    for step in way {
        below = match (step, below) {
            (Step::Name(name), Datatype::Comp { members, .. }) => {
                let named = members.iter().find(|member| member.name == *name);
                let member = named.expect("the way is the datatype's own");
                said.push(member.word);
                &member.datatype
            }
            (Step::Element(_), Datatype::Array { base, .. }) => base,
            _ => unreachable!("the way is the datatype's own"),
        };
    }
    said
}

/// "The innermost member on its way that has the word."
pub fn innermost(datatype: &Datatype, way: &[Step]) -> Option<Word> {
    on_way(datatype, way).into_iter().flatten().next_back()
}
