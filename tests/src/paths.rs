//! Paths between datatypes, leaves, and which leaf is matched with which.

use crate::datatype::{Datatype, Member};

/// One step on the way from a record down to a leaf.
#[derive(Clone, Debug, PartialEq, Eq)]
pub enum Step {
    Name(Vec<u8>),
    /// The row-major place in an array.
    Element(u64),
}

/// "A leaf is an int, bits or enum place", or a real one.
#[derive(Clone, Debug)]
pub struct Leaf<'a> {
    pub way: Vec<Step>,
    /// In bytes from the start of the record.
    pub at: u64,
    pub datatype: &'a Datatype,
}

/// A destination leaf with the source leaf on the same way.
#[derive(Debug)]
pub struct Match<'a> {
    pub from: Leaf<'a>,
    pub to: Leaf<'a>,
}

/// Whether a path runs from the source to the destination.
pub fn has_path(source: &Datatype, destination: &Datatype) -> bool {
    match (source, destination) {
        (Datatype::Int(_), Datatype::Int(_)) => true,
        (Datatype::Bits(_), Datatype::Bits(_)) => true,
        // Document 02, 2026-03: "with paths to and from int and to another real"
        (Datatype::Int(_), Datatype::Real(_)) => true,
        (Datatype::Real(_), Datatype::Int(_) | Datatype::Real(_)) => true,
        (Datatype::Enum { .. }, Datatype::Enum { .. }) => true,
        (
            Datatype::Array {
                base: from,
                dimensions: lengths,
            },
            Datatype::Array { base, dimensions },
        ) => {
            // Document 02, 2026-02: "the rank and every dimension equal, in order"
            lengths == dimensions && has_path(from, base)
        }
        (Datatype::Comp { members: from, .. }, Datatype::Comp { members, .. }) => {
            members.iter().all(|member| match find(from, &member.name) {
                Some(other) => has_path(&other.datatype, &member.datatype),
                None => true,
            })
        }
        _ => false,
    }
}

fn find<'a>(members: &'a [Member], name: &[u8]) -> Option<&'a Member> {
    members.iter().find(|member| member.name == name)
}

/// All leaves of a datatype, members in the order of their lines.
pub fn leaves(datatype: &Datatype) -> Vec<Leaf<'_>> {
    let mut found = Vec::new();
    descend(datatype, 0, &mut Vec::new(), &mut found);
    found
}

fn descend<'a>(datatype: &'a Datatype, at: u64, way: &mut Vec<Step>, found: &mut Vec<Leaf<'a>>) {
    match datatype {
        Datatype::Comp { members, .. } => {
            for member in members {
                way.push(Step::Name(member.name.clone()));
                descend(&member.datatype, at + member.at, way, found);
                way.pop();
            }
        }
        Datatype::Array { base, dimensions } => {
            for element in 0..dimensions.iter().product() {
                way.push(Step::Element(element));
                descend(base, at + element * base.size(), way, found);
                way.pop();
            }
        }
        _ => found.push(Leaf {
            way: way.clone(),
            at,
            datatype,
        }),
    }
}

/// Goes the same way down the source. Gives nothing where a member's name
/// is not in the source.
pub fn follow<'a>(source: &'a Datatype, way: &[Step]) -> Option<Leaf<'a>> {
    let mut datatype = source;
    let mut at = 0;
    for step in way {
        match (step, datatype) {
            (Step::Name(name), Datatype::Comp { members, .. }) => {
                let member = find(members, name)?;
                at += member.at;
                datatype = &member.datatype;
            }
            (Step::Element(element), Datatype::Array { base, .. }) => {
                at += element * base.size();
                datatype = base;
            }
            _ => unreachable!("the datatypes have a path"),
        }
    }
    Some(Leaf {
        way: way.to_vec(),
        at,
        datatype,
    })
}

/// Whether a destination leaf is matched. Asks for datatypes that have a path.
pub fn is_matched(source: &Datatype, leaf: &Leaf) -> bool {
    follow(source, &leaf.way).is_some()
}

/// The matched destination leaves. Asks for datatypes that have a path.
pub fn matches<'a>(source: &'a Datatype, destination: &'a Datatype) -> Vec<Match<'a>> {
    let mut found = Vec::new();
    for to in leaves(destination) {
        if let Some(from) = follow(source, &to.way) {
            found.push(Match { from, to });
        }
    }
    found
}
