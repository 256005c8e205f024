//! Symbols that a conversion keeps (document 02, 2026-07).

use crate::datatype::{Datatype, Value};

/// "On a matched pair of enums, every source symbol must stand in the
/// destination": by the types alone, whatever the records hold. No pair is
/// matched where there is no path.
pub fn keeps_symbols(source: &Datatype, destination: &Datatype) -> bool {
    match (source, destination) {
        (Datatype::Enum { values, .. }, Datatype::Enum { values: others, .. }) => {
            values.iter().all(|value| has_symbol(others, &value.name))
        }
        (
            Datatype::Array {
                base: from,
                dimensions: lengths,
            },
            Datatype::Array { base, dimensions },
        ) => lengths != dimensions || keeps_symbols(from, base),
        (Datatype::Comp { members: from, .. }, Datatype::Comp { members, .. }) => {
            members.iter().all(|member| {
                let mut others = from.iter().filter(|other| other.name == member.name);
                others.all(|other| keeps_symbols(&other.datatype, &member.datatype))
            })
        }
        _ => true,
    }
}

/// Symbols are the same by their names alone.
pub fn has_symbol(values: &[Value], name: &[u8]) -> bool {
    values.iter().any(|value| value.name == name)
}
