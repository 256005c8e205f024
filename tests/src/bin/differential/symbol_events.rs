//! Notes which symbols the calls have met, kept and lost.

use crate::compare_events::rows;
use crate::compare_run::CompareRun;
use crate::convert::with_types;
use crate::run::Seen;
use crate::tally::Tally;
use independent::datatype::{Datatype, Value};
use independent::paths::{self, Leaf, Match};
use independent::symbols::{has_symbol, keeps_symbols};

/// What a whole run must have met.
pub const NEEDED: [&str; 35] = [
    "case: symbols",
    "1 and 12 at once",
    "5 and 12 at once",
    "6 and 12 at once",
    "7 and 12 at once",
    "SYMBOLS of no record",
    "SYMBOLS of more than 65,536 records",
    "SYMBOLS: one symbol of several",
    "SYMBOLS: as many symbols in the destination",
    "SYMBOLS: the first pair keeps all",
    "SYMBOLS: the last pair keeps all",
    "SYMBOLS: a nested pair alone",
    "SYMBOLS: a name that begins another",
    "symbols done: unmatched enums, one of which would lose a symbol",
    "symbols done: a source enum without values",
    "symbols done: equal sets, other order and numbers",
    "symbols done: more in the destination",
    "report SYMBOLS of no record",
    "report SYMBOLS of more than 65,536 records",
    "report SYMBOLS: as many symbols in the destination",
    "report SYMBOLS: the first pair keeps all",
    "report symbols done: unmatched enums, one of which would lose a symbol",
    "report symbols done: a source enum without values",
    "report symbols done: equal sets, other order and numbers",
    "report, 5 and 12 at once",
    "report, 6 and 12 at once",
    "report, 7 and 12 at once",
    "report, 10 and 12 at once",
    "report, 11 and 12 at once",
    "property: the way back, equal sets of other order and numbers",
    "property: the way back is refused where the destination has more symbols",
    "property: data bytes do not show in SYMBOLS",
    "compare: done where a conversion answers SYMBOLS",
    "compare: a symbol that the second sheet lacks, listed",
    "compare: nothing differs where a conversion answers SYMBOLS",
];

/// A matched pair of enums, by their values.
struct Pair<'a> {
    own: &'a [Value],
    others: &'a [Value],
    /// Whether it stands in an array or in a compound within the record.
    is_nested: bool,
}

impl Pair<'_> {
    fn lost(&self) -> impl Iterator<Item = &Value> {
        let others = self.others;
        self.own.iter().filter(|own| !has_symbol(others, &own.name))
    }

    fn loses(&self) -> bool {
        self.lost().next().is_some()
    }

    /// The same symbols in another order, with other numbers.
    fn is_turned(&self) -> bool {
        let pairs = || self.own.iter().zip(self.others);
        let number = |name: &[u8]| self.others.iter().find(|other| other.name == name);
        self.own.len() == self.others.len()
            && !self.loses()
            && pairs().any(|(own, other)| own.name != other.name)
            && self
                .own
                .iter()
                .all(|own| number(&own.name).is_some_and(|other| other.number != own.number))
    }
}

fn pairs<'a>(matches: &[Match<'a>]) -> Vec<Pair<'a>> {
    let mut matches: Vec<&Match> = matches.iter().collect();
    matches.sort_by_key(|pair| pair.to.at);
    let enums = |pair: &&Match<'a>| match (pair.from.datatype, pair.to.datatype) {
        (Datatype::Enum { values, .. }, Datatype::Enum { values: others, .. }) => Some(Pair {
            own: values,
            others,
            is_nested: pair.to.way.len() > 1,
        }),
        _ => None,
    };
    matches.iter().filter_map(enums).collect()
}

/// Whether some matched pair has the same symbols in another order, with other
/// numbers.
pub fn is_turned(matches: &[Match]) -> bool {
    pairs(matches).iter().any(Pair::is_turned)
}

/// Notes an answer to a call with two sheets; `call` stands before what is seen.
pub fn note(tally: &mut Tally, call: &str, sheets: (&[u8], &[u8]), number: u64, count: u64) {
    if number != 0 && number != 12 {
        return;
    }
    with_types(sheets.0, sheets.1, |from, to, matches| {
        let pairs = pairs(matches);
        let mut saw = |holds: bool, what: &str| {
            if holds {
                tally.saw(&format!("{call}{what}"));
            }
        };
        if number == 12 {
            note_refused(&mut saw, &pairs, count);
        } else {
            note_done(&mut saw, &pairs);
            let unmatched = unmatched(from, to, matches);
            saw(
                unmatched,
                "symbols done: unmatched enums, one of which would lose a symbol",
            );
        }
    });
}

fn note_refused(saw: &mut impl FnMut(bool, &str), pairs: &[Pair], count: u64) {
    saw(count == 0, "SYMBOLS of no record");
    saw(count > 65_536, "SYMBOLS of more than 65,536 records");
    saw(
        pairs
            .iter()
            .any(|pair| pair.own.len() > 1 && pair.lost().count() == 1),
        "SYMBOLS: one symbol of several",
    );
    saw(
        pairs.iter().all(|pair| pair.others.len() >= pair.own.len()),
        "SYMBOLS: as many symbols in the destination",
    );
    let keeps = |pair: Option<&Pair>| pair.is_some_and(|pair| !pair.loses());
    saw(keeps(pairs.first()), "SYMBOLS: the first pair keeps all");
    saw(keeps(pairs.last()), "SYMBOLS: the last pair keeps all");
    saw(
        pairs.iter().all(|pair| pair.is_nested || !pair.loses()),
        "SYMBOLS: a nested pair alone",
    );
    let begins = |name: &[u8], others: &[Value]| {
        let meets = |other: &Value| other.name.starts_with(name) || name.starts_with(&other.name);
        others.iter().any(meets)
    };
    saw(
        pairs
            .iter()
            .any(|pair| pair.lost().any(|own| begins(&own.name, pair.others))),
        "SYMBOLS: a name that begins another",
    );
}

fn note_done(saw: &mut impl FnMut(bool, &str), pairs: &[Pair]) {
    saw(
        pairs.iter().any(|pair| pair.own.is_empty()),
        "symbols done: a source enum without values",
    );
    saw(
        pairs.iter().any(Pair::is_turned),
        "symbols done: equal sets, other order and numbers",
    );
    let more = |pair: &Pair| !pair.own.is_empty() && pair.others.len() > pair.own.len();
    saw(
        pairs.iter().any(more),
        "symbols done: more in the destination",
    );
}

/// Whether each sheet has an enum that the other one does not match, and the
/// source's has symbols that the destination's lacks.
fn unmatched(from: &Datatype, to: &Datatype, matches: &[Match]) -> bool {
    let is_free = |leaf: &Leaf| !matches.iter().any(|pair| pair.from.at == leaf.at);
    let (own, others) = (paths::leaves(from), paths::leaves(to));
    let own = own.iter().filter(|leaf| is_free(leaf));
    let mut free = others.iter().filter(|leaf| !paths::is_matched(from, leaf));
    let others: Vec<&Leaf> = free.by_ref().collect();
    let is_enum = |leaf: &Leaf| matches!(leaf.datatype, Datatype::Enum { .. });
    own.filter(|leaf| is_enum(leaf)).any(|leaf| {
        let lost = |other: &&&Leaf| is_enum(other) && !keeps_symbols(leaf.datatype, other.datatype);
        others.iter().any(|other| lost(&other))
    })
}

/// Notes a comparison of sheets that a conversion refuses.
pub fn note_compared(tally: &mut Tally, run: &CompareRun, seen: &Seen) {
    with_types(&run.first_sheet, &run.second_sheet, |from, to, matches| {
        if seen.answer[0] != 0 || run.count == 0 || keeps_symbols(from, to) {
            return;
        }
        tally.saw("compare: done where a conversion answers SYMBOLS");
        let rows = rows(seen);
        if rows.is_empty() {
            tally.saw("compare: nothing differs where a conversion answers SYMBOLS");
        }
        for row in rows {
            let pair = matches.iter().find(|pair| i128::from(pair.to.at) == row[1]);
            let found = pairs(&pair.map(again).into_iter().collect::<Vec<_>>());
            let is_lost = |pair: &Pair| pair.lost().any(|own| own.number == row[2]);
            if found.iter().any(is_lost) {
                tally.saw("compare: a symbol that the second sheet lacks, listed");
            }
        }
    });
}

fn again<'a>(pair: &Match<'a>) -> Match<'a> {
    Match {
        from: pair.from.clone(),
        to: pair.to.clone(),
    }
}
