//! Notes what words on members have decided.

use crate::convert::with_types;
use crate::run::{Form, Run, Seen};
use crate::tally::Tally;
use crate::words;
use independent::call::part;
use independent::datatype::{Datatype, Word};
use independent::number;
use independent::obey;
use independent::paths::{self, Match, Step};
use independent::sheet;

/// As many matched leaves of all records of a run are looked at.
const MOST_LEAVES: u64 = 4000;

/// A record with more matched leaves than these needs larger tables.
const MANY: usize = 128;

/// What a whole run must have met, beside `needed`.
const NEEDED: [&str; 60] = [
    "case: words",
    "case: words in blocks",
    "words: done with more than 100 clamped leaves, handling 1",
    "words: done with more than 100 clamped leaves, plain",
    "words: done with a clamped leaf beside one that would stop, handling 0",
    "words: outer stop, inner clamp",
    "words: outer clamp, inner stop",
    "words: three levels, stop, silent, clamp",
    "words: three levels, clamp, silent, stop",
    "words: three levels, stop, silent, silent",
    "words: three levels, clamp, silent, silent",
    "words: clamp above an array",
    "words: stop above an array",
    "words: clamp above an array of two dimensions",
    "words: stop above an array of two dimensions",
    "words: clamp above an array of arrays",
    "words: stop above an array of arrays",
    "words: clamp in an element, stop above the array",
    "words: stop in an element, clamp above the array",
    "words: one compound under two members, both raise and one stops",
    "words: one compound under two members, the one that clamps raises alone",
    "words: on a member that the source lacks",
    "words: above leaves that are all unmatched",
    "words: on a compound without members",
    "words: stop in the source alone, clamped with handling 0",
    "words: clamp in the source alone, STOP with handling 1",
    "words: clamp in the source alone, STOP by a plain form",
    "words: stop in the source, clamp in the destination",
    "words: clamp in the source, stop in the destination",
    "words: in place, growing, STOP at the last record with handling 0",
    "words: in place, shrinking, STOP at the last record with handling 0",
    "words: done of no record",
    "words: STOP among more than 128 leaves",
    "words: done with an exception among more than 128 leaves",
    "words: STOP among 2 to 128 leaves",
    "words: done with an exception among 2 to 128 leaves",
    "words: on every member of both sheets",
    "words: on every member of the destination, of both sorts",
    "words: 256 rows",
    "words: more than 16,000 bytes",
    "words: SOURCE in a sheet with words",
    "words: DESTINATION in a sheet with words",
    "words: report that is done",
    "words: compare that is done",
    "words: reach that is done",
    "words: leaf list that is done",
    "words: record size that is done",
    "faulty word: empty",
    "faulty word: in another case",
    "faulty word: more behind it",
    "faulty word: not all of it",
    "faulty word: another one",
    "faulty word: a sixth field",
    "faulty word: in place of the type",
    "faulty word: behind a value line",
    "faulty word: behind a type's line",
    "faulty word: in a last line without byte 10",
    "words: STOP of one record",
    "words: STOP in the first of several records",
    "words: STOP past record 0",
];

/// Classes of matched leaves and the kinds that they raise.
const KINDS: [(&str, u64); 9] = [
    ("int", 1),
    ("int", 2),
    ("bits", 1),
    ("enum", 3),
    ("int to real", 6),
    ("real to int", 1),
    ("real to int", 2),
    ("real to int", 4),
    ("real to int", 5),
];

const HANDLINGS: [&str; 3] = ["handling 0", "handling 1", "plain"];

/// What STOP has left out, for each handling.
const PLACES: [&str; 4] = [
    "STOP behind a clamped leaf at a lower byte",
    "STOP behind a clamped leaf of an earlier record",
    "STOP by the first of several leaves that stop",
    "STOP in the first of several records that stop",
];

/// What a whole run must have met.
pub fn needed() -> Vec<String> {
    let mut needed: Vec<String> = NEEDED.iter().map(|event| event.to_string()).collect();
    for form in [Form::Copying, Form::InPlace] {
        for handling in HANDLINGS {
            for word in [None, Some(Word::Clamp), Some(Word::Stop)] {
                for raises in [true, false] {
                    needed.push(table_event((form.is_copying(), handling), word, raises));
                }
            }
        }
    }
    for handling in HANDLINGS {
        needed.extend(PLACES.iter().map(|place| place_event(handling, place)));
    }
    for (class, kind) in KINDS {
        needed.push(kind_event(class, kind, Word::Clamp));
        needed.push(kind_event(class, kind, Word::Stop));
    }
    needed
}

fn table_event((is_copying, handling): (bool, &str), word: Option<Word>, raises: bool) -> String {
    let form = if is_copying { "copying" } else { "in place" };
    let word = word.map_or("silent", name);
    let raises = if raises { "raises" } else { "fits" };
    format!("words, {form}, {handling}: {word}, {raises}")
}

fn place_event(handling: &str, place: &str) -> String {
    format!("words, {handling}: {place}")
}

fn kind_event(class: &str, kind: u64, word: Word) -> String {
    format!("words: {class}, kind {kind}, by {}", name(word))
}

fn name(word: Word) -> &'static str {
    match word {
        Word::Clamp => "clamp",
        Word::Stop => "stop",
    }
}

fn handling(run: &Run) -> &'static str {
    match (run.form.is_plain(), run.handling) {
        (true, _) => HANDLINGS[2],
        (false, 0) => HANDLINGS[0],
        _ => HANDLINGS[1],
    }
}

/// A matched leaf with what the members on its way say.
struct Leaf<'a> {
    pair: &'a Match<'a>,
    said: Vec<Option<Word>>,
    word: Option<Word>,
    stops: bool,
}

/// An exception that a leaf raises in a record.
#[derive(Clone, Copy)]
struct Raised<'a> {
    record: u64,
    kind: u64,
    leaf: &'a Leaf<'a>,
}

impl Raised<'_> {
    fn at(&self) -> u64 {
        self.leaf.pair.to.at
    }
}

/// A run that passed every check before STOP, over sheets of which one has words.
struct Noted<'a> {
    run: &'a Run,
    from: &'a Datatype,
    to: &'a Datatype,
    answer: [u64; 8],
    leaves: &'a [Leaf<'a>],
    raised: Vec<Raised<'a>>,
}

pub fn note(tally: &mut Tally, run: &Run, seen: &Seen) {
    let sheets = [&run.source_sheet[..], &run.destination_sheet[..]];
    let number = seen.answer[0];
    if !sheets.iter().any(|sheet| words::has(sheet)) {
        return;
    }
    let mut saw = |holds: bool, event: &str| {
        if holds {
            tally.saw(event);
        }
    };
    let (source, destination) = (words::has(sheets[0]), words::has(sheets[1]));
    saw(number == 3 && source, "words: SOURCE in a sheet with words");
    let event = "words: DESTINATION in a sheet with words";
    saw(number == 4 && destination, event);
    if number != 0 && number != 8 {
        return;
    }
    note_sheets(&mut saw, sheets);
    with_types(sheets[0], sheets[1], |from, to, matches| {
        let leaves = leaves(run, to, matches);
        note_counts(&mut saw, run, &seen.answer, &leaves);
        note_unmatched(&mut saw, Some(from), to);
        if run.count * matches.len() as u64 > MOST_LEAVES {
            return;
        }
        let noted = Noted {
            run,
            from,
            to,
            answer: seen.answer,
            leaves: &leaves,
            raised: raised(run, from, &leaves),
        };
        noted.table(&mut saw);
        noted.places(&mut saw);
        noted.visible(&mut saw);
        noted.shared(&mut saw);
    });
}

fn leaves<'a>(run: &Run, to: &Datatype, matches: &'a [Match<'a>]) -> Vec<Leaf<'a>> {
    let leaf = |pair: &'a Match<'a>| Leaf {
        pair,
        said: obey::on_way(to, &pair.to.way),
        word: obey::innermost(to, &pair.to.way),
        stops: words::stop(to, &pair.to, run.stops()),
    };
    matches.iter().map(leaf).collect()
}

/// What a run raises, in the order of records. What the call was given stands in
/// `run`, in place too.
fn raised<'a>(run: &Run, from: &Datatype, leaves: &'a [Leaf<'a>]) -> Vec<Raised<'a>> {
    let mut found = Vec::new();
    for record in 0..run.count {
        let bytes = part(&run.first, record, from.size());
        for leaf in leaves {
            let (source, destination) = (leaf.pair.from.datatype, leaf.pair.to.datatype);
            let own = &bytes[leaf.pair.from.at as usize..];
            let number = number::read(number::layout(source), own);
            if let Some(kind) = number::convert(source, destination, number).1 {
                found.push(Raised { record, kind, leaf });
            }
        }
    }
    found
}

/// What the texts of two valid sheets have.
fn note_sheets(saw: &mut impl FnMut(bool, &str), sheets: [&[u8]; 2]) {
    let lines = |text: &'static str, sheet: &[u8]| {
        let starts = |line: &&[u8]| line.starts_with(text.as_bytes());
        sheet.split(|&byte| byte == 10).filter(starts).count()
    };
    let said = |word: &[u8], sheet: &[u8]| {
        let ends = |line: &&[u8]| line.starts_with(b"member") && line.ends_with(word);
        sheet.split(|&byte| byte == 10).filter(ends).count()
    };
    let words = |sheet: &[u8]| (said(b"\tclamp", sheet), said(b"\tstop", sheet));
    let is_full = |sheet: &[u8]| {
        let (clamp, stop) = words(sheet);
        clamp + stop > 1 && clamp + stop == lines("member", sheet)
    };
    let event = "words: on every member of both sheets";
    saw(sheets.iter().all(|sheet| is_full(sheet)), event);
    let (clamp, stop) = words(sheets[1]);
    let event = "words: on every member of the destination, of both sorts";
    saw(is_full(sheets[1]) && clamp > 0 && stop > 0, event);
    for sheet in sheets {
        let rows = lines("member", sheet) + lines("value", sheet);
        let (clamp, stop) = words(sheet);
        saw(rows == 256 && clamp + stop > 0, "words: 256 rows");
    }
}

/// What the answer and the leaves alone say.
fn note_counts(saw: &mut impl FnMut(bool, &str), run: &Run, answer: &[u64; 8], leaves: &[Leaf]) {
    let [number, count, ..] = *answer;
    let (stopped, clamped) = (number == 8, number == 0 && count > 0);
    if run.stops() && clamped && count > 100 && run.count > 1 {
        let handling = handling(run);
        let event = format!("words: done with more than 100 clamped leaves, {handling}");
        saw(true, &event);
    }
    let some_stop = leaves.iter().any(|leaf| leaf.stops);
    let event = "words: done with a clamped leaf beside one that would stop, handling 0";
    saw(clamped && some_stop && !run.stops(), event);
    if some_stop && leaves.iter().any(|leaf| !leaf.stops) {
        let many = leaves.len() > MANY;
        saw(stopped && many, "words: STOP among more than 128 leaves");
        saw(stopped && !many, "words: STOP among 2 to 128 leaves");
        let event = "words: done with an exception among more than 128 leaves";
        saw(clamped && many, event);
        let event = "words: done with an exception among 2 to 128 leaves";
        saw(clamped && !many, event);
    }
    let has_words = leaves.iter().any(|leaf| leaf.word.is_some());
    saw(run.count == 0 && has_words, "words: done of no record");
}

/// Words on members of the destination that decide nothing.
fn note_unmatched(saw: &mut impl FnMut(bool, &str), from: Option<&Datatype>, to: &Datatype) {
    match (from, to) {
        (Some(Datatype::Array { base: from, .. }), Datatype::Array { base, .. }) => {
            note_unmatched(saw, Some(from), base);
        }
        (Some(Datatype::Comp { members: from, .. }), Datatype::Comp { members, .. }) => {
            for member in members {
                let own = from.iter().find(|other| other.name == member.name);
                let own = own.map(|own| &*own.datatype);
                if member.word.is_some() {
                    note_member(saw, own, &member.datatype);
                }
                note_unmatched(saw, own, &member.datatype);
            }
        }
        _ => {}
    }
}

/// A member with a word, and the source's type of that name.
fn note_member(saw: &mut impl FnMut(bool, &str), from: Option<&Datatype>, to: &Datatype) {
    saw(from.is_none(), "words: on a member that the source lacks");
    let is_empty = matches!(to, Datatype::Comp { members, .. } if members.is_empty());
    saw(is_empty, "words: on a compound without members");
    if let Some(from) = from {
        let has_leaves = !paths::leaves(to).is_empty();
        let event = "words: above leaves that are all unmatched";
        saw(has_leaves && paths::matches(from, to).is_empty(), event);
    }
}

impl<'a> Noted<'a> {
    fn stopped(&self) -> bool {
        self.answer[0] == 8
    }

    /// Whether an exception is what the answer shows: the one that STOP names, or
    /// one of those that are counted.
    fn shows(&self, raised: &Raised) -> bool {
        let [_, _, _, record, at, ..] = self.answer;
        !self.stopped() || (raised.record, raised.at()) == (record, at)
    }

    /// Runs in which one leaf raises, or none.
    fn table(&self, saw: &mut impl FnMut(bool, &str)) {
        let called = (self.run.form.is_copying(), handling(self.run));
        match &self.raised[..] {
            [] if self.run.count > 0 => {
                for word in [None, Some(Word::Clamp), Some(Word::Stop)] {
                    let said = self.leaves.iter().any(|leaf| leaf.word == word);
                    saw(said, &table_event(called, word, false));
                }
            }
            [one] => saw(true, &table_event(called, one.leaf.word, true)),
            _ => {}
        }
    }

    /// What STOP did not name, and where it was.
    fn places(&self, saw: &mut impl FnMut(bool, &str)) {
        if !self.stopped() {
            return;
        }
        let [_, _, _, record, at, ..] = self.answer;
        let is = |stops: bool, test: &dyn Fn(&Raised) -> bool| {
            let mut such = self.raised.iter().filter(|one| one.leaf.stops == stops);
            such.any(test)
        };
        let lower = is(false, &|one| one.record == record && one.at() < at);
        let earlier = is(false, &|one| one.record < record);
        let higher = is(true, &|one| one.record == record && one.at() > at);
        let later = is(true, &|one| one.record > record);
        let handling = handling(self.run);
        for (holds, place) in [lower, earlier, higher, later].into_iter().zip(PLACES) {
            saw(holds, &place_event(handling, place));
        }
        if self.run.stops() {
            return;
        }
        let (count, last) = (self.run.count, record + 1 == self.run.count);
        saw(count == 1, "words: STOP of one record");
        let event = "words: STOP in the first of several records";
        saw(count > 1 && record == 0, event);
        saw(record > 0, "words: STOP past record 0");
        if count > 1 && last && !self.run.form.is_copying() {
            let sizes = (self.from.size(), self.to.size());
            let event = "words: in place, growing, STOP at the last record with handling 0";
            saw(sizes.0 < sizes.1, event);
            let event = "words: in place, shrinking, STOP at the last record with handling 0";
            saw(sizes.0 > sizes.1, event);
        }
    }

    /// Of each exception that shows: where the word stands that decides.
    fn visible(&self, saw: &mut impl FnMut(bool, &str)) {
        for raised in self.raised.iter().filter(|raised| self.shows(raised)) {
            self.source(saw, raised);
            let Some(word) = raised.leaf.word else {
                continue;
            };
            note_levels(saw, raised.leaf, word);
            self.arrays(saw, raised.leaf, word);
            let against = (word == Word::Stop) != self.run.stops();
            let class = class(raised.leaf.pair);
            saw(against, &kind_event(class, raised.kind, word));
        }
    }

    /// Words of the source, which decide nothing.
    fn source(&self, saw: &mut impl FnMut(bool, &str), raised: &Raised) {
        let pair = raised.leaf.pair;
        let Some(own) = obey::innermost(self.from, &pair.from.way) else {
            return;
        };
        let (clamp, stop) = (own == Word::Clamp, own == Word::Stop);
        match raised.leaf.word {
            None if words::has(&self.run.destination_sheet) => {}
            None => {
                let handling = handling(self.run);
                let event = "words: stop in the source alone, clamped with handling 0";
                saw(stop && handling == HANDLINGS[0], event);
                let event = "words: clamp in the source alone, STOP with handling 1";
                saw(clamp && handling == HANDLINGS[1], event);
                let event = "words: clamp in the source alone, STOP by a plain form";
                saw(clamp && handling == HANDLINGS[2], event);
            }
            Some(word) if word != own => {
                let (own, word) = (name(own), name(word));
                let event = format!("words: {own} in the source, {word} in the destination");
                saw(true, &event);
            }
            _ => {}
        }
    }

    /// Arrays on the way of a leaf, below or above the member that decides.
    fn arrays(&self, saw: &mut impl FnMut(bool, &str), leaf: &Leaf, word: Word) {
        let way = &leaf.pair.to.way;
        let is_element = |step: Option<&Step>| matches!(step, Some(Step::Element(_)));
        // Each name on the way with its place in it, and what its member says.
        let names = way
            .iter()
            .enumerate()
            .filter(|(_, step)| !is_element(Some(step)));
        let said: Vec<(usize, Word)> = names
            .zip(&leaf.said)
            .filter_map(|((at, _), word)| Some((at, (*word)?)))
            .collect();
        let Some((decides, outer)) = said.split_last() else {
            return;
        };
        let (below, own) = (decides.0 + 1, name(word));
        if is_element(way.get(below)) {
            saw(true, &format!("words: {own} above an array"));
            let array = paths::follow(self.to, &way[..below]).expect("its own way");
            let two = matches!(array.datatype, Datatype::Array { dimensions, .. } if dimensions.len() > 1);
            saw(
                two,
                &format!("words: {own} above an array of two dimensions"),
            );
            let again = is_element(way.get(below + 1));
            saw(again, &format!("words: {own} above an array of arrays"));
        }
        let above = |(at, other): &(usize, Word)| {
            let between = way[*at..decides.0].iter();
            *other != word && between.into_iter().any(|step| is_element(Some(step)))
        };
        if let Some((_, other)) = outer.iter().find(|outer| above(outer)) {
            let event = format!(
                "words: {own} in an element, {} above the array",
                name(*other)
            );
            saw(true, &event);
        }
    }

    /// A compound that stands under two members, with leaves that obey otherwise.
    fn shared(&self, saw: &mut impl FnMut(bool, &str)) {
        if self.raised.len() > 20 || self.leaves.len() > 60 {
            return;
        }
        for one in self.raised.iter().filter(|one| !one.leaf.stops) {
            for other in self.leaves.iter().filter(|other| other.stops) {
                if !self.are_twins(one.leaf, other) {
                    continue;
                }
                let is_other = |raised: &&Raised| std::ptr::eq(raised.leaf, other);
                let raises = self.raised.iter().any(|raised| is_other(&raised));
                let event = "words: one compound under two members, both raise and one stops";
                saw(raises && self.stopped(), event);
                let event =
                    "words: one compound under two members, the one that clamps raises alone";
                saw(!raises && !self.stopped(), event);
            }
        }
    }

    /// Whether two leaves are one of the same compound, under other members.
    fn are_twins(&self, one: &Leaf, other: &Leaf) -> bool {
        let (way, others) = (&one.pair.to.way, &other.pair.to.way);
        let compound = |way: &[Step]| {
            let below = paths::follow(self.to, way).expect("its own way").datatype;
            matches!(below, Datatype::Comp { .. }).then_some(below as *const Datatype)
        };
        // As many last steps as both have in common.
        let last = way.iter().rev().zip(others.iter().rev());
        let common = last.take_while(|(step, other)| step == other).count();
        (1..=common).any(|steps| {
            let (own, another) = (&way[..way.len() - steps], &others[..others.len() - steps]);
            let same = compound(own).is_some() && compound(own) == compound(another);
            same && own != another && matches!(own.last(), Some(Step::Name(_)))
        })
    }
}

/// Words at several levels, outermost first.
fn note_levels(saw: &mut impl FnMut(bool, &str), leaf: &Leaf, word: Word) {
    let said = &leaf.said;
    let stop = Some(Word::Stop);
    let clamp = Some(Word::Clamp);
    let event = "words: outer stop, inner clamp";
    saw(word == Word::Clamp && said.contains(&stop), event);
    let event = "words: outer clamp, inner stop";
    saw(word == Word::Stop && said.contains(&clamp), event);
    if let [.., Some(outer), None, inner] = said[..]
        && inner != Some(outer)
    {
        let inner = inner.map_or("silent", name);
        let event = format!("words: three levels, {}, silent, {inner}", name(outer));
        saw(true, &event);
    }
}

fn class(pair: &Match) -> &'static str {
    match (pair.from.datatype, pair.to.datatype) {
        (Datatype::Real(_), _) => "real to int",
        (_, Datatype::Real(_)) => "int to real",
        (Datatype::Bits(_), _) => "bits",
        (Datatype::Enum { .. }, _) => "enum",
        _ => "int",
    }
}

/// Notes a call that is done, over a sheet with words.
pub fn note_call(tally: &mut Tally, call: &str, sheets: &[&[u8]], number: u64) {
    let worded = || sheets.iter().filter(|sheet| words::has(sheet));
    if number != 0 || worded().next().is_none() {
        return;
    }
    tally.saw(&format!("words: {call} that is done"));
    if worded().any(|sheet| sheet.len() > 16_000) {
        tally.saw("words: more than 16,000 bytes");
    }
}

/// Notes a faulty line of which the word is the fault.
pub fn note_fault(tally: &mut Tally, text: &[u8], line: u64) {
    let lines: Vec<&[u8]> = text.split_inclusive(|&byte| byte == 10).collect();
    let Some(own) = lines.get(line as usize - 1) else {
        return;
    };
    let ended = own.strip_suffix(b"\n");
    let fields: Vec<&[u8]> = ended.unwrap_or(own).split(|&byte| byte == 9).collect();
    // Whether the sheet up to this line is valid with these fields in it.
    let mends = |fields: &[&[u8]]| {
        let mut mended = lines[..line as usize - 1].concat();
        mended.extend(fields.join(&9));
        mended.push(10);
        sheet::read(&mended).is_ok()
    };
    let is_word = |field: &[u8]| matches!(field, b"clamp" | b"stop");
    let event = match &fields[..] {
        [b"member", _, _, _, word] if is_word(word) && ended.is_none() && mends(&fields) => {
            "in a last line without byte 10"
        }
        [b"member", _, _, _, word] if !is_word(word) && mends(&fields[..4]) => fault(word),
        [b"member", _, _, _, word, _] if is_word(word) && mends(&fields[..5]) => "a sixth field",
        [b"member", _, _, word] if is_word(word) => "in place of the type",
        [b"value", _, _, word] if is_word(word) && mends(&fields[..3]) => "behind a value line",
        [b"member" | b"value", ..] => return,
        [kind @ .., word] if is_word(word) && mends(kind) => "behind a type's line",
        _ => return,
    };
    tally.saw(&format!("faulty word: {event}"));
}

fn fault(word: &[u8]) -> &'static str {
    let words: [&[u8]; 2] = [b"clamp", b"stop"];
    if word.is_empty() {
        "empty"
    } else if words.iter().any(|own| word.eq_ignore_ascii_case(own)) {
        "in another case"
    } else if words.iter().any(|own| word.starts_with(own)) {
        "more behind it"
    } else if words.iter().any(|own| own.starts_with(word)) {
        "not all of it"
    } else {
        "another one"
    }
}
