//! The checks that would refuse a call, each judged by itself: where two would,
//! the answer shows their order.

use crate::tally::Tally;
use independent::datatype::Datatype;
use independent::paths;

/// The numbers of those that refuse.
pub struct Refusals(Vec<u64>);

impl Refusals {
    /// Those that every call with two sheets and records has: of the table, by
    /// its words, of the sheets, none of a faulty one, of the path and the count.
    pub fn of(table: usize, from: Option<&Datatype>, to: Option<&Datatype>, count: u64) -> Self {
        let mut refusals = Refusals(vec![]);
        refusals.add(2, table < 8192);
        refusals.add(3, from.is_none());
        refusals.add(4, to.is_none());
        refusals.add(6, count > 65_536);
        if let (Some(from), Some(to)) = (from, to) {
            refusals.add(5, !paths::has_path(from, to));
        }
        refusals
    }

    pub fn add(&mut self, number: u64, refuses: bool) {
        if refuses {
            self.0.push(number);
        }
    }

    pub fn are(&self, numbers: &[u64]) -> bool {
        self.0 == numbers
    }

    pub fn has(&self, number: u64) -> bool {
        self.0.contains(&number)
    }

    /// Notes each two of them, behind the name of the call.
    pub fn note(&self, tally: &mut Tally, call: &str) {
        for (i, first) in self.0.iter().enumerate() {
            for second in &self.0[i + 1..] {
                let (low, high) = (first.min(second), first.max(second));
                tally.saw(&format!("{call}{low} and {high} at once"));
            }
        }
    }
}

/// Whether so many bytes are fewer than the records of a call have.
pub fn is_short(bytes: usize, count: u64, size: u64) -> bool {
    (bytes as u128) < u128::from(count) * u128::from(size)
}
