//! One tree of members in several sheets at once: the same names and arrays, and
//! in each sheet types, places and an order of lines of its own.

use crate::generate::{new_name, place};
use crate::model::{Line, Model, Name, Row};
use crate::random::Random;

/// Makes the types of a leaf in every sheet; their numbers.
pub type MakeLeaf = fn(&mut Random, &mut [Model]) -> Vec<usize>;

/// Says in which of the sheets a member stands.
pub type Stands = fn(&mut Random) -> Vec<bool>;

/// The number of a type in each sheet.
type Node = Vec<usize>;

struct Trees<'a> {
    random: &'a mut Random,
    models: Vec<Model>,
    leaf: MakeLeaf,
    stands: Stands,
    /// Of ten members so many are compounds.
    nested: u64,
    leaves: Vec<Node>,
    compounds: Vec<Node>,
}

/// So many sheets whose records are compounds.
pub fn sheets(random: &mut Random, many: usize, leaf: MakeLeaf, stands: Stands) -> Vec<Model> {
    loop {
        let mut trees = Trees {
            random,
            models: vec![Model::default(); many],
            leaf,
            stands,
            nested: 0,
            leaves: Vec::new(),
            compounds: Vec::new(),
        };
        let depth = *trees.random.pick(&[0, 1, 2, 3, 3, 4]);
        trees.nested = *trees.random.pick(&[3, 4, 7]);
        trees.compound(depth);
        let fits = |model: &Model| {
            let sizes = (0..model.types.len()).map(|i| model.size(i));
            model.types.len() <= 64 && sizes.max() <= Some(4096)
        };
        if trees.models.iter().all(fits) {
            return trees.models;
        }
    }
}

impl Trees<'_> {
    /// A type with so many compounds or arrays in it, one in the other.
    fn node(&mut self, depth: u64) -> Node {
        if depth > 0 && self.random.below(10) < self.nested {
            return self.compound(depth - 1);
        }
        match self.random.below(10) {
            0..=2 if depth > 0 => self.array(depth),
            // The same compound under another member.
            3 | 4 if !self.compounds.is_empty() => self.random.pick(&self.compounds).clone(),
            _ => self.leaf(),
        }
    }

    fn leaf(&mut self) -> Node {
        let is_full = self.models.iter().any(|model| model.types.len() > 40);
        if is_full && !self.leaves.is_empty() {
            return self.random.pick(&self.leaves).clone();
        }
        let leaf = (self.leaf)(self.random, &mut self.models);
        self.leaves.push(leaf.clone());
        leaf
    }

    fn array(&mut self, depth: u64) -> Node {
        if self.random.percent(6) {
            // So many that a record has more than 128 leaves.
            let (base, elements) = (self.leaf(), self.random.between(120, 180));
            return self.push_arrays(&base, vec![elements]);
        }
        let dimensions = match self.random.percent(60) {
            true => vec![self.random.between(1, 4)],
            false => vec![self.random.between(1, 2), self.random.between(1, 3)],
        };
        let base = self.node(depth - 1);
        self.push_arrays(&base, dimensions)
    }

    fn push_arrays(&mut self, bases: &[usize], dimensions: Vec<u64>) -> Node {
        let array = |(model, base): (&mut Model, &usize)| {
            model.push(Line::Array {
                base: *base,
                dimensions: dimensions.clone(),
            })
        };
        self.models.iter_mut().zip(bases).map(array).collect()
    }

    fn compound(&mut self, depth: u64) -> Node {
        let mut names: Vec<Name> = Vec::new();
        let mut rows: Vec<Vec<Row>> = vec![Vec::new(); self.models.len()];
        let members = match self.random.percent(6) {
            true => 0,
            false => self.random.between(1, 3),
        };
        for _ in 0..members {
            let name = new_name(self.random, |name| names.iter().any(|other| other == name));
            let types = self.node(depth);
            let stands = (self.stands)(self.random);
            for (sheet, datatype) in types.into_iter().enumerate() {
                if stands[sheet] {
                    let name = name.clone();
                    rows[sheet].push(Row {
                        name,
                        at: 0,
                        datatype,
                    });
                }
            }
            names.push(name);
        }
        let mut types = Vec::new();
        for (model, mut members) in self.models.iter_mut().zip(rows) {
            self.random.shuffle(&mut members);
            let taken: u64 = members.iter().map(|row| model.size(row.datatype)).sum();
            let size = place(self.random, model, &mut members, taken + 6);
            types.push(model.push(Line::Comp { size, members }));
        }
        self.compounds.push(types.clone());
        types
    }
}
