//! Buffers as they are lent: a part of a larger one, whose bytes or words
//! before and behind must stay as they were.

use crate::random::Random;

const GUARD: usize = 16;

pub struct Lent<T> {
    store: Vec<T>,
    start: usize,
    length: usize,
    before: Vec<T>,
}

impl<T: Copy + PartialEq> Lent<T> {
    /// Lends a copy of `content` with guards of any start on both sides.
    pub fn new(random: &mut Random, content: &[T], word: impl Fn(u64) -> T) -> Lent<T> {
        let start = GUARD + random.below(9) as usize;
        let mut store: Vec<T> = (0..start).map(|_| word(random.next())).collect();
        store.extend_from_slice(content);
        store.extend((0..GUARD).map(|_| word(random.next())));
        Lent {
            before: store.clone(),
            store,
            start,
            length: content.len(),
        }
    }

    pub fn len(&self) -> usize {
        self.length
    }

    pub fn pointer(&mut self) -> *mut T {
        self.store[self.start..].as_mut_ptr()
    }

    pub fn content(&self) -> &[T] {
        &self.store[self.start..self.start + self.length]
    }

    /// Whether nothing outside the lent part has changed.
    pub fn guards_hold(&self) -> bool {
        let end = self.start + self.length;
        self.store[..self.start] == self.before[..self.start]
            && self.store[end..] == self.before[end..]
    }

    /// Whether nothing at all has changed.
    pub fn unchanged(&self) -> bool {
        self.store == self.before
    }
}
