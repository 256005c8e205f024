//! A seeded source of random numbers (splitmix64).

pub struct Random(u64);

impl Random {
    /// The numbers of one case are fixed by the seed and the case alone.
    pub fn new(seed: u64, case: u64) -> Random {
        let mut random = Random(seed);
        let mixed = random.next() ^ case.wrapping_mul(0xD134_2543_DE82_EF95);
        Random(mixed)
    }

    pub fn next(&mut self) -> u64 {
        self.0 = self.0.wrapping_add(0x9E37_79B9_7F4A_7C15);
        let mut z = self.0;
        z = (z ^ z >> 30).wrapping_mul(0xBF58_476D_1CE4_E5B9);
        z = (z ^ z >> 27).wrapping_mul(0x94D0_49BB_1331_11EB);
        z ^ z >> 31
    }

    /// 0 to `bound` − 1.
    pub fn below(&mut self, bound: u64) -> u64 {
        self.next() % bound
    }

    /// Both ends included.
    pub fn between(&mut self, low: u64, high: u64) -> u64 {
        low + self.below(high - low + 1)
    }

    /// True in so many of a hundred.
    pub fn percent(&mut self, share: u64) -> bool {
        self.below(100) < share
    }

    pub fn pick<'a, T>(&mut self, choices: &'a [T]) -> &'a T {
        &choices[self.below(choices.len() as u64) as usize]
    }

    /// A number from `low` to `high`, often at or near an end or near 0.
    pub fn number(&mut self, low: i128, high: i128) -> i128 {
        let near = i128::from(self.below(3));
        let wide = i128::from(self.next()).rem_euclid(high - low + 1);
        let number = match self.below(6) {
            0 => low + near,
            1 => high - near,
            2 => near - 1,
            _ => low + wide,
        };
        number.clamp(low, high)
    }

    /// All random, or biased to the edges of a byte.
    pub fn bytes(&mut self, length: usize) -> Vec<u8> {
        let style = self.below(4);
        let edges = [0x00, 0xFF, 0x80, 0x7F, 0x01, 0xFE];
        let mut byte = || match style {
            0 => *self.pick(&edges),
            1 if self.percent(50) => *self.pick(&edges),
            _ => self.next() as u8,
        };
        (0..length).map(|_| byte()).collect()
    }

    pub fn words(&mut self, length: usize) -> Vec<u32> {
        (0..length).map(|_| self.next() as u32).collect()
    }

    pub fn shuffle<T>(&mut self, items: &mut [T]) {
        for i in (1..items.len()).rev() {
            items.swap(i, self.below(i as u64 + 1) as usize);
        }
    }
}
