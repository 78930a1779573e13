//! The random numbers of the tests: a generator that gives the same numbers on every machine, and words at the edges of
//! their meaning.

/// A xorshift generator.
pub struct Random(u64);

impl Random {
    /// No two seeds give the same numbers, but for the one whose state would be 0, where the generator stands still.
    pub fn new(seed: u64) -> Self {
        let state = seed.wrapping_mul(0x9E37_79B9_7F4A_7C15) ^ 0x2545_F491_4F6C_DD1D;
        Self(if state == 0 { 1 } else { state })
    }

    /// A generator of its own, drawn from this one.
    pub fn fork(&mut self) -> Self {
        Self::new(u64::from(self.word()) << 32 | u64::from(self.word()))
    }

    pub fn word(&mut self) -> u32 {
        self.0 ^= self.0 << 13;
        self.0 ^= self.0 >> 7;
        self.0 ^= self.0 << 17;
        (self.0 >> 16) as u32
    }

    pub fn words(&mut self, count: usize) -> Vec<u32> {
        (0..count).map(|_| self.word()).collect()
    }

    pub fn array<const COUNT: usize>(&mut self) -> [u32; COUNT] {
        std::array::from_fn(|_| self.word())
    }

    pub fn below(&mut self, limit: u32) -> u32 {
        self.word() % limit
    }

    pub fn within(&mut self, low: u32, high: u32) -> u32 {
        low + self.below(high - low + 1)
    }

    pub fn one_in(&mut self, chances: u32) -> bool {
        self.below(chances) == 0
    }

    pub fn of<T: Copy>(&mut self, items: &[T]) -> T {
        items[self.below(items.len() as u32) as usize]
    }

    /// Marks of one page: one, few, any, many, a run, all but one, or all.
    pub fn marks(&mut self) -> u32 {
        let [a, b, c] = self.array();
        let (one, run) = (1 << (a % 32), u32::MAX >> (a % 32) << (b % 32));
        self.of(&[one, a & b & c, a, a | b | c, run, !one, u32::MAX])
    }

    /// A word that means something in a list of changes or a directory, a small one, or any.
    pub fn odd_word(&mut self) -> u32 {
        match self.below(6) {
            0 => self.below(9),
            1 => u32::MAX - self.below(2),
            2 => {
                let limit = self.of(&[9, 66]);
                0x1000_0000 | self.below(limit)
            }
            3 => 0x2000_0000 | self.below(34) << 16 | self.below(4),
            4 => 0xF000_0000 | self.below(9),
            _ => self.word(),
        }
    }
}
