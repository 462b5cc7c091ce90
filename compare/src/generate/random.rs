//! A small random number generator (splitmix64).

pub struct Random {
    state: u64,
}

impl Random {
    pub fn new(seed: u64) -> Random {
        Random { state: seed }
    }

    /// The generator of one case: depends on the seed, the kind of case and
    /// its number only, so that any case can be made again alone.
    pub fn of_case(seed: u64, kind: u64, number: u64) -> Random {
        let mut first = Random::new(seed ^ kind.wrapping_mul(0xD6E8_FEB8_6659_FD93));
        let mixed = first.bits() ^ number.wrapping_mul(0x9E37_79B9_7F4A_7C15);
        let mut second = Random::new(mixed);
        second.bits();
        second
    }

    pub fn bits(&mut self) -> u64 {
        self.state = self.state.wrapping_add(0x9E37_79B9_7F4A_7C15);
        let mut mixed = self.state;
        mixed = (mixed ^ (mixed >> 30)).wrapping_mul(0xBF58_476D_1CE4_E5B9);
        mixed = (mixed ^ (mixed >> 27)).wrapping_mul(0x94D0_49BB_1331_11EB);
        mixed ^ (mixed >> 31)
    }

    /// A number below `bound` (0 when the bound is 0).
    pub fn below(&mut self, bound: usize) -> usize {
        if bound == 0 {
            return 0;
        }
        (((self.bits() >> 32) * bound as u64) >> 32) as usize
    }

    /// A number from `low` to `high`, both included.
    pub fn between(&mut self, low: usize, high: usize) -> usize {
        low + self.below(high - low + 1)
    }

    /// True in `percent` of all cases.
    pub fn chance(&mut self, percent: usize) -> bool {
        self.below(100) < percent
    }

    pub fn pick<T: Copy>(&mut self, from: &[T]) -> T {
        from[self.below(from.len())]
    }

    pub fn bytes(&mut self, length: usize) -> Vec<u8> {
        let mut bytes = Vec::with_capacity(length + 8);
        while bytes.len() < length {
            bytes.extend_from_slice(&self.bits().to_le_bytes());
        }
        bytes.truncate(length);
        bytes
    }

    /// A signed number: mostly small, sometimes at an edge of the range.
    pub fn number(&mut self) -> i32 {
        const EDGES: [i32; 12] = [
            i32::MIN,
            i32::MIN + 1,
            -65_537,
            -65_536,
            -1,
            0,
            1,
            46_341,
            65_535,
            65_536,
            i32::MAX - 1,
            i32::MAX,
        ];
        match self.below(10) {
            0..=6 => self.below(14) as i32 - 5,
            7 | 8 => self.pick(&EDGES),
            _ => self.bits() as i32,
        }
    }
}
