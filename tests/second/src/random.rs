//! A small generator of numbers: the same seed gives the same numbers on every machine.

/// The state of the generator (the mixing is that of "splitmix64").
pub struct Random {
    state: u64,
}

impl Random {
    pub fn new(seed: u64) -> Random {
        Random { state: seed }
    }

    /// Any 64-bit number.
    pub fn any(&mut self) -> u64 {
        self.state = self.state.wrapping_add(0x9E37_79B9_7F4A_7C15);
        let mut z = self.state;
        z = (z ^ z >> 30).wrapping_mul(0xBF58_476D_1CE4_E5B9);
        z = (z ^ z >> 27).wrapping_mul(0x94D0_49BB_1331_11EB);
        z ^ z >> 31
    }

    /// A number from 0 up to but not including `end`.
    pub fn below(&mut self, end: u64) -> u64 {
        self.any() % end
    }

    /// A number from `low` to `high`, both included.
    pub fn between(&mut self, low: u64, high: u64) -> u64 {
        low + self.below(high - low + 1)
    }

    /// An index below `end`.
    pub fn index(&mut self, end: usize) -> usize {
        self.below(end as u64) as usize
    }

    /// True so many times in a hundred.
    pub fn chance(&mut self, percent: u64) -> bool {
        self.below(100) < percent
    }

    /// One of the things listed.
    pub fn pick<T: Copy>(&mut self, things: &[T]) -> T {
        things[self.index(things.len())]
    }

    /// So many bytes; now and then all equal, since zeros hide mistakes that others show.
    pub fn bytes(&mut self, length: usize) -> Vec<u8> {
        match self.below(12) {
            0 => vec![self.pick(&[0, 1, 0xFF]); length],
            _ => (0..length).map(|_| self.any() as u8).collect(),
        }
    }

    /// A byte that is not zero, so that XORing it is a change.
    pub fn change(&mut self) -> u8 {
        match self.chance(40) {
            true => 1 << self.below(8),
            false => self.between(1, 255) as u8,
        }
    }
}
