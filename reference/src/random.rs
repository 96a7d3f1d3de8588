//! SplitMix64: the same seed gives the same numbers on every machine.

#[derive(Clone, Debug)]
pub struct Random(u64);

const STEP: u64 = 0x9E37_79B9_7F4A_7C15;

impl Random {
    pub fn new(seed: u64) -> Random {
        Random(seed)
    }

    /// The stream that belongs to one index of a seed.
    pub fn indexed(seed: u64, index: u64) -> Random {
        let start = Random(seed).any();
        Random(Random(start ^ index.wrapping_mul(STEP)).any())
    }

    /// Any 64 bits.
    pub fn any(&mut self) -> u64 {
        self.0 = self.0.wrapping_add(STEP);
        let z = (self.0 ^ (self.0 >> 30)).wrapping_mul(0xBF58_476D_1CE4_E5B9);
        let z = (z ^ (z >> 27)).wrapping_mul(0x94D0_49BB_1331_11EB);
        z ^ (z >> 31)
    }

    /// From `low` to `high`, both possible.
    pub fn between(&mut self, low: i64, high: i64) -> i64 {
        let span = (high - low) as u64 + 1;
        low + (self.any() % span) as i64
    }

    pub fn small(&mut self, low: u32, high: u32) -> u32 {
        self.between(low.into(), high.into()) as u32
    }

    /// A start and a later end within a length; as often as not within two of
    /// both ends.
    pub fn stretch(&mut self, length: u32) -> [u32; 2] {
        if self.one_in(2) {
            let start = self.small(0, 2.min(length - 1));
            let end = self.small((start + 1).max(length.saturating_sub(2)), length);
            return [start, end];
        }
        let start = self.small(0, length - 1);
        [start, self.small(start + 1, length)]
    }

    pub fn index(&mut self, length: usize) -> usize {
        (self.any() % length as u64) as usize
    }

    pub fn one_in(&mut self, chances: u64) -> bool {
        self.any().is_multiple_of(chances)
    }

    pub fn pick<T: Copy>(&mut self, choices: &[T]) -> T {
        choices[self.index(choices.len())]
    }

    pub fn bytes(&mut self, length: usize) -> Vec<u8> {
        (0..length).map(|_| self.any() as u8).collect()
    }
}
