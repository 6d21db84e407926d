//! Seeded random numbers (splitmix64): the same seed gives the same cases anywhere.

pub struct Random {
    state: u64,
}

impl Random {
    pub fn new(seed: u64) -> Random {
        Random { state: seed }
    }

    /// The numbers for one case of a section; no case depends on those before it.
    pub fn for_case(seed: u64, section: &str, number: u64) -> Random {
        let mut random = Random::new(seed);
        for byte in section.bytes() {
            random.state = random.next() ^ u64::from(byte);
        }
        random.state = random.next() ^ number;
        Random::new(random.next())
    }

    pub fn next(&mut self) -> u64 {
        self.state = self.state.wrapping_add(0x9e37_79b9_7f4a_7c15);
        let mut mixed = self.state;
        mixed = (mixed ^ (mixed >> 30)).wrapping_mul(0xbf58_476d_1ce4_e5b9);
        mixed = (mixed ^ (mixed >> 27)).wrapping_mul(0x94d0_49bb_1331_11eb);
        mixed ^ (mixed >> 31)
    }

    /// A number below `end`, which must not be 0.
    pub fn below(&mut self, end: usize) -> usize {
        (self.next() % end as u64) as usize
    }

    /// A number from `low` to `high`, both included.
    pub fn between(&mut self, low: usize, high: usize) -> usize {
        low + self.below(high - low + 1)
    }

    /// True once in `times`.
    pub fn once_in(&mut self, times: usize) -> bool {
        self.below(times) == 0
    }

    pub fn pick<T: Copy>(&mut self, choices: &[T]) -> T {
        choices[self.below(choices.len())]
    }

    pub fn byte(&mut self) -> u8 {
        self.next() as u8
    }

    /// Any 32 bits, the edges of the signed range more often than others.
    pub fn word(&mut self) -> u32 {
        match self.below(4) {
            0 => self.pick(&[0, 1, 2, 0x7fff_ffff, 0x8000_0000, 0xffff_ffff, 256, 257, 4096]),
            1 => self.next() as u32 & 0xff,
            _ => self.next() as u32,
        }
    }

    pub fn fill(&mut self, bytes: &mut [u8]) {
        for part in bytes.chunks_mut(8) {
            part.copy_from_slice(&self.next().to_le_bytes()[..part.len()]);
        }
    }

    pub fn bytes(&mut self, length: usize) -> Vec<u8> {
        let mut bytes = vec![0; length];
        self.fill(&mut bytes);
        bytes
    }
}
