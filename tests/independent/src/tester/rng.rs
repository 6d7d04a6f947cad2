//! A small deterministic generator of numbers (splitmix64).

pub struct Rng(u64);

impl Rng {
    /// The numbers of one case: they depend on the seed and the index alone.
    pub fn of_case(seed: u64, index: u64) -> Rng {
        let mut rng = Rng(seed.wrapping_mul(0x9E37_79B9_7F4A_7C15) ^ index.rotate_left(32));
        rng.0 = rng.next() ^ index;
        rng
    }

    pub fn next(&mut self) -> u64 {
        self.0 = self.0.wrapping_add(0x9E37_79B9_7F4A_7C15);
        let mut z = self.0;
        z = (z ^ (z >> 30)).wrapping_mul(0xBF58_476D_1CE4_E5B9);
        z = (z ^ (z >> 27)).wrapping_mul(0x94D0_49BB_1331_11EB);
        z ^ (z >> 31)
    }

    /// A number under `n`; 0 when `n` is 0.
    pub fn below(&mut self, n: usize) -> usize {
        ((u128::from(self.next()) * n as u128) >> 64) as usize
    }

    /// A number from `low` to `high`, both included.
    pub fn between(&mut self, low: usize, high: usize) -> usize {
        low + self.below(high - low + 1)
    }

    pub fn percent(&mut self, n: usize) -> bool {
        self.below(100) < n
    }

    pub fn byte(&mut self) -> u8 {
        self.next() as u8
    }

    pub fn pick<T: Copy>(&mut self, from: &[T]) -> T {
        from[self.below(from.len())]
    }

    pub fn fill(&mut self, bytes: &mut [u8]) {
        let mut words = bytes.chunks_exact_mut(8);
        for word in &mut words {
            word.copy_from_slice(&self.next().to_le_bytes());
        }
        let last = self.next().to_le_bytes();
        let rest = words.into_remainder();
        let length = rest.len();
        rest.copy_from_slice(&last[..length]);
    }

    /// A byte that means something in a field more often than by chance.
    pub fn telling_byte(&mut self) -> u8 {
        if self.percent(40) {
            self.pick(&[0, 0, 1, 2, 3, 4, 12, 52, 53, 254, 255, 255])
        } else {
            self.byte()
        }
    }

    pub fn telling_bytes(&mut self, length: usize, out: &mut Vec<u8>) {
        let from = out.len();
        out.resize(from + length, 0);
        match self.below(8) {
            0 => (),
            1 => out[from..].fill(255),
            2 | 3 => {
                for byte in &mut out[from..] {
                    *byte = self.telling_byte();
                }
            }
            _ => self.fill(&mut out[from..]),
        }
    }

    pub fn telling_bytes_of(&mut self, length: usize) -> Vec<u8> {
        let mut out = Vec::new();
        self.telling_bytes(length, &mut out);
        out
    }
}
