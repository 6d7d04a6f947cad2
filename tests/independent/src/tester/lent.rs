//! Bytes that are lent as the middle of a larger part, so that a byte changed
//! before or past them shows.

use super::rng::Rng;

const GUARD: usize = 40;

#[derive(Default)]
pub struct Lent {
    bytes: Vec<u8>,
    first: usize,
    length: usize,
}

impl Lent {
    /// Lends a copy of `content`, with random bytes around it.
    pub fn hold(&mut self, rng: &mut Rng, content: &[u8]) {
        self.shape(rng, content.len());
        let after = self.first + content.len();
        rng.fill(&mut self.bytes[..self.first]);
        self.bytes[self.first..after].copy_from_slice(content);
        rng.fill(&mut self.bytes[after..]);
    }

    /// Lends `length` bytes of any content.
    pub fn any(&mut self, rng: &mut Rng, length: usize) {
        self.shape(rng, length);
        match rng.below(8) {
            0 => self.bytes.fill(0),
            1 => self.bytes.fill(255),
            _ => rng.fill(&mut self.bytes),
        }
    }

    fn shape(&mut self, rng: &mut Rng, length: usize) {
        self.first = GUARD + rng.below(8);
        self.length = length;
        self.bytes.resize(self.first + length + GUARD, 0);
    }

    /// Becomes what `other` is, guards and all.
    pub fn copy(&mut self, other: &Lent) {
        self.bytes.clear();
        self.bytes.extend_from_slice(&other.bytes);
        self.first = other.first;
        self.length = other.length;
    }

    pub fn same(&self, other: &Lent) -> bool {
        self.bytes == other.bytes
    }

    /// Where two first differ, counted from the first lent byte.
    pub fn difference(&self, other: &Lent) -> Option<isize> {
        let at = self.bytes.iter().zip(&other.bytes).position(|(a, b)| a != b)?;
        Some(at as isize - self.first as isize)
    }

    pub fn middle(&self) -> &[u8] {
        &self.bytes[self.first..][..self.length]
    }

    pub fn middle_mut(&mut self) -> &mut [u8] {
        &mut self.bytes[self.first..][..self.length]
    }

    /// The first lent byte. The guards belong to the same allocation, so that a
    /// write into one is seen and not undefined.
    pub fn pointer(&mut self) -> *mut u8 {
        self.bytes.as_mut_ptr().wrapping_add(self.first)
    }

    pub fn len(&self) -> usize {
        self.length
    }
}
