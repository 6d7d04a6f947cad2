//! An index: lent numbers with others around them, and entries of any kind.

use super::rng::Rng;
use independent::rules::reading::{COOKIE, FILE, OPTIONS, SNAME};

const GUARD: usize = 20;

/// Numbers that are lent as the middle of more, so that one changed before or
/// past them shows.
#[derive(Clone, PartialEq, Debug)]
pub struct Numbers {
    all: Vec<u16>,
    count: usize,
}

impl Numbers {
    /// Lends `count` numbers of any content.
    pub fn any(rng: &mut Rng, count: usize) -> Numbers {
        let all = (0..count + 2 * GUARD).map(|_| rng.next() as u16).collect();
        Numbers { all, count }
    }

    pub fn middle(&self) -> &[u16] {
        &self.all[GUARD..][..self.count]
    }

    pub fn middle_mut(&mut self) -> &mut [u16] {
        &mut self.all[GUARD..][..self.count]
    }

    /// Sets the entry of a code, where there is one.
    pub fn set(&mut self, code: u8, entry: u16) {
        if let Some(number) = self.middle_mut().get_mut(usize::from(code)) {
            *number = entry;
        }
    }

    /// The first lent number.
    pub fn pointer(&mut self) -> *mut u16 {
        self.all.as_mut_ptr().wrapping_add(GUARD)
    }

    pub fn len(&self) -> usize {
        self.count
    }
}

/// How many numbers are lent.
pub fn count(rng: &mut Rng) -> usize {
    match rng.below(16) {
        0 => rng.pick(&[0, 1, 254, 255, 255, 257, 257, 258, 512]),
        _ => 256,
    }
}

/// Any number for an entry of an index of these bytes.
pub fn entry(rng: &mut Rng, message: &[u8]) -> u16 {
    let n = message.len();
    let place = match rng.below(10) {
        0 => rng.pick(&[0, 0, 65535, 65535, 65534, 1]),
        1 => rng.pick(&[42, 43, 44, 45, 105, 106, 107]),
        2 => rng.pick(&[108, 109, 233, 234, 235, 236, 237, 238, 239]),
        3 => rng.pick(&[240, 241]),
        4 => (n + 2).saturating_sub(rng.below(6)),
        5 => rng.between(44, 107),
        6 => rng.between(108, 235),
        7 => rng.below(65536),
        _ => rng.below(n + 4),
    };
    place.min(65535) as u16
}

/// The code at an entry's place, mostly; or any.
pub fn code(rng: &mut Rng, message: &[u8], entry: u16) -> u8 {
    match message.get(usize::from(entry)) {
        Some(&code) if rng.percent(85) => code,
        _ => rng.byte(),
    }
}

/// Codes to look up through an index: some that it has, some of any kind.
pub fn codes(rng: &mut Rng, index: &[u16]) -> Vec<u8> {
    let mut codes: Vec<u8> =
        (0..=255).zip(index).filter(|(_, &n)| n != 0).map(|(c, _)| c).collect();
    while codes.len() > 8 {
        codes.swap_remove(rng.below(codes.len()));
    }
    codes.extend([rng.byte(), rng.byte(), rng.pick(&[0, 52, 53, 255])]);
    codes
}

/// What makes an entry unusable.
pub const UNUSABLE: [&str; 12] = [
    "in the header",
    "in the cookie",
    "past the message",
    "another code in options",
    "another code in file",
    "another code in sname",
    "the length byte past options",
    "the length byte past file",
    "the length byte past sname",
    "data past options",
    "data past file",
    "data past sname",
];

/// What makes an entry that was not used unusable: its place in `UNUSABLE`.
pub fn fault(message: &[u8], code: u8, entry: usize) -> usize {
    let (field, after) = match entry {
        _ if entry >= message.len() => return 2,
        OPTIONS.. => (0, message.len()),
        COOKIE.. => return 1,
        FILE.. => (1, COOKIE),
        SNAME.. => (2, FILE),
        _ => return 0,
    };
    let cause = if message[entry] != code {
        0
    } else if entry + 1 == after {
        1
    } else {
        2
    };
    3 + 3 * cause + field
}
