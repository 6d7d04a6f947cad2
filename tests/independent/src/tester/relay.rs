//! Relay information: the bytes of an option 82, and sheets of its sub-options.

use super::rng::Rng;
pub use super::vendor::items as sub_options;

/// Any code, often circuit id, remote id, or one that is a mark elsewhere.
fn code(rng: &mut Rng) -> u8 {
    match rng.below(8) {
        0..=3 => rng.pick(&[1, 2]),
        4 => rng.pick(&[0, 255, 52]),
        _ => rng.byte(),
    }
}

fn length(rng: &mut Rng) -> usize {
    match rng.below(16) {
        0..=3 => 0,
        4..=13 => rng.between(1, 12),
        14 => rng.below(256),
        _ => rng.pick(&[253, 254, 255]),
    }
}

fn sub_option(rng: &mut Rng, length: usize, out: &mut Vec<u8>) {
    out.extend([code(rng), length as u8]);
    rng.telling_bytes(length, out);
}

/// Appends sub-options of at most `limit` bytes together; one at least, if there
/// is room for it.
pub fn good(rng: &mut Rng, limit: usize, out: &mut Vec<u8>) {
    let from = out.len();
    let count = rng.pick(&[1, 1, 2, 2, 3, 5, 30]);
    for _ in 0..count {
        let left = limit - (out.len() - from);
        if left < 2 {
            return;
        }
        let n = length(rng).min(left - 2);
        sub_option(rng, n, out);
    }
}

/// Appends sub-options that fill a length of 2 or more exactly.
pub fn exact(rng: &mut Rng, length: usize, out: &mut Vec<u8>) {
    let mut left = length;
    while left >= 2 {
        let most = (left - 2).min(255);
        let mut n = if rng.percent(50) { most } else { rng.below(most + 1) };
        // One byte left over would be none.
        if left - 2 - n == 1 {
            n = if n == 0 { 1 } else { n - 1 };
        }
        sub_option(rng, n, out);
        left -= 2 + n;
    }
}

/// Makes sub-options that fill their bytes not do so, most often.
pub fn spoil(rng: &mut Rng, from: usize, out: &mut Vec<u8>) {
    match rng.below(8) {
        0 => out.truncate(from),
        1 => out.truncate(from + rng.below(2)),
        2 | 3 => out.push(rng.pick(&[0, 0, 255, 255, 1, 2])),
        4 => {
            let n = rng.between(1, 255) as u8;
            out.extend([code(rng), n]);
            let some = rng.below(usize::from(n));
            rng.telling_bytes(some, out);
        }
        5 if out.len() > from => {
            let at = rng.between(from, out.len() - 1);
            out[at] = out[at].wrapping_add(rng.pick(&[1, 255]));
        }
        _ => {
            let less = rng.between(1, 4).min(out.len() - from);
            out.truncate(out.len() - less);
        }
    }
}

/// Puts the bytes of an option 82 into `out`.
pub fn bytes(rng: &mut Rng, out: &mut Vec<u8>) {
    out.clear();
    match rng.below(20) {
        0 => (),
        1 => {
            let n = rng.below(60);
            rng.telling_bytes(n, out);
        }
        2 => {
            let n = rng.between(2, 1404);
            exact(rng, n, out);
        }
        _ => good(rng, 4000, out),
    }
    if rng.percent(30) {
        spoil(rng, 0, out);
    }
}

fn record(rng: &mut Rng, n: usize, out: &mut Vec<u8>) {
    out.push(code(rng));
    out.extend((n as u16).to_be_bytes());
    rng.telling_bytes(n, out);
}

/// Puts a sheet of sub-options into `out`.
pub fn sheet(rng: &mut Rng, out: &mut Vec<u8>) {
    out.clear();
    if rng.percent(4) {
        at_limit(rng, out);
        return;
    }
    for _ in 0..rng.pick(&[0, 1, 1, 2, 3, 5, 8, 30]) {
        let n = match rng.below(40) {
            0 => rng.pick(&[256, 256, 257, 300, 1024, 1025]),
            _ => length(rng),
        };
        record(rng, n, out);
    }
    let taken = sub_options(out);
    if taken < 253 && rng.percent(25) {
        // About as much as 255 bytes hold.
        let n = 253 - taken + rng.below(3);
        record(rng, n.min(255), out);
    }
    match rng.below(12) {
        0 => out.push(rng.telling_byte()),
        1 => {
            let tag = rng.telling_byte();
            out.extend([tag, rng.pick(&[0, 0, 1])]);
        }
        2 if !out.is_empty() => {
            let less = rng.between(1, out.len().min(8));
            out.truncate(out.len() - less);
        }
        3 if !out.is_empty() => {
            let at = rng.below(out.len());
            out[at] = rng.telling_byte();
        }
        _ => (),
    }
}

/// A sheet of 4,096 bytes or near, good but for what its sub-options take, or not.
fn at_limit(rng: &mut Rng, out: &mut Vec<u8>) {
    let size = rng.pick(&[4095, 4096, 4096, 4097, 4097, 4098]);
    while out.len() + 3 <= size {
        let left = size - out.len() - 3;
        let n = match left {
            0..=255 => left,
            256..=258 => left - 3,
            _ => 255,
        };
        record(rng, n, out);
    }
    if rng.percent(30) {
        out[1] = 1;
    }
}
