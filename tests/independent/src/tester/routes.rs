//! Classless routes: the bytes of an option 121, and routes to be written, nine bytes
//! each.

use super::rng::Rng;

/// A width, often at an end of a byte.
fn width(rng: &mut Rng) -> u8 {
    match rng.below(4) {
        0 => rng.pick(&[0, 0, 1, 7, 8, 9, 15, 16, 17, 23, 24, 25, 31, 32, 32]),
        1 => rng.pick(&[0, 8, 16, 24, 32]),
        _ => rng.below(33) as u8,
    }
}

/// A width over 32, often just over it, or one whose low bits are no more than 32.
fn wide(rng: &mut Rng) -> u8 {
    let any = rng.between(33, 255) as u8;
    rng.pick(&[33, 33, 33, 34, 40, 64, 65, 88, 96, 128, 152, 160, 255, any])
}

fn address(rng: &mut Rng) -> [u8; 4] {
    let value = match rng.below(8) {
        0 => 0,
        1 => u32::MAX,
        2 => 1 << rng.below(32),
        _ => rng.next() as u32,
    };
    value.to_be_bytes()
}

fn route(rng: &mut Rng, width: u8, out: &mut Vec<u8>) {
    out.push(width);
    let destination = address(rng);
    out.extend(&destination[..usize::from(width).div_ceil(8)]);
    out.extend(address(rng));
}

/// Appends routes of at most `limit` bytes together; one at least, if there is room
/// for it.
pub fn good(rng: &mut Rng, limit: usize, out: &mut Vec<u8>) {
    let from = out.len();
    for _ in 0..rng.pick(&[1, 1, 2, 2, 3, 5, 30]) {
        let left = limit - (out.len() - from);
        let mut bits = width(rng);
        if left < 9 {
            bits = bits.min(8 * left.saturating_sub(5) as u8);
        }
        if left < 5 {
            return;
        }
        route(rng, bits, out);
    }
}

/// Appends routes that fill a length of 5 or more exactly; a shorter one is filled by
/// any bytes.
pub fn exact(rng: &mut Rng, length: usize, out: &mut Vec<u8>) {
    let mut left = length;
    while left >= 5 {
        // What is left behind this route is nothing, or enough for another.
        let sizes: Vec<usize> = (5..=9).filter(|&n| n == left || left >= n + 5).collect();
        let size = rng.pick(&sizes);
        let most = 8 * (size - 5);
        let least = if size == 5 { 0 } else { most - 7 };
        let bits = if rng.percent(40) { most } else { rng.between(least, most) };
        route(rng, bits as u8, out);
        left -= size;
    }
    rng.telling_bytes(left, out);
}

/// Takes bytes off the end of routes, or puts some there, so that most often the last
/// is cut short.
pub fn cut(rng: &mut Rng, from: usize, out: &mut Vec<u8>) {
    match rng.below(8) {
        0 => out.truncate(from + rng.below(5)),
        1 => {
            out.truncate(from);
            let n = rng.below(5);
            out.extend(vec![wide(rng); n]);
        }
        2 | 3 => {
            // Bytes that would be wide are no width here.
            let bits = width(rng);
            out.push(bits);
            let n = rng.below(usize::from(bits).div_ceil(8) + 4);
            out.extend(vec![rng.pick(&[0, 33, 255]); n]);
        }
        4 => out.push(width(rng)),
        _ => {
            let less = rng.between(1, 8).min(out.len() - from);
            out.truncate(out.len() - less);
        }
    }
}

/// Makes a route wide, most often: a later one, one behind all others, or the first.
pub fn widen(rng: &mut Rng, from: usize, out: &mut Vec<u8>) {
    let starts = starts(&out[from..]);
    match rng.below(4) {
        0 => out.push(wide(rng)),
        1 => {
            let bits = wide(rng);
            out.push(bits);
            let n = rng.below(12);
            rng.telling_bytes(n, out);
        }
        _ if starts.is_empty() => out.extend([wide(rng), 0, 0, 0, 0]),
        _ => out[from + rng.pick(&starts)] = wide(rng),
    }
}

/// Where the routes of right data begin.
fn starts(data: &[u8]) -> Vec<usize> {
    let mut met = Vec::new();
    let mut at = 0;
    while at < data.len() && data[at] <= 32 {
        met.push(at);
        at += 5 + usize::from(data[at]).div_ceil(8);
    }
    met
}

/// Puts the bytes of an option 121 into `out`.
pub fn bytes(rng: &mut Rng, out: &mut Vec<u8>) {
    out.clear();
    match rng.below(20) {
        0 => (),
        1 => {
            let n = rng.below(60);
            rng.telling_bytes(n, out);
        }
        2 => {
            let n = rng.between(5, 1404);
            exact(rng, n, out);
        }
        _ => good(rng, 4000, out),
    }
    match rng.below(10) {
        0 | 1 => cut(rng, 0, out),
        2 | 3 => widen(rng, 0, out),
        4 => {
            widen(rng, 0, out);
            cut(rng, 0, out);
        }
        _ => (),
    }
}

/// A place for a step: a route's, inside one, the end, past it, far past it.
pub fn place(rng: &mut Rng, length: usize) -> usize {
    match rng.below(10) {
        0 => usize::MAX - rng.below(12),
        1 => rng.next() as usize,
        2 => length,
        3 => length.saturating_sub(rng.below(10)),
        4 => (1 << 63) - rng.below(12),
        _ => rng.below(length + 12),
    }
}

/// The ones of the first bits.
fn mask(width: u8) -> u32 {
    (u64::MAX << (32 - u32::from(width.min(32)))) as u32
}

fn nine(rng: &mut Rng, out: &mut Vec<u8>) {
    let bits = width(rng);
    let destination = u32::from_be_bytes(address(rng)) & mask(bits);
    out.push(bits);
    out.extend(destination.to_be_bytes());
    out.extend(address(rng));
}

/// Puts routes of nine bytes each into `out`, in half of the cases with a fault or two.
pub fn given(rng: &mut Rng, out: &mut Vec<u8>) {
    out.clear();
    for _ in 0..rng.pick(&[0, 1, 1, 2, 2, 3, 4, 8, 30]) {
        nine(rng, out);
    }
    if rng.percent(2) {
        for _ in 0..rng.pick(&[113, 114, 200, 455, 456, 500]) {
            nine(rng, out);
        }
    }
    for _ in 0..rng.pick(&[0, 0, 0, 1, 1, 2]) {
        spoil(rng, out);
    }
}

fn spoil(rng: &mut Rng, out: &mut Vec<u8>) {
    let whole = out.len() / 9;
    let at = 9 * rng.below(whole.max(1));
    match rng.below(8) {
        0 | 1 if whole > 0 => out[at] = wide(rng),
        // One bit past the width, or the width less by one.
        2 | 3 if whole > 0 && out[at] < 32 => {
            let bit = rng.between(usize::from(out[at]), 31);
            out[at + 1 + bit / 8] |= 0x80 >> (bit % 8);
        }
        4 if whole > 0 && out[at] > 0 => out[at] -= 1,
        5 => {
            let n = rng.between(1, 8);
            let bits = width(rng);
            out.extend(vec![bits; n]);
        }
        6 if whole > 0 => {
            let byte = rng.below(out.len());
            out[byte] = rng.telling_byte();
        }
        _ => {
            let less = rng.between(1, 8).min(out.len());
            out.truncate(out.len() - less);
        }
    }
}

/// What routes of nine bytes take as data, faulty ones at most nine.
pub fn length(given: &[u8]) -> usize {
    given.chunks(9).map(|route| 5 + usize::from(route[0].min(32)).div_ceil(8)).sum()
}
