//! Vendor information: the bytes of an option 43, and sheets of its items.

use super::rng::Rng;

const PAD: u8 = 0;
const END: u8 = 255;

fn code(rng: &mut Rng) -> u8 {
    match rng.below(8) {
        0 => 52,
        1 => rng.pick(&[1, 1, 2, 254]),
        _ => rng.between(1, 254) as u8,
    }
}

fn length(rng: &mut Rng) -> usize {
    match rng.below(12) {
        0 | 1 => 0,
        2..=9 => rng.between(1, 12),
        10 => rng.below(256),
        _ => rng.pick(&[253, 254, 255]),
    }
}

/// Puts the bytes of an option 43 into `out`.
pub fn bytes(rng: &mut Rng, out: &mut Vec<u8>) {
    out.clear();
    for _ in 0..rng.pick(&[0, 1, 1, 2, 3, 5, 8, 30]) {
        if rng.percent(15) {
            let pads = rng.between(1, 3);
            out.resize(out.len() + pads, PAD);
        }
        let n = length(rng);
        out.extend([code(rng), n as u8]);
        rng.telling_bytes(n, out);
    }
    if rng.percent(20) {
        out.push(PAD);
    }
    if rng.percent(40) {
        out.push(END);
        let n = rng.below(6);
        rng.telling_bytes(n, out);
    }
    match rng.below(10) {
        // An item that runs past, by its length byte or its data.
        0 => out.push(code(rng)),
        1 => {
            let n = rng.between(1, 255) as u8;
            out.extend([code(rng), n]);
            let some = rng.below(usize::from(n));
            rng.telling_bytes(some, out);
        }
        2 if !out.is_empty() => {
            let less = rng.between(1, out.len().min(4));
            out.truncate(out.len() - less);
        }
        3 => {
            out.clear();
            let n = rng.below(60);
            rng.telling_bytes(n, out);
        }
        _ => (),
    }
}

fn record(rng: &mut Rng, tag: u8, n: usize, out: &mut Vec<u8>) {
    out.push(tag);
    out.extend((n as u16).to_be_bytes());
    rng.telling_bytes(n, out);
}

/// Puts a sheet of items into `out`.
pub fn sheet(rng: &mut Rng, out: &mut Vec<u8>) {
    out.clear();
    if rng.percent(4) {
        at_limit(rng, out);
        return;
    }
    for _ in 0..rng.pick(&[0, 1, 1, 2, 3, 5, 8, 30]) {
        let tag = match rng.below(40) {
            0 => PAD,
            1 => END,
            _ => code(rng),
        };
        let n = match rng.below(40) {
            0 => rng.pick(&[256, 256, 257, 300, 1024, 1025]),
            _ => length(rng),
        };
        record(rng, tag, n, out);
    }
    if rng.percent(25) {
        // About as much as 255 bytes hold.
        let taken = items(out);
        let most = 253usize.saturating_sub(taken);
        let n = most + rng.below(3);
        if taken < 253 && n <= 255 {
            let tag = code(rng);
            record(rng, tag, n, out);
        }
    }
    match rng.below(12) {
        0 => out.push(rng.telling_byte()),
        1 => {
            let tag = rng.telling_byte();
            out.extend([tag, rng.pick(&[0, 0, 1])]);
        }
        2 if !out.is_empty() => {
            let less = rng.between(1, out.len().min(8));
            out.truncate(out.len() - less);
        }
        3 if !out.is_empty() => {
            let at = rng.below(out.len());
            out[at] = rng.telling_byte();
        }
        _ => (),
    }
}

/// A sheet of 4,096 bytes or near, good but for what its items take, or not.
fn at_limit(rng: &mut Rng, out: &mut Vec<u8>) {
    let size = rng.pick(&[4095, 4096, 4096, 4097, 4097, 4098]);
    while out.len() + 3 <= size {
        let left = size - out.len() - 3;
        let n = match left {
            0..=255 => left,
            256..=258 => left - 3,
            _ => 255,
        };
        let tag = code(rng);
        record(rng, tag, n, out);
    }
    if rng.percent(30) {
        out[0] = rng.pick(&[PAD, END]);
    }
}

/// What the records of a sheet take as items, by their heads.
pub fn items(sheet: &[u8]) -> usize {
    let (mut at, mut size) = (0, 0);
    while at + 3 <= sheet.len() {
        let n = usize::from(u16::from_be_bytes([sheet[at + 1], sheet[at + 2]]));
        size += 2 + n;
        at += 3 + n;
    }
    size
}
