//! Grouped files and old sheets, right ones and wrong ones.

use super::rng::Rng;

const NAMES: [&[u8]; 6] = [b"", b"a", b"b", b"ab", b"meter", b"metez"];

/// A class: most often one that some group may have.
pub fn class(rng: &mut Rng, out: &mut Vec<u8>) {
    out.clear();
    match rng.below(20) {
        0 => rng.telling_bytes(300, out),
        1 => out.extend_from_slice(&[b'n'; 255]),
        _ => out.extend_from_slice(rng.pick(&NAMES)),
    }
}

fn record(rng: &mut Rng, out: &mut Vec<u8>) {
    let length = match rng.below(30) {
        0 => rng.between(250, 600),
        1..=9 => 0,
        _ => rng.below(12),
    };
    out.push(if rng.percent(2) { rng.pick(&[52, 255]) } else { rng.between(1, 254) as u8 });
    out.extend_from_slice(&(length as u16).to_be_bytes());
    rng.telling_bytes(length, out);
}

/// A group of so many depths at most, some of its lengths wrong now and then.
fn group(rng: &mut Rng, depth: usize, out: &mut Vec<u8>) {
    let tag = out.len();
    out.extend_from_slice(&[0, 0, 0]);
    let long = [b'n'; 255];
    let name: &[u8] = if rng.percent(2) { &long } else { rng.pick(&NAMES) };
    let name = if rng.percent(50) { b"" } else { name };
    out.push(name.len() as u8);
    out.extend_from_slice(name);
    for _ in 0..rng.below(5) {
        if depth > 1 && rng.percent(45) {
            group(rng, depth - 1, out);
        } else {
            record(rng, out);
        }
    }
    let mut length = out.len() - tag - 3;
    if rng.percent(3) {
        length = (length + rng.below(4)).saturating_sub(rng.below(4));
    }
    let [high, low] = (length as u16).to_be_bytes();
    out[tag + 1] = high;
    out[tag + 2] = low;
}

/// A file, or bytes that are none.
pub fn file(rng: &mut Rng, out: &mut Vec<u8>) {
    out.clear();
    match rng.below(20) {
        0 => {
            let length = rng.below(12);
            rng.telling_bytes(length, out);
        }
        1 => long(rng, out),
        2 => plain(rng, out),
        _ => {
            let depth = rng.between(1, 5);
            group(rng, depth, out);
        }
    }
    match rng.below(20) {
        0 => out.push(rng.telling_byte()),
        1 => out.truncate(rng.below(out.len() + 1)),
        2 if !out.is_empty() => {
            let at = rng.below(out.len());
            out[at] = rng.telling_byte();
        }
        _ => (),
    }
}

/// One nameless group of records.
fn plain(rng: &mut Rng, out: &mut Vec<u8>) {
    out.extend_from_slice(&[0, 0, 0, 0]);
    for _ in 0..rng.below(6) {
        record(rng, out);
    }
    let [high, low] = ((out.len() - 3) as u16).to_be_bytes();
    out[1] = high;
    out[2] = low;
}

/// About as long as a file may be.
fn long(rng: &mut Rng, out: &mut Vec<u8>) {
    let length = rng.between(4085, 4096);
    out.extend_from_slice(&[0, 0, 0, 0, 43]);
    out.extend_from_slice(&(length as u16).to_be_bytes());
    out.resize(out.len() + length, 7);
    let [high, low] = ((out.len() - 3) as u16).to_be_bytes();
    out[1] = high;
    out[2] = low;
}

/// An old sheet that is to move.
pub fn sheet(rng: &mut Rng, out: &mut Vec<u8>) {
    file(rng, out);
    if rng.percent(80) && out.len() >= 4 {
        out.drain(..4);
    }
}
