//! Replies: messages of the codes that the reply profile names, each whole,
//! broken, in pieces or not there, in any order and in every field.

use super::rng::Rng;
use independent::rules::reading::{COOKIE, COOKIE_BYTES, END, FILE, OPTIONS, OVERLOAD, SNAME};

/// Puts one reply into `out`.
pub fn reply(rng: &mut Rng, out: &mut Vec<u8>) {
    let overload = rng.pick(&[0, 0, 1, 2, 3]);
    let active: &[usize] = [&[0][..], &[0, 1], &[0, 2], &[0, 1, 2]][overload];
    let mut fields = [Vec::new(), Vec::new(), Vec::new()];
    if overload > 0 {
        fields[0].extend([OVERLOAD, 1, overload as u8]);
    }
    let mut options = named(rng);
    for i in (1..options.len()).rev() {
        options.swap(i, rng.below(i + 1));
    }
    for option in options {
        let field = rng.pick(active);
        // sname has the least room: 64 bytes with its END
        if fields[field].len() + option.len() < 64 || field == 0 {
            fields[field].extend(option);
        }
    }
    out.clear();
    out.resize(OPTIONS, 0);
    out[COOKIE..].copy_from_slice(&COOKIE_BYTES);
    for (at, field) in [(FILE, &fields[1]), (SNAME, &fields[2])] {
        out[at..at + field.len()].copy_from_slice(field);
        out[at + field.len()] = END;
    }
    out.extend(&fields[0]);
    out.push(END);
}

/// The options, or pieces of them, that a reply is made of.
fn named(rng: &mut Rng) -> Vec<Vec<u8>> {
    let mut options = Vec::new();
    if rng.percent(92) {
        let kind = rng.pick(&[2, 5, 2, 5, 2, 5, 2, 5, 1, 3, 4, 6, 9]);
        let data = if rng.percent(4) { vec![kind, kind] } else { vec![kind] };
        put(rng, 53, &data, &mut options);
    }
    for code in [51, 54, 1, 3] {
        if rng.percent(85) {
            let length = if rng.percent(85) { 4 } else { rng.pick(&[0, 1, 3, 5, 6, 8, 12]) };
            let mut data = vec![0; length];
            rng.fill(&mut data);
            put(rng, code, &data, &mut options);
        }
    }
    for (code, data) in [(50, &[10, 0, 0, 5][..]), (55, &[1, 3]), (57, &[2, 64])] {
        if rng.percent(12) {
            let kept = rng.pick(&[data.len(), data.len(), 0]);
            put(rng, code, &data[..kept], &mut options);
        }
    }
    options
}

/// One option, or two pieces of it.
fn put(rng: &mut Rng, code: u8, data: &[u8], options: &mut Vec<Vec<u8>>) {
    let (one, other) = data.split_at(rng.below(data.len() + 1));
    let pieces = if rng.percent(12) { vec![one, other] } else { vec![data] };
    for piece in pieces {
        options.push([&[code, piece.len() as u8], piece].concat());
    }
}
