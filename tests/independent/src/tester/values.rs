//! Data of options: good and bad lengths and values of every kind.

use super::rng::Rng;
use super::{relay, routes};
use independent::rules::answers::Kind;
use independent::rules::kinds::{kind_of, CLASSLESS_ROUTES, RELAY_INFORMATION};

/// The codes with a rule on their value, 52 apart.
const JUDGED: &[u8] = &[
    12, 14, 15, 17, 18, 19, 20, 22, 23, 25, 26, 27, 29, 30, 31, 33, 36, 37, 39, 40, 46, 53, 56, 57,
    64, 66, 67, 121, 121,
];

const COMMON: &[u8] = &[1, 2, 3, 6, 12, 25, 26, 33, 51, 53, 54, 57, 61, 67, 68];

/// How the data of an option is to be.
#[derive(Clone, Copy, PartialEq, Eq)]
pub enum Want {
    Good,
    BadLength,
    BadValue,
    Any,
}

pub fn want(rng: &mut Rng) -> Want {
    match rng.below(20) {
        0..=13 => Want::Good,
        14 | 15 => Want::BadLength,
        16 | 17 => Want::BadValue,
        _ => Want::Any,
    }
}

/// A code from 1 to 254, not 52.
pub fn code(rng: &mut Rng, want: Want) -> u8 {
    loop {
        let code = match (want, rng.below(4)) {
            (Want::Good | Want::BadLength | Want::Any, _) if rng.percent(6) => RELAY_INFORMATION,
            (Want::BadValue, _) => rng.pick(JUDGED),
            _ if rng.percent(6) => CLASSLESS_ROUTES,
            (_, 0) => rng.pick(COMMON),
            (Want::BadLength, _) | (_, 1 | 2) => rng.between(1, 76) as u8,
            _ => rng.between(1, 254) as u8,
        };
        if code != 52 {
            return code;
        }
    }
}

/// A code without a row.
pub fn rowless(rng: &mut Rng) -> u8 {
    loop {
        let code = rng.between(1, 254) as u8;
        if kind_of(code).is_none() {
            return code;
        }
    }
}

/// Appends data for a code, at most `limit` bytes.
pub fn data(rng: &mut Rng, code: u8, want: Want, limit: usize, out: &mut Vec<u8>) {
    let from = out.len();
    match want {
        Want::Good => good(rng, code, limit, out),
        Want::BadLength if kind_of(code) == Some(Kind::Relay) => {
            relay::good(rng, limit, out);
            relay::spoil(rng, from, out);
        }
        Want::BadLength if kind_of(code) == Some(Kind::Routes) => {
            routes::good(rng, limit, out);
            routes::cut(rng, from, out);
        }
        Want::BadLength => bad_length(rng, limit, out),
        Want::BadValue => bad_value(rng, code, limit, out),
        Want::Any => {
            let length = free_length(rng, 0, limit);
            rng.telling_bytes(length, out);
        }
    }
    out.truncate(from + limit);
}

/// Appends data of a length, good as far as the code's kind has such data.
pub fn long(rng: &mut Rng, code: u8, length: usize, out: &mut Vec<u8>) {
    let from = out.len();
    match kind_of(code) {
        Some(Kind::AddressList) => (0..length / 4).for_each(|_| word(rng, out)),
        Some(Kind::AddressPairs) => {
            for _ in 0..length / 8 {
                destination(rng, code, out);
                word(rng, out);
            }
        }
        Some(Kind::List16) => {
            let mut value = 68u16;
            for _ in 0..length / 2 {
                out.extend(value.to_be_bytes());
                value = value.saturating_add(rng.pick(&[0, 0, 1, 60]));
            }
        }
        Some(Kind::Text) => {
            text_bytes(rng, length, out);
            let zeros = if rng.percent(50) { rng.below(length + 1) } else { 0 };
            out[from + length - zeros..].fill(0);
        }
        Some(Kind::Relay) => relay::exact(rng, length, out),
        Some(Kind::Routes) => routes::exact(rng, length, out),
        _ => rng.telling_bytes(length, out),
    }
    if rng.percent(10) && out.len() > from {
        let at = from + rng.below(out.len() - from);
        out[at] = rng.telling_byte();
    }
    if rng.percent(5) {
        out.truncate(out.len().saturating_sub(1).max(from));
    }
}

/// A code whose data may be of any length, or of any multiple of its size.
pub fn unbounded(rng: &mut Rng) -> u8 {
    if rng.percent(12) {
        return RELAY_INFORMATION;
    }
    if rng.percent(12) {
        return CLASSLESS_ROUTES;
    }
    match rng.below(8) {
        0 => rng.pick(&[3, 6, 41, 65, 68, 76]),
        1 => rng.pick(&[21, 33]),
        2 => 25,
        3 => rng.pick(&[12, 15, 56, 66, 67]),
        4 | 5 => rng.pick(&[43, 47, 55, 60, 61]),
        _ => rowless(rng),
    }
}

/// Often short, at times as long as it can be.
fn free_length(rng: &mut Rng, least: usize, limit: usize) -> usize {
    let length = match rng.below(40) {
        0 => limit,
        1 => limit.saturating_sub(1),
        2 => rng.below(limit + 1),
        3 => 255,
        4..=12 => least,
        _ => least + rng.below(16),
    };
    length.min(limit)
}

/// A number of items that fit the limit, one at least.
fn items(rng: &mut Rng, size: usize, limit: usize) -> usize {
    let most = (limit / size).max(1);
    match rng.below(20) {
        0 => most,
        1 => rng.between(1, most),
        _ => rng.between(1, most.min(5)),
    }
}

fn good(rng: &mut Rng, code: u8, limit: usize, out: &mut Vec<u8>) {
    match kind_of(code) {
        Some(Kind::Address | Kind::Unsigned32 | Kind::Signed32) => word(rng, out),
        Some(Kind::AddressList) => {
            if code == 68 && rng.percent(30) {
                return;
            }
            for _ in 0..items(rng, 4, limit) {
                word(rng, out);
            }
        }
        Some(Kind::AddressPairs) => {
            for _ in 0..items(rng, 8, limit) {
                destination(rng, code, out);
                word(rng, out);
            }
        }
        Some(Kind::Flag) => out.push(rng.below(2) as u8),
        Some(Kind::OneByte) => out.push(good_octet(rng, code)),
        Some(Kind::Number16) => out.extend(good_16(rng, code).to_be_bytes()),
        Some(Kind::List16) => rising(rng, limit, out),
        Some(Kind::Text) => text(rng, limit, out),
        Some(Kind::Opaque) => {
            let length = free_length(rng, if code == 61 { 2 } else { 1 }, limit);
            rng.telling_bytes(length, out);
        }
        Some(Kind::Relay) => relay::good(rng, limit, out),
        Some(Kind::Routes) => routes::good(rng, limit, out),
        None => {
            let length = free_length(rng, 0, limit);
            rng.telling_bytes(length, out);
        }
    }
}

/// Four bytes, often at an end of a range.
fn word(rng: &mut Rng, out: &mut Vec<u8>) {
    let edges = [0, 1, 255, 256, 0x7fff_ffff, 0x8000_0000, 0x8000_0001, 0xffff_fffe, 0xffff_ffff];
    let value = if rng.percent(40) { rng.pick(&edges) } else { rng.next() as u32 };
    out.extend(value.to_be_bytes());
}

/// For 33 a destination that just is not 0.0.0.0, often.
fn destination(rng: &mut Rng, code: u8, out: &mut Vec<u8>) {
    if code != 33 {
        return word(rng, out);
    }
    let mut bytes = (rng.next() as u32).to_be_bytes();
    if rng.percent(60) {
        bytes = [0; 4];
    }
    if bytes == [0; 4] {
        bytes[rng.below(4)] = rng.between(1, 255) as u8;
    }
    out.extend(bytes);
}

fn good_octet(rng: &mut Rng, code: u8) -> u8 {
    match code {
        23 | 37 => {
            let any = rng.between(1, 255) as u8;
            rng.pick(&[1, 2, 254, 255, any])
        }
        46 => rng.pick(&[1, 2, 4, 8]),
        52 => rng.pick(&[1, 2, 3]),
        _ => rng.between(1, 8) as u8,
    }
}

fn good_16(rng: &mut Rng, code: u8) -> u16 {
    let least = match code {
        22 | 57 => 576,
        26 => 68,
        _ => 0,
    };
    match rng.below(4) {
        0 => least,
        1 => least + 1,
        2 => 0xffff,
        _ => rng.between(usize::from(least), 0xffff) as u16,
    }
}

fn rising(rng: &mut Rng, limit: usize, out: &mut Vec<u8>) {
    let mut value = rng.pick(&[68, 68, 69, 255, 256, 1006]);
    for _ in 0..items(rng, 2, limit) {
        out.extend((value as u16).to_be_bytes());
        value = (value + rng.pick(&[0, 0, 1, 188, 256, 1000])).min(0xffff);
    }
}

/// Bytes from 1 to 127, often at an end of that range.
fn text_bytes(rng: &mut Rng, length: usize, out: &mut Vec<u8>) {
    for _ in 0..length {
        let any = rng.between(1, 127) as u8;
        out.push(if rng.percent(40) { rng.pick(&[1, 31, 32, 126, 127]) } else { any });
    }
}

/// Zeros at the end, or alone.
fn text(rng: &mut Rng, limit: usize, out: &mut Vec<u8>) {
    let length = free_length(rng, 1, limit);
    text_bytes(rng, length, out);
    let zeros = match rng.below(8) {
        0 => length,
        1 => length.saturating_sub(1),
        2..=4 => rng.below(length + 1),
        _ => 0,
    };
    let end = out.len();
    out[end - zeros..].fill(0);
}

/// A byte over 127 in some place, or a zero with a byte behind it.
fn spoil_text(rng: &mut Rng, from: usize, out: &mut [u8]) {
    let (length, end) = (out.len() - from, out.len());
    let any = rng.below(length);
    let at = from + rng.pick(&[0, length / 2, any, length - 1]);
    if rng.percent(60) || at + 1 == end {
        out[at] = rng.pick(&[128, 128, 129, 200, 254, 255]);
    } else {
        out[at] = 0;
        out[rng.between(at + 1, end - 1)] = 97;
    }
}

fn bad_length(rng: &mut Rng, limit: usize, out: &mut Vec<u8>) {
    let lengths = [0, 0, 0, 0, 1, 1, 2, 3, 3, 4, 5, 6, 7, 8, 9, 12, 15, 17, 253, 254, 255];
    let length = rng.pick(&lengths).min(limit);
    rng.telling_bytes(length, out);
}

fn bad_value(rng: &mut Rng, code: u8, limit: usize, out: &mut Vec<u8>) {
    let any = rng.byte();
    match kind_of(code) {
        Some(Kind::Flag) => out.push(rng.pick(&[2, 3, 128, 254, 255])),
        Some(Kind::OneByte) => out.push(match code {
            23 | 37 => 0,
            46 => rng.pick(&[0, 3, 5, 6, 7, 9, 10, 12, 16, 255]),
            52 => rng.pick(&[0, 4, 5, 255, any]),
            _ => rng.pick(&[0, 9, 10, 255, any]),
        }),
        Some(Kind::Number16) => {
            let value: u16 = match code {
                22 | 57 => rng.pick(&[0, 1, 64, 68, 255, 256, 512, 574, 575]),
                _ => rng.pick(&[0, 1, 66, 67]),
            };
            out.extend(value.to_be_bytes());
        }
        Some(Kind::List16) => {
            let from = out.len();
            rising(rng, limit, out);
            spoil_list(rng, from, out);
        }
        Some(Kind::Text) => {
            let from = out.len();
            text(rng, limit, out);
            if out.len() > from {
                spoil_text(rng, from, out);
            }
        }
        Some(Kind::Routes) => {
            let from = out.len();
            routes::good(rng, limit, out);
            routes::widen(rng, from, out);
        }
        Some(Kind::AddressPairs) => {
            let from = out.len();
            good(rng, code, limit, out);
            let pair = rng.below((out.len() - from) / 8);
            out[from + 8 * pair..][..4].fill(0);
        }
        _ => good(rng, code, limit, out),
    }
}

/// A number under 68 in some place, or a step down at the end.
fn spoil_list(rng: &mut Rng, from: usize, out: &mut Vec<u8>) {
    let last = u16::from_be_bytes([out[out.len() - 2], out[out.len() - 1]]);
    if rng.percent(50) {
        let item = rng.below((out.len() - from) / 2);
        let value: u16 = rng.pick(&[0, 1, 66, 67]);
        out[from + 2 * item..][..2].copy_from_slice(&value.to_be_bytes());
    } else {
        out.extend((last - 1).to_be_bytes());
    }
}
