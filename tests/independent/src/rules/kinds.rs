//! "The kinds, by code".

use super::answers::Kind;

/// What is wrong with an option's data.
#[derive(Clone, Copy, PartialEq, Eq, Debug)]
pub enum Fault {
    /// "8: length breaks the kind"
    Length,
    /// "9: value breaks the kind"
    Value,
}

impl Fault {
    pub fn number(self) -> u32 {
        match self {
            Fault::Length => 8,
            Fault::Value => 9,
        }
    }
}

/// "option 82 of RFC 3046"
pub const RELAY_INFORMATION: u8 = 82;

/// "RFC 3442, option 121"
pub const CLASSLESS_ROUTES: u8 = 121;

/// "a width byte 0 to 32"
const WIDEST: u8 = 32;

/// The row of a code.
pub fn kind_of(code: u8) -> Option<Kind> {
    ROWS[usize::from(code)]
}

static ROWS: [Option<Kind>; 256] = {
    let mut rows = [None; 256];
    let mut code = 0;
    while code < 256 {
        rows[code] = row(code as u8);
        code += 1;
    }
    rows
};

/// "Codes 62, 63 and 77 to 254 have no row." Request 09: "Give it a row".
/// Request 14 gives 121 a kind.
/// Request 10 retires 8, 10 and 34.
const fn row(code: u8) -> Option<Kind> {
    match code {
        1 | 16 | 28 | 32 | 50 | 54 => Some(Kind::Address),
        3..=7 | 9 | 11 | 41 | 42 | 44 | 45 | 48 | 49 | 65 | 68 | 69..=76 => Some(Kind::AddressList),
        21 | 33 => Some(Kind::AddressPairs),
        19 | 20 | 27 | 29 | 30 | 31 | 36 | 39 => Some(Kind::Flag),
        23 | 37 | 46 | 52 | 53 => Some(Kind::OneByte),
        13 | 22 | 26 | 57 => Some(Kind::Number16),
        25 => Some(Kind::List16),
        24 | 35 | 38 | 51 | 58 | 59 => Some(Kind::Unsigned32),
        2 => Some(Kind::Signed32),
        12 | 14 | 15 | 17 | 18 | 40 | 56 | 64 | 66 | 67 => Some(Kind::Text),
        43 | 47 | 55 | 60 | 61 => Some(Kind::Opaque),
        RELAY_INFORMATION => Some(Kind::Relay),
        CLASSLESS_ROUTES => Some(Kind::Routes),
        _ => None,
    }
}

/// Holds data to its kind: "8 first".
pub fn judge(kind: Kind, code: u8, data: &[u8]) -> Result<(), Fault> {
    if !length_fits(kind, code, data.len()) {
        return Err(Fault::Length);
    }
    if kind == Kind::Relay && !sub_options_fill(data) {
        return Err(Fault::Length);
    }
    if kind == Kind::Routes {
        return judge_routes(data);
    }
    if !value_fits(kind, code, data) {
        return Err(Fault::Value);
    }
    Ok(())
}

fn length_fits(kind: Kind, code: u8, length: usize) -> bool {
    match kind {
        Kind::Address | Kind::Unsigned32 | Kind::Signed32 => length == 4,
        // "68 may also have length 0"
        Kind::AddressList => length.is_multiple_of(4) && (length >= 4 || code == 68),
        Kind::AddressPairs => length.is_multiple_of(8) && length >= 8,
        Kind::Flag | Kind::OneByte => length == 1,
        Kind::Number16 => length == 2,
        Kind::List16 => length.is_multiple_of(2) && length >= 2,
        Kind::Text => length >= 1,
        // "61: length 2 or more"
        Kind::Opaque => length >= if code == 61 { 2 } else { 1 },
        // 8 "where sub-options [...] are under 2 bytes"
        Kind::Relay => length >= 2,
        // "length at least 5"
        Kind::Routes => length >= 5,
    }
}

/// Request 14: "the earlier route first, 9 for a width over 32 and 8 for a route cut
/// short"
fn judge_routes(data: &[u8]) -> Result<(), Fault> {
    let mut rest = data;
    while let [width, after @ ..] = rest {
        if *width > WIDEST {
            return Err(Fault::Value);
        }
        // "the width's whole and begun bytes of destination, four bytes of router"
        let Some(left) = after.get(usize::from(*width).div_ceil(8) + 4..) else {
            return Err(Fault::Length);
        };
        rest = left;
    }
    Ok(())
}

/// Request 09: 8 "where sub-options don't fill the data exactly"; "sub-options of
/// code, length, data; no pads, no END; any sub-code"
fn sub_options_fill(data: &[u8]) -> bool {
    let mut rest = data;
    while let [_, length, after @ ..] = rest {
        let Some(left) = after.get(usize::from(*length)..) else {
            return false;
        };
        rest = left;
    }
    rest.is_empty()
}

/// The data's length fits the kind.
fn value_fits(kind: Kind, code: u8, data: &[u8]) -> bool {
    match kind {
        // "in 33 no destination (first of a pair) is 0.0.0.0"
        Kind::AddressPairs => code != 33 || data.chunks_exact(8).all(|pair| pair[..4] != [0; 4]),
        Kind::Flag => data[0] <= 1,
        Kind::OneByte => octet_fits(code, data[0]),
        Kind::Number16 => number16(data) >= least16(code),
        Kind::List16 => rises_from_68(data),
        Kind::Text => data[..text_length(data)].iter().all(|&byte| is_text(byte)),
        _ => true,
    }
}

fn octet_fits(code: u8, value: u8) -> bool {
    match code {
        23 | 37 => value >= 1,
        46 => matches!(value, 1 | 2 | 4 | 8),
        52 => overload_fits(value),
        _ => matches!(value, 1..=8),
    }
}

/// "52: 1 to 3"
pub fn overload_fits(value: u8) -> bool {
    matches!(value, 1..=3)
}

fn least16(code: u8) -> u16 {
    match code {
        22 | 57 => 576,
        26 => 68,
        _ => 0,
    }
}

/// "each at least 68, never falling"
fn rises_from_68(data: &[u8]) -> bool {
    let mut last = 68;
    for pair in data.chunks_exact(2) {
        let value = number16(pair);
        if value < last {
            return false;
        }
        last = value;
    }
    true
}

/// Request 03: "Trailing zeros dropped, each byte of a text shall be 1 to 127"
fn is_text(byte: u8) -> bool {
    matches!(byte, 1..=127)
}

/// "Multi-byte numbers have the high byte first."
fn number16(data: &[u8]) -> u16 {
    u16::from_be_bytes([data[0], data[1]])
}

fn number32(data: &[u8]) -> u32 {
    u32::from_be_bytes([data[0], data[1], data[2], data[3]])
}

/// The number of data that fits its kind, for the kinds that answer one: "one
/// address as unsigned 32-bit, flag, one byte, 16-bit, both 32-bit kinds".
pub fn number(kind: Kind, data: &[u8]) -> Option<i64> {
    match kind {
        Kind::Address | Kind::Unsigned32 => Some(i64::from(number32(data))),
        Kind::Flag | Kind::OneByte => Some(i64::from(data[0])),
        Kind::Number16 => Some(i64::from(number16(data))),
        // "two's complement"
        Kind::Signed32 => Some(i64::from(number32(data) as i32)),
        _ => None,
    }
}

/// "Trailing zero bytes are left off a text; a text of zeros alone has length 0."
pub fn text_length(data: &[u8]) -> usize {
    data.iter().rposition(|&byte| byte != 0).map_or(0, |last| last + 1)
}
