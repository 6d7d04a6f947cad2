//! "An index for the service" (request 07 of document 02).

use super::answers::{refuse, Codes, Field, Lookup, Refusal};
use super::reading::{self, Met, COOKIE, END, FILE, OPTIONS, PAD, SNAME};

/// "256 lent 16-bit numbers"
const COUNT: usize = 256;
const ABSENT: u16 = 0;
const IN_PIECES: u16 = 65535;

/// "18 for an index not of 256 numbers, with their count, after 10, 1, 2, 3"
fn check(message: &[u8], count: usize) -> Result<(), Refusal> {
    reading::check_frame(message)?;
    if count != COUNT {
        return refuse(18, count);
    }
    Ok(())
}

/// "entry c being the place of code c's byte, 0 if absent, 65,535 if it comes
/// in pieces"; "Building gives 1, 2, 3, 18, then the reader's." Like each call
/// that fills what is lent, "it answers how many bytes it gave".
pub fn build(message: &[u8], index: &mut [u16]) -> Result<usize, Refusal> {
    check(message, index.len())?;
    let mut entries = [ABSENT; COUNT];
    reading::walk(message, |met| {
        let entry = &mut entries[usize::from(met.code)];
        *entry = if *entry == ABSENT { met.place as u16 } else { IN_PIECES };
    })?;
    index.copy_from_slice(&entries);
    Ok(2 * COUNT)
}

/// "any other entry is used only if it lies in one of the three fields, that
/// byte is the code, and length and data lie in that field"
fn used(message: &[u8], code: u8, place: usize) -> Option<Met> {
    let (field, after) = if (SNAME..FILE).contains(&place) {
        (Field::Sname, FILE)
    } else if (FILE..COOKIE).contains(&place) {
        (Field::File, COOKIE)
    } else if (OPTIONS..message.len()).contains(&place) {
        (Field::Options, message.len())
    } else {
        return None;
    };
    let bytes = &message[..after];
    if bytes[place] != code {
        return None;
    }
    let length = usize::from(*bytes.get(place + 1)?);
    if place + 2 + length > after {
        return None;
    }
    Some(Met { code, field, place, length })
}

/// "With some other index: 0 says absent, 65,535 uses the plain walk"; "then,
/// in a lookup, 19 for an unusable entry, the entry being the place; then the
/// plain walk's where used".
pub fn lookup(message: &[u8], index: &[u16], known: Codes, code: u8) -> Result<Lookup, Refusal> {
    if code == PAD || code == END {
        return refuse(10, 0);
    }
    check(message, index.len())?;
    let entry = index[usize::from(code)];
    if entry == ABSENT {
        return Ok(Lookup::Absent);
    }
    if entry == IN_PIECES {
        return reading::lookup(message, known, code);
    }
    let Some(met) = used(message, code, usize::from(entry)) else {
        return refuse(19, usize::from(entry));
    };
    let content = reading::content(known, met, met.data(message));
    Ok(Lookup::Found(met.origin(), None, content))
}
