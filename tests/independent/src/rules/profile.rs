//! "The meter's reply profile" (request 13 of document 02).

use super::answers::{refuse, Codes, Content, Lookup, Refusal};
use super::reading;

const EVERY: Codes = Codes([u64::MAX; 4]);

/// "present and well-formed", every code known.
fn formed(message: &[u8], code: u8) -> Result<bool, Refusal> {
    Ok(match reading::lookup(message, EVERY, code)? {
        Lookup::Found(_, _, content) => matches!(content, Content::Number(..) | Content::Part(..)),
        Lookup::Absent => false,
    })
}

/// "25 for 53 absent, broken or of another type, at 0"; "message types 2
/// (offer) and 5 (acknowledge to a request)".
fn check_type(message: &[u8]) -> Result<(), Refusal> {
    match reading::lookup(message, EVERY, 53)? {
        Lookup::Found(_, _, Content::Number(_, 2 | 5)) => Ok(()),
        _ => refuse(25, 0),
    }
}

/// "The answer is yes, or the full set of rules broken, bits 0 to 7 being 51,
/// 54, 50, 55, 57, 1, 3 and that last order"; yes is the empty set.
pub fn profile(message: &[u8]) -> Result<u32, Refusal> {
    // The first of 1 and 3 in reading order, and which codes are there.
    let mut there = Codes([0; 4]);
    let mut first = 0;
    reading::walk(message, |met| {
        there.add(met.code);
        if first == 0 && (met.code == 1 || met.code == 3) {
            first = met.code;
        }
    })?;
    check_type(message)?;
    let broken = [
        !formed(message, 51)?,
        !formed(message, 54)?,
        there.has(50),
        there.has(55),
        there.has(57),
        !formed(message, 1)?,
        !formed(message, 3)?,
        first == 3 && there.has(1),
    ];
    Ok((0..8).filter(|&bit| broken[bit]).map(|bit| 1 << bit).sum())
}
