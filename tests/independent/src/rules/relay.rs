//! "Relay information" (request 09 of document 02): what option 82 holds, as in
//! RFC 3046.

use super::answers::{refuse, Listed, Part, Refusal};

const CIRCUIT_ID: u8 = 1;
const REMOTE_ID: u8 = 2;
const LONGEST_SHEET: usize = 4096;
/// "13 (over 255)", as in request 05.
const LONGEST_DATA: usize = 255;
/// "gives at most 255 bytes", as in request 05.
const MOST: usize = 255;

/// Meets the sub-options in order, each with its data's start: "sub-options of
/// code, length, data; no pads, no END; any sub-code, in order".
fn walk(bytes: &[u8], mut meet: impl FnMut(u8, usize, &[u8])) -> Result<(), Refusal> {
    // "no sub-options at all give 8 at 0"
    if bytes.is_empty() {
        return refuse(8, 0);
    }
    let mut at = 0;
    while let Some(&code) = bytes.get(at) {
        let data = bytes[at + 1..].split_first();
        let Some(data) = data.and_then(|(&n, rest)| rest.get(..usize::from(n))) else {
            // "8 at the sub-option's code stands for 17"
            return refuse(8, at);
        };
        meet(code, at + 2, data);
        at += 2 + data.len();
    }
    Ok(())
}

/// "a reader of sub-options into a lent sheet". As request 05's reader refuses 17,
/// then 11, so does this one 8, then 11.
pub fn records(bytes: &[u8], sheet: &mut [u8]) -> Result<Listed, Refusal> {
    let mut listed = Listed { size: 0, circuit: None, remote: None };
    walk(bytes, |code, start, data| {
        let part = Part { start, length: data.len() };
        match code {
            CIRCUIT_ID => drop(listed.circuit.get_or_insert(part)),
            REMOTE_ID => drop(listed.remote.get_or_insert(part)),
            _ => (),
        }
        listed.size += 3 + data.len();
    })?;
    let Some(mut room) = sheet.get_mut(..listed.size) else {
        return refuse(11, sheet.len());
    };
    walk(bytes, |code, _, data| {
        let (record, rest) = std::mem::take(&mut room).split_at_mut(3 + data.len());
        record[..3].copy_from_slice(&[code, 0, data.len() as u8]);
        record[3..].copy_from_slice(data);
        room = rest;
    })?;
    Ok(listed)
}

/// The first record of a sheet and what follows it, if it is whole.
fn split_record(sheet: &[u8]) -> Option<(u8, &[u8], &[u8])> {
    let [tag, high, low, rest @ ..] = sheet else {
        return None;
    };
    let length = usize::from(u16::from_be_bytes([*high, *low]));
    let (data, rest) = rest.split_at_checked(length)?;
    Some((*tag, data, rest))
}

/// "and a writer from one". As request 05's gives 16, record by record 12, 10, 13,
/// then 11 with the output's length where the items exceed it or 255, so does this
/// one, "save that no tag is a 10".
pub fn write(sheet: &[u8], output: &mut [u8]) -> Result<usize, Refusal> {
    if sheet.len() > LONGEST_SHEET {
        return refuse(16, sheet.len());
    }
    let mut size = 0;
    let mut rest = sheet;
    while !rest.is_empty() {
        let place = sheet.len() - rest.len();
        let Some((_, data, after)) = split_record(rest) else {
            return refuse(12, place);
        };
        if data.len() > LONGEST_DATA {
            return refuse(13, place);
        }
        size += 2 + data.len();
        rest = after;
    }
    // "no sub-options at all give 8 at 0"
    if size == 0 {
        return refuse(8, 0);
    }
    if size > output.len() || size > MOST {
        return refuse(11, output.len());
    }
    put(sheet, &mut output[..size]);
    Ok(size)
}

/// The records of a sheet that was judged, as sub-options.
fn put(mut sheet: &[u8], mut room: &mut [u8]) {
    while let Some((tag, data, rest)) = split_record(sheet) {
        let (sub_option, after) = room.split_at_mut(2 + data.len());
        sub_option[..2].copy_from_slice(&[tag, data.len() as u8]);
        sub_option[2..].copy_from_slice(data);
        room = after;
        sheet = rest;
    }
}
