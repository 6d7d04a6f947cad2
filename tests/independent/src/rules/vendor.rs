//! "Inside vendor information" (request 05 of document 02): what option 43
//! holds, as in RFC 2132 section 8.4.

use super::answers::{refuse, Refusal};

const PAD: u8 = 0;
const END: u8 = 255;
const LONGEST_SHEET: usize = 4096;
/// "13 (over 255)"
const LONGEST_DATA: usize = 255;
/// "gives at most 255 bytes"
const MOST: usize = 255;

/// Meets the items in order. "code, length, data; 0 is a pad; 255 ends; the
/// bytes running out between items also ends."
fn walk(bytes: &[u8], mut meet: impl FnMut(u8, &[u8])) -> Result<(), Refusal> {
    let mut at = 0;
    while let Some(&code) = bytes.get(at) {
        if code == END {
            break;
        }
        if code == PAD {
            at += 1;
            continue;
        }
        let data = bytes[at + 1..].split_first();
        let Some(data) = data.and_then(|(&n, rest)| rest.get(..usize::from(n))) else {
            return refuse(17, at);
        };
        meet(code, data);
        at += 2 + data.len();
    }
    Ok(())
}

/// "The reader lists items as records into a lent sheet"; "the reader 17,
/// then 11".
pub fn records(bytes: &[u8], sheet: &mut [u8]) -> Result<usize, Refusal> {
    let mut size = 0;
    walk(bytes, |_, data| size += 3 + data.len())?;
    if size > sheet.len() {
        return refuse(11, sheet.len());
    }
    let mut at = 0;
    walk(bytes, |code, data| {
        sheet[at..at + 3].copy_from_slice(&[code, 0, data.len() as u8]);
        sheet[at + 3..at + 3 + data.len()].copy_from_slice(data);
        at += 3 + data.len();
    })?;
    Ok(size)
}

/// The record at a place of a sheet, if it is whole.
fn record(sheet: &[u8], at: usize) -> Option<(u8, &[u8])> {
    let head = sheet.get(at..at + 3)?;
    let length = usize::from(u16::from_be_bytes([head[1], head[2]]));
    Some((head[0], sheet.get(at + 3..at + 3 + length)?))
}

/// "the writer gives 16, record by record 12, 10 (tag 0 or 255), 13 (over
/// 255), then 11 with the output's length where the items exceed it or 255".
pub fn write(sheet: &[u8], output: &mut [u8]) -> Result<usize, Refusal> {
    if sheet.len() > LONGEST_SHEET {
        return refuse(16, sheet.len());
    }
    let mut size = 0;
    let mut at = 0;
    while at < sheet.len() {
        let Some((tag, data)) = record(sheet, at) else {
            return refuse(12, at);
        };
        if tag == PAD || tag == END {
            return refuse(10, at);
        }
        if data.len() > LONGEST_DATA {
            return refuse(13, at);
        }
        size += 2 + data.len();
        at += 3 + data.len();
    }
    if size > output.len() || size > MOST {
        return refuse(11, output.len());
    }
    let mut from = 0;
    let mut to = 0;
    while let Some((tag, data)) = record(sheet, from) {
        output[to..to + 2].copy_from_slice(&[tag, data.len() as u8]);
        output[to + 2..to + 2 + data.len()].copy_from_slice(data);
        from += 3 + data.len();
        to += 2 + data.len();
    }
    Ok(size)
}
