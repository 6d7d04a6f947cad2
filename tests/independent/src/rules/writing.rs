//! "The settings sheet and the writer".

use super::answers::{refuse, Codes, Refusal};
use super::kinds;
use super::reading::{COOKIE, COOKIE_BYTES, END, FILE, LONGEST, OPTIONS, OVERLOAD, PAD, SNAME};

pub const LONGEST_SHEET: usize = 4096;
/// "13 is for data over 1,024 bytes"
pub const LONGEST_RECORD: usize = 1024;
/// A length byte counts no more.
const LONGEST_PIECE: usize = 255;

/// Where records begin in options after option 52.
const OVERLOADED: usize = OPTIONS + 3;

/// "one-byte tag (the code), two-byte length, data"
struct Record<'s> {
    tag: u8,
    data: &'s [u8],
}

/// The first record of a sheet and the rest, or nothing when "record head or
/// data" is "beyond the sheet".
fn split_record(sheet: &[u8]) -> Option<(Record<'_>, &[u8])> {
    let [tag, high, low, rest @ ..] = sheet else {
        return None;
    };
    let length = usize::from(u16::from_be_bytes([*high, *low]));
    let (data, rest) = rest.split_at_checked(length)?;
    Some((Record { tag: *tag, data }, rest))
}

/// What is left of a sheet to be put: the records from here on, but for the data
/// bytes of the first that have been put.
#[derive(Clone, Copy)]
struct Left<'s> {
    records: &'s [u8],
    put: usize,
}

/// The next piece and what is left then: "The writer splits a record over 255
/// bytes into pieces of 255 and a last of 1 to 255, in order".
fn split_piece(left: Left<'_>) -> Option<(Record<'_>, Left<'_>)> {
    let (Record { tag, data }, rest) = split_record(left.records)?;
    let data = &data[left.put..];
    if data.len() > LONGEST_PIECE {
        let put = left.put + LONGEST_PIECE;
        return Some((Record { tag, data: &data[..LONGEST_PIECE] }, Left { put, ..left }));
    }
    Some((Record { tag, data }, Left { records: rest, put: 0 }))
}

/// How many pieces a record of this length has.
fn piece_count(length: usize) -> usize {
    length.div_ceil(LONGEST_PIECE).max(1)
}

/// Writes the sheet into the buffer by the first permitted plan that fits,
/// and gives the plan's number.
pub fn write(sheet: &[u8], buffer: &mut [u8], permission: u8) -> Result<u8, Refusal> {
    check_sizes(sheet, buffer, permission)?;
    let size = judge_sheet(sheet)?;
    let Some(plan) = choose(sheet, size, buffer.len(), permission) else {
        return refuse(11, buffer.len());
    };
    put_message(sheet, buffer, plan);
    Ok(plan)
}

/// "Writing: 1, 2, 15, 16"
fn check_sizes(sheet: &[u8], buffer: &[u8], permission: u8) -> Result<(), Refusal> {
    let length = buffer.len();
    if length < OPTIONS {
        return refuse(1, length);
    }
    if length > LONGEST {
        return refuse(2, length);
    }
    if permission > 3 {
        return refuse(15, 0);
    }
    if sheet.len() > LONGEST_SHEET {
        return refuse(16, sheet.len());
    }
    Ok(())
}

/// "then the first faulty record, [...] then 14". Gives what the sheet's
/// options take: "One option takes 2 bytes more than its data."
fn judge_sheet(sheet: &[u8]) -> Result<usize, Refusal> {
    let mut size = 0;
    let mut tags = Codes::default();
    let mut tag_3 = None;
    let mut tag_3_before_1 = None;
    let mut tag_82 = None;
    let mut tag_82_not_last = None;
    let mut rest = sheet;
    while !rest.is_empty() {
        let place = sheet.len() - rest.len();
        let record;
        (record, rest) = judge_record(rest, place, &mut tags)?;
        tag_82_not_last = tag_82;
        match record.tag {
            1 => tag_3_before_1 = tag_3,
            3 => tag_3 = Some(place),
            kinds::RELAY_INFORMATION => tag_82 = Some(place),
            _ => (),
        }
        size += record.data.len() + 2 * piece_count(record.data.len());
    }
    // "14: tag 3 stands before tag 1"
    if let Some(place) = tag_3_before_1 {
        return refuse(14, place);
    }
    // "23 for 82 not last, at its tag, after 14"
    match tag_82_not_last {
        Some(place) => refuse(23, place),
        None => Ok(size),
    }
}

/// "at one record 12, 10, 13, 7, 8, 9"
fn judge_record<'s>(
    sheet: &'s [u8],
    place: usize,
    tags: &mut Codes,
) -> Result<(Record<'s>, &'s [u8]), Refusal> {
    let Some((record, rest)) = split_record(sheet) else {
        return refuse(12, place);
    };
    if matches!(record.tag, PAD | OVERLOAD | END) {
        return refuse(10, place);
    }
    if record.data.len() > LONGEST_RECORD {
        return refuse(13, place);
    }
    if !tags.add(record.tag) {
        return refuse(7, place);
    }
    if let Some(kind) = kinds::kind_of(record.tag) {
        if let Err(fault) = kinds::judge(kind, record.tag, record.data) {
            return refuse(fault.number(), place);
        }
    }
    Ok((record, rest))
}

/// "the permitted ones are 0; 0, 1; 0, 2; or 0, 1, 2, 3, tried rising": those
/// after 0.
fn permitted_after_0(permission: u8) -> &'static [u8] {
    match permission {
        0 => &[],
        1 => &[1],
        2 => &[2],
        _ => &[1, 2, 3],
    }
}

/// "The first that fits is used, and its number is the answer." The options of
/// all records take `size` bytes.
fn choose(sheet: &[u8], size: usize, length: usize, permission: u8) -> Option<u8> {
    // "Plan 0 uses the options field alone."
    if OPTIONS + size < length {
        return Some(0);
    }
    // Options begin alike in the others, and END has to fit there.
    if OVERLOADED >= length {
        return None;
    }
    let left = fill(Left { records: sheet, put: 0 }, length - OVERLOADED, |_, _| ()).0;
    let mut plans = permitted_after_0(permission).iter().copied();
    plans.find(|&plan| takes(plan, left))
}

/// Whether the plan's file and sname take what is left by options.
fn takes(plan: u8, mut left: Left) -> bool {
    if plan & 1 != 0 {
        left = fill(left, COOKIE - FILE, |_, _| ()).0;
    }
    if plan & 2 != 0 {
        left = fill(left, FILE - SNAME, |_, _| ()).0;
    }
    left.records.is_empty()
}

/// "Records go in sheet order into the current field while each fits with one
/// byte kept for END", and so do the pieces of a record, "each whole in a field".
/// Gives each piece to `put` with its place in the room; gives what is left, and
/// the room used.
fn fill<'s>(
    sheet: Left<'s>,
    room: usize,
    mut put: impl FnMut(usize, &Record),
) -> (Left<'s>, usize) {
    let mut left = sheet;
    let mut used = 0;
    while let Some((piece, rest)) = split_piece(left) {
        // "One option takes 2 bytes more than its data."
        let size = 2 + piece.data.len();
        if used + size + 1 > room {
            break;
        }
        put(used, &piece);
        used += size;
        left = rest;
    }
    (left, used)
}

/// Writes by a plan that fits. "The header and each unused one of file and
/// sname stay as they were."
fn put_message(sheet: &[u8], buffer: &mut [u8], plan: u8) {
    // "The cookie is written."
    buffer[COOKIE..OPTIONS].copy_from_slice(&COOKIE_BYTES);
    let sheet = Left { records: sheet, put: 0 };
    if plan == 0 {
        put_field(sheet, &mut buffer[OPTIONS..]);
        return;
    }
    // "Any other puts option 52 first there (three bytes)."
    buffer[OPTIONS..OVERLOADED].copy_from_slice(&[OVERLOAD, 1, plan]);
    let mut left = put_field(sheet, &mut buffer[OVERLOADED..]);
    if plan & 1 != 0 {
        left = put_field(left, &mut buffer[FILE..COOKIE]);
    }
    if plan & 2 != 0 {
        put_field(left, &mut buffer[SNAME..FILE]);
    }
}

/// Fills a field's room; gives what is left. "Every field of the plan gets its
/// END; the rest of that field becomes zero."
fn put_field<'s>(sheet: Left<'s>, room: &mut [u8]) -> Left<'s> {
    let (left, used) = fill(sheet, room.len(), |place, piece| {
        put_option(piece, &mut room[place..]);
    });
    room[used] = END;
    room[used + 1..].fill(0);
    left
}

fn put_option(piece: &Record, room: &mut [u8]) {
    let (option, _) = room.split_at_mut(2 + piece.data.len());
    option[0] = piece.tag;
    option[1] = piece.data.len() as u8;
    option[2..].copy_from_slice(piece.data);
}
