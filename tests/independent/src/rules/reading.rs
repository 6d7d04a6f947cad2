//! "What is asked of a message".

use super::answers::{
    refuse, Codes, Content, Field, Kind, Lookup, Origin, Part, Refusal, RollCall, Several, EMPTY,
};
use super::kinds;

pub const SNAME: usize = 44;
pub const FILE: usize = 108;
pub const COOKIE: usize = 236;
pub const OPTIONS: usize = 240;
pub const LONGEST: usize = 1472;
pub const COOKIE_BYTES: [u8; 4] = [99, 130, 83, 99];

pub const PAD: u8 = 0;
pub const OVERLOAD: u8 = 52;
pub const END: u8 = 255;

/// Codes 1 to 254 without 52, a record each.
const MOST_RECORDS: usize = 253;

/// A piece of an option, met in a field. Its place is that of its code byte.
#[derive(Clone, Copy)]
pub struct Met {
    pub code: u8,
    pub field: Field,
    pub place: usize,
    pub length: usize,
}

impl Met {
    /// "Start always equals the field's first byte plus offset plus two, at
    /// length 0 too."
    pub fn origin(&self) -> Origin {
        let first = first(self.field);
        let offset = self.place - first;
        Origin { field: self.field, offset, start: first + offset + 2 }
    }

    fn part(&self) -> Part {
        Part { start: self.place + 2, length: self.length }
    }

    pub fn data<'m>(&self, message: &'m [u8]) -> &'m [u8] {
        &message[self.place + 2..][..self.length]
    }
}

/// A field's first byte.
fn first(field: Field) -> usize {
    match field {
        Field::Options => OPTIONS,
        Field::File => FILE,
        Field::Sname => SNAME,
    }
}

/// Refusals 1, 2, 3.
pub fn check_frame(message: &[u8]) -> Result<(), Refusal> {
    let length = message.len();
    if length < OPTIONS {
        return refuse(1, length);
    }
    if length > LONGEST {
        return refuse(2, length);
    }
    if message[COOKIE..OPTIONS] != COOKIE_BYTES {
        return refuse(3, COOKIE);
    }
    Ok(())
}

/// Meets the pieces of all active fields: "Reading order: options, file,
/// sname." Ends at the first fault.
pub fn walk(message: &[u8], mut meet: impl FnMut(Met)) -> Result<(), Refusal> {
    check_frame(message)?;
    let overload = walk_field(message, Field::Options, message.len(), &mut meet)?;
    // "file is active when option 52 there is 1 or 3, sname when it is 2 or 3"
    if overload & 1 != 0 {
        walk_field(message, Field::File, COOKIE, &mut meet)?;
    }
    if overload & 2 != 0 {
        walk_field(message, Field::Sname, FILE, &mut meet)?;
    }
    Ok(())
}

/// Meets the pieces of one field, from its first byte to its END. Gives the
/// value of option 52, or 0 if it was not met.
fn walk_field(
    message: &[u8],
    field: Field,
    after: usize,
    meet: &mut impl FnMut(Met),
) -> Result<u8, Refusal> {
    let bytes = &message[..after];
    let mut overload = 0;
    let mut place = first(field);
    // "Every active field needs its END."
    while let Some(&code) = bytes.get(place) {
        // "0 is a pad of one byte"
        if code == PAD {
            place += 1;
            continue;
        }
        // "255 is END, and what follows it is not read"
        if code == END {
            return Ok(overload);
        }
        // "at one option 4, 6, 7"
        let data = option_data(bytes, place)?;
        if code == OVERLOAD {
            let value = overload_value(field, place, data)?;
            // "7 stays for a second 52"
            if overload != 0 {
                return refuse(7, place);
            }
            overload = value;
        }
        meet(Met { code, field, place, length: data.len() });
        place += 2 + data.len();
    }
    refuse(5, after)
}

/// "a code, followed by a length byte and that many data bytes, all in the
/// same field"
fn option_data(bytes: &[u8], place: usize) -> Result<&[u8], Refusal> {
    if let Some(&length) = bytes.get(place + 1) {
        if let Some(data) = bytes.get(place + 2..place + 2 + usize::from(length)) {
            return Ok(data);
        }
    }
    refuse(4, place)
}

/// "6: 52 in file or sname, or with a length not 1 or a value not 1 to 3"
fn overload_value(field: Field, place: usize, data: &[u8]) -> Result<u8, Refusal> {
    match *data {
        [value] if field == Field::Options && kinds::overload_fits(value) => Ok(value),
        _ => refuse(6, place),
    }
}

/// The pieces with one code: the first, how many there are, and the length of
/// their data together.
#[derive(Clone, Copy)]
struct Pieces {
    first: Met,
    count: usize,
    whole: usize,
}

impl Pieces {
    fn several(&self) -> Several {
        (self.count > 1).then_some(self.whole)
    }
}

fn find(message: &[u8], code: u8) -> Result<Option<Pieces>, Refusal> {
    // "Reading: 10, then 1, 2, 3, then the first fault in reading order"
    if code == PAD || code == END {
        return refuse(10, 0);
    }
    let mut found: Option<Pieces> = None;
    walk(message, |met| {
        if met.code == code {
            let pieces = found.get_or_insert(Pieces { first: met, count: 0, whole: 0 });
            pieces.count += 1;
            pieces.whole += met.length;
        }
    })?;
    Ok(found)
}

/// "pieces with one code, in reading order, join into one option": puts their
/// data end to end, and gives its length. The message was walked before.
fn join(message: &[u8], code: u8, room: &mut [u8]) -> usize {
    let mut length = 0;
    let _ = walk(message, |met| {
        if met.code == code {
            room[length..][..met.length].copy_from_slice(met.data(message));
            length += met.length;
        }
    });
    length
}

/// "Look up a code (one byte), given the known set"
pub fn lookup(message: &[u8], known: Codes, code: u8) -> Result<Lookup, Refusal> {
    let Some(pieces) = find(message, code)? else {
        return Ok(Lookup::Absent);
    };
    let first = pieces.first;
    let content = match pieces.several() {
        None => content(known, first, first.data(message)),
        Some(whole) => joined_content(message, known, first, whole),
    };
    Ok(Lookup::Found(first.origin(), pieces.several(), content))
}

/// "Lookups judge the joined bytes"
fn joined_content(message: &[u8], known: Codes, first: Met, whole: usize) -> Content {
    let mut joined = [0; LONGEST];
    join(message, first.code, &mut joined);
    content(known, first, &joined[..whole])
}

/// What is said of the data of a code whose first piece is given.
pub fn content(known: Codes, first: Met, data: &[u8]) -> Content {
    // "A code is known when its bit is set and it has a row."
    let kind = match kinds::kind_of(first.code) {
        Some(kind) if known.has(first.code) => kind,
        _ => return Content::Unknown(data.len()),
    };
    if let Err(fault) = kinds::judge(kind, first.code, data) {
        return Content::Broken(Refusal { number: fault.number(), place: first.place });
    }
    if let Some(number) = kinds::number(kind, data) {
        return Content::Number(kind, number);
    }
    // "a text's length is without its trailing zeros"
    if kind == Kind::Text {
        return Content::Part(kind, kinds::text_length(data));
    }
    Content::Part(kind, data.len())
}

/// "an empty part when the code is absent or the call is refused", and where
/// there are several pieces
pub fn data(message: &[u8], code: u8) -> Part {
    match find(message, code) {
        Ok(Some(pieces)) if pieces.count == 1 && pieces.whole > 0 => pieces.first.part(),
        _ => EMPTY,
    }
}

/// "the text's part, or an empty part unless the lookup answers text"; empty
/// too where there are several pieces
pub fn text(message: &[u8], known: Codes, code: u8) -> Part {
    match lookup(message, known, code) {
        Ok(Lookup::Found(origin, None, Content::Part(Kind::Text, length))) if length > 0 => {
            Part { start: origin.start, length }
        }
        _ => EMPTY,
    }
}

/// "a new call copies the joined bytes into a lent buffer, bytes beyond them
/// kept; [...] it answers how many bytes it gave"
pub fn copy(message: &[u8], code: u8, buffer: &mut [u8]) -> Result<usize, Refusal> {
    // "the copy refuses as the reader does, then 11 (absent: place 0; buffer too
    // small: its length)"
    let Some(pieces) = find(message, code)? else {
        return refuse(11, 0);
    };
    let Some(room) = buffer.get_mut(..pieces.whole) else {
        return refuse(11, buffer.len());
    };
    Ok(join(message, code, room))
}

/// "each step gives the next address, an unsigned 32-bit number, and the
/// reader moved on, or done. One to three bytes left over are never given."
pub fn address_step(list: &[u8], at: usize) -> Option<(u32, usize)> {
    let next = at.checked_add(4)?;
    let bytes = list.get(at..next)?;
    Some((u32::from_be_bytes([bytes[0], bytes[1], bytes[2], bytes[3]]), next))
}

/// The roll call: "counts codes".
pub fn present(message: &[u8]) -> Result<RollCall, Refusal> {
    let mut codes = Codes::default();
    walk(message, |met| {
        codes.add(met.code);
    })?;
    Ok(RollCall { words: codes.0, count: codes.count(), lowest: codes.lowest() })
}

/// "every option but 52 in reading order, as records in a lent sheet; the
/// answer is their length in bytes", with "one joined record at the first
/// piece's turn". As a refusal "changes no byte lent to the call", the walk keeps
/// the places of the first pieces, and the records are put after it.
pub fn records(message: &[u8], sheet: &mut [u8]) -> Result<usize, Refusal> {
    let mut places = [0u16; MOST_RECORDS];
    let mut count = 0;
    let mut size = 0;
    let mut codes = Codes::default();
    let mut again = Codes::default();
    walk(message, |met| {
        if met.code == OVERLOAD {
            return;
        }
        size += met.length;
        if codes.add(met.code) {
            places[count] = met.place as u16;
            count += 1;
            size += 3;
        } else {
            again.add(met.code);
        }
    })?;
    // "last, for the sheet call, 11"
    let Some(mut room) = sheet.get_mut(..size) else {
        return refuse(11, sheet.len());
    };
    for &place in &places[..count] {
        room = put_record(message, usize::from(place), again, room);
    }
    Ok(size)
}

/// "one-byte tag (the code), two-byte length, data". Gives the room after it.
fn put_record<'r>(message: &[u8], place: usize, again: Codes, room: &'r mut [u8]) -> &'r mut [u8] {
    let code = message[place];
    let (head, after) = room.split_at_mut(3);
    let length = if again.has(code) {
        join(message, code, after)
    } else {
        let length = usize::from(message[place + 1]);
        after[..length].copy_from_slice(&message[place + 2..][..length]);
        length
    };
    let [high, low] = (length as u16).to_be_bytes();
    head.copy_from_slice(&[code, high, low]);
    &mut after[length..]
}
