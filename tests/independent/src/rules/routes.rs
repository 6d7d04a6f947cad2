//! "Classless routes" (request 14 of document 02): what option 121 holds, as in
//! RFC 3442.

use super::answers::{refuse, Codes, Content, Lookup, Refusal, Route};
use super::kinds::CLASSLESS_ROUTES;
use super::reading;

/// "a width byte 0 to 32"
const WIDEST: u8 = 32;
/// "nine bytes a route (width, destination, router)"
const GIVEN: usize = 9;

/// "the width's whole and begun bytes of destination"
fn bytes_of(width: u8) -> usize {
    usize::from(width).div_ceil(8)
}

/// The destination's bits past the width.
fn past(width: u8, destination: u32) -> u32 {
    destination & u32::MAX.checked_shr(u32::from(width)).unwrap_or(0)
}

/// One step of the walk, from any place: the route there and the place behind it,
/// or done "at the end or at a faulty route".
pub fn step(data: &[u8], at: usize) -> Option<(Route, usize)> {
    let (&width, rest) = data.get(at..)?.split_first()?;
    if width > WIDEST {
        return None;
    }
    let kept = bytes_of(width);
    let (begun, rest) = rest.split_at_checked(kept)?;
    let router = u32::from_be_bytes(*rest.first_chunk()?);
    let mut bytes = [0; 4];
    bytes[..kept].copy_from_slice(begun);
    let destination = u32::from_be_bytes(bytes);
    // "destination with bits past the width cleared"
    let cleared = destination & !past(width, destination);
    Some((Route { destination: cleared, width, router }, at + 1 + kept + 4))
}

/// The length of a given route as data of option 121; none if it is faulty: "a wide
/// width, set bits, a route cut short".
fn length_of(given: &[u8]) -> Option<usize> {
    let &[width, a, b, c, d, ..] = given else {
        return None;
    };
    if given.len() < GIVEN || width > WIDEST {
        return None;
    }
    if past(width, u32::from_be_bytes([a, b, c, d])) != 0 {
        return None;
    }
    Some(1 + bytes_of(width) + 4)
}

/// "the writer, given nine bytes a route": "26 at the first faulty route's number,
/// from 0, for a wide width, set bits, a route cut short or no route at all, then 11
/// with the output's length".
pub fn write(given: &[u8], output: &mut [u8]) -> Result<usize, Refusal> {
    if given.is_empty() {
        return refuse(26, 0);
    }
    let mut size = 0;
    for (number, route) in given.chunks(GIVEN).enumerate() {
        let Some(length) = length_of(route) else {
            return refuse(26, number);
        };
        size += length;
    }
    let Some(mut room) = output.get_mut(..size) else {
        return refuse(11, output.len());
    };
    for route in given.chunks(GIVEN) {
        let kept = bytes_of(route[0]);
        let (begun, after) = room.split_at_mut(1 + kept);
        begun.copy_from_slice(&route[..1 + kept]);
        let (router, after) = after.split_at_mut(4);
        router.copy_from_slice(&route[5..]);
        room = after;
    }
    Ok(size)
}

/// "says whether 3 and 33 are ignored: exactly where a lookup of 121 with that set
/// answers with its kind; it is refused as that lookup is". A broken 121 is no kind;
/// its 8 or 9 is the refusal.
pub fn ignored(message: &[u8], known: Codes) -> Result<bool, Refusal> {
    match reading::lookup(message, known, CLASSLESS_ROUTES)? {
        Lookup::Found(_, _, Content::Part(..)) => Ok(true),
        Lookup::Found(_, _, Content::Broken(refusal)) => Err(refusal),
        _ => Ok(false),
    }
}
