//! The C structures, and the implementation exported with the library's C
//! signatures, so that single calls of it can be counted.

use crate::rules::answers::{
    Codes, Content, Listed, Lookup, Origin, Part, Refusal, RollCall, Route, Several, EMPTY,
};
use crate::rules::captures::Tally;
use crate::rules::{groups, index, profile, reading, relay, routes, vendor, writing};
use std::slice;

/// status: 0 absent, 1 unknown, 2 refused, 3 a number, 4 a part, 5 broken.
/// field: 1 options, 2 file, 3 sname, or 0. several: 1 with the whole length
/// where there are several pieces. What an answer does not give is 0.
#[repr(C)]
#[derive(Clone, Copy, PartialEq, Eq, Debug, Default)]
pub struct Answer {
    pub status: u32,
    pub kind: u32,
    pub refusal: u32,
    pub field: u32,
    pub number: i64,
    pub place: usize,
    pub offset: usize,
    pub start: usize,
    pub length: usize,
    pub whole: usize,
    pub several: u32,
}

#[repr(C)]
#[derive(Clone, Copy, PartialEq, Eq, Debug, Default)]
pub struct Extent {
    pub start: usize,
    pub length: usize,
}

#[repr(C)]
#[derive(Clone, Copy, PartialEq, Eq, Debug, Default)]
pub struct Address {
    pub given: u32,
    pub address: u32,
    pub next: usize,
}

#[repr(C)]
#[derive(Clone, Copy, PartialEq, Eq, Debug, Default)]
pub struct Present {
    pub words: [u64; 4],
    pub count: u32,
    pub lowest: u32,
    pub refusal: u32,
    pub place: usize,
}

#[repr(C)]
#[derive(Clone, Copy, PartialEq, Eq, Debug, Default)]
pub struct Filled {
    pub refusal: u32,
    pub size: usize,
    pub place: usize,
}

#[repr(C)]
#[derive(Clone, Copy, PartialEq, Eq, Debug, Default)]
pub struct Checked {
    pub refusal: u32,
    pub place: usize,
}

#[repr(C)]
#[derive(Clone, Copy, PartialEq, Eq, Debug, Default)]
pub struct Wrote {
    pub refusal: u32,
    pub plan: u32,
    pub place: usize,
}

/// What a reader of sub-options answers. An id that is absent has start 0: the data
/// of a sub-option never stand before 2.
#[repr(C)]
#[derive(Clone, Copy, PartialEq, Eq, Debug, Default)]
pub struct Relay {
    pub refusal: u32,
    pub size: usize,
    pub place: usize,
    pub circuit: Extent,
    pub remote: Extent,
}

impl From<Result<Listed, Refusal>> for Relay {
    fn from(result: Result<Listed, Refusal>) -> Relay {
        let named = |id: Option<Part>| id.unwrap_or(EMPTY).into();
        match result {
            Ok(listed) => Relay {
                refusal: 0,
                size: listed.size,
                place: 0,
                circuit: named(listed.circuit),
                remote: named(listed.remote),
            },
            Err(r) => Relay { refusal: r.number, place: r.place, ..Relay::default() },
        }
    }
}

impl From<Result<Lookup, Refusal>> for Answer {
    fn from(result: Result<Lookup, Refusal>) -> Answer {
        match result {
            Ok(Lookup::Absent) => Answer::default(),
            Ok(Lookup::Found(origin, several, content)) => Answer::found(origin, several, content),
            Err(r) => Answer { status: 2, refusal: r.number, place: r.place, ..Answer::default() },
        }
    }
}

impl Answer {
    fn found(origin: Origin, several: Several, content: Content) -> Answer {
        let Origin { field, offset, start } = origin;
        let there = Answer {
            field: field as u32,
            offset,
            start,
            whole: several.unwrap_or(0),
            several: u32::from(several.is_some()),
            ..Answer::default()
        };
        match content {
            Content::Unknown(length) => Answer { status: 1, length, ..there },
            Content::Number(kind, number) => {
                Answer { status: 3, kind: kind as u32, number, ..there }
            }
            Content::Part(kind, length) => Answer { status: 4, kind: kind as u32, length, ..there },
            Content::Broken(r) => Answer { status: 5, refusal: r.number, place: r.place, ..there },
        }
    }
}

impl From<Part> for Extent {
    fn from(part: Part) -> Extent {
        Extent { start: part.start, length: part.length }
    }
}

impl Address {
    /// Done: "given 0, address 0", and the place unchanged.
    pub fn of_step(step: Option<(u32, usize)>, at: usize) -> Address {
        match step {
            Some((address, next)) => Address { given: 1, address, next },
            None => Address { given: 0, address: 0, next: at },
        }
    }
}

/// broken: the rules of the reply profile that are broken, bits 0 to 7.
#[repr(C)]
#[derive(Clone, Copy, PartialEq, Eq, Debug, Default)]
pub struct Profiled {
    pub broken: u32,
    pub refusal: u32,
    pub place: usize,
}

impl From<Result<u32, Refusal>> for Profiled {
    fn from(result: Result<u32, Refusal>) -> Profiled {
        match result {
            Ok(broken) => Profiled { broken, ..Profiled::default() },
            Err(r) => Profiled { broken: 0, refusal: r.number, place: r.place },
        }
    }
}

/// given: 1 with a route and the place behind it; 0 when the walk is done, and
/// then next is the place asked for.
#[repr(C)]
#[derive(Clone, Copy, PartialEq, Eq, Debug, Default)]
pub struct RouteStep {
    pub given: u32,
    pub destination: u32,
    pub width: u32,
    pub router: u32,
    pub next: usize,
}

impl RouteStep {
    pub fn of_step(step: Option<(Route, usize)>, at: usize) -> RouteStep {
        match step {
            Some((Route { destination, width, router }, next)) => {
                RouteStep { given: 1, destination, width: u32::from(width), router, next }
            }
            None => RouteStep { next: at, ..RouteStep::default() },
        }
    }
}

/// Whether 3 and 33 are ignored.
#[repr(C)]
#[derive(Clone, Copy, PartialEq, Eq, Debug, Default)]
pub struct Ignored {
    pub refusal: u32,
    pub ignored: u32,
    pub place: usize,
}

impl From<Result<bool, Refusal>> for Ignored {
    fn from(result: Result<bool, Refusal>) -> Ignored {
        match result {
            Ok(ignored) => Ignored { ignored: u32::from(ignored), ..Ignored::default() },
            Err(r) => Ignored { refusal: r.number, ignored: 0, place: r.place },
        }
    }
}

impl From<Result<RollCall, Refusal>> for Present {
    fn from(result: Result<RollCall, Refusal>) -> Present {
        match result {
            Ok(call) => Present {
                words: call.words,
                count: call.count,
                lowest: call.lowest,
                refusal: 0,
                place: 0,
            },
            Err(r) => Present { refusal: r.number, place: r.place, ..Present::default() },
        }
    }
}

impl From<Result<usize, Refusal>> for Filled {
    fn from(result: Result<usize, Refusal>) -> Filled {
        match result {
            Ok(size) => Filled { refusal: 0, size, place: 0 },
            Err(r) => Filled { refusal: r.number, size: 0, place: r.place },
        }
    }
}

impl From<Result<(), Refusal>> for Checked {
    fn from(result: Result<(), Refusal>) -> Checked {
        match result {
            Ok(()) => Checked { refusal: 0, place: 0 },
            Err(r) => Checked { refusal: r.number, place: r.place },
        }
    }
}

impl From<Result<u8, Refusal>> for Wrote {
    fn from(result: Result<u8, Refusal>) -> Wrote {
        match result {
            Ok(plan) => Wrote { refusal: 0, plan: u32::from(plan), place: 0 },
            Err(r) => Wrote { refusal: r.number, plan: 0, place: r.place },
        }
    }
}

/// # Safety
/// `first` points to `length` readable bytes; it may be null when that is 0.
unsafe fn lent<'a>(first: *const u8, length: usize) -> &'a [u8] {
    if length == 0 {
        &[]
    } else {
        slice::from_raw_parts(first, length)
    }
}

/// # Safety
/// `first` points to `length` bytes lent to this call alone; it may be null
/// when that is 0.
unsafe fn lent_mut<'a>(first: *mut u8, length: usize) -> &'a mut [u8] {
    if length == 0 {
        &mut []
    } else {
        slice::from_raw_parts_mut(first, length)
    }
}

/// # Safety
/// `m` points to `n` readable bytes.
#[no_mangle]
pub unsafe extern "C" fn independent_lookup(
    m: *const u8,
    n: usize,
    k0: u64,
    k1: u64,
    k2: u64,
    k3: u64,
    code: u8,
) -> Answer {
    reading::lookup(lent(m, n), Codes([k0, k1, k2, k3]), code).into()
}

/// # Safety
/// `m` points to `n` readable bytes, `numbers` to `count` 16-bit numbers lent
/// to this call alone.
#[no_mangle]
pub unsafe extern "C" fn independent_index_build(
    m: *const u8,
    n: usize,
    numbers: *mut u16,
    count: usize,
) -> Filled {
    let numbers = if count == 0 { &mut [] } else { slice::from_raw_parts_mut(numbers, count) };
    index::build(lent(m, n), numbers).into()
}

/// # Safety
/// `m` points to `n` readable bytes, `numbers` to `count` readable 16-bit
/// numbers.
#[no_mangle]
pub unsafe extern "C" fn independent_index_lookup(
    m: *const u8,
    n: usize,
    numbers: *const u16,
    count: usize,
    k0: u64,
    k1: u64,
    k2: u64,
    k3: u64,
    code: u8,
) -> Answer {
    let numbers = if count == 0 { &[] } else { slice::from_raw_parts(numbers, count) };
    index::lookup(lent(m, n), numbers, Codes([k0, k1, k2, k3]), code).into()
}

/// # Safety
/// `m` points to `n` readable bytes.
#[no_mangle]
pub unsafe extern "C" fn independent_data(m: *const u8, n: usize, code: u8) -> Extent {
    reading::data(lent(m, n), code).into()
}

/// # Safety
/// `m` points to `n` readable bytes.
#[no_mangle]
pub unsafe extern "C" fn independent_text(
    m: *const u8,
    n: usize,
    k0: u64,
    k1: u64,
    k2: u64,
    k3: u64,
    code: u8,
) -> Extent {
    reading::text(lent(m, n), Codes([k0, k1, k2, k3]), code).into()
}

/// # Safety
/// `list` points to `n` readable bytes.
#[no_mangle]
pub unsafe extern "C" fn independent_address_step(list: *const u8, n: usize, at: usize) -> Address {
    Address::of_step(reading::address_step(lent(list, n), at), at)
}

/// # Safety
/// `m` points to `n` readable bytes.
#[no_mangle]
pub unsafe extern "C" fn independent_profile(m: *const u8, n: usize) -> Profiled {
    profile::profile(lent(m, n)).into()
}

/// # Safety
/// `data` points to `n` readable bytes.
#[no_mangle]
pub unsafe extern "C" fn independent_route_step(data: *const u8, n: usize, at: usize) -> RouteStep {
    RouteStep::of_step(routes::step(lent(data, n), at), at)
}

/// # Safety
/// `m` points to `n` readable bytes.
#[no_mangle]
pub unsafe extern "C" fn independent_routes_ignored(
    m: *const u8,
    n: usize,
    k0: u64,
    k1: u64,
    k2: u64,
    k3: u64,
) -> Ignored {
    routes::ignored(lent(m, n), Codes([k0, k1, k2, k3])).into()
}

/// # Safety
/// `given` points to `n` readable bytes, `out` to `room` bytes lent to this call
/// alone.
#[no_mangle]
pub unsafe extern "C" fn independent_routes_write(
    given: *const u8,
    n: usize,
    out: *mut u8,
    room: usize,
) -> Filled {
    routes::write(lent(given, n), lent_mut(out, room)).into()
}

/// # Safety
/// `m` points to `n` readable bytes.
#[no_mangle]
pub unsafe extern "C" fn independent_present(m: *const u8, n: usize) -> Present {
    reading::present(lent(m, n)).into()
}

/// # Safety
/// `m` points to `n` readable bytes, `out` to `room` bytes lent to this call
/// alone.
#[no_mangle]
pub unsafe extern "C" fn independent_copy(
    m: *const u8,
    n: usize,
    code: u8,
    out: *mut u8,
    room: usize,
) -> Filled {
    reading::copy(lent(m, n), code, lent_mut(out, room)).into()
}

/// # Safety
/// `m` points to `n` readable bytes, `out` to `room` bytes lent to this call
/// alone.
#[no_mangle]
pub unsafe extern "C" fn independent_records(
    m: *const u8,
    n: usize,
    out: *mut u8,
    room: usize,
) -> Filled {
    reading::records(lent(m, n), lent_mut(out, room)).into()
}

/// # Safety
/// `sheet` points to `n` readable bytes, `m` to `room` bytes lent to this call
/// alone.
#[no_mangle]
pub unsafe extern "C" fn independent_write(
    sheet: *const u8,
    n: usize,
    m: *mut u8,
    room: usize,
    permission: u8,
) -> Wrote {
    writing::write(lent(sheet, n), lent_mut(m, room), permission).into()
}

/// # Safety
/// `bytes` points to `n` readable bytes, `out` to `room` bytes lent to this
/// call alone.
#[no_mangle]
pub unsafe extern "C" fn independent_vendor_records(
    bytes: *const u8,
    n: usize,
    out: *mut u8,
    room: usize,
) -> Filled {
    vendor::records(lent(bytes, n), lent_mut(out, room)).into()
}

/// # Safety
/// `sheet` points to `n` readable bytes, `out` to `room` bytes lent to this
/// call alone.
#[no_mangle]
pub unsafe extern "C" fn independent_vendor_write(
    sheet: *const u8,
    n: usize,
    out: *mut u8,
    room: usize,
) -> Filled {
    vendor::write(lent(sheet, n), lent_mut(out, room)).into()
}

/// # Safety
/// `bytes` points to `n` readable bytes, `out` to `room` bytes lent to this
/// call alone.
#[no_mangle]
pub unsafe extern "C" fn independent_relay_records(
    bytes: *const u8,
    n: usize,
    out: *mut u8,
    room: usize,
) -> Relay {
    relay::records(lent(bytes, n), lent_mut(out, room)).into()
}

/// # Safety
/// `sheet` points to `n` readable bytes, `out` to `room` bytes lent to this
/// call alone.
#[no_mangle]
pub unsafe extern "C" fn independent_relay_write(
    sheet: *const u8,
    n: usize,
    out: *mut u8,
    room: usize,
) -> Filled {
    relay::write(lent(sheet, n), lent_mut(out, room)).into()
}

/// # Safety
/// `file` points to `n` readable bytes.
#[no_mangle]
pub unsafe extern "C" fn independent_check_grouped(file: *const u8, n: usize) -> Checked {
    groups::check(lent(file, n)).into()
}

/// # Safety
/// `file` points to `n` readable bytes, `class` to `letters`, `out` to `room`
/// bytes lent to this call alone.
#[no_mangle]
pub unsafe extern "C" fn independent_choose(
    file: *const u8,
    n: usize,
    class: *const u8,
    letters: usize,
    out: *mut u8,
    room: usize,
) -> Filled {
    groups::choose(lent(file, n), lent(class, letters), lent_mut(out, room)).into()
}

/// # Safety
/// `sheet` points to `n` readable bytes, `out` to `room` bytes lent to this call
/// alone.
#[no_mangle]
pub unsafe extern "C" fn independent_group(
    sheet: *const u8,
    n: usize,
    out: *mut u8,
    room: usize,
) -> Filled {
    groups::group(lent(sheet, n), lent_mut(out, room)).into()
}

/// # Safety
/// `file` points to `n` readable bytes, `out` to `room` bytes lent to this call
/// alone.
#[no_mangle]
pub unsafe extern "C" fn independent_ungroup(
    file: *const u8,
    n: usize,
    out: *mut u8,
    room: usize,
) -> Filled {
    groups::ungroup(lent(file, n), lent_mut(out, room)).into()
}

/// A tally of captures, for the caller to free.
#[no_mangle]
pub extern "C" fn independent_captures_begin() -> *mut Tally {
    Box::into_raw(Box::default())
}

/// # Safety
/// As a C call's: `tally` is what `independent_captures_begin` gave, `part` is
/// `n` bytes.
#[no_mangle]
pub unsafe extern "C" fn independent_captures_feed(tally: *mut Tally, part: *const u8, n: usize) {
    (*tally).feed(slice::from_raw_parts(part, n));
}
