//! The two sides that are compared: the library under test, by its C
//! functions, and the yardstick, by safe ones.

use independent::boundary::{
    Address, Answer, Checked, Extent, Filled, Ignored, Present, Profiled, Relay, RouteStep, Wrote,
};
use independent::rules::answers::Codes;

type Asked = unsafe extern "C" fn(*const u8, usize, u64, u64, u64, u64, u8) -> Answer;
type AskedText = unsafe extern "C" fn(*const u8, usize, u64, u64, u64, u64, u8) -> Extent;

type AskedThrough =
    unsafe extern "C" fn(*const u8, usize, *const u16, usize, u64, u64, u64, u64, u8) -> Answer;

type AskedIgnored = unsafe extern "C" fn(*const u8, usize, u64, u64, u64, u64) -> Ignored;

type Chosen = unsafe extern "C" fn(*const u8, usize, *const u8, usize, *mut u8, usize) -> Filled;

/// C functions that are to keep document 01.
#[derive(Clone, Copy)]
pub struct Subject {
    pub lookup: Asked,
    pub data: unsafe extern "C" fn(*const u8, usize, u8) -> Extent,
    pub text: AskedText,
    pub address_step: unsafe extern "C" fn(*const u8, usize, usize) -> Address,
    pub copy: unsafe extern "C" fn(*const u8, usize, u8, *mut u8, usize) -> Filled,
    pub present: unsafe extern "C" fn(*const u8, usize) -> Present,
    pub profile: unsafe extern "C" fn(*const u8, usize) -> Profiled,
    pub records: unsafe extern "C" fn(*const u8, usize, *mut u8, usize) -> Filled,
    pub write: unsafe extern "C" fn(*const u8, usize, *mut u8, usize, u8) -> Wrote,
    pub vendor_records: unsafe extern "C" fn(*const u8, usize, *mut u8, usize) -> Filled,
    pub vendor_write: unsafe extern "C" fn(*const u8, usize, *mut u8, usize) -> Filled,
    pub relay_records: unsafe extern "C" fn(*const u8, usize, *mut u8, usize) -> Relay,
    pub relay_write: unsafe extern "C" fn(*const u8, usize, *mut u8, usize) -> Filled,
    pub route_step: unsafe extern "C" fn(*const u8, usize, usize) -> RouteStep,
    pub routes_ignored: AskedIgnored,
    pub routes_write: unsafe extern "C" fn(*const u8, usize, *mut u8, usize) -> Filled,
    pub index_build: unsafe extern "C" fn(*const u8, usize, *mut u16, usize) -> Filled,
    pub index_lookup: AskedThrough,
    pub check: unsafe extern "C" fn(*const u8, usize) -> Checked,
    pub choose: Chosen,
    pub group: unsafe extern "C" fn(*const u8, usize, *mut u8, usize) -> Filled,
    pub ungroup: unsafe extern "C" fn(*const u8, usize, *mut u8, usize) -> Filled,
}

/// What they are held to.
#[derive(Clone, Copy)]
pub struct Yardstick {
    pub lookup: fn(&[u8], Codes, u8) -> Answer,
    pub data: fn(&[u8], u8) -> Extent,
    pub text: fn(&[u8], Codes, u8) -> Extent,
    pub address_step: fn(&[u8], usize) -> Address,
    pub copy: fn(&[u8], u8, &mut [u8]) -> Filled,
    pub present: fn(&[u8]) -> Present,
    pub profile: fn(&[u8]) -> Profiled,
    pub records: fn(&[u8], &mut [u8]) -> Filled,
    pub write: fn(&[u8], &mut [u8], u8) -> Wrote,
    pub vendor_records: fn(&[u8], &mut [u8]) -> Filled,
    pub vendor_write: fn(&[u8], &mut [u8]) -> Filled,
    pub relay_records: fn(&[u8], &mut [u8]) -> Relay,
    pub relay_write: fn(&[u8], &mut [u8]) -> Filled,
    pub route_step: fn(&[u8], usize) -> RouteStep,
    pub routes_ignored: fn(&[u8], Codes) -> Ignored,
    pub routes_write: fn(&[u8], &mut [u8]) -> Filled,
    pub index_build: fn(&[u8], &mut [u16]) -> Filled,
    pub index_lookup: fn(&[u8], &[u16], Codes, u8) -> Answer,
    pub check: fn(&[u8]) -> Checked,
    pub choose: fn(&[u8], &[u8], &mut [u8]) -> Filled,
    pub group: fn(&[u8], &mut [u8]) -> Filled,
    pub ungroup: fn(&[u8], &mut [u8]) -> Filled,
}

/// The yardstick made of a module of rules.
macro_rules! yardstick {
    ($($rules:ident)::+) => {
        $crate::tester::sides::Yardstick {
            lookup: |m, known, code| $($rules)::+::reading::lookup(m, known, code).into(),
            data: |m, code| $($rules)::+::reading::data(m, code).into(),
            text: |m, known, code| $($rules)::+::reading::text(m, known, code).into(),
            address_step: |list, at| {
                let step = $($rules)::+::reading::address_step(list, at);
                independent::boundary::Address::of_step(step, at)
            },
            copy: |m, code, buffer| $($rules)::+::reading::copy(m, code, buffer).into(),
            present: |m| $($rules)::+::reading::present(m).into(),
            profile: |m| $($rules)::+::profile::profile(m).into(),
            records: |m, sheet| $($rules)::+::reading::records(m, sheet).into(),
            write: |sheet, m, permission| {
                $($rules)::+::writing::write(sheet, m, permission).into()
            },
            vendor_records: |bytes, sheet| $($rules)::+::vendor::records(bytes, sheet).into(),
            vendor_write: |sheet, out| $($rules)::+::vendor::write(sheet, out).into(),
            relay_records: |bytes, sheet| $($rules)::+::relay::records(bytes, sheet).into(),
            relay_write: |sheet, out| $($rules)::+::relay::write(sheet, out).into(),
            route_step: |data, at| {
                let step = $($rules)::+::routes::step(data, at);
                independent::boundary::RouteStep::of_step(step, at)
            },
            routes_ignored: |m, known| $($rules)::+::routes::ignored(m, known).into(),
            routes_write: |given, out| $($rules)::+::routes::write(given, out).into(),
            index_build: |m, index| $($rules)::+::index::build(m, index).into(),
            index_lookup: |m, index, known, code| {
                $($rules)::+::index::lookup(m, index, known, code).into()
            },
            check: |file| $($rules)::+::groups::check(file).into(),
            choose: |file, class, out| $($rules)::+::groups::choose(file, class, out).into(),
            group: |sheet, out| $($rules)::+::groups::group(sheet, out).into(),
            ungroup: |file, out| $($rules)::+::groups::ungroup(file, out).into(),
        }
    };
}
pub(crate) use yardstick;

/// Document 01 as this package has it.
pub fn independent_rules() -> Yardstick {
    yardstick!(independent::rules)
}

/// This package's own exported functions, as a subject.
pub fn own_exports() -> Subject {
    use independent::boundary::*;
    Subject {
        lookup: independent_lookup,
        data: independent_data,
        text: independent_text,
        address_step: independent_address_step,
        copy: independent_copy,
        present: independent_present,
        profile: independent_profile,
        records: independent_records,
        write: independent_write,
        vendor_records: independent_vendor_records,
        vendor_write: independent_vendor_write,
        relay_records: independent_relay_records,
        relay_write: independent_relay_write,
        route_step: independent_route_step,
        routes_ignored: independent_routes_ignored,
        routes_write: independent_routes_write,
        index_build: independent_index_build,
        index_lookup: independent_index_lookup,
        check: independent_check_grouped,
        choose: independent_choose,
        group: independent_group,
        ungroup: independent_ungroup,
    }
}
