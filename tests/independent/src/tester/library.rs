//! The library under test: five static archives.

use super::sides::Subject;
use independent::boundary::{
    Address, Answer, Checked, Extent, Filled, Ignored, Present, Profiled, Relay, RouteStep, Wrote,
};

#[link(name = "dhcpopt_reader", kind = "static")]
extern "C" {
    fn dhcpopt_lookup(
        m: *const u8,
        n: usize,
        k0: u64,
        k1: u64,
        k2: u64,
        k3: u64,
        code: u8,
    ) -> Answer;
    fn dhcpopt_data(m: *const u8, n: usize, code: u8) -> Extent;
    fn dhcpopt_text(m: *const u8, n: usize, k0: u64, k1: u64, k2: u64, k3: u64, code: u8)
        -> Extent;
    fn dhcpopt_address_step(list: *const u8, n: usize, at: usize) -> Address;
    fn dhcpopt_copy(m: *const u8, n: usize, code: u8, out: *mut u8, room: usize) -> Filled;
    fn dhcpopt_present(m: *const u8, n: usize) -> Present;
    fn dhcpopt_records(m: *const u8, n: usize, out: *mut u8, room: usize) -> Filled;
    fn dhcpopt_vendor_records(bytes: *const u8, n: usize, out: *mut u8, room: usize) -> Filled;
    fn dhcpopt_relay_records(bytes: *const u8, n: usize, out: *mut u8, room: usize) -> Relay;
}

#[link(name = "dhcpopt_writer", kind = "static")]
extern "C" {
    fn dhcpopt_write(sheet: *const u8, n: usize, m: *mut u8, room: usize, permission: u8) -> Wrote;
    fn dhcpopt_vendor_write(sheet: *const u8, n: usize, out: *mut u8, room: usize) -> Filled;
    fn dhcpopt_relay_write(sheet: *const u8, n: usize, out: *mut u8, room: usize) -> Filled;
    fn dhcpopt_check_grouped(file: *const u8, n: usize) -> Checked;
    fn dhcpopt_choose(
        file: *const u8,
        n: usize,
        class: *const u8,
        letters: usize,
        out: *mut u8,
        room: usize,
    ) -> Filled;
    fn dhcpopt_group(sheet: *const u8, n: usize, out: *mut u8, room: usize) -> Filled;
    fn dhcpopt_ungroup(file: *const u8, n: usize, out: *mut u8, room: usize) -> Filled;
}

#[link(name = "dhcpopt_index", kind = "static")]
extern "C" {
    fn dhcpopt_index_build(m: *const u8, n: usize, index: *mut u16, count: usize) -> Filled;
    fn dhcpopt_index_lookup(
        m: *const u8,
        n: usize,
        index: *const u16,
        count: usize,
        k0: u64,
        k1: u64,
        k2: u64,
        k3: u64,
        code: u8,
    ) -> Answer;
}

#[link(name = "dhcpopt_profile", kind = "static")]
extern "C" {
    fn dhcpopt_profile(m: *const u8, n: usize) -> Profiled;
}

#[link(name = "dhcpopt_routes", kind = "static")]
extern "C" {
    fn dhcpopt_route_step(data: *const u8, n: usize, at: usize) -> RouteStep;
    fn dhcpopt_routes_ignored(
        m: *const u8,
        n: usize,
        k0: u64,
        k1: u64,
        k2: u64,
        k3: u64,
    ) -> Ignored;
    fn dhcpopt_routes_write(given: *const u8, n: usize, out: *mut u8, room: usize) -> Filled;
}

pub fn library() -> Subject {
    Subject {
        lookup: dhcpopt_lookup,
        data: dhcpopt_data,
        text: dhcpopt_text,
        address_step: dhcpopt_address_step,
        copy: dhcpopt_copy,
        present: dhcpopt_present,
        profile: dhcpopt_profile,
        records: dhcpopt_records,
        write: dhcpopt_write,
        vendor_records: dhcpopt_vendor_records,
        vendor_write: dhcpopt_vendor_write,
        relay_records: dhcpopt_relay_records,
        relay_write: dhcpopt_relay_write,
        route_step: dhcpopt_route_step,
        routes_ignored: dhcpopt_routes_ignored,
        routes_write: dhcpopt_routes_write,
        index_build: dhcpopt_index_build,
        index_lookup: dhcpopt_index_lookup,
        check: dhcpopt_check_grouped,
        choose: dhcpopt_choose,
        group: dhcpopt_group,
        ungroup: dhcpopt_ungroup,
    }
}
