//! Whether the tester can fail. Two kinds of wrong things are put in place of a
//! side, one at a time, and each has to be told: wrong variants of the rules
//! against the library, and wrong subjects against the rules.

use super::compare::Run;
use super::library::library;
use super::sides::{independent_rules, own_exports, yardstick, Subject, Yardstick};
use super::tallies::{self, tally_of, TallyOf};
use independent::boundary::{
    self, Answer, Extent, Filled, Ignored, Present, Profiled, Relay, RouteStep, Wrote,
};
use std::panic;

include!(concat!(env!("OUT_DIR"), "/variants.rs"));

/// So many cases are tried before something is held not to be told.
const CASES: u64 = 300_000;
const SEED: u64 = 1;
const TALLY_CASES: u64 = 3_000;

/// Exit status 0 when all are told, and what is right is not.
pub fn run() -> i32 {
    let mut failed = 0;
    for (name, subject) in [("the library", library()), ("this package's exports", own_exports())] {
        let found = differences(Run::new(subject, independent_rules()), CASES);
        println!("control, {name}: {}", if found.is_none() { "no difference" } else { "DIFFERS" });
        failed += usize::from(found.is_some());
    }
    let tallies = tally_difference(tallies::independent_tally());
    println!(
        "control, the library's tallies: {}",
        if tallies.is_none() { "no difference" } else { "DIFFERS" }
    );
    failed += usize::from(tallies.is_some());
    let mut subjects = subjects();
    subjects.extend(relay_subjects());
    subjects.extend(profile_subjects());
    subjects.extend(route_subjects());
    panic::set_hook(Box::new(|_| ()));
    for &(name, rules) in &VARIANTS {
        failed += usize::from(!told("variant", name, library(), rules));
    }
    for &(name, subject) in &subjects {
        failed += usize::from(!told("subject", name, subject, independent_rules()));
    }
    for &(name, rules) in &TALLIES {
        failed += usize::from(!tally_told(name, rules));
    }
    let _ = panic::take_hook();
    let wrong = VARIANTS.len() + subjects.len() + TALLIES.len();
    println!("{wrong} wrong ones and 3 controls, {failed} failed");
    i32::from(failed > 0)
}

fn told(what: &str, name: &str, subject: Subject, rules: Yardstick) -> bool {
    let run = move || differences(Run::new(subject, rules), CASES);
    match panic::catch_unwind(run) {
        Ok(Some((index, call))) => println!("{what} '{name}': detected at case {index} by {call}"),
        Ok(None) => {
            println!("{what} '{name}': NOT DETECTED in {CASES} cases");
            return false;
        }
        Err(_) => {
            println!("{what} '{name}': ended in a panic, which shows nothing");
            return false;
        }
    }
    true
}

fn tally_told(name: &str, rules: TallyOf) -> bool {
    match panic::catch_unwind(move || tally_difference(rules)) {
        Ok(Some(what)) => println!("variant of captures '{name}': detected {what}"),
        Ok(None) => {
            println!("variant of captures '{name}': NOT DETECTED in {TALLY_CASES} files");
            return false;
        }
        Err(_) => {
            println!("variant of captures '{name}': ended in a panic, which shows nothing");
            return false;
        }
    }
    true
}

/// The first file of captures of which something else is told.
fn tally_difference(rules: TallyOf) -> Option<String> {
    let generated = (0..TALLY_CASES).find(|&index| !tallies::case(SEED, index, rules, false));
    match generated {
        Some(index) => Some(format!("at file {index}")),
        None => (!tallies::many(rules, false)).then(|| "at a million messages".to_string()),
    }
}

/// The first difference: its case and call.
fn differences(run: Run, cases: u64) -> Option<(u64, String)> {
    let mut run = run.quiet();
    for index in 0..cases {
        run.case(SEED, index);
        if run.over() {
            return Some((index, run.first.unwrap_or_default()));
        }
    }
    None
}

/// Subjects with a fault that the rules cannot have.
fn subjects() -> Vec<(&'static str, Subject)> {
    let own = own_exports();
    vec![
        ("records writes the byte before the lent ones", Subject { records: writes_before, ..own }),
        ("records writes the byte past the lent ones", Subject { records: writes_past, ..own }),
        ("write writes the byte before the lent ones", Subject { write: write_before, ..own }),
        ("write writes the byte past the lent ones", Subject { write: write_past, ..own }),
        ("write changes the sheet", Subject { write: changes_sheet, ..own }),
        ("lookup changes the message", Subject { lookup: changes_message, ..own }),
        ("absent with a start", Subject { lookup: absent_with_start, ..own }),
        ("absent with a field", Subject { lookup: absent_with_field, ..own }),
        ("a refusal with a field", Subject { lookup: refusal_with_field, ..own }),
        ("an unknown without its field", Subject { lookup: unknown_without_field, ..own }),
        ("a number without its field", Subject { lookup: number_without_field, ..own }),
        ("a number without its offset", Subject { lookup: number_without_offset, ..own }),
        ("a number without its start", Subject { lookup: number_without_start, ..own }),
        ("a number with a length", Subject { lookup: number_with_length, ..own }),
        ("a part without its field", Subject { lookup: part_without_field, ..own }),
        ("a text of zeros without its start", Subject { lookup: zeros_without_start, ..own }),
        ("a broken answer without origin", Subject { lookup: broken_without_origin, ..own }),
        ("a broken answer without its place", Subject { lookup: broken_without_place, ..own }),
        ("a broken answer with a length", Subject { lookup: broken_with_length, ..own }),
        ("several without their whole length", Subject { lookup: several_without_whole, ..own }),
        ("several as another number", Subject { lookup: several_as_two, ..own }),
        ("one piece with its whole length", Subject { lookup: one_with_whole, ..own }),
        ("absent as several", Subject { lookup: absent_as_several, ..own }),
        ("a refusal as several", Subject { lookup: refusal_as_several, ..own }),
        (
            "several with the whole as a number's length",
            Subject { lookup: number_with_whole, ..own },
        ),
        ("copy writes the byte before the lent ones", Subject { copy: copy_before, ..own }),
        ("copy writes the byte past the lent ones", Subject { copy: copy_past, ..own }),
        ("a refused copy with a size", Subject { copy: refused_copy_with_size, ..own }),
        ("a refused copy touches a byte", Subject { copy: refused_copy_writes, ..own }),
        ("copy changes the message", Subject { copy: copy_changes_message, ..own }),
        ("a copy of 0 bytes with a place", Subject { copy: empty_copy_with_place, ..own }),
        ("refused roll call with words", Subject { present: refused_with_words, ..own }),
        ("refused records with a size", Subject { records: refused_with_size, ..own }),
        ("refused write with a plan", Subject { write: refused_with_plan, ..own }),
        ("a refused write touches a byte", Subject { write: refusal_writes, ..own }),
        ("refused data with a start", Subject { data: empty_with_start, ..own }),
        ("vendor records past the lent ones", Subject { vendor_records: vendor_past, ..own }),
        ("a refused vendor write touches a byte", Subject { vendor_write: vendor_touches, ..own }),
        ("a refused vendor write with a size", Subject { vendor_write: vendor_sized, ..own }),
        ("index build writes the number before", Subject { index_build: build_before, ..own }),
        ("index build writes the number past", Subject { index_build: build_past, ..own }),
        ("a refused index build touches a number", Subject { index_build: build_touches, ..own }),
        ("a refused index build with a size", Subject { index_build: build_sized, ..own }),
        ("an index with a place", Subject { index_build: build_placed, ..own }),
        ("index build changes the message", Subject { index_build: build_changes, ..own }),
        ("index lookup changes a number", Subject { index_lookup: through_changes, ..own }),
        ("index lookup changes the message", Subject { index_lookup: through_message, ..own }),
        ("absent by an index with a start", Subject { index_lookup: through_absent, ..own }),
        ("19 with a field", Subject { index_lookup: through_refused, ..own }),
        ("a number by an index without its field", Subject { index_lookup: through_number, ..own }),
    ]
}

/// The same, of request 13.
fn profile_subjects() -> Vec<(&'static str, Subject)> {
    let own = own_exports();
    vec![
        ("a refused profile with a set", Subject { profile: refused_set, ..own }),
        ("a profile with a place", Subject { profile: profile_placed, ..own }),
        ("a profile that changes the message", Subject { profile: profile_changes, ..own }),
    ]
}

unsafe extern "C" fn refused_set(m: *const u8, n: usize) -> Profiled {
    let profiled = boundary::independent_profile(m, n);
    Profiled { broken: if profiled.refusal == 25 { 255 } else { profiled.broken }, ..profiled }
}

unsafe extern "C" fn profile_placed(m: *const u8, n: usize) -> Profiled {
    let profiled = boundary::independent_profile(m, n);
    Profiled { place: if profiled.broken == 128 { 240 } else { profiled.place }, ..profiled }
}

unsafe extern "C" fn profile_changes(m: *const u8, n: usize) -> Profiled {
    let profiled = boundary::independent_profile(m, n);
    if profiled.refusal == 0 {
        *m.cast_mut() ^= 1;
    }
    profiled
}

/// The same, of request 09.
fn relay_subjects() -> Vec<(&'static str, Subject)> {
    let own = own_exports();
    vec![
        ("relay records before the lent ones", Subject { relay_records: relay_before, ..own }),
        ("relay records past the lent ones", Subject { relay_records: relay_past, ..own }),
        ("relay records change the bytes", Subject { relay_records: relay_changes, ..own }),
        ("refused relay records with a size", Subject { relay_records: relay_sized, ..own }),
        ("refused relay records touch a byte", Subject { relay_records: relay_touches, ..own }),
        ("refused relay records with a circuit id", Subject { relay_records: relay_id, ..own }),
        ("relay records with a place", Subject { relay_records: relay_placed, ..own }),
        ("no circuit id, with a length", Subject { relay_records: no_circuit, ..own }),
        ("no remote id, with a start", Subject { relay_records: no_remote, ..own }),
        ("circuit id and remote id changed", Subject { relay_records: changed_ids, ..own }),
        ("an empty remote id without its start", Subject { relay_records: empty_remote, ..own }),
        ("relay write past the lent ones", Subject { relay_write: sub_options_past, ..own }),
        ("relay write changes the sheet", Subject { relay_write: sub_options_change, ..own }),
        ("a refused relay write touches a byte", Subject { relay_write: refused_touch, ..own }),
        ("a refused relay write with a size", Subject { relay_write: refused_sized, ..own }),
    ]
}

/// A reader of sub-options, before or after which something is done that it may
/// not do.
macro_rules! wrong_relay {
    ($name:ident, |$m:ident, $out:ident, $room:ident, $answer:ident| $done:expr) => {
        unsafe extern "C" fn $name($m: *const u8, n: usize, $out: *mut u8, $room: usize) -> Relay {
            #[allow(unused_mut)]
            let mut $answer = boundary::independent_relay_records($m, n, $out, $room);
            $done;
            $answer
        }
    };
}

wrong_relay!(relay_before, |_m, out, _room, answer| *out.sub(1) ^= 1);
wrong_relay!(relay_past, |_m, out, room, answer| *out.add(room) ^= 1);
wrong_relay!(relay_changes, |m, _out, _room, answer| if answer.size > 0 {
    *m.cast_mut() ^= 1;
});
wrong_relay!(relay_sized, |_m, _out, room, answer| if answer.refusal == 11 {
    answer.size = room + 1;
});
wrong_relay!(relay_touches, |_m, out, room, answer| if answer.refusal == 8 && room > 0 {
    *out ^= 1;
});
wrong_relay!(relay_id, |_m, _out, _room, answer| if answer.refusal == 11 {
    answer.circuit.start = 2;
});
wrong_relay!(relay_placed, |_m, _out, room, answer| if answer.refusal == 0 {
    answer.place = room;
});
wrong_relay!(no_circuit, |_m, _out, _room, answer| if answer.refusal == 0
    && answer.circuit.start == 0
{
    answer.circuit.length = 1;
});
wrong_relay!(
    no_remote,
    |_m, _out, _room, answer| if answer.refusal == 0 && answer.remote.start == 0 {
        answer.remote.start = 2;
    }
);
wrong_relay!(changed_ids, |_m, _out, _room, answer| std::mem::swap(
    &mut answer.circuit,
    &mut answer.remote
));
wrong_relay!(empty_remote, |_m, _out, _room, answer| if answer.remote.length == 0 {
    answer.remote.start = 0;
});

/// A writer of sub-options, the same.
macro_rules! wrong_sub_options {
    ($name:ident, |$s:ident, $out:ident, $room:ident, $filled:ident| $done:expr) => {
        unsafe extern "C" fn $name($s: *const u8, n: usize, $out: *mut u8, $room: usize) -> Filled {
            #[allow(unused_mut)]
            let mut $filled = boundary::independent_relay_write($s, n, $out, $room);
            $done;
            $filled
        }
    };
}

wrong_sub_options!(sub_options_past, |_s, out, room, filled| *out.add(room) ^= 1);
wrong_sub_options!(sub_options_change, |s, _out, _room, filled| if filled.size > 0 {
    *s.cast_mut() ^= 1;
});
wrong_sub_options!(refused_touch, |_s, out, room, filled| if filled.refusal == 8 && room > 0 {
    *out ^= 1;
});
wrong_sub_options!(refused_sized, |_s, _out, room, filled| if filled.refusal == 11 {
    filled.size = room;
});

/// The same, of request 14.
fn route_subjects() -> Vec<(&'static str, Subject)> {
    let own = own_exports();
    vec![
        ("a walk that is done with a router", Subject { route_step: done_with_router, ..own }),
        ("a walk that is done with a width", Subject { route_step: done_with_width, ..own }),
        ("a walk that is done at 0", Subject { route_step: done_at_0, ..own }),
        ("a route given as another number", Subject { route_step: given_as_two, ..own }),
        ("a route step changes the data", Subject { route_step: step_changes, ..own }),
        ("routes written before the lent ones", Subject { routes_write: routes_before, ..own }),
        ("routes written past the lent ones", Subject { routes_write: routes_past, ..own }),
        ("a routes write changes the routes", Subject { routes_write: routes_change, ..own }),
        ("a refused routes write touches a byte", Subject { routes_write: routes_touch, ..own }),
        ("a refused routes write with a size", Subject { routes_write: routes_sized, ..own }),
        ("a routes write with a place", Subject { routes_write: routes_placed, ..own }),
        ("ignored with a place", Subject { routes_ignored: ignored_placed, ..own }),
        ("not ignored with a place", Subject { routes_ignored: not_ignored_placed, ..own }),
        ("refused and ignored", Subject { routes_ignored: refused_ignored, ..own }),
        ("ignored as another number", Subject { routes_ignored: ignored_as_two, ..own }),
        ("the question changes the message", Subject { routes_ignored: ignored_changes, ..own }),
    ]
}

/// A step over routes, with something that it may not do or answer.
macro_rules! wrong_step {
    ($name:ident, |$data:ident, $n:ident, $step:ident| $done:expr) => {
        unsafe extern "C" fn $name($data: *const u8, $n: usize, at: usize) -> RouteStep {
            #[allow(unused_mut)]
            let mut $step = boundary::independent_route_step($data, $n, at);
            $done;
            $step
        }
    };
}

wrong_step!(done_with_router, |_data, _n, step| if step.given == 0 {
    step.router = 1;
});
wrong_step!(done_with_width, |_data, _n, step| if step.given == 0 {
    step.width = 33;
});
wrong_step!(done_at_0, |_data, _n, step| if step.given == 0 {
    step.next = 0;
});
wrong_step!(given_as_two, |_data, _n, step| step.given *= 2);
wrong_step!(step_changes, |data, n, step| if step.given == 1 && n > 0 {
    *data.cast_mut().add(n - 1) ^= 1;
});

/// A writer of routes, the same.
macro_rules! wrong_routes {
    ($name:ident, |$s:ident, $out:ident, $room:ident, $filled:ident| $done:expr) => {
        unsafe extern "C" fn $name($s: *const u8, n: usize, $out: *mut u8, $room: usize) -> Filled {
            #[allow(unused_mut)]
            let mut $filled = boundary::independent_routes_write($s, n, $out, $room);
            $done;
            $filled
        }
    };
}

wrong_routes!(routes_before, |_s, out, _room, filled| *out.sub(1) ^= 1);
wrong_routes!(routes_past, |_s, out, room, filled| *out.add(room) ^= 1);
wrong_routes!(routes_change, |s, _out, _room, filled| if filled.size > 0 {
    *s.cast_mut() ^= 1;
});
wrong_routes!(routes_touch, |_s, out, room, filled| if filled.refusal == 26 && room > 0 {
    *out ^= 1;
});
wrong_routes!(routes_sized, |_s, _out, room, filled| if filled.refusal == 11 {
    filled.size = room;
});
wrong_routes!(routes_placed, |_s, _out, room, filled| if filled.refusal == 0 {
    filled.place = room;
});

/// The question whether 3 and 33 are ignored, the same.
macro_rules! wrong_ignored {
    ($name:ident, |$m:ident, $answer:ident| $done:expr) => {
        unsafe extern "C" fn $name(
            $m: *const u8,
            n: usize,
            k0: u64,
            k1: u64,
            k2: u64,
            k3: u64,
        ) -> Ignored {
            #[allow(unused_mut)]
            let mut $answer = boundary::independent_routes_ignored($m, n, k0, k1, k2, k3);
            $done;
            $answer
        }
    };
}

wrong_ignored!(ignored_placed, |_m, answer| if answer.ignored == 1 {
    answer.place = 240;
});
wrong_ignored!(not_ignored_placed, |_m, answer| if answer.ignored + answer.refusal == 0 {
    answer.place = 240;
});
wrong_ignored!(refused_ignored, |_m, answer| if answer.refusal == 9 {
    answer.ignored = 1;
});
wrong_ignored!(ignored_as_two, |_m, answer| answer.ignored *= 2);
wrong_ignored!(ignored_changes, |m, answer| if answer.ignored == 1 {
    *m.cast_mut().add(240) ^= 1;
});

unsafe extern "C" fn writes_before(m: *const u8, n: usize, out: *mut u8, room: usize) -> Filled {
    *out.sub(1) ^= 1;
    boundary::independent_records(m, n, out, room)
}

unsafe extern "C" fn writes_past(m: *const u8, n: usize, out: *mut u8, room: usize) -> Filled {
    *out.add(room) ^= 1;
    boundary::independent_records(m, n, out, room)
}

unsafe extern "C" fn write_before(
    sheet: *const u8,
    n: usize,
    m: *mut u8,
    room: usize,
    permission: u8,
) -> Wrote {
    *m.sub(1) ^= 1;
    boundary::independent_write(sheet, n, m, room, permission)
}

unsafe extern "C" fn write_past(
    sheet: *const u8,
    n: usize,
    m: *mut u8,
    room: usize,
    permission: u8,
) -> Wrote {
    *m.add(room) ^= 1;
    boundary::independent_write(sheet, n, m, room, permission)
}

unsafe extern "C" fn changes_sheet(
    sheet: *const u8,
    n: usize,
    m: *mut u8,
    room: usize,
    permission: u8,
) -> Wrote {
    let wrote = boundary::independent_write(sheet, n, m, room, permission);
    if n > 0 {
        *sheet.cast_mut().add(n - 1) ^= 1;
    }
    wrote
}

unsafe extern "C" fn changes_message(
    m: *const u8,
    n: usize,
    k0: u64,
    k1: u64,
    k2: u64,
    k3: u64,
    code: u8,
) -> Answer {
    if n > 0 {
        *m.cast_mut() ^= 1;
    }
    boundary::independent_lookup(m, n, k0, k1, k2, k3, code)
}

/// A lookup whose answers of one status are changed.
macro_rules! wrong_lookup {
    ($name:ident, $status:expr, $member:ident: $value:expr $(, $more:ident: $other:expr)*) => {
        unsafe extern "C" fn $name(
            m: *const u8,
            n: usize,
            k0: u64,
            k1: u64,
            k2: u64,
            k3: u64,
            code: u8,
        ) -> Answer {
            let answer = boundary::independent_lookup(m, n, k0, k1, k2, k3, code);
            if answer.status == $status {
                return Answer { $member: $value $(, $more: $other)*, ..answer };
            }
            answer
        }
    };
}

wrong_lookup!(absent_with_start, 0, start: 242);
wrong_lookup!(absent_with_field, 0, field: 1);
wrong_lookup!(refusal_with_field, 2, field: 1);
wrong_lookup!(unknown_without_field, 1, field: 0);
wrong_lookup!(number_without_field, 3, field: 0);
wrong_lookup!(number_without_offset, 3, offset: 0);
wrong_lookup!(number_without_start, 3, start: 0);
wrong_lookup!(number_with_length, 3, length: 1);
wrong_lookup!(part_without_field, 4, field: 0);
wrong_lookup!(broken_without_origin, 5, field: 0, offset: 0, start: 0);
wrong_lookup!(broken_without_place, 5, place: 0);
wrong_lookup!(broken_with_length, 5, length: 1);

wrong_lookup!(absent_as_several, 0, several: 1);
wrong_lookup!(refusal_as_several, 2, several: 1);

/// A lookup whose answers of several pieces, or of one, are changed.
macro_rules! wrong_several {
    ($name:ident, $several:expr, |$answer:ident| $changed:expr) => {
        unsafe extern "C" fn $name(
            m: *const u8,
            n: usize,
            k0: u64,
            k1: u64,
            k2: u64,
            k3: u64,
            code: u8,
        ) -> Answer {
            let $answer = boundary::independent_lookup(m, n, k0, k1, k2, k3, code);
            if $answer.field != 0 && $answer.several == $several {
                return $changed;
            }
            $answer
        }
    };
}

wrong_several!(several_without_whole, 1, |answer| Answer { whole: 0, ..answer });
wrong_several!(several_as_two, 1, |answer| Answer { several: 2, ..answer });
wrong_several!(one_with_whole, 0, |answer| Answer { whole: answer.length, ..answer });
wrong_several!(number_with_whole, 1, |answer| Answer {
    length: if answer.status == 3 { answer.whole } else { answer.length },
    ..answer
});

/// A copy before or after which something is done that it may not do.
macro_rules! wrong_copy {
    ($name:ident, |$m:ident, $out:ident, $room:ident, $filled:ident| $done:expr) => {
        unsafe extern "C" fn $name(
            $m: *const u8,
            n: usize,
            code: u8,
            $out: *mut u8,
            $room: usize,
        ) -> Filled {
            #[allow(unused_mut)]
            let mut $filled = boundary::independent_copy($m, n, code, $out, $room);
            $done;
            $filled
        }
    };
}

wrong_copy!(copy_before, |_m, out, _room, filled| *out.sub(1) ^= 1);
wrong_copy!(copy_past, |_m, out, room, filled| *out.add(room) ^= 1);
wrong_copy!(refused_copy_with_size, |_m, _out, room, filled| if filled.refusal == 11 {
    filled.size = room + 1;
});
wrong_copy!(refused_copy_writes, |_m, out, room, filled| if filled.refusal == 11 && room > 0 {
    *out ^= 1;
});
wrong_copy!(copy_changes_message, |m, _out, _room, filled| if filled.size > 0 {
    *m.cast_mut().add(240) ^= 1;
});
wrong_copy!(empty_copy_with_place, |_m, _out, room, filled| if filled.refusal + filled.size as u32
    == 0
{
    filled.place = room;
});

unsafe extern "C" fn zeros_without_start(
    m: *const u8,
    n: usize,
    k0: u64,
    k1: u64,
    k2: u64,
    k3: u64,
    code: u8,
) -> Answer {
    let answer = boundary::independent_lookup(m, n, k0, k1, k2, k3, code);
    let zeros = answer.status == 4 && answer.kind == 10 && answer.length == 0;
    Answer { start: if zeros { 0 } else { answer.start }, ..answer }
}

unsafe extern "C" fn refused_with_words(m: *const u8, n: usize) -> Present {
    let present = boundary::independent_present(m, n);
    Present { words: if present.refusal == 7 { [1; 4] } else { present.words }, ..present }
}

unsafe extern "C" fn refused_with_size(
    m: *const u8,
    n: usize,
    out: *mut u8,
    room: usize,
) -> Filled {
    let filled = boundary::independent_records(m, n, out, room);
    Filled { size: if filled.refusal == 11 { room + 1 } else { filled.size }, ..filled }
}

unsafe extern "C" fn refused_with_plan(
    sheet: *const u8,
    n: usize,
    m: *mut u8,
    room: usize,
    permission: u8,
) -> Wrote {
    let wrote = boundary::independent_write(sheet, n, m, room, permission);
    Wrote { plan: if wrote.refusal == 11 { 3 } else { wrote.plan }, ..wrote }
}

unsafe extern "C" fn refusal_writes(
    sheet: *const u8,
    n: usize,
    m: *mut u8,
    room: usize,
    permission: u8,
) -> Wrote {
    let wrote = boundary::independent_write(sheet, n, m, room, permission);
    if wrote.refusal == 14 {
        *m.add(236) ^= 1;
    }
    wrote
}

unsafe extern "C" fn empty_with_start(m: *const u8, n: usize, code: u8) -> Extent {
    let extent = boundary::independent_data(m, n, code);
    Extent { start: if extent.length == 0 { 240 } else { extent.start }, ..extent }
}

unsafe extern "C" fn vendor_past(m: *const u8, n: usize, out: *mut u8, room: usize) -> Filled {
    *out.add(room) ^= 1;
    boundary::independent_vendor_records(m, n, out, room)
}

unsafe extern "C" fn vendor_touches(s: *const u8, n: usize, out: *mut u8, room: usize) -> Filled {
    let filled = boundary::independent_vendor_write(s, n, out, room);
    if filled.refusal == 11 && room > 0 {
        *out ^= 1;
    }
    filled
}

unsafe extern "C" fn vendor_sized(s: *const u8, n: usize, out: *mut u8, room: usize) -> Filled {
    let filled = boundary::independent_vendor_write(s, n, out, room);
    Filled { size: if filled.refusal == 11 { room + 1 } else { filled.size }, ..filled }
}

/// A build before or after which something is done that it may not do.
macro_rules! wrong_build {
    ($name:ident, |$m:ident, $index:ident, $count:ident, $filled:ident| $done:expr) => {
        unsafe extern "C" fn $name(
            $m: *const u8,
            n: usize,
            $index: *mut u16,
            $count: usize,
        ) -> Filled {
            #[allow(unused_mut)]
            let mut $filled = boundary::independent_index_build($m, n, $index, $count);
            $done;
            $filled
        }
    };
}

wrong_build!(build_before, |_m, index, _count, filled| *index.sub(1) ^= 1);
wrong_build!(build_past, |_m, index, count, filled| *index.add(count) ^= 1);
wrong_build!(build_touches, |_m, index, count, filled| if filled.refusal == 5 && count > 0 {
    *index ^= 1;
});
wrong_build!(build_sized, |_m, _index, count, filled| if filled.refusal == 18 {
    filled.size = count;
});
wrong_build!(build_placed, |_m, _index, count, filled| if filled.refusal == 0 {
    filled.place = count;
});
wrong_build!(build_changes, |m, _index, _count, filled| if filled.refusal == 0 {
    *m.cast_mut().add(240) ^= 1;
});

/// A lookup through an index, with something that it may not do or answer.
macro_rules! wrong_through {
    ($name:ident, |$m:ident, $index:ident, $answer:ident| $done:expr) => {
        unsafe extern "C" fn $name(
            $m: *const u8,
            n: usize,
            $index: *const u16,
            count: usize,
            k0: u64,
            k1: u64,
            k2: u64,
            k3: u64,
            code: u8,
        ) -> Answer {
            #[allow(unused_mut)]
            let mut $answer =
                boundary::independent_index_lookup($m, n, $index, count, k0, k1, k2, k3, code);
            $done;
            $answer
        }
    };
}

wrong_through!(through_changes, |_m, index, answer| if answer.refusal == 19 {
    *index.cast_mut() ^= 1;
});
wrong_through!(through_message, |m, _index, answer| if answer.field == 1 {
    *m.cast_mut() ^= 1;
});
wrong_through!(through_absent, |_m, _index, answer| if answer.status == 0 {
    answer.start = 2;
});
wrong_through!(through_refused, |_m, _index, answer| if answer.refusal == 19 {
    answer.field = 1;
});
wrong_through!(through_number, |_m, _index, answer| if answer.status == 3 {
    answer.field = 0;
});
