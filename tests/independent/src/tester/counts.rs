//! What was exercised, and whether it was often enough.

use super::index::{fault, UNUSABLE};
use super::messages::goes_across;
use independent::boundary::{
    Address, Answer, Extent, Filled, Ignored, Present, Relay, RouteStep, Wrote,
};
use independent::rules::answers::{Codes, Kind};
use independent::rules::kinds::kind_of;
use independent::rules::reading::{walk, COOKIE, FILE, OPTIONS, OVERLOAD, SNAME};

/// How often each possible answer is to come in the short mode.
const LEAST: u64 = 100;

/// The answers that an option without data can have, by status. (A number has data.)
const STATUS_EMPTY: [(usize, &str); 3] = [(1, "unknown"), (4, "68"), (5, "broken")];

/// The answers that name a place, by status.
const STATUS_FOUND: [(usize, &str); 4] =
    [(1, "unknown"), (3, "number"), (4, "part"), (5, "broken")];

/// The kinds, and none of them at 0.
const KINDS: usize = 14;

/// The refusals to 26, and none at 0.
const REFUSALS: usize = 27;

/// Refusals by number; at 0 the calls that were not refused.
type Refusals = [u64; REFUSALS];

pub struct Counts {
    pub messages: u64,
    pub sheets: u64,
    pub lists: u64,
    pub calls: u64,
    pub read_back: u64,
    /// Accepted messages with an option in pieces, and with one over two fields
    /// or three.
    split: [u64; 2],
    lookup: Refusals,
    present: Refusals,
    copy: Refusals,
    records: Refusals,
    write: Refusals,
    vendor_records: Refusals,
    vendor_write: Refusals,
    /// Lent for items: exactly, one short, longer, none at all; by call.
    vendor_lent: [[u64; 4]; 2],
    /// Writes of items that take 255 bytes, and 256.
    vendor_full: [u64; 2],
    relay_records: Refusals,
    relay_write: Refusals,
    /// Lent for sub-options: exactly, one short, longer, none at all; by call.
    relay_lent: [[u64; 4]; 2],
    /// Writes of sub-options that take 255 bytes, and 256.
    relay_full: [u64; 2],
    /// Circuit id and remote id: absent, of length 0, longer.
    relay_id: [[u64; 3]; 2],
    /// Option 82s and sheets of sub-options.
    pub relays: u64,
    pub relay_back: u64,
    /// Steps over routes: done, given; and those given by their width.
    route_step: [u64; 2],
    width: [u64; 33],
    routes_write: Refusals,
    /// Lent for routes: exactly, one short, longer, none at all.
    routes_lent: [u64; 4],
    /// Of the question whether 3 and 33 are ignored; its answers no and yes.
    ignored: Refusals,
    ignored_said: [u64; 2],
    /// Option 121s, routes to be written, and messages that are asked.
    pub routes: u64,
    pub routes_back: u64,
    /// Written items read back as their sheet.
    pub vendor_back: u64,
    index_build: Refusals,
    index_lookup: Refusals,
    /// Lookups through an index by status and field, and by kind and field;
    /// those of several pieces.
    index_status: [[u64; 4]; 6],
    index_kind: [[u64; 3]; KINDS],
    index_several: u64,
    /// Entries that were not used, by what makes them unusable.
    unusable: [u64; 12],
    /// Lookups through an index of the same bytes; through one of other bytes
    /// that answer as the plain lookup, and otherwise; and used entries that
    /// answer otherwise.
    pub fresh: u64,
    pub stale: [u64; 2],
    pub other: u64,
    /// Messages with an index.
    pub indexes: u64,
    /// Option 43s and sheets of items.
    pub vendors: u64,
    /// Lookups by status and field: none, options, file, sname.
    status: [[u64; 4]; 6],
    /// Answers with a kind, by kind and field.
    kind: [[u64; 3]; KINDS],
    /// Broken answers, by number (8, 9) and field.
    broken: [[u64; 3]; 2],
    /// Answers of options in one piece without data, by status and field.
    empty: [[u64; 3]; 6],
    /// Answers of options in several pieces, by status and field of the first.
    several: [[u64; 3]; 6],
    several_kind: [[u64; 3]; KINDS],
    several_broken: [[u64; 3]; 2],
    /// Of these, by their whole length: 0, up to 255, up to 1,024, more.
    whole: [u64; 4],
    /// Of these, the ones whose first piece is empty.
    empty_first: u64,
    /// Answers of options that leave their field room for END alone, by field.
    last: [u64; 3],
    answered: [u64; 256],
    unknown: [u64; 256],
    absent: [u64; 256],
    lookup_8: [u64; 256],
    lookup_9: [u64; 256],
    write_8: [u64; 256],
    write_9: [u64; 256],
    /// Refusals 4 to 7 of the roll call, by field: options, file, sname.
    fault: [[u64; 3]; 4],
    /// By permission and plan.
    plan: [[u64; 4]; 4],
    fit: [u64; 4],
    short: [u64; 4],
    data: [u64; 2],
    text: [u64; 2],
    step: [u64; 2],
    /// Lent sheets: exact, one short, longer, none at all.
    lent: [u64; 4],
    /// Buffers lent to a copy, the same.
    copied: [u64; 4],
    /// Copies of absent codes.
    copy_absent: u64,
    /// Writes of sheets with a record over 255 bytes, by plan, and those that do
    /// not fit.
    long: [u64; 5],
}

impl Counts {
    pub fn new() -> Counts {
        Counts {
            messages: 0,
            sheets: 0,
            lists: 0,
            calls: 0,
            read_back: 0,
            split: [0; 2],
            lookup: [0; REFUSALS],
            present: [0; REFUSALS],
            copy: [0; REFUSALS],
            records: [0; REFUSALS],
            write: [0; REFUSALS],
            vendor_records: [0; REFUSALS],
            vendor_write: [0; REFUSALS],
            vendor_lent: [[0; 4]; 2],
            vendor_full: [0; 2],
            relay_records: [0; REFUSALS],
            relay_write: [0; REFUSALS],
            relay_lent: [[0; 4]; 2],
            relay_full: [0; 2],
            relay_id: [[0; 3]; 2],
            relays: 0,
            relay_back: 0,
            route_step: [0; 2],
            width: [0; 33],
            routes_write: [0; REFUSALS],
            routes_lent: [0; 4],
            ignored: [0; REFUSALS],
            ignored_said: [0; 2],
            routes: 0,
            routes_back: 0,
            vendor_back: 0,
            index_build: [0; REFUSALS],
            index_lookup: [0; REFUSALS],
            index_status: [[0; 4]; 6],
            index_kind: [[0; 3]; KINDS],
            index_several: 0,
            unusable: [0; 12],
            fresh: 0,
            stale: [0; 2],
            other: 0,
            indexes: 0,
            vendors: 0,
            status: [[0; 4]; 6],
            kind: [[0; 3]; KINDS],
            broken: [[0; 3]; 2],
            empty: [[0; 3]; 6],
            several: [[0; 3]; 6],
            several_kind: [[0; 3]; KINDS],
            several_broken: [[0; 3]; 2],
            whole: [0; 4],
            empty_first: 0,
            last: [0; 3],
            answered: [0; 256],
            unknown: [0; 256],
            absent: [0; 256],
            lookup_8: [0; 256],
            lookup_9: [0; 256],
            write_8: [0; 256],
            write_9: [0; 256],
            fault: [[0; 3]; 4],
            plan: [[0; 4]; 4],
            fit: [0; 4],
            short: [0; 4],
            data: [0; 2],
            text: [0; 2],
            step: [0; 2],
            lent: [0; 4],
            copied: [0; 4],
            copy_absent: 0,
            long: [0; 5],
        }
    }

    /// A message that is read.
    pub fn message(&mut self, message: &[u8]) {
        let mut codes = Codes::default();
        let mut pieces = false;
        let read = walk(message, |met| pieces |= !codes.add(met.code));
        if read.is_ok() && pieces {
            self.split[0] += 1;
            self.split[1] += u64::from(goes_across(message));
        }
    }

    pub fn lookup(&mut self, message: &[u8], code: u8, answer: &Answer) {
        let code = usize::from(code);
        let status = answer.status as usize;
        self.calls += 1;
        add(&mut self.lookup, if status == 2 { answer.refusal as usize } else { 0 });
        add_at(&mut self.status, status, answer.field as usize);
        match (status, answer.refusal) {
            (0, _) => self.absent[code] += 1,
            (1, _) => self.unknown[code] += 1,
            (2, _) => (),
            (5, 8) => self.lookup_8[code] += 1,
            (5, _) => self.lookup_9[code] += 1,
            _ => self.answered[code] += 1,
        }
        let field = match answer.field {
            1 => 0,
            2 => 1,
            3 => 2,
            _ => return,
        };
        let fault = (answer.refusal as usize).wrapping_sub(8);
        match status {
            3 | 4 => add_at(&mut self.kind, answer.kind as usize, field),
            5 => add_at(&mut self.broken, fault, field),
            _ => (),
        }
        let Some(&length) = message.get(answer.start.wrapping_sub(1)) else { return };
        let length = usize::from(length);
        if answer.several != 0 {
            add_at(&mut self.several, status, field);
            match status {
                3 | 4 => add_at(&mut self.several_kind, answer.kind as usize, field),
                5 => add_at(&mut self.several_broken, fault, field),
                _ => (),
            }
            let size = match answer.whole {
                0 => 0,
                1..=255 => 1,
                256..=1024 => 2,
                _ => 3,
            };
            self.whole[size] += 1;
            self.empty_first += u64::from(length == 0);
        } else if length == 0 {
            add_at(&mut self.empty, status, field);
        }
        if answer.start + length + 1 == [message.len(), COOKIE, FILE][field] {
            self.last[field] += 1;
        }
    }

    pub fn data(&mut self, extent: &Extent) {
        self.calls += 1;
        self.data[usize::from(extent.length > 0)] += 1;
    }

    pub fn text(&mut self, extent: &Extent) {
        self.calls += 1;
        self.text[usize::from(extent.length > 0)] += 1;
    }

    pub fn step(&mut self, step: &Address) {
        self.calls += 1;
        self.step[usize::from(step.given > 0)] += 1;
    }

    pub fn present(&mut self, present: &Present) {
        self.calls += 1;
        add(&mut self.present, present.refusal as usize);
        if let 4..=7 = present.refusal {
            let after = present.refusal == 5;
            let field = match present.place {
                OPTIONS.. => 0,
                COOKIE if after => 1,
                FILE if after => 2,
                FILE..COOKIE => 1,
                SNAME..FILE => 2,
                _ => return,
            };
            self.fault[present.refusal as usize - 4][field] += 1;
        }
    }

    /// `size` is what the message's records take.
    pub fn records(&mut self, filled: &Filled, size: Option<usize>, room: usize) {
        self.calls += 1;
        add(&mut self.records, filled.refusal as usize);
        add_room(&mut self.lent, size, room);
    }

    /// `size` is what the code's bytes take.
    pub fn copy(&mut self, filled: &Filled, size: Option<usize>, room: usize) {
        self.calls += 1;
        add(&mut self.copy, filled.refusal as usize);
        add_room(&mut self.copied, size, room);
        self.copy_absent += u64::from(size.is_none() && filled.refusal == 11);
    }

    /// `fit` is a plan whose smallest buffer this is; `short` a plan for
    /// which, alone or as the last of all, it is one byte too short.
    pub fn write(
        &mut self,
        sheet: &[u8],
        permission: u8,
        wrote: &Wrote,
        fit: Option<usize>,
        short: Option<usize>,
    ) {
        self.calls += 1;
        add(&mut self.write, wrote.refusal as usize);
        let tag = || usize::from(sheet.get(wrote.place).copied().unwrap_or(0));
        if let (0 | 11, true) = (wrote.refusal, has_long(sheet)) {
            add(&mut self.long, if wrote.refusal == 0 { wrote.plan as usize } else { 4 });
        }
        match wrote.refusal {
            0 => {
                let plan = wrote.plan as usize;
                self.plan[usize::from(permission).min(3)][plan.min(3)] += 1;
                if fit == Some(plan) {
                    self.fit[plan] += 1;
                }
            }
            8 => self.write_8[tag()] += 1,
            9 => self.write_9[tag()] += 1,
            11 => {
                if let Some(plan) = short {
                    self.short[plan] += 1;
                }
            }
            _ => (),
        }
    }

    /// `size` is what the items take as records.
    pub fn vendor_records(&mut self, filled: &Filled, size: Option<usize>, room: usize) {
        self.calls += 1;
        add(&mut self.vendor_records, filled.refusal as usize);
        add_room(&mut self.vendor_lent[0], size, room);
    }

    /// `size` is what the records take as items.
    pub fn vendor_write(&mut self, filled: &Filled, size: usize, room: usize) {
        self.calls += 1;
        add(&mut self.vendor_write, filled.refusal as usize);
        if let 0 | 11 = filled.refusal {
            add_room(&mut self.vendor_lent[1], Some(size), room);
            self.vendor_full[0] += u64::from(filled.refusal == 0 && size == 255);
            self.vendor_full[1] += u64::from(filled.refusal == 11 && size == 256 && room >= 256);
        }
    }

    /// `size` is what the sub-options take as records.
    pub fn relay_records(&mut self, answer: &Relay, size: Option<usize>, room: usize) {
        self.calls += 1;
        add(&mut self.relay_records, answer.refusal as usize);
        add_room(&mut self.relay_lent[0], size, room);
        if answer.refusal == 0 {
            let [circuit, remote] = &mut self.relay_id;
            add(
                circuit,
                usize::from(answer.circuit.start > 0) << usize::from(answer.circuit.length > 0),
            );
            add(
                remote,
                usize::from(answer.remote.start > 0) << usize::from(answer.remote.length > 0),
            );
        }
    }

    /// `size` is what the records take as sub-options.
    pub fn relay_write(&mut self, filled: &Filled, size: usize, room: usize) {
        self.calls += 1;
        add(&mut self.relay_write, filled.refusal as usize);
        if let 0 | 11 = filled.refusal {
            add_room(&mut self.relay_lent[1], Some(size), room);
            self.relay_full[0] += u64::from(filled.refusal == 0 && size == 255);
            self.relay_full[1] += u64::from(filled.refusal == 11 && size == 256 && room >= 256);
        }
    }

    pub fn print_relay(&self) {
        println!("relay information {}", self.relays);
        print_refusals("relay_records", &self.relay_records);
        print_refusals("relay_write", &self.relay_write);
        println!("relay, lent exactly, one short, longer, none: {:?}", self.relay_lent);
        println!("relay, 255 bytes given, 256 refused: {:?}", self.relay_full);
        println!("circuit id, remote id absent, of length 0, longer: {:?}", self.relay_id);
        println!("relay, written and read back: {}", self.relay_back);
    }

    fn missing_relay(&self, missing: &mut Missing) {
        missing.refusals("relay_records", &self.relay_records, &[0, 8, 11]);
        missing.refusals("relay_write", &self.relay_write, &[0, 8, 11, 12, 13, 16]);
        missing.all("relay_records lent", &self.relay_lent[0]);
        missing.all("relay_write lent", &self.relay_lent[1]);
        missing.all("relay_write of 255 bytes, of 256", &self.relay_full);
        missing.all("circuit id", &self.relay_id[0]);
        missing.all("remote id", &self.relay_id[1]);
        missing.one("relay, written and read back", self.relay_back);
        missing.one("write refusal 23", self.write[23]);
    }

    pub fn route_step(&mut self, step: &RouteStep) {
        self.calls += 1;
        self.route_step[usize::from(step.given > 0)] += 1;
        if step.given > 0 {
            add(&mut self.width, step.width as usize);
        }
    }

    /// `size` is what the routes take as data of option 121.
    pub fn routes_write(&mut self, filled: &Filled, size: usize, room: usize) {
        self.calls += 1;
        add(&mut self.routes_write, filled.refusal as usize);
        if let 0 | 11 = filled.refusal {
            add_room(&mut self.routes_lent, Some(size), room);
        }
    }

    pub fn ignored(&mut self, answer: &Ignored) {
        self.calls += 2;
        add(&mut self.ignored, answer.refusal as usize);
        if answer.refusal == 0 {
            add(&mut self.ignored_said, answer.ignored as usize);
        }
    }

    pub fn print_routes(&self) {
        println!("classless routes {}", self.routes);
        println!("route step: given {}, done {}", self.route_step[1], self.route_step[0]);
        println!("route step, given by width: {:?}", self.width);
        print_refusals("routes_write", &self.routes_write);
        println!("routes, lent exactly, one short, longer, none: {:?}", self.routes_lent);
        println!("routes, written and walked back: {}", self.routes_back);
        print_refusals("routes_ignored", &self.ignored);
        println!("routes_ignored: yes {}, no {}", self.ignored_said[1], self.ignored_said[0]);
    }

    fn missing_routes(&self, missing: &mut Missing) {
        missing.all("route step", &self.route_step);
        missing.all("route step of width", &self.width);
        missing.refusals("routes_write", &self.routes_write, &[0, 11, 26]);
        missing.all("routes_write lent", &self.routes_lent);
        missing.one("routes, written and walked back", self.routes_back);
        missing.refusals("routes_ignored", &self.ignored, &[0, 1, 2, 3, 4, 5, 6, 7, 8, 9]);
        missing.all("routes_ignored, no and yes", &self.ignored_said);
    }

    pub fn index_build(&mut self, filled: &Filled) {
        self.calls += 1;
        add(&mut self.index_build, filled.refusal as usize);
    }

    pub fn index_lookup(&mut self, message: &[u8], code: u8, answer: &Answer) {
        self.calls += 1;
        let status = answer.status as usize;
        add(&mut self.index_lookup, if status == 2 { answer.refusal as usize } else { 0 });
        add_at(&mut self.index_status, status, answer.field as usize);
        if let (3 | 4, 1..=3) = (status, answer.field) {
            add_at(&mut self.index_kind, answer.kind as usize, answer.field as usize - 1);
        }
        self.index_several += u64::from(answer.several != 0);
        if (answer.status, answer.refusal) == (2, 19) {
            self.unusable[fault(message, code, answer.place)] += 1;
        }
    }

    /// Messages, sheets, lists, vendor and relay information, routes and indexes together.
    pub fn compared(&self) -> u64 {
        let inside = self.vendors + self.relays + self.routes;
        self.messages + self.sheets + self.lists + inside + self.indexes
    }

    pub fn print(&self) {
        println!(
            "messages {}, sheets {}, address lists {}, vendor information {}, indexes {}, calls {}",
            self.messages, self.sheets, self.lists, self.vendors, self.indexes, self.calls
        );
        println!("written messages read back as their sheet: {}", self.read_back);
        let [pieces, across] = self.split;
        println!("messages with an option in pieces: {pieces}, over several fields: {across}");
        print_refusals("lookup", &self.lookup);
        print_refusals("present", &self.present);
        print_refusals("copy", &self.copy);
        print_refusals("records", &self.records);
        print_refusals("write", &self.write);
        print_refusals("vendor_records", &self.vendor_records);
        print_refusals("vendor_write", &self.vendor_write);
        println!("vendor, lent exactly, one short, longer, none: {:?}", self.vendor_lent);
        println!("vendor, 255 bytes given, 256 refused: {:?}", self.vendor_full);
        println!("vendor, written and read back: {}", self.vendor_back);
        self.print_relay();
        self.print_routes();
        print_refusals("index_build", &self.index_build);
        print_refusals("index_lookup", &self.index_lookup);
        let [same, otherwise] = self.stale;
        println!("index of the same bytes: {}", self.fresh);
        println!("index of other bytes: as the plain lookup {same}, otherwise {otherwise}");
        println!("used entries that answer otherwise: {}", self.other);
        println!("through an index, by status in no field, options, file, sname:");
        for (status, what) in
            ["absent", "unknown", "refused", "number", "part", "broken"].iter().enumerate()
        {
            println!("  {what}: {:?}", self.index_status[status]);
        }
        for (i, fields) in self.index_kind.iter().enumerate().skip(1) {
            println!("  kind {i}: {fields:?}");
        }
        println!("  of several pieces: {}", self.index_several);
        for (what, count) in UNUSABLE.iter().zip(self.unusable) {
            println!("  unusable, {what}: {count}");
        }
        let [absent, unknown, refused, number, part, broken] = self.status;
        println!("lookup: absent {}, refused {}", absent[0], refused[0]);
        println!("lookup in options, file, sname:");
        for (what, fields) in
            [("unknown", unknown), ("number", number), ("part", part), ("broken", broken)]
        {
            println!("  {what}: {:?}", &fields[1..]);
        }
        for (i, fields) in self.kind.iter().enumerate().skip(1) {
            println!("  kind {i}: {fields:?}");
        }
        println!("  broken by 8: {:?}, by 9: {:?}", self.broken[0], self.broken[1]);
        for (status, what) in STATUS_EMPTY {
            println!("  {what} of length 0: {:?}", self.empty[status]);
        }
        println!("  with room for END alone behind it: {:?}", self.last);
        println!("lookup of several pieces, the first in options, file, sname:");
        for (status, what) in STATUS_FOUND {
            println!("  {what}: {:?}", self.several[status]);
        }
        for (i, fields) in self.several_kind.iter().enumerate().skip(1) {
            println!("  kind {i}: {fields:?}");
        }
        let [by_8, by_9] = self.several_broken;
        println!("  broken by 8: {by_8:?}, by 9: {by_9:?}");
        println!("  of 0 bytes, to 255, to 1,024, more: {:?}", self.whole);
        println!("  with an empty first piece: {}", self.empty_first);
        for (i, number) in (4..=7).enumerate() {
            println!("present: {number} in options, file, sname: {:?}", self.fault[i]);
        }
        println!("data: given {}, empty {}", self.data[1], self.data[0]);
        println!("text: given {}, empty {}", self.text[1], self.text[0]);
        println!("address step: given {}, done {}", self.step[1], self.step[0]);
        println!("copy, lent exactly, one short, longer, none: {:?}", self.copied);
        println!("copy of an absent code: {}", self.copy_absent);
        println!("records, lent exactly, one short, longer, none: {:?}", self.lent);
        for (permission, plans) in self.plan.iter().enumerate() {
            println!("write, permission {permission}: plans 0 to 3 used {plans:?}");
        }
        println!("write, with a record over 255 bytes, plans 0 to 3 and no room: {:?}", self.long);
        println!("write, plans 0 to 3 at their exact fit: {:?}", self.fit);
        println!("write, refused one byte short of plans 0 to 3: {:?}", self.short);
        for (what, least) in [
            ("lookup answered, rarest code with a row", self.rarest(has_row, &self.answered)),
            ("lookup unknown, rarest code", self.rarest(is_code, &self.unknown)),
            ("lookup absent, rarest code", self.rarest(is_code, &self.absent)),
            ("lookup 8, rarest code", self.rarest(breaks_length, &self.lookup_8)),
            ("lookup 9, rarest code", self.rarest(breaks_value, &self.lookup_9)),
            ("write 8, rarest tag", self.rarest(breaks_length, &self.write_8)),
            ("write 9, rarest tag", self.rarest(breaks_value, &self.write_9)),
        ] {
            println!("{what}: {} ({} times)", least.0, least.1);
        }
    }

    fn rarest(&self, possible: fn(u8) -> bool, counts: &[u64; 256]) -> (u8, u64) {
        let counted = (0..=255).filter(|&code| possible(code));
        let pairs = counted.map(|code| (code, counts[usize::from(code)]));
        pairs.min_by_key(|&(_, count)| count).unwrap_or((0, 0))
    }

    /// What came too seldom.
    pub fn missing(&self) -> Vec<String> {
        let mut missing = Missing(Vec::new());
        missing.refusals("lookup", &self.lookup, &[0, 1, 2, 3, 4, 5, 6, 7, 10]);
        missing.refusals("present", &self.present, &[0, 1, 2, 3, 4, 5, 6, 7]);
        missing.refusals("copy", &self.copy, &[0, 1, 2, 3, 4, 5, 6, 7, 10, 11]);
        missing.refusals("records", &self.records, &[0, 1, 2, 3, 4, 5, 6, 7, 11]);
        missing.refusals("write", &self.write, &[0, 1, 2, 7, 8, 9, 10, 11, 12, 13, 14, 15, 16, 23]);
        self.missing_relay(&mut missing);
        self.missing_routes(&mut missing);
        missing.refusals("vendor_records", &self.vendor_records, &[0, 11, 17]);
        missing.refusals("vendor_write", &self.vendor_write, &[0, 10, 11, 12, 13, 16]);
        missing.all("vendor_records lent", &self.vendor_lent[0]);
        missing.all("vendor_write lent", &self.vendor_lent[1]);
        missing.all("vendor_write of 255 bytes, of 256", &self.vendor_full);
        missing.one("vendor, written and read back", self.vendor_back);
        missing.refusals("index_build", &self.index_build, &[0, 1, 2, 3, 4, 5, 6, 7, 18]);
        let possible = [0, 1, 2, 3, 4, 5, 6, 7, 10, 18, 19];
        missing.refusals("index_lookup", &self.index_lookup, &possible);
        missing.one("index of the same bytes", self.fresh);
        missing.all("index of other bytes", &self.stale);
        missing.one("used entries that answer otherwise", self.other);
        missing.origins("index_lookup", &self.index_status);
        for (i, fields) in self.index_kind.iter().enumerate().skip(1) {
            missing.all(&format!("index_lookup kind {i} by field"), fields);
        }
        missing.one("index_lookup of several pieces", self.index_several);
        for (what, count) in UNUSABLE.iter().zip(self.unusable) {
            missing.one(&format!("unusable entry, {what}"), count);
        }
        missing.origins("lookup", &self.status);
        for (i, fields) in self.kind.iter().enumerate().skip(1) {
            missing.all(&format!("lookup kind {i} by field"), fields);
        }
        missing.all("lookup broken by 8 by field", &self.broken[0]);
        missing.all("lookup broken by 9 by field", &self.broken[1]);
        for (status, what) in STATUS_EMPTY {
            missing.all(&format!("lookup {what} of length 0 by field"), &self.empty[status]);
        }
        missing.all("lookup of an option last in its field", &self.last);
        for (status, what) in STATUS_FOUND {
            missing
                .all(&format!("lookup {what} of several pieces by field"), &self.several[status]);
        }
        for (i, fields) in self.several_kind.iter().enumerate().skip(1) {
            missing.all(&format!("lookup kind {i} of several pieces by field"), fields);
        }
        missing.all("lookup of several pieces broken by 8 by field", &self.several_broken[0]);
        missing.all("lookup of several pieces broken by 9 by field", &self.several_broken[1]);
        missing.all("lookup of several pieces by whole length", &self.whole);
        missing.one("lookup of several pieces, the first empty", self.empty_first);
        missing.all("message with an option in pieces", &self.split);
        // 7 comes from a second 52 alone, and in file and sname that is a 6.
        let [truncated, no_end, overload, duplicate] = &self.fault;
        for (number, fields) in
            [(4, &truncated[..]), (5, no_end), (6, overload), (7, &duplicate[..1])]
        {
            missing.all(&format!("present refusal {number} by field"), fields);
        }
        if duplicate[1..] != [0, 0] {
            missing.0.push("present refusal 7 came from an impossible field".to_string());
        }
        missing.all("data", &self.data);
        missing.all("text", &self.text);
        missing.all("address step", &self.step);
        missing.all("copy lent", &self.copied);
        missing.one("copy of an absent code", self.copy_absent);
        missing.all("records lent", &self.lent);
        missing.all("write of a record over 255 bytes by plan", &self.long);
        // Under permission 3, what fits plan 2 fits plan 1, which is tried before.
        for (permission, plan) in [(0, 0), (1, 0), (1, 1), (2, 0), (2, 2), (3, 0), (3, 1), (3, 3)] {
            let count = self.plan[permission][plan];
            missing.one(&format!("write permission {permission} plan {plan}"), count);
        }
        missing.all("write exact fit of plan", &self.fit);
        missing.all("write one short of plan", &self.short);
        missing.codes("lookup answered", has_row, &self.answered);
        missing.codes("lookup unknown", is_code, &self.unknown);
        missing.codes("lookup absent", is_code, &self.absent);
        missing.codes("lookup 8", breaks_length, &self.lookup_8);
        missing.codes("lookup 9", breaks_value, &self.lookup_9);
        missing.codes("write 8", breaks_length, &self.write_8);
        missing.codes("write 9", breaks_value, &self.write_9);
        missing.0
    }
}

fn add_at<const N: usize>(counts: &mut [[u64; N]], row: usize, at: usize) {
    if let Some(counts) = counts.get_mut(row) {
        add(counts, at);
    }
}

fn add(counts: &mut [u64], at: usize) {
    if let Some(count) = counts.get_mut(at) {
        *count += 1;
    }
}

/// A room of so many bytes for what takes `size`: exact, one short, longer, none.
fn add_room(counts: &mut [u64; 4], size: Option<usize>, room: usize) {
    let Some(size) = size else { return };
    if room == size {
        counts[0] += 1;
    } else if room + 1 == size {
        counts[1] += 1;
    } else if room > size {
        counts[2] += 1;
    } else if room == 0 {
        counts[3] += 1;
    }
}

/// Whether a sheet that was judged has a record over 255 bytes.
fn has_long(mut sheet: &[u8]) -> bool {
    while let [_, high, low, rest @ ..] = sheet {
        if *high > 0 {
            return true;
        }
        sheet = rest.get(usize::from(*low)..).unwrap_or(&[]);
    }
    false
}

fn print_refusals(call: &str, counts: &Refusals) {
    print!("{call}: not refused {}", counts[0]);
    for (number, count) in counts.iter().enumerate().skip(1) {
        if *count > 0 {
            print!(", {number}: {count}");
        }
    }
    println!();
}

fn is_code(code: u8) -> bool {
    !matches!(code, 0 | 255)
}

fn has_row(code: u8) -> bool {
    kind_of(code).is_some()
}

/// 52 of a wrong length or value is refused before.
fn breaks_length(code: u8) -> bool {
    has_row(code) && code != OVERLOAD
}

fn breaks_value(code: u8) -> bool {
    match kind_of(code) {
        Some(Kind::Flag | Kind::List16 | Kind::Text | Kind::Routes) => true,
        Some(Kind::OneByte) => code != OVERLOAD,
        Some(Kind::Number16) => code != 13,
        Some(Kind::AddressPairs) => code == 33,
        _ => false,
    }
}

struct Missing(Vec<String>);

impl Missing {
    fn one(&mut self, what: &str, count: u64) {
        if count < LEAST {
            self.0.push(format!("{what}: {count} times"));
        }
    }

    fn all(&mut self, what: &str, counts: &[u64]) {
        for (i, &count) in counts.iter().enumerate() {
            self.one(&format!("{what} ({i})"), count);
        }
    }

    /// An absent code and a refusal come from no field, every other answer from one.
    fn origins(&mut self, call: &str, status: &[[u64; 4]; 6]) {
        for (i, fields) in status.iter().enumerate() {
            let (possible, other) =
                if let 0 | 2 = i { fields.split_at(1) } else { (&fields[1..], &fields[..1]) };
            self.all(&format!("{call} status {i} by field"), possible);
            if other.iter().any(|&count| count > 0) {
                self.0.push(format!("{call} status {i} came from an impossible field"));
            }
        }
    }

    fn refusals(&mut self, call: &str, counts: &Refusals, possible: &[usize]) {
        for (number, &count) in counts.iter().enumerate() {
            if possible.contains(&number) {
                self.one(&format!("{call} refusal {number}"), count);
            } else if count > 0 {
                self.0.push(format!("{call} gave the impossible refusal {number}"));
            }
        }
    }

    fn codes(&mut self, what: &str, possible: fn(u8) -> bool, counts: &[u64; 256]) {
        for code in (0..=255).filter(|&code| possible(code)) {
            self.one(&format!("{what}, code {code}"), counts[usize::from(code)]);
        }
    }
}
