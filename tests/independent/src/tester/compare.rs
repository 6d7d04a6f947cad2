//! The comparison: every answer, every number and place, every byte of every
//! lent buffer, the bytes around it, and that inputs stay as they were.

use super::counts::Counts;
use super::index::{self, Numbers};
use super::lent::Lent;
use super::rng::Rng;
use super::sheets::Needs;
use super::sides::{Subject, Yardstick};
use super::{groups, messages, relay, routes, sheets, vendor};
use independent::boundary::{Answer, Filled, RouteStep};
use independent::rules::answers::{Codes, Kind};
use independent::rules::kinds::CLASSLESS_ROUTES;
use std::fmt::Debug;

/// After so many differences a run ends.
pub const MOST: u64 = 20;

pub struct Run {
    subject: Subject,
    yardstick: Yardstick,
    pub counts: Counts,
    pub differences: u64,
    /// The call of the first difference.
    pub first: Option<String>,
    pub most: u64,
    quiet: bool,
    case: String,
    input: Lent,
    input_before: Lent,
    theirs: Lent,
    ours: Lent,
    bytes: Vec<u8>,
}

impl Run {
    pub fn new(subject: Subject, yardstick: Yardstick) -> Run {
        Run {
            subject,
            yardstick,
            counts: Counts::new(),
            differences: 0,
            first: None,
            most: MOST,
            quiet: false,
            case: String::new(),
            input: Lent::default(),
            input_before: Lent::default(),
            theirs: Lent::default(),
            ours: Lent::default(),
            bytes: Vec::new(),
        }
    }

    /// Ends at the first difference and prints nothing.
    pub fn quiet(mut self) -> Run {
        self.quiet = true;
        self.most = 1;
        self
    }

    pub fn over(&self) -> bool {
        self.differences >= self.most
    }

    /// Names the case that is compared next.
    pub fn name(&mut self, case: String) {
        self.case = case;
    }

    /// One generated case.
    pub fn case(&mut self, seed: u64, index: u64) {
        self.case.clear();
        if !self.quiet {
            use std::fmt::Write;
            let _ = write!(self.case, "seed {seed} index {index}");
        }
        let mut rng = Rng::of_case(seed, index);
        let mut bytes = std::mem::take(&mut self.bytes);
        match rng.below(47) {
            0 => self.list_case(&mut rng, &mut bytes),
            40 | 41 => {
                vendor::bytes(&mut rng, &mut bytes);
                self.vendor(&mut rng, &bytes);
            }
            42 | 43 => {
                vendor::sheet(&mut rng, &mut bytes);
                self.vendor_sheet(&mut rng, &bytes);
            }
            44..=46 => {
                messages::message(&mut rng, &mut bytes);
                self.index(&mut rng, &bytes);
            }
            1..=20 => {
                messages::message(&mut rng, &mut bytes);
                let all = rng.below(100) == 0;
                self.message(&mut rng, &bytes, all);
            }
            _ => {
                sheets::sheet(&mut rng, &mut bytes);
                self.sheet(&mut rng, &bytes);
            }
        }
        self.bytes = bytes;
        if index.is_multiple_of(8) {
            self.grouped(seed, index);
            self.relayed(seed, index);
            self.routed(seed, index);
        }
    }

    /// The bytes of one generated option 121, routes to be written, and a message.
    pub fn routed(&mut self, seed: u64, index: u64) {
        self.case =
            if self.quiet { String::new() } else { format!("routes, seed {seed} index {index}") };
        let mut rng = Rng::of_case(seed ^ 0x5214, index);
        let mut bytes = std::mem::take(&mut self.bytes);
        routes::bytes(&mut rng, &mut bytes);
        self.routes(&mut rng, &bytes);
        routes::given(&mut rng, &mut bytes);
        self.given_routes(&mut rng, &bytes);
        messages::message(&mut rng, &mut bytes);
        self.ignored_in(&mut rng, &bytes);
        self.bytes = bytes;
    }

    /// The bytes of one generated option 82, and one sheet of sub-options.
    pub fn relayed(&mut self, seed: u64, index: u64) {
        self.case =
            if self.quiet { String::new() } else { format!("relay, seed {seed} index {index}") };
        let mut rng = Rng::of_case(seed ^ 0x5209, index);
        let mut bytes = std::mem::take(&mut self.bytes);
        relay::bytes(&mut rng, &mut bytes);
        self.relay(&mut rng, &bytes);
        relay::sheet(&mut rng, &mut bytes);
        self.relay_sheet(&mut rng, &bytes);
        self.bytes = bytes;
    }

    /// One generated file with a class, and one old sheet.
    pub fn grouped(&mut self, seed: u64, index: u64) {
        self.case =
            if self.quiet { String::new() } else { format!("grouped, seed {seed} index {index}") };
        let mut rng = Rng::of_case(seed ^ 0x6702, index);
        let mut bytes = std::mem::take(&mut self.bytes);
        let mut class = Vec::new();
        groups::class(&mut rng, &mut class);
        groups::file(&mut rng, &mut bytes);
        self.hold_input(&mut rng, &bytes);
        let theirs = unsafe { (self.subject.check)(self.input.pointer(), self.input.len()) };
        let ours = (self.yardstick.check)(self.input.middle());
        self.equal(|| "check of a grouped file".to_string(), &theirs, &ours);
        let whole = (self.yardstick.choose)(&bytes, &class, &mut [0; 5000]).size;
        for room in [whole, whole.saturating_sub(1), whole + rng.below(30)] {
            let (yours, mine) = (self.subject.choose, self.yardstick.choose);
            let name = || format!("choice for {} into {room} bytes", hex(&class));
            self.fill(
                &mut rng,
                room,
                name,
                |m, n, out, room| unsafe { yours(m, n, class.as_ptr(), class.len(), out, room) },
                |m, out| mine(m, &class, out),
            );
        }
        let room = bytes.len().saturating_sub(rng.below(6));
        let (yours, mine) = (self.subject.ungroup, self.yardstick.ungroup);
        let name = || format!("way back into {room} bytes");
        self.fill(&mut rng, room, name, |m, n, out, room| unsafe { yours(m, n, out, room) }, mine);
        self.input_unchanged();
        groups::sheet(&mut rng, &mut bytes);
        self.hold_input(&mut rng, &bytes);
        let room = (bytes.len() + 6).saturating_sub(rng.below(5));
        let (yours, mine) = (self.subject.group, self.yardstick.group);
        let name = || format!("move into {room} bytes");
        self.fill(&mut rng, room, name, |m, n, out, room| unsafe { yours(m, n, out, room) }, mine);
        self.input_unchanged();
        self.bytes = bytes;
    }

    /// A call that fills lent bytes from the input.
    fn fill(
        &mut self,
        rng: &mut Rng,
        room: usize,
        name: impl Fn() -> String,
        yours: impl Fn(*const u8, usize, *mut u8, usize) -> Filled,
        mine: impl Fn(&[u8], &mut [u8]) -> Filled,
    ) {
        self.theirs.any(rng, room);
        self.ours.copy(&self.theirs);
        let (m, n, out) = (self.input.pointer(), self.input.len(), self.theirs.pointer());
        let theirs = yours(m, n, out, room);
        let ours = mine(self.input.middle(), self.ours.middle_mut());
        self.equal(&name, &theirs, &ours);
        self.equal_lent(&name);
    }

    /// One generated message with an option in pieces over two fields or three.
    pub fn across(&mut self, seed: u64, index: u64) {
        self.case = format!("across, seed {seed} index {index}");
        let mut rng = Rng::of_case(seed, index);
        let mut bytes = std::mem::take(&mut self.bytes);
        messages::across(&mut rng, &mut bytes);
        self.message(&mut rng, &bytes, index.is_multiple_of(100));
        self.bytes = bytes;
    }

    fn differ(&mut self, call: &str, theirs: &dyn Debug, ours: &dyn Debug) {
        if self.over() {
            return;
        }
        self.differences += 1;
        self.first.get_or_insert_with(|| call.to_string());
        if self.quiet {
            return;
        }
        println!("DIFFERENCE in {call}; {}", self.case);
        println!(
            "  input ({} bytes): {}",
            self.input_before.len(),
            hex(self.input_before.middle())
        );
        println!("  library:     {theirs:?}");
        println!("  independent: {ours:?}");
    }

    fn equal<T: PartialEq + Debug>(&mut self, call: impl Fn() -> String, theirs: &T, ours: &T) {
        if theirs != ours {
            self.differ(&call(), theirs, ours);
        }
    }

    /// The lent bytes and their guards, after a call.
    fn equal_lent(&mut self, call: impl Fn() -> String) {
        if self.theirs.same(&self.ours) {
            return;
        }
        let at = self.theirs.difference(&self.ours);
        let theirs = format!("{at:?}: {}", hex(self.theirs.middle()));
        let ours = format!("{at:?}: {}", hex(self.ours.middle()));
        self.differ(&format!("{}, lent bytes", call()), &theirs, &ours);
    }

    fn hold_input(&mut self, rng: &mut Rng, bytes: &[u8]) {
        self.input.hold(rng, bytes);
        self.input_before.copy(&self.input);
    }

    fn input_unchanged(&mut self) {
        if !self.input.same(&self.input_before) {
            let at = self.input.difference(&self.input_before);
            self.differ("the input's bytes", &at, &"unchanged");
        }
    }

    /// Reads one message: all 256 codes, or those present and some others.
    pub fn message(&mut self, rng: &mut Rng, bytes: &[u8], all: bool) {
        self.counts.messages += 1;
        self.read(rng, bytes, all);
    }

    fn read(&mut self, rng: &mut Rng, bytes: &[u8], all: bool) {
        self.hold_input(rng, bytes);
        let words = self.present();
        self.rooms(rng);
        if all {
            for code in 0..=255 {
                let known = known_set(rng, code);
                self.ask(known, code);
                self.copies(rng, code);
            }
        } else {
            self.some_codes(rng, words);
        }
        self.input_unchanged();
    }

    /// Reads one message, all 256 codes with several known sets, also through its
    /// index.
    pub fn message_whole(&mut self, rng: &mut Rng, bytes: &[u8]) {
        self.counts.messages += 1;
        self.hold_input(rng, bytes);
        self.present();
        self.rooms(rng);
        let mut index = Numbers::any(rng, 256);
        let built = self.index_build(&mut index);
        for code in 0..=255 {
            let mut single = Codes::default();
            single.add(code);
            let but_one = Codes(single.0.map(|word| !word));
            let random = Codes([rng.next(), rng.next(), rng.next(), rng.next()]);
            for known in [Codes([u64::MAX; 4]), Codes::default(), single, but_one, random] {
                self.ask(known, code);
                if built {
                    self.fresh(&mut index, known, code);
                }
            }
            self.copies(rng, code);
        }
        self.input_unchanged();
    }

    fn some_codes(&mut self, rng: &mut Rng, words: [u64; 4]) {
        let present = Codes(words);
        // Every code present, as far as there are not many.
        let share = if present.count() <= 14 { 100 } else { 1400 / present.count() as usize };
        for code in 1..=254 {
            if present.has(code) && rng.percent(share) {
                let known = known_set(rng, code);
                self.ask(known, code);
                if rng.percent(60) {
                    self.copies(rng, code);
                }
            }
        }
        for _ in 0..3 {
            let code = if rng.percent(50) { rng.byte() } else { rng.between(1, 76) as u8 };
            let known = known_set(rng, code);
            self.ask(known, code);
            if rng.percent(30) {
                self.copies(rng, code);
            }
        }
        if rng.percent(10) {
            let code = rng.pick(&[0, 52, 255]);
            let known = known_set(rng, code);
            self.ask(known, code);
            self.copies(rng, code);
        }
    }

    fn present(&mut self) -> [u64; 4] {
        self.counts.message(self.input.middle());
        let (m, n) = (self.input.pointer(), self.input.len());
        let theirs = unsafe { (self.subject.present)(m, n) };
        let ours = (self.yardstick.present)(self.input.middle());
        self.counts.present(&theirs);
        self.equal(|| "present".to_string(), &theirs, &ours);
        let profiled = unsafe { (self.subject.profile)(m, n) };
        let rules = (self.yardstick.profile)(self.input.middle());
        self.equal(|| "profile".to_string(), &profiled, &rules);
        theirs.words
    }

    /// Lookup, data and text of one code, and the walk of its addresses.
    fn ask(&mut self, known: Codes, code: u8) {
        let (m, n) = (self.input.pointer(), self.input.len());
        let [k0, k1, k2, k3] = known.0;
        let name = |call: &str| format!("{call} of code {code}, known set {:x?}", known.0);

        let answer = unsafe { (self.subject.lookup)(m, n, k0, k1, k2, k3, code) };
        let ours = (self.yardstick.lookup)(self.input.middle(), known, code);
        self.counts.lookup(self.input.middle(), code, &answer);
        self.equal(|| name("lookup"), &answer, &ours);

        let data = unsafe { (self.subject.data)(m, n, code) };
        let ours = (self.yardstick.data)(self.input.middle(), code);
        self.counts.data(&data);
        self.equal(|| name("data"), &data, &ours);

        let text = unsafe { (self.subject.text)(m, n, k0, k1, k2, k3, code) };
        let ours = (self.yardstick.text)(self.input.middle(), known, code);
        self.counts.text(&text);
        self.equal(|| name("text"), &text, &ours);

        if answer.status == 4 && matches!(answer.kind, 2 | 3) {
            self.walk(data.start, data.length);
        }
        if code == CLASSLESS_ROUTES {
            self.ignored(known);
            if data.start + data.length <= self.input.len() {
                self.route_walk(data.start, data.length);
            }
        }
    }

    /// The joined bytes of one code, in lent buffers of several lengths.
    fn copies(&mut self, rng: &mut Rng, code: u8) {
        let mut large = [0; 1500];
        let whole = (self.yardstick.copy)(self.input.middle(), code, &mut large);
        if whole.refusal != 0 {
            let room = rng.pick(&[0, 0, 1, 7, 64, 1500]);
            self.copy(rng, None, code, room);
            return;
        }
        let size = whole.size;
        self.copy(rng, Some(size), code, size);
        if size > 0 {
            self.copy(rng, Some(size), code, size - 1);
        }
        let room = match rng.below(8) {
            0 | 1 => 0,
            2 => rng.below(size + 1),
            3 => size + 1,
            4 => 1472 + rng.below(10),
            _ => size + rng.below(100),
        };
        self.copy(rng, Some(size), code, room);
    }

    fn copy(&mut self, rng: &mut Rng, size: Option<usize>, code: u8, room: usize) {
        self.theirs.any(rng, room);
        self.ours.copy(&self.theirs);
        let (m, n) = (self.input.pointer(), self.input.len());
        let out = self.theirs.pointer();
        let filled = unsafe { (self.subject.copy)(m, n, code, out, room) };
        let ours = (self.yardstick.copy)(self.input.middle(), code, self.ours.middle_mut());
        self.counts.copy(&filled, size, room);
        let name = || format!("copy of code {code} into {room} bytes");
        self.equal(name, &filled, &ours);
        self.equal_lent(name);
    }

    /// Walks the addresses of a part of the input to the end.
    fn walk(&mut self, start: usize, length: usize) {
        if start + length > self.input.len() {
            return;
        }
        let mut at = 0;
        while at <= length {
            let step = self.step(start, length, at);
            if step.0 == 0 || self.over() {
                return;
            }
            at = step.1;
        }
    }

    fn step(&mut self, start: usize, length: usize, at: usize) -> (u32, usize) {
        let list = self.input.pointer().wrapping_add(start);
        let theirs = unsafe { (self.subject.address_step)(list, length, at) };
        let ours = (self.yardstick.address_step)(&self.input.middle()[start..][..length], at);
        self.counts.step(&theirs);
        self.equal(|| format!("address step at {at} of {start}, {length}"), &theirs, &ours);
        (theirs.given, theirs.next)
    }

    /// A list of any length, asked at any place.
    fn list_case(&mut self, rng: &mut Rng, bytes: &mut Vec<u8>) {
        bytes.clear();
        let length = if rng.percent(90) { rng.below(20) } else { rng.below(300) };
        rng.telling_bytes(length, bytes);
        self.hold_input(rng, bytes);
        self.counts.lists += 1;
        self.walk(0, length);
        for _ in 0..6 {
            let at = match rng.below(8) {
                0 => usize::MAX - rng.below(6),
                1 => rng.next() as usize,
                2 => length,
                3 => length.saturating_sub(rng.below(6)),
                4 => (1 << 63) - rng.below(6),
                _ => rng.below(length + 8),
            };
            self.step(0, length, at);
        }
        self.input_unchanged();
    }

    /// The message's records, in lent sheets of several lengths.
    fn rooms(&mut self, rng: &mut Rng) {
        let mut large = [0; 2048];
        let whole = (self.yardstick.records)(self.input.middle(), &mut large);
        if whole.refusal != 0 {
            let room = rng.pick(&[0, 0, 1, 7, 64, 2000]);
            self.records(rng, None, room);
            return;
        }
        let size = whole.size;
        self.records(rng, Some(size), size);
        if size > 0 {
            self.records(rng, Some(size), size - 1);
        }
        let room = match rng.below(8) {
            0 | 1 => 0,
            2 => rng.below(size + 1),
            3 => size + 1,
            4 => 4096 + rng.below(10),
            _ => size + rng.below(100),
        };
        self.records(rng, Some(size), room);
    }

    fn records(&mut self, rng: &mut Rng, size: Option<usize>, room: usize) {
        self.theirs.any(rng, room);
        self.ours.copy(&self.theirs);
        let (m, n) = (self.input.pointer(), self.input.len());
        let out = self.theirs.pointer();
        let filled = unsafe { (self.subject.records)(m, n, out, room) };
        let ours = (self.yardstick.records)(self.input.middle(), self.ours.middle_mut());
        self.counts.records(&filled, size, room);
        let name = || format!("records into {room} bytes");
        self.equal(name, &filled, &ours);
        self.equal_lent(name);
    }

    /// Writes one sheet into several buffers.
    pub fn sheet(&mut self, rng: &mut Rng, bytes: &[u8]) {
        self.counts.sheets += 1;
        let needs = Needs::of(bytes);
        for _ in 0..rng.between(1, 3) {
            self.hold_input(rng, bytes);
            let (room, permission) = sheets::trial(rng, &needs);
            let accepted = self.write(rng, &needs, room, permission);
            self.input_unchanged();
            if accepted {
                self.read_back(rng, bytes);
            }
        }
    }

    fn write(&mut self, rng: &mut Rng, needs: &Needs, room: usize, permission: u8) -> bool {
        self.theirs.any(rng, room);
        self.ours.copy(&self.theirs);
        let (sheet, n) = (self.input.pointer(), self.input.len());
        let m = self.theirs.pointer();
        let wrote = unsafe { (self.subject.write)(sheet, n, m, room, permission) };
        let ours = (self.yardstick.write)(self.input.middle(), self.ours.middle_mut(), permission);
        let fit =
            (0..4).find(|&plan| wrote.plan as usize == plan && needs.plan(plan) == Some(room));
        let short = (0..4)
            .find(|&plan| usize::from(permission) == plan && needs.plan(plan) == Some(room + 1));
        self.counts.write(self.input.middle(), permission, &wrote, fit, short);
        let name = || format!("write into {room} bytes, permission {permission}");
        self.equal(name, &wrote, &ours);
        self.equal_lent(name);
        wrote.refusal == 0
    }

    /// "A sheet that the writer accepts, written and then taken back from the
    /// message with room enough, is the same byte for byte and in its order."
    fn read_back(&mut self, rng: &mut Rng, sheet: &[u8]) {
        let message = self.theirs.middle().to_vec();
        self.hold_input(rng, &message);
        let (m, n) = (self.input.pointer(), self.input.len());
        self.theirs.any(rng, sheet.len());
        let room = self.theirs.len();
        let out = self.theirs.pointer();
        let filled = unsafe { (self.subject.records)(m, n, out, room) };
        self.counts.calls += 1;
        self.counts.read_back += 1;
        if filled.refusal != 0 || filled.size != sheet.len() || self.theirs.middle() != sheet {
            let got = format!("{filled:?} {}", hex(self.theirs.middle()));
            self.differ("records of a written message", &got, &hex(sheet));
        }
        self.read(rng, &message, false);
    }

    /// Reads the items of one option 43 into sheets of several lengths.
    pub fn vendor(&mut self, rng: &mut Rng, bytes: &[u8]) {
        self.counts.vendors += 1;
        self.hold_input(rng, bytes);
        let mut large = vec![0; 2 * bytes.len()];
        let whole = (self.yardstick.vendor_records)(self.input.middle(), &mut large);
        if whole.refusal != 0 {
            let room = rng.pick(&[0, 0, 1, 7, 64, 2000]);
            self.vendor_records(rng, None, room);
        } else {
            let size = whole.size;
            let any = rng.below(size + 40);
            for room in [size, size.saturating_sub(1), 0, any] {
                self.vendor_records(rng, Some(size), room);
            }
        }
        self.input_unchanged();
    }

    fn vendor_records(&mut self, rng: &mut Rng, size: Option<usize>, room: usize) {
        self.theirs.any(rng, room);
        self.ours.copy(&self.theirs);
        let (m, n) = (self.input.pointer(), self.input.len());
        let out = self.theirs.pointer();
        let filled = unsafe { (self.subject.vendor_records)(m, n, out, room) };
        let ours = (self.yardstick.vendor_records)(self.input.middle(), self.ours.middle_mut());
        self.counts.vendor_records(&filled, size, room);
        let name = || format!("vendor records into {room} bytes");
        self.equal(name, &filled, &ours);
        self.equal_lent(name);
    }

    /// Writes one sheet of items into outputs of several lengths.
    pub fn vendor_sheet(&mut self, rng: &mut Rng, bytes: &[u8]) {
        self.counts.vendors += 1;
        let size = vendor::items(bytes);
        let any = rng.below(300);
        for room in [size, size.saturating_sub(1), size + 1, 0, any, 256] {
            self.hold_input(rng, bytes);
            self.vendor_write(rng, bytes, size, room.min(5000));
            self.input_unchanged();
        }
    }

    fn vendor_write(&mut self, rng: &mut Rng, sheet: &[u8], size: usize, room: usize) {
        self.theirs.any(rng, room);
        self.ours.copy(&self.theirs);
        let (s, n) = (self.input.pointer(), self.input.len());
        let out = self.theirs.pointer();
        let filled = unsafe { (self.subject.vendor_write)(s, n, out, room) };
        let ours = (self.yardstick.vendor_write)(self.input.middle(), self.ours.middle_mut());
        self.counts.vendor_write(&filled, size, room);
        let name = || format!("vendor write into {room} bytes");
        self.equal(name, &filled, &ours);
        self.equal_lent(name);
        if filled.refusal == 0 && filled.size <= room {
            self.vendor_back(rng, sheet, filled.size);
        }
    }

    /// "Written, then read with room enough, the records come back."
    fn vendor_back(&mut self, rng: &mut Rng, sheet: &[u8], size: usize) {
        let given = self.theirs.middle()[..size].to_vec();
        self.theirs.any(rng, sheet.len());
        let room = self.theirs.len();
        let out = self.theirs.pointer();
        let filled = unsafe { (self.subject.vendor_records)(given.as_ptr(), size, out, room) };
        self.counts.calls += 1;
        self.counts.vendor_back += 1;
        if filled.refusal != 0 || filled.size != sheet.len() || self.theirs.middle() != sheet {
            let got = format!("{filled:?} {}", hex(self.theirs.middle()));
            self.differ("records of written items", &got, &hex(sheet));
        }
    }

    /// Reads the sub-options of one option 82 into sheets of several lengths.
    pub fn relay(&mut self, rng: &mut Rng, bytes: &[u8]) {
        self.counts.relays += 1;
        self.hold_input(rng, bytes);
        let mut large = vec![0; 2 * bytes.len()];
        let whole = (self.yardstick.relay_records)(self.input.middle(), &mut large);
        if whole.refusal != 0 {
            let room = rng.pick(&[0, 0, 1, 7, 64, 2000]);
            self.relay_records(rng, None, room);
        } else {
            let size = whole.size;
            let any = rng.below(size + 40);
            for room in [size, size.saturating_sub(1), 0, any] {
                self.relay_records(rng, Some(size), room);
            }
        }
        self.input_unchanged();
    }

    fn relay_records(&mut self, rng: &mut Rng, size: Option<usize>, room: usize) {
        self.theirs.any(rng, room);
        self.ours.copy(&self.theirs);
        let (m, n) = (self.input.pointer(), self.input.len());
        let out = self.theirs.pointer();
        let answer = unsafe { (self.subject.relay_records)(m, n, out, room) };
        let ours = (self.yardstick.relay_records)(self.input.middle(), self.ours.middle_mut());
        self.counts.relay_records(&answer, size, room);
        let name = || format!("relay records into {room} bytes");
        self.equal(name, &answer, &ours);
        self.equal_lent(name);
    }

    /// Writes one sheet of sub-options into outputs of several lengths.
    pub fn relay_sheet(&mut self, rng: &mut Rng, bytes: &[u8]) {
        self.counts.relays += 1;
        let size = relay::sub_options(bytes);
        let any = rng.below(300);
        for room in [size, size.saturating_sub(1), size + 1, 0, any, 256] {
            self.hold_input(rng, bytes);
            self.relay_write(rng, bytes, size, room.min(5000));
            self.input_unchanged();
        }
    }

    fn relay_write(&mut self, rng: &mut Rng, sheet: &[u8], size: usize, room: usize) {
        self.theirs.any(rng, room);
        self.ours.copy(&self.theirs);
        let (s, n) = (self.input.pointer(), self.input.len());
        let out = self.theirs.pointer();
        let filled = unsafe { (self.subject.relay_write)(s, n, out, room) };
        let ours = (self.yardstick.relay_write)(self.input.middle(), self.ours.middle_mut());
        self.counts.relay_write(&filled, size, room);
        let name = || format!("relay write into {room} bytes");
        self.equal(name, &filled, &ours);
        self.equal_lent(name);
        if filled.refusal == 0 && filled.size <= room {
            self.relay_back(rng, sheet, filled.size);
        }
    }

    /// "Written, then read with room enough, the records come back."
    fn relay_back(&mut self, rng: &mut Rng, sheet: &[u8], size: usize) {
        let given = self.theirs.middle()[..size].to_vec();
        self.theirs.any(rng, sheet.len());
        let room = self.theirs.len();
        let out = self.theirs.pointer();
        let answer = unsafe { (self.subject.relay_records)(given.as_ptr(), size, out, room) };
        self.counts.calls += 1;
        self.counts.relay_back += 1;
        if answer.refusal != 0 || answer.size != sheet.len() || self.theirs.middle() != sheet {
            let got = format!("{answer:?} {}", hex(self.theirs.middle()));
            self.differ("records of written sub-options", &got, &hex(sheet));
        }
    }

    /// Walks the routes of one option 121, and steps from any places.
    pub fn routes(&mut self, rng: &mut Rng, bytes: &[u8]) {
        self.counts.routes += 1;
        self.hold_input(rng, bytes);
        self.route_walk(0, bytes.len());
        for _ in 0..6 {
            let at = routes::place(rng, bytes.len());
            self.route_step(0, bytes.len(), at);
        }
        self.input_unchanged();
    }

    fn route_walk(&mut self, start: usize, length: usize) -> Vec<RouteStep> {
        let mut met = Vec::new();
        let mut at = 0;
        while at <= length && !self.over() {
            let step = self.route_step(start, length, at);
            if step.given == 0 {
                break;
            }
            met.push(step);
            at = step.next;
        }
        met
    }

    fn route_step(&mut self, start: usize, length: usize, at: usize) -> RouteStep {
        let data = self.input.pointer().wrapping_add(start);
        let theirs = unsafe { (self.subject.route_step)(data, length, at) };
        let ours = (self.yardstick.route_step)(&self.input.middle()[start..][..length], at);
        self.counts.route_step(&theirs);
        self.equal(|| format!("route step at {at} of {start}, {length}"), &theirs, &ours);
        theirs
    }

    /// Writes routes of nine bytes each into outputs of several lengths.
    pub fn given_routes(&mut self, rng: &mut Rng, bytes: &[u8]) {
        self.counts.routes += 1;
        let size = routes::length(bytes);
        let any = rng.below(size + 40);
        for room in [size, size.saturating_sub(1), size + 1, 0, any] {
            self.hold_input(rng, bytes);
            self.routes_write(rng, bytes, size, room);
            self.input_unchanged();
        }
    }

    fn routes_write(&mut self, rng: &mut Rng, given: &[u8], size: usize, room: usize) {
        self.theirs.any(rng, room);
        self.ours.copy(&self.theirs);
        let (s, n) = (self.input.pointer(), self.input.len());
        let out = self.theirs.pointer();
        let filled = unsafe { (self.subject.routes_write)(s, n, out, room) };
        let ours = (self.yardstick.routes_write)(self.input.middle(), self.ours.middle_mut());
        self.counts.routes_write(&filled, size, room);
        let name = || format!("routes written into {room} bytes");
        self.equal(name, &filled, &ours);
        self.equal_lent(name);
        if filled.refusal == 0 && filled.size <= room {
            self.routes_back(rng, given, filled.size);
        }
    }

    /// "its bytes walk back as exactly the routes given, in order"
    fn routes_back(&mut self, rng: &mut Rng, given: &[u8], size: usize) {
        let written = self.theirs.middle()[..size].to_vec();
        self.hold_input(rng, &written);
        let met = self.route_walk(0, size);
        let mut nine = Vec::new();
        for step in &met {
            nine.push(step.width as u8);
            nine.extend(step.destination.to_be_bytes());
            nine.extend(step.router.to_be_bytes());
        }
        self.counts.routes_back += 1;
        if nine != given || met.last().map_or(0, |step| step.next) != size {
            self.differ("the walk of written routes", &hex(&nine), &hex(given));
        }
        self.hold_input(rng, given);
    }

    /// Asks of one message whether 3 and 33 are ignored, with several known sets.
    pub fn ignored_in(&mut self, rng: &mut Rng, bytes: &[u8]) {
        self.counts.routes += 1;
        self.hold_input(rng, bytes);
        for _ in 0..3 {
            let known = known_set(rng, CLASSLESS_ROUTES);
            self.ignored(known);
        }
        self.input_unchanged();
    }

    fn ignored(&mut self, known: Codes) {
        let (m, n) = (self.input.pointer(), self.input.len());
        let [k0, k1, k2, k3] = known.0;
        let theirs = unsafe { (self.subject.routes_ignored)(m, n, k0, k1, k2, k3) };
        let ours = (self.yardstick.routes_ignored)(self.input.middle(), known);
        self.counts.ignored(&theirs);
        self.equal(|| format!("3 and 33 ignored, known set {:x?}", known.0), &theirs, &ours);
        // "exactly where a lookup of 121 with that set answers with its kind"
        let answer = unsafe { (self.subject.lookup)(m, n, k0, k1, k2, k3, CLASSLESS_ROUTES) };
        let kind = answer.kind == Kind::Routes as u32;
        if (kind, answer.refusal, answer.place)
            != (theirs.ignored == 1, theirs.refusal, theirs.place)
        {
            self.differ("3 and 33 ignored beside the lookup", &theirs, &answer);
        }
    }

    /// Builds the index of a message, and looks up codes through it, in this
    /// message and in another; then through an index with any entries.
    pub fn index(&mut self, rng: &mut Rng, bytes: &[u8]) {
        self.counts.indexes += 1;
        self.hold_input(rng, bytes);
        let count = index::count(rng);
        let mut index = Numbers::any(rng, count);
        let built = self.index_build(&mut index);
        for code in index::codes(rng, index.middle()) {
            let known = known_set(rng, code);
            if built {
                self.fresh(&mut index, known, code);
            } else {
                self.through(&mut index, known, code);
            }
        }
        self.input_unchanged();
        if built {
            self.stale(rng, bytes, &mut index);
        }
        self.hold_input(rng, bytes);
        self.entries(rng, &mut index);
        self.input_unchanged();
    }

    /// "With some other index": that of other bytes, a few changed or all.
    fn stale(&mut self, rng: &mut Rng, bytes: &[u8], index: &mut Numbers) {
        let mut other = bytes.to_vec();
        if rng.percent(70) {
            messages::mutate(rng, &mut other);
        } else {
            messages::message(rng, &mut other);
        }
        self.hold_input(rng, &other);
        for code in index::codes(rng, index.middle()) {
            let known = known_set(rng, code);
            let answer = self.through(index, known, code);
            let plain = (self.yardstick.lookup)(self.input.middle(), known, code);
            self.counts.stale[usize::from(answer != plain)] += 1;
        }
        self.input_unchanged();
    }

    /// Any numbers for entries.
    fn entries(&mut self, rng: &mut Rng, index: &mut Numbers) {
        for _ in 0..6 {
            let entry = index::entry(rng, self.input.middle());
            let code = index::code(rng, self.input.middle(), entry);
            index.set(code, entry);
            let known = known_set(rng, code);
            self.through(index, known, code);
        }
    }

    /// One message, looked up through an index that has one entry.
    pub fn one_entry(&mut self, rng: &mut Rng, bytes: &[u8], code: u8, entry: u16) {
        self.counts.indexes += 1;
        self.hold_input(rng, bytes);
        let mut index = Numbers::any(rng, 256);
        index.set(code, entry);
        self.through(&mut index, Codes([u64::MAX; 4]), code);
        self.input_unchanged();
    }

    /// One message, and so many numbers for an index.
    pub fn one_count(&mut self, rng: &mut Rng, bytes: &[u8], code: u8, count: usize) {
        self.counts.indexes += 1;
        self.hold_input(rng, bytes);
        self.one_index(rng, code, count);
        self.input_unchanged();
    }

    fn one_index(&mut self, rng: &mut Rng, code: u8, count: usize) {
        let mut index = Numbers::any(rng, count);
        if self.index_build(&mut index) {
            self.fresh(&mut index, Codes([u64::MAX; 4]), code);
        } else {
            self.through(&mut index, Codes([u64::MAX; 4]), code);
        }
    }

    fn index_build(&mut self, theirs: &mut Numbers) -> bool {
        let mut ours = theirs.clone();
        let (m, n, count) = (self.input.pointer(), self.input.len(), theirs.len());
        let filled = unsafe { (self.subject.index_build)(m, n, theirs.pointer(), count) };
        let expected = (self.yardstick.index_build)(self.input.middle(), ours.middle_mut());
        self.counts.index_build(&filled);
        self.equal(|| format!("index of {count} numbers"), &filled, &expected);
        self.equal(|| format!("index of {count} numbers, lent numbers"), theirs, &ours);
        filled.refusal == 0
    }

    fn through(&mut self, index: &mut Numbers, known: Codes, code: u8) -> Answer {
        let before = index.clone();
        let (m, n, count) = (self.input.pointer(), self.input.len(), index.len());
        let [k0, k1, k2, k3] = known.0;
        let first = index.pointer();
        let answer =
            unsafe { (self.subject.index_lookup)(m, n, first, count, k0, k1, k2, k3, code) };
        let ours = (self.yardstick.index_lookup)(self.input.middle(), before.middle(), known, code);
        self.counts.index_lookup(self.input.middle(), code, &answer);
        let plain = (self.yardstick.lookup)(self.input.middle(), known, code);
        self.counts.other += u64::from(answer.field != 0 && answer != plain);
        let name = || {
            let entry = before.middle().get(usize::from(code));
            format!("lookup of code {code} at entry {entry:?} of {count} numbers, {:x?}", known.0)
        };
        self.equal(name, &answer, &ours);
        self.equal(|| format!("{}, the numbers", name()), index, &before);
        answer
    }

    /// "answers as the plain lookup does whenever the index was built from the
    /// same bytes"
    fn fresh(&mut self, index: &mut Numbers, known: Codes, code: u8) {
        let answer = self.through(index, known, code);
        let (m, n) = (self.input.pointer(), self.input.len());
        let [k0, k1, k2, k3] = known.0;
        let plain = unsafe { (self.subject.lookup)(m, n, k0, k1, k2, k3, code) };
        self.counts.fresh += 1;
        self.equal(|| format!("code {code} through its own index"), &answer, &plain);
    }

    /// One message with the answer of one code.
    pub fn one_code(&mut self, rng: &mut Rng, bytes: &[u8], code: u8) {
        self.counts.messages += 1;
        self.hold_input(rng, bytes);
        self.present();
        let room = bytes.len();
        self.records(rng, None, room);
        self.ask(Codes([u64::MAX; 4]), code);
        self.copies(rng, code);
        self.one_index(rng, code, 256);
        self.input_unchanged();
    }

    /// One sheet into one buffer, and back from there.
    pub fn write_and_back(&mut self, rng: &mut Rng, bytes: &[u8], room: usize, permission: u8) {
        self.counts.sheets += 1;
        self.hold_input(rng, bytes);
        let accepted = self.write(rng, &Needs::of(bytes), room, permission);
        self.input_unchanged();
        if accepted {
            self.read_back(rng, bytes);
        }
    }

    /// One sheet into one buffer.
    pub fn one_write(&mut self, rng: &mut Rng, bytes: &[u8], room: usize, permission: u8) {
        self.counts.sheets += 1;
        self.hold_input(rng, bytes);
        self.write(rng, &Needs::of(bytes), room, permission);
        self.input_unchanged();
    }
}

fn known_set(rng: &mut Rng, code: u8) -> Codes {
    let mut one = Codes::default();
    one.add(code);
    match rng.below(16) {
        0..=6 => Codes([u64::MAX; 4]),
        7 => Codes::default(),
        8..=10 => one,
        11 => Codes(one.0.map(|word| !word)),
        12 => {
            let mut other = Codes::default();
            other.add(code ^ (1 << rng.below(8)));
            other
        }
        _ => Codes([rng.next(), rng.next(), rng.next(), rng.next()]),
    }
}

pub fn hex(bytes: &[u8]) -> String {
    bytes.iter().map(|byte| format!("{byte:02x}")).collect()
}
