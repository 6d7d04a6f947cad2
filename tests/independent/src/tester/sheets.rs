//! Settings sheets: good ones, each fault alone and two together; and the
//! buffers and permissions to write them with.

use super::rng::Rng;
use super::values::{self, Want};
use independent::rules::answers::Codes;
use independent::rules::kinds::RELAY_INFORMATION;
use independent::rules::reading::{COOKIE, END, FILE, LONGEST, OPTIONS, OVERLOAD, SNAME};

const LONGEST_SHEET: usize = 4096;
const LONGEST_RECORD: usize = 1024;
const LONGEST_PIECE: usize = 255;

/// Lengths of records at which the number of pieces changes, and near them.
const LONG: &[usize] = &[
    256, 256, 257, 258, 264, 300, 316, 380, 508, 509, 510, 511, 512, 570, 640, 764, 765, 766, 890,
    1016, 1020, 1021, 1023, 1024,
];

/// Puts one sheet into `out`.
pub fn sheet(rng: &mut Rng, out: &mut Vec<u8>) {
    match rng.below(100) {
        0..=49 => good(rng, out),
        50..=69 => faulty(rng, 1, out),
        70..=83 => faulty(rng, 2, out),
        84..=91 => {
            good(rng, out);
            mutate(rng, out);
        }
        92 | 93 => spliced(rng, out),
        94 => {
            out.clear();
            let length = rng.below(40);
            rng.telling_bytes(length, out);
        }
        _ => at_limit(rng, out),
    }
}

/// What is wrong with one record. Several may hold at once.
#[derive(Clone, Copy, Default)]
struct Faults {
    tag: bool,
    long: bool,
    repeat: bool,
    length: bool,
    value: bool,
    order: bool,
    cut: bool,
    /// 82 before the last record.
    early: bool,
}

impl Faults {
    fn add(&mut self, rng: &mut Rng) {
        match rng.below(8) {
            0 => self.tag = true,
            1 => self.long = true,
            2 => self.repeat = true,
            3 => self.length = true,
            4 => self.value = true,
            5 => self.order = true,
            7 => self.early = true,
            _ => self.cut = true,
        }
    }
}

struct Builder<'r> {
    rng: &'r mut Rng,
    used: Codes,
    tags: Vec<u8>,
    out: &'r mut Vec<u8>,
}

impl<'r> Builder<'r> {
    fn new(rng: &'r mut Rng, out: &'r mut Vec<u8>) -> Builder<'r> {
        out.clear();
        let mut used = Codes::default();
        // 82 comes last, where it is put.
        used.add(RELAY_INFORMATION);
        Builder { rng, used, tags: Vec::new(), out }
    }

    fn take(&mut self, tag: u8) -> bool {
        let fresh = self.used.add(tag);
        if fresh {
            self.tags.push(tag);
            // No 1 after 3.
            if tag == 3 {
                self.used.add(1);
            }
        }
        fresh
    }

    fn fresh_tag(&mut self, want: Want) -> u8 {
        for _ in 0..40 {
            let tag = values::code(self.rng, want);
            if self.take(tag) {
                return tag;
            }
        }
        (1..=254).find(|&tag| tag != OVERLOAD && self.take(tag)).unwrap_or(254)
    }

    /// A head and no data yet; gives the head's place.
    fn head(&mut self, tag: u8) -> usize {
        let at = self.out.len();
        self.out.extend([tag, 0, 0]);
        at
    }

    fn set_length(&mut self, at: usize) {
        let length = (self.out.len() - at - 3) as u16;
        self.out[at + 1..at + 3].copy_from_slice(&length.to_be_bytes());
    }

    fn record(&mut self, tag: u8, want: Want, limit: usize) {
        let at = self.head(tag);
        values::data(self.rng, tag, want, limit, self.out);
        self.set_length(at);
    }

    fn good_record(&mut self, limit: usize) {
        let tag = self.fresh_tag(Want::Good);
        self.record(tag, Want::Good, limit);
    }

    /// A record of a given number of data bytes, of a tag without a row.
    fn filler(&mut self, length: usize) {
        let mut tag = values::rowless(self.rng);
        for _ in 0..40 {
            if self.take(tag) {
                break;
            }
            tag = values::rowless(self.rng);
        }
        let at = self.head(tag);
        self.rng.telling_bytes(length, self.out);
        self.set_length(at);
    }

    fn faulty_record(&mut self, faults: Faults) {
        let want = if faults.length {
            Want::BadLength
        } else if faults.value {
            Want::BadValue
        } else {
            Want::Good
        };
        let tag = if faults.tag {
            self.rng.pick(&[0, OVERLOAD, END])
        } else if faults.repeat && !self.tags.is_empty() {
            self.rng.pick(&self.tags)
        } else if faults.order && self.take(3) {
            3
        } else if faults.early {
            self.tags.push(RELAY_INFORMATION);
            RELAY_INFORMATION
        } else {
            self.fresh_tag(want)
        };
        if faults.long {
            self.long_record(tag);
        } else {
            self.record(tag, want, 255);
        }
        if faults.cut {
            self.cut();
        }
    }

    /// 82 as the last record, in some sheets.
    fn relay(&mut self, share: usize, want: Want, limit: usize) {
        if self.rng.percent(share) && !self.tags.contains(&RELAY_INFORMATION) {
            self.record(RELAY_INFORMATION, want, limit);
        }
    }

    /// A record over 255 bytes that the writer splits.
    fn split_record(&mut self, room: usize) {
        let mut tag = values::unbounded(self.rng);
        for _ in 0..40 {
            if self.take(tag) || tag == RELAY_INFORMATION && self.rng.percent(10) {
                break;
            }
            tag = values::unbounded(self.rng);
        }
        let any = self.rng.between(256, LONGEST_RECORD);
        let near = self.rng.pick(LONG);
        let length = if self.rng.percent(70) { near } else { any }.min(room);
        let at = self.head(tag);
        values::long(self.rng, tag, length, self.out);
        self.set_length(at);
    }

    /// Over 1,024 bytes by its length, and often by its data.
    fn long_record(&mut self, tag: u8) {
        let at = self.head(tag);
        let any = self.rng.between(1025, 65535);
        let length = self.rng.pick(&[1025, 1025, 1026, 1280, 1500, 2048, 3000, 65535, any]);
        if length <= 3000 {
            self.rng.telling_bytes(length, self.out);
        }
        self.out[at + 1..at + 3].copy_from_slice(&(length as u16).to_be_bytes());
    }

    /// Cuts the sheet near its end, or makes it end in a piece of a head.
    fn cut(&mut self) {
        let length = self.out.len();
        match self.rng.below(4) {
            0 => self.out.truncate(length - 1),
            1 => {
                let less = self.rng.between(1, length.min(8));
                self.out.truncate(length - less);
            }
            2 => {
                let tag = self.fresh_tag(Want::Any);
                self.out.push(tag);
            }
            _ => {
                let tag = self.fresh_tag(Want::Any);
                let high = self.rng.pick(&[0, 0, 1]);
                self.out.extend([tag, high]);
            }
        }
    }
}

/// A sheet without fault. Most are small; some fill a message, some go beyond.
fn good(rng: &mut Rng, out: &mut Vec<u8>) {
    let mut builder = Builder::new(rng, out);
    let size = match builder.rng.below(20) {
        0 => 0,
        1..=7 => builder.rng.between(1, 60),
        8..=12 => builder.rng.between(60, 260),
        13..=16 => builder.rng.between(260, 700),
        17 | 18 => builder.rng.between(1000, 1680),
        _ => builder.rng.between(700, LONGEST_SHEET),
    };
    let limit = builder.rng.pick(&[4, 8, 16, 64, 128, 255, 255, 1024]);
    let snug = builder.rng.percent(30);
    let split = size >= 300 && builder.rng.percent(60);
    let turn = builder.rng.below(5);
    while builder.out.len() + 3 <= size {
        let room = size - builder.out.len() - 3;
        // A text or opaque record needs a byte, a pair of addresses eight.
        if room < 8 {
            builder.filler(room.min(limit));
        } else if split && room > 258 && (builder.tags.len() == turn || builder.rng.percent(15)) {
            builder.split_record(room);
        } else if snug {
            let most = builder.rng.pick(&[60, 61, 62, 124, 125, 126, 127]);
            builder.filler(most.min(room));
        } else {
            builder.good_record(limit.max(8).min(room));
        }
        if builder.tags.len() > 240 {
            break;
        }
    }
    if size >= 300 && builder.rng.percent(20) {
        let length = builder.rng.between(200, 700);
        let at = builder.head(RELAY_INFORMATION);
        values::long(builder.rng, RELAY_INFORMATION, length, builder.out);
        builder.set_length(at);
    } else {
        builder.relay(40, Want::Good, limit.max(8));
    }
}

/// A sheet with one or two faults, in one record or in two.
fn faulty(rng: &mut Rng, count: usize, out: &mut Vec<u8>) {
    let mut builder = Builder::new(rng, out);
    let mut faults = [Faults::default(); 2];
    let turns = [builder.rng.below(4), builder.rng.below(4)];
    let same = builder.rng.percent(50);
    for i in 0..count {
        faults[if same { 0 } else { i }].add(builder.rng);
    }
    let mut order = false;
    for turn in 0..5 {
        // Tag 1 after 3, and more after it.
        if order && builder.rng.percent(40) {
            builder.record(1, Want::Good, 255);
            order = false;
        }
        let mut here = Faults::default();
        for i in 0..2 {
            if turns[i] == turn {
                here = merged(here, faults[i]);
            }
        }
        order |= here.order;
        builder.faulty_record(here);
        if here.cut && builder.rng.percent(70) {
            return;
        }
    }
    if order {
        let want = if builder.rng.percent(90) { Want::Good } else { Want::Any };
        builder.record(1, want, 255);
    }
    let want = if builder.rng.percent(50) { Want::BadLength } else { Want::Good };
    builder.relay(20, want, 64);
}

fn merged(a: Faults, b: Faults) -> Faults {
    Faults {
        tag: a.tag | b.tag,
        long: a.long | b.long,
        repeat: a.repeat | b.repeat,
        length: a.length | b.length,
        value: a.value | b.value,
        order: a.order | b.order,
        cut: a.cut | b.cut,
        early: a.early | b.early,
    }
}

/// A sheet of 4,096 or 4,097 bytes or near, good or not.
fn at_limit(rng: &mut Rng, out: &mut Vec<u8>) {
    if rng.percent(60) {
        good(rng, out);
    } else {
        faulty(rng, 1, out);
    }
    let used = tags_of(out);
    let size = rng.pick(&[4095, 4096, 4096, 4096, 4097, 4097, 4097, 4098, 4400]);
    let mut rest = Vec::new();
    let mut builder = Builder::new(rng, &mut rest);
    builder.used = used;
    while out.len() + builder.out.len() + 3 <= size {
        let left = size - out.len() - builder.out.len() - 3;
        // No one or two bytes are to be left over.
        let length = match left {
            0..=255 => left,
            256..=258 => left - 3,
            _ => 255,
        };
        builder.filler(length);
    }
    out.extend_from_slice(&rest);
}

fn tags_of(sheet: &[u8]) -> Codes {
    let mut tags = Codes::default();
    let mut at = 0;
    while at + 3 <= sheet.len() {
        tags.add(sheet[at]);
        at += 3 + usize::from(u16::from_be_bytes([sheet[at + 1], sheet[at + 2]]));
    }
    tags
}

/// One to three small edits of a sheet.
fn mutate(rng: &mut Rng, out: &mut Vec<u8>) {
    for _ in 0..rng.between(1, 3) {
        if out.is_empty() {
            return;
        }
        let at = if rng.percent(50) { rng.below(out.len().min(24)) } else { rng.below(out.len()) };
        match rng.below(7) {
            0 | 1 => out[at] ^= 1 << rng.below(8),
            2 | 3 => out[at] = rng.telling_byte(),
            4 => out.insert(at, rng.telling_byte()),
            5 => {
                out.remove(at);
            }
            _ => out.truncate(at),
        }
    }
}

/// The front of one sheet and the back of another.
fn spliced(rng: &mut Rng, out: &mut Vec<u8>) {
    good(rng, out);
    let mut other = Vec::new();
    good(rng, &mut other);
    let keep = rng.below(out.len() + 1);
    let from = rng.below(other.len() + 1);
    out.truncate(keep);
    out.extend_from_slice(&other[from..]);
}

/// The smallest buffer for each plan, by the sizes in the records' heads; no
/// such buffer when the heads do not end with the sheet.
pub struct Needs([Option<usize>; 4]);

impl Needs {
    pub fn of(sheet: &[u8]) -> Needs {
        Needs([0, 1, 2, 3].map(|plan| option_sizes(sheet).map(|sizes| need(&sizes, plan))))
    }

    pub fn plan(&self, plan: usize) -> Option<usize> {
        self.0[plan]
    }
}

fn option_sizes(sheet: &[u8]) -> Option<Vec<usize>> {
    let mut sizes = Vec::new();
    let mut at = 0;
    while at < sheet.len() {
        let head = sheet.get(at..at + 3)?;
        let length = usize::from(u16::from_be_bytes([head[1], head[2]]));
        let mut left = length;
        while left > LONGEST_PIECE {
            sizes.push(2 + LONGEST_PIECE);
            left -= LONGEST_PIECE;
        }
        sizes.push(2 + left);
        at += 3 + length;
    }
    (at == sheet.len()).then_some(sizes)
}

/// As many pieces as can leave options do so.
fn need(sizes: &[usize], plan: usize) -> usize {
    let rooms: &[usize] = match plan {
        0 => &[],
        1 => &[COOKIE - FILE],
        2 => &[FILE - SNAME],
        _ => &[COOKIE - FILE, FILE - SNAME],
    };
    let mut kept = sizes.len();
    while kept > 0 && flows(&sizes[kept - 1..], rooms) {
        kept -= 1;
    }
    let overload = if plan == 0 { 0 } else { 3 };
    OPTIONS + overload + sizes[..kept].iter().sum::<usize>() + 1
}

/// Whether pieces fit into rooms one after the other.
fn flows(mut sizes: &[usize], rooms: &[usize]) -> bool {
    for room in rooms {
        let mut left = room - 1;
        while let Some((&size, rest)) = sizes.split_first() {
            if size > left {
                break;
            }
            left -= size;
            sizes = rest;
        }
    }
    sizes.is_empty()
}

/// A buffer length and a permission to write a sheet with.
pub fn trial(rng: &mut Rng, needs: &Needs) -> (usize, u8) {
    let plan = rng.below(4);
    let permission = match rng.below(20) {
        0 => rng.pick(&[4, 4, 5, 128, 254, 255]),
        1..=4 => rng.below(4) as u8,
        _ => plan as u8,
    };
    let room = match (needs.plan(plan), rng.below(20)) {
        (Some(need), 0..=6) => need,
        (Some(need), 7..=12) => need - 1,
        (Some(need), 13) => need + 1,
        (Some(need), 14 | 15) => need + rng.below(80),
        (Some(need), 16) => need.saturating_sub(rng.below(12)),
        _ => free_room(rng),
    };
    (room.min(1700), permission)
}

fn free_room(rng: &mut Rng) -> usize {
    match rng.below(10) {
        0 => rng.pick(&[0, 1, 44, 108, 236, 238, 239, 239, 239]),
        1 | 2 => rng.between(240, 244),
        3 => rng.between(245, 300),
        4 => rng.pick(&[300, 548, 576]),
        5 | 6 => rng.pick(&[1471, 1472]),
        7 => rng.pick(&[1473, 1473, 1474, 1600]),
        _ => rng.between(240, LONGEST),
    }
}
