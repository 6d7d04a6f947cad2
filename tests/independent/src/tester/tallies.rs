//! Files of captures (request 11): the library's three calls, fed a file in any
//! parts, against the rules' tally of the same file.

use super::messages;
use super::rng::Rng;
use std::cell::RefCell;

const MOST: usize = 1_000_000;
const LONGEST: usize = 1472;

/// The struct of `dhcpopt.h`.
#[repr(C)]
#[derive(Clone, Copy, Debug, Default, PartialEq)]
pub struct Captures {
    pub began: u64,
    pub messages: u64,
    pub size: usize,
    pub read: usize,
    pub stage: u32,
    pub leases: u32,
    pub smallest: u32,
    pub largest: u32,
    pub high: u8,
}

#[link(name = "dhcpopt_captures", kind = "static")]
extern "C" {
    fn dhcpopt_captures_begin(verdicts: *mut u64, held: *mut u64, bytes: *mut u64) -> Captures;
    fn dhcpopt_captures_feed(
        part: *const u8,
        n: usize,
        p: Captures,
        message: *mut u8,
        verdicts: *mut u64,
        held: *mut u64,
        bytes: *mut u64,
    ) -> Captures;
    fn dhcpopt_captures_report(
        p: Captures,
        verdicts: *const u64,
        held: *const u64,
        bytes: *const u64,
        out: *mut u8,
    ) -> usize;
}

/// What is told of a file: the place of the record where reading is, the tally
/// of the messages before it, and the report.
#[derive(Debug, PartialEq)]
pub struct Told {
    pub place: u64,
    pub messages: u64,
    pub verdicts: [u64; 8],
    pub held: [u64; 256],
    pub bytes: [u64; 256],
    pub lease: Option<(u32, u32)>,
    pub report: String,
}

pub type TallyOf = fn(&[&[u8]]) -> Told;

/// What a module of rules tells of a file that comes in these parts.
macro_rules! tally_of {
    ($($rules:ident)::+) => {
        |parts: &[&[u8]]| {
            let mut tally = $($rules)::+::captures::Tally::default();
            parts.iter().for_each(|part| tally.feed(part));
            let mut verdicts = tally.refused;
            verdicts[0] = tally.accepted;
            $crate::tester::tallies::Told {
                place: tally.place,
                messages: tally.messages,
                verdicts,
                held: tally.held,
                bytes: tally.bytes,
                lease: tally.lease,
                report: tally.report(),
            }
        }
    };
}
pub(crate) use tally_of;

pub fn independent_tally() -> TallyOf {
    tally_of!(independent::rules)
}

/// What the library tells, and its struct after each part.
fn library(rng: &mut Rng, parts: &[&[u8]]) -> (Told, Vec<Captures>) {
    let (mut verdicts, mut held, mut bytes) = ([7u64; 8], [7u64; 256], [7u64; 256]);
    let mut message = [0u8; LONGEST];
    rng.fill(&mut message);
    let mut text = vec![b'#'; 16384];
    let (v, h, b) = (verdicts.as_mut_ptr(), held.as_mut_ptr(), bytes.as_mut_ptr());
    let mut structs = Vec::new();
    let size = unsafe {
        let mut p = dhcpopt_captures_begin(v, h, b);
        structs.push(p);
        for part in parts {
            p = dhcpopt_captures_feed(part.as_ptr(), part.len(), p, message.as_mut_ptr(), v, h, b);
            structs.push(p);
        }
        dhcpopt_captures_report(p, v, h, b, text.as_mut_ptr())
    };
    assert!(text[size..].iter().all(|&b| b == b'#'), "the report writes past its end");
    let p = structs[structs.len() - 1];
    let told = Told {
        place: p.began,
        messages: p.messages,
        verdicts,
        held,
        bytes,
        lease: (p.leases == 1).then_some((p.smallest, p.largest)),
        report: String::from_utf8_lossy(&text[..size]).into_owned(),
    };
    (told, structs)
}

/// The struct where `taken` is what was read of a file, and this is its tally:
/// by the bytes from the record's first one on, "records of tag 1, two-byte
/// length, message".
fn struct_of(taken: &[u8], told: &Told) -> Captures {
    let (smallest, largest) = told.lease.unwrap_or((0, 0));
    let mut p = Captures {
        began: told.place,
        messages: told.messages,
        leases: u32::from(told.lease.is_some()),
        smallest,
        largest,
        ..Captures::default()
    };
    match taken[told.place as usize..] {
        [] => (),
        [tag, ..] if tag != 1 || told.messages == MOST as u64 => p.stage = 3,
        [_] => p.stage = 1,
        [_, high] => (p.stage, p.high) = (2, high),
        [_, high, low, ref message @ ..] => {
            p.size = usize::from(high) * 256 + usize::from(low);
            p.read = message.len();
        }
    }
    p
}

fn record(message: &[u8], out: &mut Vec<u8>) {
    out.push(1);
    out.extend((message.len() as u16).to_be_bytes());
    out.extend(message);
}

/// A message: mostly as those of the other modes, often with lease times.
fn message(rng: &mut Rng, out: &mut Vec<u8>) {
    out.clear();
    match rng.below(10) {
        0 => (),
        1 => out.resize(rng.pick(&[1, 239, 1473, 1500, 4000, 65_535]), 0),
        2..=4 => leased(rng, out),
        _ => messages::message(rng, out),
    }
    out.truncate(65_535);
}

/// A message with 51 in one piece or more, of four bytes together or not.
fn leased(rng: &mut Rng, out: &mut Vec<u8>) {
    out.resize(236, 0);
    out.extend([99, 130, 83, 99]);
    if rng.percent(30) {
        // In `file`: 53, or 51 again.
        let more = rng.pick(&[&[53, 1, 5, 255][..], &[51, 2, 0, 9, 255], &[51, 0, 255]]);
        out[108..][..more.len()].copy_from_slice(more);
        out.extend([52, 1, 1]);
    }
    let size = rng.pick(&[4, 4, 4, 4, 2, 2, 3, 5, 0]);
    let first = rng.below(size + 1);
    let time = rng.telling_bytes_of(size);
    if first > 0 && first < size {
        out.extend([51, first as u8]);
        out.extend(&time[..first]);
        out.extend([0, 12, 1, b'a', 51, (size - first) as u8]);
        out.extend(&time[first..]);
    } else {
        out.extend([51, size as u8]);
        out.extend(&time);
    }
    if !rng.percent(10) {
        out.push(255);
    }
}

fn file(rng: &mut Rng, out: &mut Vec<u8>) {
    let mut one = Vec::new();
    out.clear();
    for _ in 0..rng.pick(&[0, 1, 2, 3, 3, 5, 12]) {
        message(rng, &mut one);
        record(&one, out);
    }
    match rng.below(8) {
        // Another tag, before another record or at the end.
        0 => out.extend([rng.pick(&[0, 2, 255]), 0, 0, 1, 0, 0]),
        1 => out.push(rng.byte()),
        // A record that is cut short.
        2..=4 => out.truncate(rng.below(out.len() + 1)),
        _ => (),
    }
}

/// The file cut at any places, often near a record's head.
fn parts<'a>(rng: &mut Rng, file: &'a [u8]) -> Vec<&'a [u8]> {
    let mut parts = Vec::new();
    let mut rest = file;
    while !rest.is_empty() {
        let size = match rng.below(6) {
            0 => 1,
            1 => rng.below(5),
            2 => rng.below(300),
            3 => rng.below(3000),
            _ => rest.len(),
        };
        let (part, behind) = rest.split_at(size.min(rest.len()));
        parts.push(part);
        rest = behind;
    }
    parts
}

/// Whether the library and the rules tell the same of this file.
fn same(rng: &mut Rng, file: &[u8], rules: TallyOf, print: bool) -> bool {
    let parts = parts(rng, file);
    let (theirs, structs) = library(rng, &parts);
    let ours = rules(&parts);
    let mut same = theirs == ours;
    if !same && print {
        println!("DIFFERENCE in a tally: {theirs:?}\n  rules: {ours:?}");
    }
    let mut taken = 0;
    for (i, p) in structs.iter().enumerate() {
        let before = rules(&parts[..i]);
        if *p != struct_of(&file[..taken], &before) {
            same = false;
            if print {
                println!("DIFFERENCE in a struct: {p:?} after {taken} bytes");
            }
        }
        taken += parts.get(i).map_or(0, |part| part.len());
        // Of a long file its end alone.
        if parts.len() > 40 && i > 20 {
            break;
        }
    }
    same
}

thread_local! {
    static FILE: RefCell<Vec<u8>> = const { RefCell::new(Vec::new()) };
}

/// One generated file.
pub fn case(seed: u64, index: u64, rules: TallyOf, print: bool) -> bool {
    let mut rng = Rng::of_case(seed ^ 0x1124, index);
    FILE.with(|bytes| {
        let mut bytes = bytes.borrow_mut();
        file(&mut rng, &mut bytes);
        same(&mut rng, &bytes, rules, print)
    })
}

/// "At most 1,000,000 messages": as many, and one more.
pub fn many(rules: TallyOf, print: bool) -> bool {
    let mut rng = Rng::of_case(0x1124, 0);
    let file = [1, 0, 0].repeat(MOST + 1);
    [3 * MOST, 3 * MOST + 1, 3 * MOST + 3].into_iter().all(|size| {
        let parts: Vec<&[u8]> = file[..size].chunks(65_536).collect();
        let (theirs, _) = library(&mut rng, &parts);
        let ours = rules(&parts);
        if theirs != ours && print {
            println!("DIFFERENCE in a tally of {size} bytes of empty messages");
        }
        theirs == ours
    })
}

/// So many generated files, and a million messages. The number of differences.
pub fn run(seed: u64, files: u64) -> u64 {
    let rules = independent_tally();
    let mut differences = u64::from(!many(rules, true));
    for index in 0..files {
        differences += u64::from(!case(seed, index, rules, true));
        if differences >= 20 {
            break;
        }
    }
    differences
}
