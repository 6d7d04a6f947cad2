//! Generated cases of request 09 with this package's own answers, a line each, for
//! `tests/relay/check.py lines`: a second implementation that is no C.

use super::compare::hex;
use super::rng::Rng;
use super::sheets::{self, Needs};
use super::{messages, relay};
use independent::rules::answers::{Codes, Content, Field, Lookup, Part, Refusal};
use independent::rules::kinds::RELAY_INFORMATION;
use independent::rules::{reading, relay as rules, writing};

/// The first byte of a lent buffer. Each byte is one more than that before.
const FILL: usize = 160;

pub fn print(seed: u64, cases: u64) {
    let mut bytes = Vec::new();
    for index in 0..cases {
        let mut rng = Rng::of_case(seed ^ 0x5210, index);
        match index % 4 {
            0 => {
                messages::message(&mut rng, &mut bytes);
                println!("lookup {} | {}", hex(&bytes), lookup(&bytes));
            }
            1 => {
                sheets::sheet(&mut rng, &mut bytes);
                let (room, permission) = sheets::trial(&mut rng, &Needs::of(&bytes));
                let answer = write(&bytes, room, permission);
                println!("write {permission} {room} {} | {answer}", hex(&bytes));
            }
            2 => {
                relay::bytes(&mut rng, &mut bytes);
                let room = rng.below(2 * bytes.len() + 4);
                println!("read {room} {} | {}", hex(&bytes), read(&bytes, room));
            }
            _ => {
                relay::sheet(&mut rng, &mut bytes);
                let room = rng.below(300);
                println!("make {room} {} | {}", hex(&bytes), make(&bytes, room));
            }
        }
    }
}

fn lent(room: usize) -> Vec<u8> {
    (0..room).map(|i| (FILL + i) as u8).collect()
}

fn refused(refusal: Refusal) -> String {
    format!("refused {} {}", refusal.number, refusal.place)
}

fn lookup(message: &[u8]) -> String {
    match reading::lookup(message, Codes([u64::MAX; 4]), RELAY_INFORMATION) {
        Err(refusal) => refused(refusal),
        Ok(Lookup::Absent) => "absent".to_string(),
        Ok(Lookup::Found(origin, several, content)) => {
            let said = match content {
                Content::Part(_, length) => format!("relay {length}"),
                Content::Broken(Refusal { number, place }) => format!("broken {number} {place}"),
                other => format!("{other:?}"),
            };
            let field = match origin.field {
                Field::Options => "options",
                Field::File => "file",
                Field::Sname => "sname",
            };
            let whole = several.map_or(String::new(), |whole| format!(" several {whole}"));
            format!("{said} {field} {} {}{whole}", origin.offset, origin.start)
        }
    }
}

fn write(sheet: &[u8], room: usize, permission: u8) -> String {
    let mut buffer = lent(room);
    match writing::write(sheet, &mut buffer, permission) {
        Err(refusal) => refused(refusal),
        Ok(plan) => format!("plan {plan} {}", hex(&buffer)),
    }
}

fn named(part: Option<Part>) -> String {
    part.map_or("absent".to_string(), |part| format!("{} {}", part.start, part.length))
}

fn read(bytes: &[u8], room: usize) -> String {
    let mut sheet = lent(room);
    match rules::records(bytes, &mut sheet) {
        Err(refusal) => refused(refusal),
        Ok(listed) => {
            let ids = format!("circuit {} remote {}", named(listed.circuit), named(listed.remote));
            format!("given {} {} {ids}", listed.size, hex(&sheet))
        }
    }
}

fn make(sheet: &[u8], room: usize) -> String {
    let mut output = lent(room);
    match rules::write(sheet, &mut output) {
        Err(refusal) => refused(refusal),
        Ok(size) => format!("given {size} {}", hex(&output)),
    }
}
