//! "A month of captures" (request 11 of document 02).

use super::reading::{self, LONGEST};
use std::fmt::Write;

/// "records of tag 1, two-byte length, message"
const TAG: u8 = 1;
const HEAD: usize = 3;
/// "At most 1,000,000 messages, so that no sum wraps."
const MOST: u64 = 1_000_000;
const LEASE_TIME: u8 = 51;
/// "unsigned 32-bit, length 4", of the joined bytes
const LEASE_SIZE: usize = 4;

/// "messages seen, accepted, refused by each number; for each code the
/// accepted messages holding it and the sum of joined data bytes; smallest and
/// largest lease time among well-formed ones, or none"
#[derive(Clone)]
pub struct Tally {
    pub messages: u64,
    pub accepted: u64,
    pub refused: [u64; 8],
    pub held: [u64; 256],
    pub bytes: [u64; 256],
    pub lease: Option<(u32, u32)>,
    /// The place of the first byte of the record that is read.
    pub place: u64,
    /// What was read of it: its head, and its message where that may be
    /// accepted.
    record: [u8; HEAD + LONGEST],
    got: usize,
    stopped: bool,
}

impl Default for Tally {
    fn default() -> Tally {
        Tally {
            messages: 0,
            accepted: 0,
            refused: [0; 8],
            held: [0; 256],
            bytes: [0; 256],
            lease: None,
            place: 0,
            record: [0; HEAD + LONGEST],
            got: 0,
            stopped: false,
        }
    }
}

fn message_size(head: &[u8]) -> usize {
    usize::from(head[1]) << 8 | usize::from(head[2])
}

/// The lease time of an accepted message: the last four bytes of its pieces,
/// and how many there are.
#[derive(Default)]
struct Joined {
    size: usize,
    time: u32,
}

impl Tally {
    /// "The running tally, begun empty, is the same however the reading buffer
    /// was filled."
    pub fn feed(&mut self, mut part: &[u8]) {
        while !part.is_empty() && !self.stopped {
            if self.got == 0 && part.len() >= HEAD && part[0] == TAG && self.messages < MOST {
                let end = HEAD + message_size(part);
                if let Some(record) = part.get(..end) {
                    self.note(&record[HEAD..]);
                    self.place += end as u64;
                    part = &part[end..];
                    continue;
                }
            }
            let taken = self.take_some(part);
            part = &part[taken..];
        }
    }

    /// Takes bytes of a record that comes in parts.
    fn take_some(&mut self, part: &[u8]) -> usize {
        if self.got < HEAD {
            self.record[self.got] = part[0];
            self.got += 1;
            // "24 for another tag, a record cut short or message 1,000,001"
            if self.got == 1 && (part[0] != TAG || self.messages == MOST) {
                self.stopped = true;
                return 1;
            }
            if self.got == HEAD {
                self.end_if_whole();
            }
            return 1;
        }
        let size = message_size(&self.record);
        let taken = part.len().min(HEAD + size - self.got);
        if size <= LONGEST {
            self.record[self.got..][..taken].copy_from_slice(&part[..taken]);
        }
        self.got += taken;
        self.end_if_whole();
        taken
    }

    fn end_if_whole(&mut self) {
        let size = message_size(&self.record);
        if self.got < HEAD + size {
            return;
        }
        if size > LONGEST {
            self.messages += 1;
            self.refused[2] += 1;
        } else {
            let record = self.record;
            self.note(&record[HEAD..HEAD + size]);
        }
        self.place += (HEAD + size) as u64;
        self.got = 0;
    }

    fn note(&mut self, message: &[u8]) {
        self.messages += 1;
        let mut joined = Joined::default();
        let judged = reading::walk(message, |met| {
            if met.code == LEASE_TIME {
                joined.size += met.length;
                for &b in met.data(message) {
                    joined.time = joined.time << 8 | u32::from(b);
                }
            }
        });
        if let Err(refusal) = judged {
            self.refused[refusal.number as usize] += 1;
            return;
        }
        self.accepted += 1;
        let mut met_before = [false; 256];
        let _ = reading::walk(message, |met| {
            let code = usize::from(met.code);
            self.bytes[code] += met.length as u64;
            if !met_before[code] {
                met_before[code] = true;
                self.held[code] += 1;
            }
        });
        if joined.size == LEASE_SIZE {
            let (smallest, largest) = self.lease.unwrap_or((joined.time, joined.time));
            self.lease = Some((smallest.min(joined.time), largest.max(joined.time)));
        }
    }

    /// "Lines, in this order"
    pub fn report(&self) -> String {
        let mut out = String::new();
        let _ = writeln!(out, "messages {}", self.messages);
        let _ = writeln!(out, "accepted {}", self.accepted);
        for (number, count) in self.refused.iter().enumerate().skip(1) {
            let _ = writeln!(out, "refusals {number} {count}");
        }
        for (code, count) in self.held.iter().enumerate() {
            if *count > 0 {
                let _ = writeln!(out, "code {code} {count} {}", self.bytes[code]);
            }
        }
        let _ = match self.lease {
            Some((smallest, largest)) => writeln!(out, "lease {smallest} {largest}"),
            None => writeln!(out, "lease none"),
        };
        // "at that record's first byte in the file; the report up to there is
        // printed, then `refused 24 P`"
        if self.stopped || self.got > 0 {
            let _ = writeln!(out, "refused 24 {}", self.place);
        }
        out
    }
}

#[cfg(test)]
mod tests {
    use super::Tally;
    use std::fs;

    const STORED: &str = concat!(env!("CARGO_MANIFEST_DIR"), "/../../crates/report_captures");

    fn report(file: &[u8], size: usize) -> String {
        let mut tally = Tally::default();
        file.chunks(size).for_each(|part| tally.feed(part));
        tally.report()
    }

    #[test]
    fn stored_report_in_parts() {
        let file = fs::read(format!("{STORED}/stdin")).unwrap();
        let wanted = fs::read_to_string(format!("{STORED}/stdout")).unwrap();
        for size in [1, 7, 997, 65536, file.len()] {
            assert_eq!(report(&file, size), wanted);
        }
    }

    #[test]
    fn each_cause_of_24() {
        let last = |file: &[u8]| report(file, 1).lines().last().unwrap().to_string();
        assert_eq!(last(b""), "lease none");
        assert_eq!(last(b"\x01\0\0"), "lease none");
        assert_eq!(last(b"\x01\0\0\x02"), "refused 24 3");
        assert_eq!(last(b"\x01\0\0\x01\0\x01"), "refused 24 3");
        assert_eq!(last(b"\x01\0"), "refused 24 0");
        assert_eq!(last(&b"\x01\0\0".repeat(1_000_000)), "lease none");
        assert_eq!(last(&b"\x01\0\0".repeat(1_000_001)), "refused 24 3000000");
    }
}
