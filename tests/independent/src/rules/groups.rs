//! Grouped sheets, request 08 of document 02: the check, the choice for a
//! class, an old sheet moved into a group, and the way back.

use super::answers::{refuse, Refusal};

const LONGEST_FILE: usize = 4100;
const LONGEST_SHEET: usize = 4096;
const DEEPEST: usize = 4;
const HEAD: usize = 3;
const GROUP: u8 = 0;

/// What was met in a file: the records reached, and how many groups.
struct Met<'a> {
    class: &'a [u8],
    sheet: Vec<u8>,
    groups: usize,
    named: bool,
}

/// Where the record or group that begins at `at` ends, if it fits before `end`.
fn end_of(bytes: &[u8], at: usize, end: usize) -> Option<usize> {
    if end - at < HEAD {
        return None;
    }
    let length = usize::from(bytes[at + 1]) * 256 + usize::from(bytes[at + 2]);
    (end - at - HEAD >= length).then_some(at + HEAD + length)
}

impl Met<'_> {
    /// Depth counts the outermost group as 1.
    fn group(
        &mut self,
        file: &[u8],
        tag: usize,
        end: usize,
        depth: usize,
        reached: bool,
    ) -> Result<(), Refusal> {
        let data = &file[tag + HEAD..end];
        let Some((&n, rest)) = data.split_first() else { return refuse(20, tag) };
        let n = usize::from(n);
        if rest.len() < n {
            return refuse(20, tag);
        }
        if depth > DEEPEST {
            return refuse(21, tag);
        }
        let name = &rest[..n];
        self.groups += 1;
        self.named |= n > 0;
        let reached = reached && (name.is_empty() || name == self.class);
        let mut at = tag + HEAD + 1 + n;
        while at < end {
            let Some(next) = end_of(file, at, end) else { return refuse(20, at) };
            match file[at] {
                GROUP => self.group(file, at, next, depth + 1, reached)?,
                52 | 255 => return refuse(10, at),
                _ if reached => self.sheet.extend_from_slice(&file[at..next]),
                _ => (),
            }
            at = next;
        }
        Ok(())
    }
}

fn read<'a>(file: &[u8], class: &'a [u8]) -> Result<Met<'a>, Refusal> {
    if file.len() > LONGEST_FILE {
        return refuse(16, file.len());
    }
    if file.first() != Some(&GROUP) {
        return refuse(20, 0);
    }
    let Some(end) = end_of(file, 0, file.len()) else { return refuse(20, 0) };
    let mut met = Met { class, sheet: Vec::new(), groups: 0, named: false };
    met.group(file, 0, end, 1, true)?;
    if end < file.len() {
        return refuse(20, end);
    }
    Ok(met)
}

/// Bytes into the lent ones: how many, or "11 last".
fn give(bytes: &[u8], lent: &mut [u8]) -> Result<usize, Refusal> {
    if lent.len() < bytes.len() {
        return refuse(11, lent.len());
    }
    lent[..bytes.len()].copy_from_slice(bytes);
    Ok(bytes.len())
}

pub fn check(file: &[u8]) -> Result<(), Refusal> {
    read(file, b"").map(|_| ())
}

pub fn choose(file: &[u8], class: &[u8], lent: &mut [u8]) -> Result<usize, Refusal> {
    give(&read(file, class)?.sheet, lent)
}

/// An old sheet into a nameless outermost group.
pub fn group(sheet: &[u8], lent: &mut [u8]) -> Result<usize, Refusal> {
    if sheet.len() > LONGEST_SHEET {
        return refuse(16, sheet.len());
    }
    let mut at = 0;
    while at < sheet.len() {
        let Some(next) = end_of(sheet, at, sheet.len()) else { return refuse(12, at) };
        if matches!(sheet[at], 0 | 52 | 255) {
            return refuse(10, at);
        }
        at = next;
    }
    let length = sheet.len() + 1;
    let mut file = vec![GROUP, (length / 256) as u8, (length % 256) as u8, 0];
    file.extend_from_slice(sheet);
    give(&file, lent)
}

/// "only if it is one nameless group with no group inside".
pub fn ungroup(file: &[u8], lent: &mut [u8]) -> Result<usize, Refusal> {
    let met = read(file, b"")?;
    if met.named || met.groups > 1 {
        return refuse(22, 0);
    }
    give(&file[4..], lent)
}
