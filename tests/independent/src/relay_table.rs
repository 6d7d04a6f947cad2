//! Request 09 of document 02, "Relay information", case by case, against this
//! implementation alone.

use crate::rules::answers::{Codes, Content, Field, Kind, Listed, Lookup, Origin, Part, Refusal};
use crate::rules::{kinds, reading, relay, writing};

const ALL: Codes = Codes([u64::MAX; 4]);

/// Bytes in hex; `61*10` is ten bytes 61.
fn hex(text: &str) -> Vec<u8> {
    let word = |word: &str| {
        let (byte, times) = word.split_once('*').unwrap_or((word, "1"));
        vec![u8::from_str_radix(byte, 16).unwrap(); times.parse().unwrap()]
    };
    text.split_whitespace().flat_map(word).collect()
}

/// The records of sub-options, in a sheet of which the rest stays.
fn listed(bytes: &str, records: &str) -> Listed {
    let mut sheet = [7; 5000];
    let listed = relay::records(&hex(bytes), &mut sheet).unwrap();
    assert_eq!(sheet[..listed.size], hex(records), "{bytes}");
    assert!(sheet[listed.size..].iter().all(|&byte| byte == 7));
    listed
}

fn not_listed(bytes: &str, room: usize, number: u32, place: usize) {
    let mut sheet = [7; 5000];
    let refusal = relay::records(&hex(bytes), &mut sheet[..room]);
    assert_eq!(refusal, Err(Refusal { number, place }), "{bytes}");
    assert_eq!(sheet, [7; 5000]);
}

/// "Written, then read with room enough, the records come back."
fn written(sheet: &str, bytes: &str) {
    let mut output = [7; 300];
    let size = relay::write(&hex(sheet), &mut output).unwrap();
    assert_eq!(output[..size], hex(bytes), "{sheet}");
    assert!(output[size..].iter().all(|&byte| byte == 7));
    listed(bytes, sheet);
}

fn not_written(sheet: &str, room: usize, number: u32, place: usize) {
    let mut output = [7; 5000];
    let refusal = relay::write(&hex(sheet), &mut output[..room]);
    assert_eq!(refusal, Err(Refusal { number, place }), "{sheet}");
    assert_eq!(output, [7; 5000]);
}

fn part(start: usize, length: usize) -> Option<Part> {
    Some(Part { start, length })
}

#[test]
fn reader_names_circuit_and_remote() {
    let answer = listed("01 02 0A 0B 02 01 0C", "01 00 02 0A 0B 02 00 01 0C");
    assert_eq!(answer, Listed { size: 9, circuit: part(2, 2), remote: part(6, 1) });
    // "each absent or the first of that code"
    let answer = listed("05 01 09", "05 00 01 09");
    assert_eq!(answer, Listed { size: 4, circuit: None, remote: None });
    let answer =
        listed("02 00 02 01 05 01 01 06 01 00", "02 00 00 02 00 01 05 01 00 01 06 01 00 00");
    assert_eq!(answer, Listed { size: 14, circuit: part(7, 1), remote: part(2, 0) });
    // A circuit id of length 0 is present, and the first of that code.
    let answer = listed("01 00 01 01 07", "01 00 00 01 00 01 07");
    assert_eq!(answer, Listed { size: 7, circuit: part(2, 0), remote: None });
    // 1 and 2 as data name nothing.
    let answer = listed("09 04 01 01 02 00", "09 00 04 01 01 02 00");
    assert_eq!(answer, Listed { size: 7, circuit: None, remote: None });
}

#[test]
fn reader_has_no_pads_and_no_end() {
    // "no pads, no END; any sub-code, in order"
    listed("00 00", "00 00 00");
    listed("FF 00", "FF 00 00");
    listed("00 01 FF FF 01 00 00 00", "00 00 01 FF FF 00 01 00 00 00 00");
    listed("09 00 01 00 09 01 05", "09 00 00 01 00 00 09 00 01 05");
    listed("34 01 09", "34 00 01 09");
    listed("07 FF 61*255 08 FF 62*255", "07 00 FF 61*255 08 00 FF 62*255");
}

#[test]
fn reader_refuses_8_then_11() {
    // "no sub-options at all give 8 at 0"
    not_listed("", 0, 8, 0);
    not_listed("", 9, 8, 0);
    // "8 at the sub-option's code stands for 17"
    not_listed("01", 9, 8, 0);
    not_listed("00", 9, 8, 0);
    not_listed("FF", 9, 8, 0);
    not_listed("01 01", 9, 8, 0);
    not_listed("01 00 00", 9, 8, 2);
    not_listed("01 00 FF", 9, 8, 2);
    not_listed("01 01 07 02 02 09", 9, 8, 3);
    not_listed("01 FF 61*254", 300, 8, 0);
    not_listed("01 00 02 05 09", 0, 8, 2);
    // "the reader 17, then 11": with the sheet's length
    not_listed("01 00", 2, 11, 2);
    not_listed("01 00", 0, 11, 0);
    not_listed("01 00 02 01 09", 6, 11, 6);
}

#[test]
fn writer_writes() {
    written("01 00 02 0A 0B 02 00 01 0C", "01 02 0A 0B 02 01 0C");
    // "no tag is a 10", tags repeat, order kept
    written("00 00 00 FF 00 01 FF 34 00 00 00 00 01 00", "00 00 FF 01 FF 34 00 00 01 00");
    written("01 00 FD 61*253", "01 FD 61*253");
    written("01 00 7D 61*125 02 00 7E 62*126", "01 7D 61*125 02 7E 62*126");
    for tag in 0..=255 {
        written(&format!("{tag:02X} 00 01 07"), &format!("{tag:02X} 01 07"));
    }
}

#[test]
fn writer_refuses() {
    // "no sub-options at all give 8 at 0"
    not_written("", 0, 8, 0);
    not_written("", 300, 8, 0);
    // "the writer gives 16, record by record 12, [...] 13 (over 255)"
    not_written("00*4097", 9, 16, 4097);
    not_written("00*4096", 9, 12, 4095);
    not_written("01", 9, 12, 0);
    not_written("01 00", 9, 12, 0);
    not_written("01 00 01", 9, 12, 0);
    not_written("01 00 00 02 01 00 61*255", 9, 12, 3);
    not_written("01 01 00 61*256", 9, 13, 0);
    not_written("00 00 00 FF 04 00 61*1024", 0, 13, 3);
    not_written("01 01 00 61*256 02", 9, 13, 0);
    not_written("02 00 01", 0, 12, 0);
    // "then 11 with the output's length where the items exceed it or 255"
    not_written("01 00 01 07", 2, 11, 2);
    not_written("01 00 00", 0, 11, 0);
    not_written("01 00 FD 61*253", 254, 11, 254);
    not_written("01 00 FE 61*254", 300, 11, 300);
    not_written("01 00 FF 61*255", 300, 11, 300);
    not_written("01 00 7D 61*125 02 00 7F 62*127", 300, 11, 300);
}

/// The row and the reader of sub-options have the same rule of 8.
#[test]
fn row_and_reader_agree() {
    for length in 0..=6 {
        for number in 0..5usize.pow(length) {
            let digit = |i| [0, 1, 2, 3, 255][number / 5usize.pow(i) % 5];
            let data: Vec<u8> = (0..length).map(digit).collect();
            let broken = kinds::judge(Kind::Relay, 82, &data).is_err();
            let read = relay::records(&data, &mut [0; 20]);
            let by_8 = matches!(read, Err(Refusal { number: 8, .. }));
            assert_eq!(broken, by_8, "{data:?}");
        }
    }
}

fn message(options: &str) -> Vec<u8> {
    let mut bytes = vec![0; 240];
    bytes[236..240].copy_from_slice(&[99, 130, 83, 99]);
    bytes.extend(hex(options));
    bytes
}

fn found(content: Content, whole: Option<usize>, offset: usize) -> Result<Lookup, Refusal> {
    let origin = Origin { field: Field::Options, offset, start: 242 + offset };
    Ok(Lookup::Found(origin, whole, content))
}

#[test]
fn lookup_of_82() {
    let of_82 = |options: &str| reading::lookup(&message(options), ALL, 82);
    let broken = |place| Content::Broken(Refusal { number: 8, place });
    let kind = |length| Content::Part(Kind::Relay, length);
    // "Give it a row: sub-options of code, length, data"
    assert_eq!(of_82("52 04 01 02 0A 0B FF"), found(kind(4), None, 0));
    assert_eq!(of_82("52 02 00 00 FF"), found(kind(2), None, 0));
    assert_eq!(of_82("52 02 FF 00 FF"), found(kind(2), None, 0));
    // In reading no order is judged.
    assert_eq!(of_82("52 02 07 00 35 01 05 FF"), found(kind(2), None, 0));
    assert_eq!(of_82("FF"), Ok(Lookup::Absent));
    // "8 where sub-options don't fill the data exactly or are under 2 bytes"
    assert_eq!(of_82("52 00 FF"), found(broken(240), None, 0));
    assert_eq!(of_82("52 01 01 FF"), found(broken(240), None, 0));
    assert_eq!(of_82("00 52 03 01 00 00 FF"), found(broken(241), None, 1));
    assert_eq!(of_82("52 03 01 02 0A FF"), found(broken(240), None, 0));
    assert_eq!(of_82("52 05 01 02 0A 0B FF FF"), found(broken(240), None, 0));
    // Not known, it is unknown.
    let unknown = reading::lookup(&message("52 01 01 FF"), Codes::default(), 82);
    assert_eq!(unknown, found(Content::Unknown(1), None, 0));
    // The data call gives its bytes, broken or not; the text call none.
    let data = |options: &str| reading::data(&message(options), 82);
    assert_eq!(Some(data("52 04 01 02 0A 0B FF")), part(242, 4));
    assert_eq!(Some(data("52 01 01 FF")), part(242, 1));
    assert_eq!(Some(reading::text(&message("52 02 61 00 FF"), ALL, 82)), part(0, 0));
    // "Lookups judge the joined bytes"
    assert_eq!(of_82("52 01 01 52 03 02 0A 0B FF"), found(kind(4), Some(4), 0));
    assert_eq!(of_82("52 00 52 02 09 00 FF"), found(kind(2), Some(2), 0));
    assert_eq!(of_82("52 02 09 00 52 01 09 FF"), found(broken(240), Some(3), 0));
    assert_eq!(of_82("52 00 52 00 FF"), found(broken(240), Some(0), 0));
}

fn wrote(sheet: &str, room: usize) -> Result<u8, Refusal> {
    let mut buffer = vec![7; room];
    let wrote = writing::write(&hex(sheet), &mut buffer, 0);
    assert!(wrote.is_ok() || buffer == vec![7; room]);
    wrote
}

#[test]
fn sheets_with_82() {
    let refused = |number, place| Err(Refusal { number, place });
    // "In a settings sheet 82 must come last."
    assert_eq!(wrote("35 00 01 05 52 00 02 01 00", 300), Ok(0));
    assert_eq!(wrote("52 00 02 01 00", 300), Ok(0));
    // "23 for 82 not last, at its tag, after 14"
    assert_eq!(wrote("52 00 02 01 00 35 00 01 05", 300), refused(23, 0));
    assert_eq!(wrote("35 00 01 05 52 00 02 01 00 FE 00 00 FD 00 00", 300), refused(23, 4));
    let router_first = "03 00 04 01 02 03 04 52 00 02 01 00 01 00 04 FF FF FF 00";
    assert_eq!(wrote(router_first, 300), refused(14, 0));
    // After the first faulty record, and before 11.
    assert_eq!(wrote("52 00 02 01 00 35 00 01 09", 300), refused(9, 5));
    assert_eq!(wrote("52 00 02 01 00 35 00 01", 300), refused(12, 5));
    assert_eq!(wrote("52 00 02 01 00 52 00 02 01 00", 300), refused(7, 5));
    assert_eq!(wrote("52 00 02 01 00 35 00 01 05", 240), refused(23, 0));
    // 8 of the record itself
    assert_eq!(wrote("52 00 00", 300), refused(8, 0));
    assert_eq!(wrote("52 00 01 01 35 00 01 05", 300), refused(8, 0));
    assert_eq!(wrote("35 00 01 05 52 00 03 01 00 09", 300), refused(8, 4));
    // A long one is cut into pieces.
    let long = "52 01 03 01 FF 61*255 02 00";
    assert_eq!(wrote(long, 600), Ok(0));
}
