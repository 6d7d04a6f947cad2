//! Document 01's bench table, row by row, and requests 01 to 03 and 07 of document
//! 02, against this implementation alone.
//! "Bytes in hex from 240 on, the cookie right, fields as named, all other
//! bytes zero; every code is marked known."

use crate::rules::answers::{Codes, Content, Field, Kind, Lookup, Origin, Part, Refusal};
use crate::rules::{index, reading, writing};

const ALL: Codes = Codes([u64::MAX; 4]);

fn hex(text: &str) -> Vec<u8> {
    text.split_whitespace().map(|byte| u8::from_str_radix(byte, 16).unwrap()).collect()
}

/// A message that ends with the given options.
fn message(options: &str) -> Vec<u8> {
    let mut bytes = vec![0; 240];
    bytes[236..240].copy_from_slice(&[99, 130, 83, 99]);
    bytes.extend(hex(options));
    bytes
}

fn with_file(options: &str, file: &str) -> Vec<u8> {
    let mut bytes = message(options);
    let file = hex(file);
    bytes[108..][..file.len()].copy_from_slice(&file);
    bytes
}

fn with_sname(options: &str, sname: &str) -> Vec<u8> {
    let mut bytes = message(options);
    let sname = hex(sname);
    bytes[44..][..sname.len()].copy_from_slice(&sname);
    bytes
}

fn lookup(message: &[u8], code: u8) -> Result<Lookup, Refusal> {
    reading::lookup(message, ALL, code)
}

/// An answer with what it says, its field, offset and start.
fn found(content: Content, field: Field, offset: usize, start: usize) -> Result<Lookup, Refusal> {
    Ok(Lookup::Found(Origin { field, offset, start }, None, content))
}

/// An answer of several pieces, with their whole length.
fn joined(
    content: Content,
    whole: usize,
    field: Field,
    offset: usize,
    start: usize,
) -> Result<Lookup, Refusal> {
    Ok(Lookup::Found(Origin { field, offset, start }, Some(whole), content))
}

/// The bytes that a copy gives, in a buffer of which the rest stays.
fn copied(message: &[u8], code: u8) -> Vec<u8> {
    let mut buffer = [7; 2000];
    let length = reading::copy(message, code, &mut buffer).unwrap();
    assert!(buffer[length..].iter().all(|&byte| byte == 7));
    buffer[..length].to_vec()
}

/// The records of a message.
fn sheet_of(message: &[u8]) -> Vec<u8> {
    let mut sheet = [7; 2000];
    let length = reading::records(message, &mut sheet).unwrap();
    assert!(sheet[length..].iter().all(|&byte| byte == 7));
    sheet[..length].to_vec()
}

fn broken(number: u32, place: usize) -> Content {
    Content::Broken(Refusal { number, place })
}

/// All calls refuse the message alike.
fn refused(message: &[u8], number: u32, place: usize) {
    let refusal = Refusal { number, place };
    for code in 1..=254 {
        assert_eq!(lookup(message, code), Err(refusal));
        assert_eq!(reading::data(message, code), Part { start: 0, length: 0 });
        assert_eq!(reading::text(message, ALL, code), Part { start: 0, length: 0 });
        let mut buffer = [7; 2000];
        assert_eq!(reading::copy(message, code, &mut buffer), Err(refusal));
        assert_eq!(buffer, [7; 2000]);
    }
    assert_eq!(reading::present(message), Err(refusal));
    let mut sheet = [7; 2000];
    assert_eq!(reading::records(message, &mut sheet), Err(refusal));
    assert_eq!(sheet, [7; 2000]);
    assert_eq!(listing(message), format!("refused {number} {place}\n"));
}

/// What the listing program prints.
fn listing(message: &[u8]) -> String {
    let mut lines = String::new();
    let mut pieces = 0;
    match reading::walk(message, |met| {
        let Origin { field, start, .. } = met.origin();
        let name = match field {
            Field::Options => "options",
            Field::File => "file",
            Field::Sname => "sname",
        };
        pieces += 1;
        lines += &format!("{} {start} {} {name}\n", met.code, met.length);
    }) {
        Ok(()) => format!("accepted {pieces}\n{lines}"),
        Err(r) => format!("refused {} {}\n", r.number, r.place),
    }
}

#[test]
fn row_1() {
    let m = message("FF");
    for code in 1..=254 {
        assert_eq!(lookup(&m, code), Ok(Lookup::Absent));
    }
    let call = reading::present(&m).unwrap();
    assert_eq!((call.words, call.count, call.lowest), ([0; 4], 0, 0));
    assert_eq!(reading::records(&m, &mut []), Ok(0));
    refused(&message(""), 5, 240);
    refused(&message("35"), 4, 240);
}

#[test]
fn row_2() {
    let m = message("35 01 05 FF");
    assert_eq!(lookup(&m, 53), found(Content::Number(Kind::OneByte, 5), Field::Options, 0, 242));
    let m = message("35 01 09 FF");
    assert_eq!(lookup(&m, 53), found(broken(9, 240), Field::Options, 0, 242));
    let m = message("35 02 05 00 FF");
    assert_eq!(lookup(&m, 53), found(broken(8, 240), Field::Options, 0, 242));
}

#[test]
fn row_3() {
    refused(&message("35 01 FF"), 5, 243);
}

#[test]
fn row_4() {
    let m = message("0C 03 61 62 00 FF");
    let text = Part { start: 242, length: 2 };
    assert_eq!(lookup(&m, 12), found(Content::Part(Kind::Text, 2), Field::Options, 0, 242));
    assert_eq!(reading::text(&m, ALL, 12), text);
    assert_eq!(reading::data(&m, 12), Part { start: 242, length: 3 });
}

#[test]
fn row_5() {
    let m = message("02 04 FF FF F1 F0 FF");
    assert_eq!(
        lookup(&m, 2),
        found(Content::Number(Kind::Signed32, -3600), Field::Options, 0, 242)
    );
}

#[test]
fn row_6() {
    let m = with_file("34 01 01 FF", "33 04 00 00 0E 10 FF");
    assert_eq!(lookup(&m, 51), found(Content::Number(Kind::Unsigned32, 3600), Field::File, 0, 110));
    assert_eq!(reading::data(&m, 51), Part { start: 110, length: 4 });
    assert_eq!(listing(&m), "accepted 2\n52 242 1 options\n51 110 4 file\n");
    refused(&with_file("34 01 01 FF", ""), 5, 236);
}

#[test]
fn row_7() {
    refused(&message("34 01 04 FF"), 6, 240);
    refused(&with_file("34 01 01 FF", "34 01 01 FF"), 6, 108);
}

#[test]
fn row_8() {
    // "case 8 becomes a lookup of 53 with 8 at 240"
    let m = message("35 01 05 35 01 05 FF");
    assert_eq!(lookup(&m, 53), joined(broken(8, 240), 2, Field::Options, 0, 242));
    assert_eq!(listing(&m), "accepted 2\n53 242 1 options\n53 245 1 options\n");
}

#[test]
fn row_9() {
    let sheet = hex("35 00 01 05");
    let mut buffer = vec![0; 244];
    assert_eq!(writing::write(&sheet, &mut buffer, 0), Ok(0));
    assert_eq!(buffer, message("35 01 05 FF"));
    let mut buffer = vec![0; 243];
    assert_eq!(writing::write(&sheet, &mut buffer, 0), Err(Refusal { number: 11, place: 243 }));
    assert_eq!(buffer, [0; 243]);
}

#[test]
fn row_10() {
    let sheet = hex("33 00 04 00 00 0E 10");
    let mut buffer = vec![0xAA; 244];
    assert_eq!(writing::write(&sheet, &mut buffer, 1), Ok(1));
    let mut expected = with_file("34 01 01 FF", "33 04 00 00 0E 10 FF");
    expected[..108].fill(0xAA);
    assert_eq!(buffer, expected);
    assert_eq!(&buffer[115..236], &[0; 121]);
    let mut back = [0; 7];
    assert_eq!(reading::records(&buffer, &mut back), Ok(7));
    assert_eq!(back[..], sheet[..]);
}

/// "Every lookup answer but absent, number and broken included", in each field,
/// "at length 0 too".
#[test]
fn which_field() {
    const NO_ADDRESS: Content = Content::Part(Kind::AddressList, 0);
    const LEASE: Content = Content::Number(Kind::Unsigned32, 3600);
    let options = message("00 00 00 FE 00 44 00 35 01 09 0C 00 33 04 00 00 0E 10 FF");
    assert_eq!(lookup(&options, 254), found(Content::Unknown(0), Field::Options, 3, 245));
    assert_eq!(lookup(&options, 68), found(NO_ADDRESS, Field::Options, 5, 247));
    assert_eq!(lookup(&options, 53), found(broken(9, 247), Field::Options, 7, 249));
    assert_eq!(lookup(&options, 12), found(broken(8, 250), Field::Options, 10, 252));
    assert_eq!(lookup(&options, 51), found(LEASE, Field::Options, 12, 254));
    let file = with_file("34 01 01 FF", "00 FE 00 44 00 35 01 09 0C 00 33 04 00 00 0E 10 FF");
    assert_eq!(lookup(&file, 52), found(Content::Number(Kind::OneByte, 1), Field::Options, 0, 242));
    assert_eq!(lookup(&file, 254), found(Content::Unknown(0), Field::File, 1, 111));
    assert_eq!(lookup(&file, 68), found(NO_ADDRESS, Field::File, 3, 113));
    assert_eq!(lookup(&file, 53), found(broken(9, 113), Field::File, 5, 115));
    assert_eq!(lookup(&file, 12), found(broken(8, 116), Field::File, 8, 118));
    assert_eq!(lookup(&file, 51), found(LEASE, Field::File, 10, 120));
    let sname = with_sname("34 01 02 FF", "00 00 FE 00 44 00 35 01 09 0C 00 33 04 00 00 0E 10 FF");
    assert_eq!(lookup(&sname, 254), found(Content::Unknown(0), Field::Sname, 2, 48));
    assert_eq!(lookup(&sname, 68), found(NO_ADDRESS, Field::Sname, 4, 50));
    assert_eq!(lookup(&sname, 53), found(broken(9, 50), Field::Sname, 6, 52));
    assert_eq!(lookup(&sname, 12), found(broken(8, 53), Field::Sname, 9, 55));
    assert_eq!(lookup(&sname, 51), found(LEASE, Field::Sname, 11, 57));
    assert_eq!(
        listing(&sname),
        "accepted 6\n52 242 1 options\n254 48 0 sname\n68 50 0 sname\n53 52 1 sname\n\
         12 55 0 sname\n51 57 4 sname\n"
    );
}

/// Request 02: "an option 43 of 300 bytes as two pieces".
#[test]
fn long_option() {
    let bytes: Vec<u8> = (0..300).map(|i| i as u8).collect();
    let mut m = message("2B FF");
    m.extend(&bytes[..255]);
    m.extend(hex("35 01 05 2B 2D"));
    m.extend(&bytes[255..]);
    m.push(255);
    let opaque = Content::Part(Kind::Opaque, 300);
    assert_eq!(lookup(&m, 43), joined(opaque, 300, Field::Options, 0, 242));
    assert_eq!(reading::data(&m, 43), Part { start: 0, length: 0 });
    assert_eq!(copied(&m, 43), bytes);
    assert_eq!(copied(&m, 53), [5]);
    let mut exact = [0; 300];
    assert_eq!(reading::copy(&m, 43, &mut exact), Ok(300));
    assert_eq!(reading::copy(&m, 43, &mut [0; 299]), Err(Refusal { number: 11, place: 299 }));
    assert_eq!(reading::copy(&m, 12, &mut exact), Err(Refusal { number: 11, place: 0 }));
    assert_eq!(reading::copy(&m, 255, &mut exact), Err(Refusal { number: 10, place: 0 }));
    let call = reading::present(&m).unwrap();
    assert_eq!((call.words, call.count, call.lowest), ([1 << 43 | 1 << 53, 0, 0, 0], 2, 43));
    assert_eq!(
        listing(&m),
        "accepted 3\n43 242 255 options\n53 499 1 options\n43 502 45 options\n"
    );
    let sheet = [&hex("2B 01 2C"), &bytes[..], &hex("35 00 01 05")].concat();
    assert_eq!(sheet_of(&m), sheet);

    // "The writer splits a record over 255 bytes into pieces of 255 and a last of
    // 1 to 255, in order"
    let mut buffer = vec![9; 241 + 304 + 3];
    assert_eq!(writing::write(&sheet, &mut buffer, 0), Ok(0));
    assert_eq!(
        listing(&buffer),
        "accepted 3\n43 242 255 options\n43 499 45 options\n53 546 1 options\n"
    );
    assert_eq!(sheet_of(&buffer), sheet);
    // The second piece goes to file, the first fits options alone.
    let mut buffer = vec![9; 244 + 257];
    assert_eq!(writing::write(&sheet, &mut buffer, 3), Ok(1));
    assert_eq!(
        listing(&buffer),
        "accepted 4\n52 242 1 options\n43 245 255 options\n43 110 45 file\n53 157 1 file\n"
    );
    assert_eq!(sheet_of(&buffer), sheet);
    let mut buffer = vec![9; 244 + 256];
    assert_eq!(writing::write(&sheet, &mut buffer, 3), Err(Refusal { number: 11, place: 500 }));
}

/// Request 02: "Lookups judge the joined bytes"; "Every answer names the first
/// piece."
#[test]
fn pieces() {
    let three = with_file("34 01 01 0C 02 61 63 FF", "0C 00 0C 03 62 00 00 FF");
    let text = Content::Part(Kind::Text, 3);
    assert_eq!(lookup(&three, 12), joined(text, 5, Field::Options, 3, 245));
    assert_eq!(reading::text(&three, ALL, 12), Part { start: 0, length: 0 });
    assert_eq!(copied(&three, 12), hex("61 63 62 00 00"));
    assert_eq!(sheet_of(&three), hex("0C 00 05 61 63 62 00 00"));
    let lease = message("00 33 01 00 33 03 00 0E 10 FF");
    let number = Content::Number(Kind::Unsigned32, 3600);
    assert_eq!(lookup(&lease, 51), joined(number, 4, Field::Options, 1, 243));
    let empty = message("35 01 09 35 00 FE 00 FE 00 FF");
    assert_eq!(lookup(&empty, 53), joined(broken(9, 240), 1, Field::Options, 0, 242));
    assert_eq!(lookup(&empty, 254), joined(Content::Unknown(0), 0, Field::Options, 5, 247));
    assert_eq!(copied(&empty, 254), []);
    // "7 stays for a second 52"; 6 before it.
    refused(&with_file("34 01 01 34 01 01 FF", "FF"), 7, 243);
    refused(&with_file("34 01 01 34 01 04 FF", "FF"), 6, 243);
}

/// Request 02: "13 is for data over 1,024 bytes", and 7 "for sheet tags".
#[test]
fn long_records() {
    for (length, pieces) in [(255, 1), (256, 2), (510, 2), (511, 3), (765, 3), (1024, 5)] {
        let sheet = [&[43, (length >> 8) as u8, length as u8], &vec![1; length][..]].concat();
        let mut buffer = vec![9; 241 + length + 2 * pieces];
        assert_eq!(writing::write(&sheet, &mut buffer, 0), Ok(0));
        assert_eq!(listing(&buffer).lines().next(), Some(&*format!("accepted {pieces}")));
        assert_eq!(sheet_of(&buffer), sheet);
        let room = buffer.len() - 1;
        assert_eq!(
            writing::write(&sheet, &mut buffer[..room], 0),
            Err(Refusal { number: 11, place: room })
        );
    }
    let sheet = [&[43, 4, 1], &[1; 1025][..]].concat();
    let refusal = Refusal { number: 13, place: 0 };
    assert_eq!(writing::write(&sheet, &mut [9; 1472], 3), Err(refusal));
    let refusal = Refusal { number: 7, place: 4 };
    assert_eq!(writing::write(&hex("35 00 01 05 35 00 01 05"), &mut [9; 300], 0), Err(refusal));
}

/// Request 03: "Trailing zeros dropped, each byte of a text shall be 1 to 127";
/// "lookup, text part and writer follow, on joined bytes. Refusals: 9"
#[test]
fn texts() {
    for (data, length) in [("01 7F", 2), ("1F 00 00", 1), ("00 00", 0), ("61 7F 00", 2)] {
        let m = message(&format!("0C {:02X} {data} FF", hex(data).len()));
        assert_eq!(
            lookup(&m, 12),
            found(Content::Part(Kind::Text, length), Field::Options, 0, 242)
        );
        let start = if length > 0 { 242 } else { 0 };
        assert_eq!(reading::text(&m, ALL, 12), Part { start, length });
        let sheet = [&[12, 0, hex(data).len() as u8], &hex(data)[..]].concat();
        assert_eq!(writing::write(&sheet, &mut [9; 300], 0), Ok(0));
    }
    for data in ["80", "61 80", "80 61", "61 C8 62", "61 80 00", "61 00 62", "00 61", "FF"] {
        let m = message(&format!("0C {:02X} {data} FF", hex(data).len()));
        assert_eq!(lookup(&m, 12), found(broken(9, 240), Field::Options, 0, 242));
        assert_eq!(reading::text(&m, ALL, 12), Part { start: 0, length: 0 });
        assert_eq!(reading::data(&m, 12), Part { start: 242, length: hex(data).len() });
        let sheet = [&[12, 0, hex(data).len() as u8], &hex(data)[..]].concat();
        let refusal = Refusal { number: 9, place: 0 };
        assert_eq!(writing::write(&sheet, &mut [9; 300], 0), Err(refusal));
    }
    let second = message("0C 01 61 0C 01 80 FF");
    assert_eq!(lookup(&second, 12), joined(broken(9, 240), 2, Field::Options, 0, 242));
    let seam = with_file("34 01 01 0C 02 61 00 FF", "0C 01 62 FF");
    assert_eq!(lookup(&seam, 12), joined(broken(9, 243), 3, Field::Options, 3, 245));
    let m = message("3C 03 C8 00 61 FF");
    assert_eq!(lookup(&m, 60), found(Content::Part(Kind::Opaque, 3), Field::Options, 0, 242));
}

/// Request 10: "in a message they read as unknown with their bytes; in a sheet
/// they are written unjudged and come back."
#[test]
fn retired_rows() {
    for code in [8, 10, 34] {
        for data in ["", "02", "01 02 03", "01 02 03 04"] {
            let length = hex(data).len();
            let m = message(&format!("{code:02X} {length:02X} {data} FF"));
            assert_eq!(lookup(&m, code), found(Content::Unknown(length), Field::Options, 0, 242));
            let sheet = [&[code, 0, length as u8], &hex(data)[..]].concat();
            let mut written = m.clone();
            assert_eq!(writing::write(&sheet, &mut written, 0), Ok(0));
            assert_eq!(written, m);
            let mut back = vec![9; sheet.len()];
            assert_eq!(reading::records(&written, &mut back), Ok(sheet.len()));
            assert_eq!(back, sheet);
        }
    }
    let m = message("09 03 01 02 03 FF");
    assert_eq!(lookup(&m, 9), found(broken(8, 240), Field::Options, 0, 242));
}

/// An index that has one entry.
fn one_entry(code: u8, entry: u16) -> [u16; 256] {
    let mut numbers = [0; 256];
    numbers[usize::from(code)] = entry;
    numbers
}

/// What is answered of 51 through an entry.
fn lease(m: &[u8], entry: u16) -> Result<Lookup, Refusal> {
    index::lookup(m, &one_entry(51, entry), ALL, 51)
}

/// Request 07: "entry c being the place of code c's byte, 0 if absent, 65,535 if
/// it comes in pieces"; "A lookup through it answers as the plain lookup does
/// whenever the index was built from the same bytes."
#[test]
fn index_of_the_same_bytes() {
    let m = with_file("2B 01 07 35 01 05 2B 01 08 34 01 01 FF 35 01 02", "33 04 00 00 0E 10 FF");
    let mut numbers = [7; 256];
    assert_eq!(index::build(&m, &mut numbers), Ok(512));
    let mut expected = [0; 256];
    for (code, entry) in [(43, 65535), (53, 243), (52, 249), (51, 108)] {
        expected[code] = entry;
    }
    assert_eq!(numbers, expected);
    for code in 0..=255 {
        for known in [ALL, Codes::default()] {
            let plain = reading::lookup(&m, known, code);
            assert_eq!(index::lookup(&m, &numbers, known, code), plain);
        }
    }
}

/// Request 07: "With some other index: 0 says absent, 65,535 uses the plain walk,
/// any other entry is used only if it lies in one of the three fields, that byte
/// is the code, and length and data lie in that field."
#[test]
fn other_index() {
    let lease_of = |number| Content::Number(Kind::Unsigned32, number);
    // 51 in options; in file, which is inactive, at the end with data and without.
    let mut m = message("33 04 00 00 0E 10 FF 33 04 00 00 00 01");
    m[230..236].copy_from_slice(&hex("33 04 00 00 00 02"));
    m[106..108].copy_from_slice(&hex("33 00"));
    assert_eq!(lease(&m, 0), Ok(Lookup::Absent));
    assert_eq!(lease(&m, 65535), found(lease_of(3600), Field::Options, 0, 242));
    assert_eq!(lease(&m, 240), found(lease_of(3600), Field::Options, 0, 242));
    assert_eq!(lease(&m, 247), found(lease_of(1), Field::Options, 7, 249));
    assert_eq!(lease(&m, 230), found(lease_of(2), Field::File, 122, 232));
    assert_eq!(lease(&m, 106), found(broken(8, 106), Field::Sname, 62, 108));
    // 51 everywhere: 53 bytes are needed from the entry on.
    m.resize(300, 0);
    m.fill(51);
    m[236..240].copy_from_slice(&[99, 130, 83, 99]);
    for entry in [1, 43, 56, 107, 184, 235, 236, 239, 248, 299, 300, 1472, 65534] {
        assert_eq!(lease(&m, entry), Err(Refusal { number: 19, place: usize::from(entry) }));
    }
    for (entry, field, offset) in [
        (44, Field::Sname, 0),
        (55, Field::Sname, 11),
        (108, Field::File, 0),
        (183, Field::File, 75),
        (247, Field::Options, 7),
    ] {
        let at = usize::from(entry);
        assert_eq!(lease(&m, entry), found(broken(8, at), field, offset, at + 2));
    }
    // Another code; and 65,535, refused as the plain walk is.
    assert_eq!(
        index::lookup(&m, &one_entry(52, 44), ALL, 52),
        Err(Refusal { number: 19, place: 44 })
    );
    assert_eq!(lease(&m, 65535), Err(Refusal { number: 4, place: 293 }));
}

/// Request 07: "18 for an index not of 256 numbers, with their count, after 10, 1,
/// 2, 3; then, in a lookup, 19"; "Building gives 1, 2, 3, 18, then the reader's."
#[test]
fn index_refusals() {
    let right = message("35 01 05 FF");
    let endless = message("35 01 05");
    let mut other = endless.clone();
    other[239] = 0;
    let refused = |number, place| Refusal { number, place };
    for (m, count, refusal) in [
        (&right[..239], 255, refused(1, 239)),
        (&[0; 1473], 255, refused(2, 1473)),
        (&other, 255, refused(3, 236)),
        (&right, 0, refused(18, 0)),
        (&right, 255, refused(18, 255)),
        (&endless, 257, refused(18, 257)),
    ] {
        let mut numbers = vec![7; count];
        assert_eq!(index::build(m, &mut numbers), Err(refusal));
        assert_eq!(index::lookup(m, &numbers, ALL, 53), Err(refusal));
        assert_eq!(index::lookup(m, &numbers, ALL, 255), Err(refused(10, 0)));
        assert!(numbers.iter().all(|&number| number == 7));
    }
    let mut numbers = [7; 256];
    assert_eq!(index::build(&endless, &mut numbers), Err(refused(5, 243)));
    assert_eq!(numbers, [7; 256]);
    assert_eq!(index::lookup(&endless, &numbers, ALL, 53), Err(refused(19, 7)));
}
