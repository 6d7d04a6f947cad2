//! Request 14 of document 02, "Classless routes", case by case, against this
//! implementation alone.

use crate::rules::answers::{Codes, Content, Kind, Lookup, Refusal, Route};
use crate::rules::{kinds, reading, routes, writing};

const ALL: Codes = Codes([u64::MAX; 4]);
const ALONE: Codes = Codes([0, 1 << (121 - 64), 0, 0]);
const WITHOUT: Codes = Codes([u64::MAX, !(1 << (121 - 64)), u64::MAX, u64::MAX]);

/// Bytes in hex; `61*10` is ten bytes 61.
fn hex(text: &str) -> Vec<u8> {
    let word = |word: &str| {
        let (byte, times) = word.split_once('*').unwrap_or((word, "1"));
        vec![u8::from_str_radix(byte, 16).unwrap(); times.parse().unwrap()]
    };
    text.split_whitespace().flat_map(word).collect()
}

/// All routes of the walk, and where it is done.
fn walk(data: &[u8]) -> (Vec<Route>, usize) {
    let (mut met, mut at) = (Vec::new(), 0);
    while let Some((route, next)) = routes::step(data, at) {
        met.push(route);
        at = next;
    }
    (met, at)
}

/// The walk's routes as (destination, width, router), and the place where it is done.
fn walked(data: &str, expected: &[(u32, u8, u32)], done: usize) {
    let expected: Vec<Route> = expected
        .iter()
        .map(|&(destination, width, router)| Route { destination, width, router })
        .collect();
    assert_eq!(walk(&hex(data)), (expected, done), "{data}");
}

fn message(options: &str) -> Vec<u8> {
    let mut message = vec![0; 240];
    message[236..].copy_from_slice(&[99, 130, 83, 99]);
    message.extend(hex(options));
    message
}

/// What a lookup says of an option 121 with these data, in a message and in a sheet.
fn judged(data: &str, expected: Result<(), u32>) {
    let data = hex(data);
    let mut m = message("");
    m.extend([121, data.len() as u8]);
    m.extend(&data);
    m.push(255);
    let Ok(Lookup::Found(_, _, content)) = reading::lookup(&m, ALL, 121) else {
        panic!("{data:?}");
    };
    let said = match content {
        Content::Part(Kind::Routes, length) if length == data.len() => Ok(()),
        Content::Broken(Refusal { number, place: 240 }) => Err(number),
        other => panic!("{other:?}"),
    };
    assert_eq!(said, expected, "{data:?}");
    let judged = kinds::judge(Kind::Routes, 121, &data).map_err(kinds::Fault::number);
    assert_eq!(judged, expected);
    let mut sheet = vec![121, 0, data.len() as u8];
    sheet.extend(&data);
    let wrote = writing::write(&sheet, &mut [0; 600], 0);
    assert_eq!(wrote, expected.map(|()| 0).map_err(|number| Refusal { number, place: 0 }));
}

#[test]
fn row_of_121() {
    assert_eq!(kinds::kind_of(121), Some(Kind::Routes));
    assert_eq!(kinds::kind_of(120), None);
    assert_eq!(kinds::kind_of(122), None);
    judged("00 01 02 03 04", Ok(()));
    judged("18 C0 00 02 01 02 03 04 00 01 02 03 04", Ok(()));
    judged("01 FF 01 02 03 04", Ok(()));
    judged("20 21*8", Ok(()));
    // "8 for a length under 5"
    for data in ["", "00", "21", "00 01 02 03", "21*4"] {
        judged(data, Err(8));
    }
    // "then, the earlier route first, 9 for a width over 32 and 8 for a route cut short"
    judged("21 00*4", Err(9));
    judged("FF*40", Err(9));
    judged("01 01 02 03 04", Err(8));
    judged("20 00*7", Err(8));
    judged("00 01 02 03 04 21", Err(9));
    judged("00 01 02 03 04 20", Err(8));
    judged("00 01 02 03 04 21 00*8 18", Err(9));
    judged("00 01 02 03 04 18 21*6", Err(8));
}

#[test]
fn every_width() {
    for width in 0..=32u8 {
        let kept = usize::from(width.div_ceil(8));
        let mut data = vec![width];
        data.extend(vec![255; kept]);
        data.extend([1, 2, 3, 4]);
        let ones = (!(u64::MAX >> width) >> 32) as u32;
        let route = Route { destination: ones, width, router: 0x0102_0304 };
        assert_eq!(routes::step(&data, 0), Some((route, 5 + kept)));
        assert_eq!(routes::step(&data[..4 + kept], 0), None);
    }
    for width in 33..=255u8 {
        assert_eq!(routes::step(&[width; 60], 0), None);
    }
}

#[test]
fn walk_ends() {
    walked("", &[], 0);
    walked("00 01 02 03 04", &[(0, 0, 0x0102_0304)], 5);
    walked(
        "14 C0 A8 1F 0A 00 00 02 00 0A 00 00 01",
        &[(0xC0A8_1000, 20, 0x0A00_0002), (0, 0, 0x0A00_0001)],
        13,
    );
    // "then done at the end or at a faulty route"
    walked("00 01 02 03 04 21 00*8", &[(0, 0, 0x0102_0304)], 5);
    walked("00 01 02 03 04 20 00*7", &[(0, 0, 0x0102_0304)], 5);
    // any place
    assert_eq!(routes::step(&hex("00 01 02 03 04"), 5), None);
    assert_eq!(routes::step(&hex("00 01 02 03 04"), 6), None);
    assert_eq!(routes::step(&hex("00 01 02 03 04"), usize::MAX), None);
}

/// "its bytes walk back as exactly the routes given, in order"
fn written(given: &str, bytes: &str) {
    let mut output = [7; 5000];
    let given = hex(given);
    let size = routes::write(&given, &mut output).unwrap();
    assert_eq!(output[..size], hex(bytes));
    assert!(output[size..].iter().all(|&byte| byte == 7));
    let expected: Vec<Route> = given
        .chunks(9)
        .map(|nine| Route {
            width: nine[0],
            destination: u32::from_be_bytes(nine[1..5].try_into().unwrap()),
            router: u32::from_be_bytes(nine[5..].try_into().unwrap()),
        })
        .collect();
    assert_eq!(walk(&output[..size]), (expected, size));
}

fn not_written(given: &str, room: usize, number: u32, place: usize) {
    let mut output = [7; 5000];
    let refusal = routes::write(&hex(given), &mut output[..room]);
    assert_eq!(refusal, Err(Refusal { number, place }), "{given}");
    assert_eq!(output, [7; 5000]);
}

#[test]
fn writer_writes() {
    written("00 00*4 01 02 03 04", "00 01 02 03 04");
    written(
        "18 C0 00 02 00 01 02 03 04 20 C0 00 02 07 05 06 07 08",
        "18 C0 00 02 01 02 03 04 20 C0 00 02 07 05 06 07 08",
    );
    written("01 80 00 00 00 01 02 03 04", "01 80 01 02 03 04");
    written("09 C0 80 00 00 01 02 03 04", "09 C0 80 01 02 03 04");
    written(&"20 C0 00 02 07 05 06 07 08 ".repeat(500), &"20 C0 00 02 07 05 06 07 08 ".repeat(500));
}

#[test]
fn writer_refuses() {
    not_written("", 0, 26, 0);
    not_written("", 9, 26, 0);
    not_written("21 00*8", 9, 26, 0);
    not_written("00", 9, 26, 0);
    not_written("00*8", 9, 26, 0);
    not_written("00 00 00 00 01 01 02 03 04", 9, 26, 0);
    not_written("08 0A 01 00 00 01 02 03 04", 9, 26, 0);
    not_written("1F 00 00 00 01 01 02 03 04", 9, 26, 0);
    not_written("00*9 00*9 21 00*8", 0, 26, 2);
    not_written("00*9 00*9 00", 100, 26, 2);
    for width in 0..32u32 {
        for bit in width..32 {
            let [a, b, c, d] = (0x8000_0000u32 >> bit).to_be_bytes();
            not_written(&format!("{width:02X} {a:02X} {b:02X} {c:02X} {d:02X} 00*4"), 9, 26, 0);
        }
    }
    // "then 11 with the output's length"
    not_written("00*9", 4, 11, 4);
    not_written("00*9", 0, 11, 0);
    not_written("19 C0 00 02 80 01 02 03 04 00*9", 13, 11, 13);
}

#[test]
fn three_and_thirty_three() {
    let refused = |number, place| Err(Refusal { number, place });
    let yes = message("03 04 01 02 03 04 79 05 00 01 02 03 04 FF");
    assert_eq!(routes::ignored(&yes, ALL), Ok(true));
    assert_eq!(routes::ignored(&yes, ALONE), Ok(true));
    assert_eq!(routes::ignored(&yes, WITHOUT), Ok(false));
    assert_eq!(routes::ignored(&yes, Codes::default()), Ok(false));
    let absent = message("03 04 01 02 03 04 FF");
    assert_eq!(routes::ignored(&absent, ALL), Ok(false));
    // in two pieces, cut in a route
    let pieces = message("79 02 00 01 35 01 05 79 03 02 03 04 FF");
    assert_eq!(routes::ignored(&pieces, ALL), Ok(true));
    // "it is refused as that lookup is"
    let short = message("35 01 05 79 02 00 01 79 01 02 FF");
    assert_eq!(routes::ignored(&short, ALL), refused(8, 243));
    assert_eq!(routes::ignored(&short, WITHOUT), Ok(false));
    let wide = message("79 05 21 01 02 03 04 FF");
    assert_eq!(routes::ignored(&wide, ALONE), refused(9, 240));
    for known in [ALL, ALONE, WITHOUT] {
        assert_eq!(routes::ignored(&yes[..yes.len() - 1], known), refused(5, yes.len() - 1));
        assert_eq!(routes::ignored(&yes[..100], known), refused(1, 100));
    }
}
