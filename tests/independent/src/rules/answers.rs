//! What the calls answer.

/// "Every refusal gives number and place."
#[derive(Clone, Copy, PartialEq, Eq, Debug)]
pub struct Refusal {
    pub number: u32,
    pub place: usize,
}

/// A refusal as the answer of a call.
pub fn refuse<T>(number: u32, place: usize) -> Result<T, Refusal> {
    Err(Refusal { number, place })
}

/// A part of the message: start and length.
#[derive(Clone, Copy, PartialEq, Eq, Debug)]
pub struct Part {
    pub start: usize,
    pub length: usize,
}

/// "there a part is a start and a length, 0 and 0 when it is empty"
pub const EMPTY: Part = Part { start: 0, length: 0 };

/// The rows of the table of kinds.
#[derive(Clone, Copy, PartialEq, Eq, Debug)]
pub enum Kind {
    Address = 1,
    AddressList = 2,
    AddressPairs = 3,
    Flag = 4,
    OneByte = 5,
    Number16 = 6,
    List16 = 7,
    Unsigned32 = 8,
    Signed32 = 9,
    Text = 10,
    Opaque = 11,
    /// Request 09.
    Relay = 12,
    /// Request 14.
    Routes = 13,
}

/// "the field that holds its code byte (options, file, sname)"
#[derive(Clone, Copy, PartialEq, Eq, Debug)]
pub enum Field {
    Options = 1,
    File = 2,
    Sname = 3,
}

/// "Every lookup answer but absent, number and broken included, shall carry
/// the field that holds its code byte (options, file, sname), that byte's
/// offset in it and the data's start."
#[derive(Clone, Copy, PartialEq, Eq, Debug)]
pub struct Origin {
    pub field: Field,
    pub offset: usize,
    pub start: usize,
}

/// The answer of a lookup that is not refused. "Every answer names the first
/// piece."
#[derive(Clone, Copy, PartialEq, Eq, Debug)]
pub enum Lookup {
    Absent,
    Found(Origin, Several, Content),
}

/// "where there are several pieces the answer also says so, with the whole
/// joined length (trailing zeros counted)"
pub type Several = Option<usize>;

/// What a lookup says of a code that is there.
#[derive(Clone, Copy, PartialEq, Eq, Debug)]
pub enum Content {
    /// The length of the data.
    Unknown(usize),
    /// "broken (8 or 9)", at the code byte.
    Broken(Refusal),
    Number(Kind, i64),
    /// The length of the part.
    Part(Kind, usize),
}

/// "four words marking the codes present (52 included), how many bits are
/// set in them, and the lowest code, or 0 if none"
#[derive(Clone, Copy, PartialEq, Eq, Debug)]
pub struct RollCall {
    pub words: [u64; 4],
    pub count: u32,
    pub lowest: u32,
}

/// What the reader of sub-options answers: how many bytes it gave, and "circuit id (1) and
/// remote id (2), each absent or the first of that code, as its data's start and
/// length in the bytes given".
#[derive(Clone, Copy, PartialEq, Eq, Debug)]
pub struct Listed {
    pub size: usize,
    pub circuit: Option<Part>,
    pub remote: Option<Part>,
}

/// "destination with bits past the width cleared, width and router" (request 14)
#[derive(Clone, Copy, PartialEq, Eq, Debug)]
pub struct Route {
    pub destination: u32,
    pub width: u8,
    pub router: u32,
}

/// A set of codes: "code c standing at bit c mod 64 of word c div 64".
#[derive(Clone, Copy, PartialEq, Eq, Debug, Default)]
pub struct Codes(pub [u64; 4]);

impl Codes {
    pub fn has(&self, code: u8) -> bool {
        self.0[usize::from(code / 64)] >> (code % 64) & 1 == 1
    }

    /// Adds a code; false when it was there already.
    pub fn add(&mut self, code: u8) -> bool {
        let word = &mut self.0[usize::from(code / 64)];
        let before = *word;
        *word |= 1 << (code % 64);
        *word != before
    }

    pub fn count(&self) -> u32 {
        self.0.iter().map(|word| word.count_ones()).sum()
    }

    /// The lowest code, or 0 if none.
    pub fn lowest(&self) -> u32 {
        match (0u32..4).zip(self.0).find(|&(_, word)| word != 0) {
            Some((i, word)) => 64 * i + word.trailing_zeros(),
            None => 0,
        }
    }
}
