//! The lent buffers of Find, and what both implementations make of them.

use second::operations::{find, FLAG_BYTES, TABLE_NUMBERS, TABLE_ROW, WORD_BYTES};

/// How much longer than asked the buffers are; -1 is one less.
#[derive(Clone, Copy, Debug)]
pub struct Shape {
    pub table: isize,
    pub flags: isize,
    pub word: isize,
}

const fn shape(table: isize, flags: isize, word: isize) -> Shape {
    Shape { table, flags, word }
}

/// Buffers that suffice.
pub const ENOUGH: [Shape; 4] = [shape(0, 0, 0), shape(1, 0, 1), shape(0, 1, 9), shape(700, 33, 0)];

/// Buffers that are too short.
pub const SHORT: [Shape; 4] =
    [shape(-1, 0, 0), shape(0, -1, 0), shape(0, 0, -1), shape(-(TABLE_NUMBERS as isize), 9, 0)];

/// What one implementation tells and leaves.
#[derive(PartialEq)]
pub struct Left {
    /// The refusal in bits 0 to 7 and its line from bit 8 on, or the standings
    /// from bit 32, the states from bit 40 and one more than the first word's
    /// length (0: no word) from bit 52 on.
    pub number: u64,
    pub table: Vec<u16>,
    pub flags: Vec<u8>,
    pub word: Vec<u8>,
}

impl Left {
    /// Buffers with a pattern in them.
    fn lent(shape: Shape) -> Left {
        let length = |least: usize, more: isize| (least as isize + more) as usize;
        let numbers = 0..length(TABLE_NUMBERS, shape.table);
        let bytes = |end: usize, turn: u8| (0..end).map(|place| (place % 251) as u8 ^ turn).collect();
        Left {
            number: 0,
            table: numbers.map(|place| (place * 31 % 65521) as u16 ^ 0xa5c3).collect(),
            flags: bytes(length(FLAG_BYTES, shape.flags), 0xa5),
            word: bytes(length(WORD_BYTES, shape.word), 0x5a),
        }
    }

    pub fn refusal(&self) -> u8 {
        self.number as u8
    }

    pub fn line(&self) -> u32 {
        (self.number >> 8) as u32 & 0xff_ffff
    }

    pub fn standings(&self) -> usize {
        (self.number >> 32 & 0xff) as usize
    }

    pub fn states(&self) -> usize {
        (self.number >> 40 & 0xfff) as usize
    }

    /// The first word; none where no word is accepted.
    pub fn first(&self) -> Option<&[u8]> {
        let length = (self.number >> 52) as usize;
        (length > 0).then(|| &self.word[..length - 1])
    }

    /// The flag and the next states of a state.
    pub fn row(&self, state: usize, lists: usize) -> (u8, &[u16]) {
        let start = TABLE_ROW * state;
        (self.flags[state], &self.table[start..start + lists])
    }
}

impl std::fmt::Display for Left {
    fn fmt(&self, out: &mut std::fmt::Formatter) -> std::fmt::Result {
        match self.refusal() {
            0 => write!(out, "{} standings, {} states, first {:?}", self.standings(), self.states(), self.first()),
            number => write!(out, "refused {number} line {}", self.line()),
        }
    }
}

/// What the library tells and leaves.
pub fn library(text: &[u8], shape: Shape) -> Left {
    let mut left = Left::lent(shape);
    left.number = server::find(text, &mut left.table, &mut left.flags, &mut left.word);
    left
}

/// What the second implementation tells and leaves, in the same form.
pub fn second(text: &[u8], shape: Shape) -> Left {
    let mut left = Left::lent(shape);
    left.number = match find(text, &mut left.table, &mut left.flags, &mut left.word) {
        Err(refusal) => u64::from(refusal.number) | u64::from(refusal.line) << 8,
        Ok(told) => {
            let counts = (told.standings as u64) << 32 | (told.states as u64) << 40;
            counts | told.first.map_or(0, |length| length as u64 + 1) << 52
        }
    };
    left
}

/// Where two buffers differ first.
fn place<T: PartialEq>(ours: &[T], theirs: &[T]) -> Option<usize> {
    ours.iter().zip(theirs).position(|(one, other)| one != other)
}

/// Both; a difference is told and ends the program.
pub fn compared(text: &[u8], shape: Shape) -> Left {
    let ours = library(text, shape);
    let theirs = second(text, shape);
    if ours != theirs {
        let text = text.escape_ascii();
        println!("difference with buffers {shape:?} on: {text}");
        println!("library: {ours}");
        println!("second: {theirs}");
        for (name, at) in [
            ("table", place(&ours.table, &theirs.table)),
            ("flags", place(&ours.flags, &theirs.flags)),
            ("word", place(&ours.word, &theirs.word)),
        ] {
            if let Some(at) = at {
                println!("{name}: the first difference is at {at}");
            }
        }
        std::process::exit(1);
    }
    ours
}
