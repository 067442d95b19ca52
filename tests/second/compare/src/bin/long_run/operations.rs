//! The operations, each called on the second implementation and on the
//! library with equal buffers, and its answer as one number: the refusal in
//! bits 0 to 7 and its line from bit 8 on, or what is told, from bit 32 on.

use crate::input::Input;
use second::keep::KEPT_BYTES;
use second::operations::keep;
use second::read::{read, Refusal};

pub struct Operation {
    pub name: &'static str,
    /// All refusals that the operation has.
    pub refusals: &'static [u8],
    /// Whether the answer has the number of states from bit 40 on.
    pub has_states: bool,
    /// Whether the answer has the missed path's length from bit 48 on, plus
    /// 1; 0 is complete.
    pub has_missed: bool,
    pub lend: fn(&Input) -> Lent,
    pub second: fn(&Input, &mut Lent) -> u64,
    pub library: fn(&Input, &mut Lent) -> u64,
}

/// The buffers lent to an operation.
#[derive(Clone, Default, PartialEq)]
pub struct Lent {
    pub numbers: Vec<u16>,
    pub bytes: Vec<u8>,
    pub more_bytes: Vec<u8>,
    pub words: Vec<u64>,
}

/// Every operation.
pub fn all() -> Vec<Operation> {
    [READ, KEEP].into_iter().chain(crate::lending::ALL).collect()
}

/// The answer, or where the two differ.
pub fn compare(operation: &Operation, input: &Input) -> Result<u64, String> {
    let mut ours = (operation.lend)(input);
    let mut theirs = ours.clone();
    let answer = (operation.second)(input, &mut ours);
    let other = (operation.library)(input, &mut theirs);
    if answer != other {
        return Err(format!("library: {other:#x}; second: {answer:#x}"));
    }
    for (same, buffer) in [
        (ours.numbers == theirs.numbers, "numbers"),
        (ours.bytes == theirs.bytes, "bytes"),
        (ours.more_bytes == theirs.more_bytes, "more bytes"),
        (ours.words == theirs.words, "words"),
    ] {
        if !same {
            return Err(format!("both {answer:#x}, but other {buffer}"));
        }
    }
    Ok(answer)
}

/// A lent length: the least that is asked, more, or one less.
pub fn length(least: usize, spare: isize) -> usize {
    least.saturating_add_signed(spare)
}

/// What a lent byte holds beforehand.
pub fn filled_bytes(length: usize) -> Vec<u8> {
    (0..length).map(|place| (place % 251) as u8 ^ 0xa5).collect()
}

pub fn packed<T>(answer: Result<T, Refusal>, told: impl FnOnce(T) -> u64) -> u64 {
    match answer {
        Ok(answer) => told(answer),
        Err(refusal) => u64::from(refusal.number) | u64::from(refusal.line) << 8,
    }
}

const READ: Operation = Operation {
    name: "Read",
    refusals: &[1, 2, 3, 4, 5, 6, 7],
    has_states: false,
    has_missed: false,
    lend: |_| Lent::default(),
    second: |input, _| packed(read(&input.job), |job| (job.labels.len() as u64) << 32 | (job.lists.len() as u64) << 40),
    library: |input, _| server::read(&input.job),
};

const KEEP: Operation = Operation {
    name: "Keep",
    refusals: &[1, 2, 3, 4, 5, 6, 7, 8, 9, 10],
    has_states: false,
    has_missed: false,
    lend: |input| Lent { bytes: filled_bytes(length(KEPT_BYTES, input.spare[0])), ..Lent::default() },
    second: |input, lent| packed(keep(&input.job, &mut lent.bytes), |length| (length as u64) << 32),
    library: |input, lent| server::keep(&input.job, &mut lent.bytes),
};
