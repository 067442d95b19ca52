//! The operations that are lent several buffers: Find, Verdict and both answers.

use crate::input::Input;
use crate::operations::{filled_bytes, length, packed, Lent, Operation};
use second::answer::MOST_RECORDINGS;
use second::operations::{
    find, links, lists, verdict, FLAG_BYTES, MOST_ALLOWANCE, TABLE_NUMBERS, WORDS_FOR_A_PAIR,
    WORDS_FOR_A_RECORDING_OF_LINKS, WORDS_FOR_A_RECORDING_OF_LISTS, WORD_BYTES,
};

pub const ALL: [Operation; 4] = [FIND, VERDICT, LINKS, LISTS];

fn filled_numbers(length: usize) -> Vec<u16> {
    (0..length).map(|place| (place % 241) as u16 ^ 0xa5c3).collect()
}

fn filled_words(length: usize) -> Vec<u64> {
    (0..length as u64).map(|place| place << 7 ^ 0xa5c3_0f1e_2d4b_6978).collect()
}

const FIND: Operation = Operation {
    name: "Find",
    refusals: &[1, 2, 3, 4, 5, 6, 7, 8, 9, 10],
    has_states: true,
    has_missed: false,
    lend: |input| Lent {
        numbers: filled_numbers(length(TABLE_NUMBERS, input.spare[0])),
        bytes: filled_bytes(length(FLAG_BYTES, input.spare[1])),
        more_bytes: filled_bytes(length(WORD_BYTES, input.spare[2])),
        ..Lent::default()
    },
    second: |input, lent| {
        let Lent { numbers, bytes, more_bytes, .. } = lent;
        packed(find(&input.job, numbers, bytes, more_bytes), |told| {
            let first = told.first.map_or(0, |length| length as u64 + 1);
            (told.standings as u64) << 32 | (told.states as u64) << 40 | first << 52
        })
    },
    library: |input, lent| {
        let Lent { numbers, bytes, more_bytes, .. } = lent;
        server::find(&input.job, numbers, bytes, more_bytes)
    },
};

const VERDICT: Operation = Operation {
    name: "Verdict",
    refusals: &[1, 2, 3, 4, 5, 6, 7, 8, 9, 10, 11, 12, 13],
    has_states: false,
    has_missed: true,
    lend: |input| {
        let allowance = input.allowance.min(MOST_ALLOWANCE);
        Lent {
            numbers: filled_numbers(length(TABLE_NUMBERS, input.spare[0])),
            bytes: filled_bytes(length(FLAG_BYTES, input.spare[1])),
            more_bytes: filled_bytes(length(allowance, input.spare[2])),
            words: filled_words(length(WORDS_FOR_A_PAIR * allowance, input.spare[3])),
        }
    },
    second: |input, lent| {
        let Lent { numbers, bytes, more_bytes, words } = lent;
        packed(verdict(&input.job, input.allowance, numbers, bytes, more_bytes, words), |told| {
            (told.pairs as u64) << 32 | told.missed.map_or(0, |length| length as u64 + 1) << 48
        })
    },
    library: |input, lent| {
        let Lent { numbers, bytes, more_bytes, words } = lent;
        server::verdict(&input.job, input.allowance as u64, numbers, bytes, more_bytes, words)
    },
};

const LINKS: Operation = Operation {
    name: "Answer from links",
    refusals: &[1, 2, 3, 4, 5, 6, 7, 8, 9, 14, 15, 16, 17],
    has_states: false,
    has_missed: false,
    lend: |input| marks_and_words(input, WORDS_FOR_A_RECORDING_OF_LINKS),
    second: |input, lent| {
        let answer = links(
            &input.job, input.recordings, &input.links, input.chosen, input.start, &mut lent.bytes, &mut lent.words,
        );
        packed(answer, |ones| (ones as u64) << 32)
    },
    library: |input, lent| {
        let Lent { bytes, words, .. } = lent;
        let (recordings, chosen, start) = (input.recordings as u64, input.chosen as u64, input.start as u64);
        server::links(&input.job, recordings, chosen, &input.links, start, bytes, words)
    },
};

const LISTS: Operation = Operation {
    name: "Answer from lists",
    refusals: &[1, 2, 3, 4, 5, 6, 7, 8, 9, 10, 14, 15, 16],
    has_states: false,
    has_missed: false,
    lend: |input| marks_and_words(input, WORDS_FOR_A_RECORDING_OF_LISTS),
    second: |input, lent| {
        let Lent { bytes, words, .. } = lent;
        let answer = lists(&input.job, input.recordings, &input.lists, input.start, bytes, words);
        packed(answer, |ones| (ones as u64) << 32)
    },
    library: |input, lent| {
        let Lent { bytes, words, .. } = lent;
        server::lists(&input.job, input.recordings as u64, &input.lists, input.start as u64, bytes, words)
    },
};

fn marks_and_words(input: &Input, words: usize) -> Lent {
    let recordings = input.recordings.min(MOST_RECORDINGS);
    Lent {
        bytes: filled_bytes(length(recordings, input.spare[0])),
        words: filled_words(length(words * recordings, input.spare[1])),
        ..Lent::default()
    }
}
