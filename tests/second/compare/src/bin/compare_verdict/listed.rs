//! The jobs that the scope document lists, and refusals that hold together.

use crate::comparison::{least, Comparison};
use second::cases;
use second::faults;
use second::read::Refusal;

/// A job of letters, with those used as labels.
fn letters(query: &str, lists: &[&str]) -> Vec<u8> {
    let used = |letter: &char| query.contains(*letter) || lists.iter().any(|l| l.contains(*letter));
    let labels = ('a'..='z').filter(used);
    let labels = labels.map(|letter| format!("label {letter}\n"));
    let mut text = labels.collect::<String>() + &format!("query {query}\n");
    for (number, list) in lists.iter().enumerate() {
        text += &format!("list e{number} {list}\n");
    }
    text.into_bytes()
}

/// `count` times `a`, in sequence.
fn many(count: usize) -> String {
    vec!["a"; count].join(".")
}

fn no_line(number: u8) -> Refusal {
    Refusal { number, line: 0 }
}

impl Comparison {
    /// P1 to P6, and the jobs on each side of a limit.
    pub fn listed(&mut self) {
        let p1 = cases::EXAMPLE.as_bytes();
        for allowance in [11, 12, 128, 4096] {
            self.told(p1, allowance, Some(&[0, 2]), Some(11));
        }
        for allowance in [1, 2, 10] {
            self.refused(p1, allowance as u64, least(allowance), no_line(13));
        }
        let p2 = letters("a.(b.a|c)*", &["a", "a.c*.b", "c"]);
        self.told(&p2, 4096, None, Some(14));
        let p3 = letters("a.(b.a|c)*", &["a", "a.c*.b"]);
        self.told(&p3, 4096, Some(&[0, 2]), Some(12));
        self.told(&letters("a*", &["a*"]), 4096, None, Some(2));
        self.told(&letters("a", &["a*"]), 4096, Some(&[0]), Some(3));
        self.told(&letters("a*", &[]), 4096, Some(&[0]), Some(2));

        self.told(&letters(&many(62), &["a", &many(14)]), 4096, None, Some(78));
        let places = letters(&many(62), &["a", &many(15)]);
        for allowance in [1, 128, 4096] {
            self.refused(&places, allowance as u64, least(allowance), no_line(12));
        }
        self.told(&letters(&many(62), &["a"]), 4096, None, None);
        let standings = letters(&many(63), &["a"]);
        self.refused(&standings, 4096, least(4096), no_line(9));
        self.told(&letters(&many(20), &["a", "a?"]), 4096, None, None);
        let states = letters(&many(21), &["a", "a?"]);
        self.refused(&states, 4096, least(4096), no_line(10));
    }

    /// All hand-made texts that are refused, and for each two refusals that
    /// can hold together an input that meets both.
    pub fn refusals(&mut self) {
        for case in cases::all().into_iter().filter(|case| case.number > 0) {
            let allowance = *self.random.pick(&[1, 7, 128]);
            let (number, line) = (case.number, case.line);
            let refusal = Refusal { number, line };
            self.refused(&case.text, allowance as u64, least(allowance), refusal);
        }
        let several: [&[u8]; 8] = [&[], &[9], &[10], &[12], &[9, 10], &[9, 12], &[10, 12], &[9, 10, 12]];
        for later in several {
            for of_reading in 0..=7 {
                // With allowance 1 there are more pairs than that.
                for allowance in [1, 4096] {
                    self.together(of_reading, later, allowance);
                }
            }
        }
    }

    /// A text that meets some refusals: with allowances and buffers that are
    /// refused before, then with none of these.
    fn together(&mut self, of_reading: u8, later: &[u8], allowance: usize) {
        let (text, line) = faults::text(of_reading, later);
        for outside in [0, 4097, 65_537, 1 << 32 | 1, u64::MAX] {
            for lengths in [[0; 4], least(allowance), least(4097)] {
                self.refused(&text, outside, lengths, no_line(11));
            }
        }
        for buffer in 0..4 {
            let mut lengths = least(allowance);
            for shorter in [lengths[buffer] - 1, 0] {
                lengths[buffer] = shorter;
                self.refused(&text, allowance as u64, lengths, no_line(8));
            }
        }
        let first = match of_reading {
            0 => later.first().copied().or((allowance == 1).then_some(13)),
            _ => Some(of_reading),
        };
        match first {
            Some(number) => {
                let refusal = Refusal { number, line };
                self.refused(&text, allowance as u64, least(allowance), refusal);
            }
            None => self.told(&text, allowance, None, None),
        }
    }
}
