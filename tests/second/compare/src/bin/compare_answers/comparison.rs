//! One input for both implementations, with buffers for each.

use crate::tally::Tally;
use second::answer::MOST_RECORDINGS;
use second::generate::Random;
use second::lent::{byte, word, Lent};
use second::operations::{links, lists, WORDS_FOR_A_RECORDING_OF_LINKS, WORDS_FOR_A_RECORDING_OF_LISTS};
use second::read::Refusal;

/// A lent buffer is at most so much longer than it must be.
pub const MOST_MORE: usize = 9;

/// The number of ones.
pub type Told = Result<usize, Refusal>;

/// Bytes of the marks, words of the workspace.
pub type Lengths = [usize; 2];

/// What is asked, but for the lent buffers.
#[derive(Clone, Copy, Debug)]
pub struct Asked<'a> {
    pub text: &'a [u8],
    pub recordings: u64,
    /// The expression, from links; none from lists.
    pub chosen: Option<u64>,
    pub table: &'a [u16],
    pub start: u64,
}

impl Asked<'_> {
    pub fn least(&self) -> Lengths {
        let recordings = self.recordings as usize;
        let words = match self.chosen {
            Some(_) => WORDS_FOR_A_RECORDING_OF_LINKS,
            None => WORDS_FOR_A_RECORDING_OF_LISTS,
        };
        [recordings, words * recordings]
    }
}

/// Bits 0 to 7 the refusal (0: none), from 8 its line, from 32 the number of
/// ones.
fn packed(told: &Told) -> u64 {
    match told {
        Ok(ones) => (*ones as u64) << 32,
        Err(refusal) => u64::from(refusal.number) | u64::from(refusal.line) << 8,
    }
}

fn unpacked(told: u64) -> String {
    match told & 0xff {
        0 => format!("{} ones ({told:#018x})", told >> 32),
        refusal => {
            let line = told >> 8 & 0xff_ffff;
            format!("refused {refusal} line {line} ({told:#018x})")
        }
    }
}

pub struct Comparison {
    pub random: Random,
    pub marks: Lent<u8>,
    pub workspace: Lent<u64>,
    pub tally: Tally,
}

impl Comparison {
    pub fn new(seed: u64) -> Comparison {
        let recordings = MOST_RECORDINGS + 1;
        let words = WORDS_FOR_A_RECORDING_OF_LISTS * recordings;
        Comparison {
            random: Random::new(seed),
            marks: Lent::new(recordings + MOST_MORE, byte),
            workspace: Lent::new(words + MOST_MORE, word),
            tally: Tally::default(),
        }
    }

    /// Asks both, and tells what they told if it is the same.
    pub fn compare(&mut self, asked: Asked, lengths: Lengths) -> Told {
        self.marks.lend(lengths[0], &mut self.random);
        self.workspace.lend(lengths[1], &mut self.random);
        let (recordings, start) = (asked.recordings as usize, asked.start as usize);
        let (text, table) = (asked.text, asked.table);
        let (marks, workspace) = (self.marks.ours(), self.workspace.ours());
        let ours = match asked.chosen {
            Some(chosen) => {
                let chosen = chosen as usize;
                links(text, recordings, table, chosen, start, marks, workspace)
            }
            None => lists(text, recordings, table, start, marks, workspace),
        };
        let theirs = self.call(asked);
        let differences = [("marks", self.marks.difference()), ("workspace", self.workspace.difference())];
        let told = differences.into_iter();
        let wrong = told.filter_map(|(name, told)| Some(format!("{name} {}", told?)));
        let wrong: Vec<String> = wrong.collect();
        if theirs != packed(&ours) || !wrong.is_empty() {
            self.differ(asked, theirs, &ours, wrong);
        }
        self.tally.count(asked, &ours);
        ours
    }

    fn call(&mut self, asked: Asked) -> u64 {
        // Behind the text and the table lies more, which does not belong to
        // them.
        let text = [asked.text, b"\nquery a\n"].concat();
        let table = [asked.table, &[u16::MAX, 0, 0]].concat();
        let (marks, workspace) = (self.marks.theirs(), self.workspace.theirs());
        let (text, table) = (&text[..asked.text.len()], &table[..asked.table.len()]);
        match asked.chosen {
            Some(chosen) => server::links(text, asked.recordings, chosen, table, asked.start, marks, workspace),
            None => server::lists(text, asked.recordings, table, asked.start, marks, workspace),
        }
    }

    /// Tells a difference and ends the program.
    fn differ(&self, asked: Asked, theirs: u64, ours: &Told, wrong: Vec<String>) -> ! {
        println!("difference after {} equal answers:", self.tally.inputs);
        println!("{}", asked.text.escape_ascii());
        let (recordings, start) = (asked.recordings, asked.start);
        let (marks, words) = (self.marks.len(), self.workspace.len());
        println!("recordings {recordings}, start {start}, lengths {marks} {words}");
        let name = match asked.chosen {
            Some(chosen) => {
                println!("expression {chosen}");
                "cezhappu_answer_from_links"
            }
            None => "cezhappu_answer_from_lists",
        };
        println!("table of {} numbers {:?}", asked.table.len(), asked.table);
        println!("{name}: {}", unpacked(theirs));
        println!("second: {}", unpacked(packed(ours)));
        for line in wrong {
            println!("{line}");
        }
        std::process::exit(1)
    }

    /// Ends the program if what both told is wrong.
    pub fn both_wrong(&self, asked: Asked, told: &Told, wrong: String) -> ! {
        self.differ(asked, packed(told), told, vec![wrong])
    }

    /// An input that must be refused.
    pub fn refused(&mut self, asked: Asked, lengths: Lengths, number: u8, line: u32) {
        let told = self.compare(asked, lengths);
        let refusal = Err(Refusal { number, line });
        if told != refusal {
            let wrong = format!("expected: {}", unpacked(packed(&refusal)));
            self.both_wrong(asked, &told, wrong);
        }
    }

    /// An input that must be told these marks.
    pub fn told(&mut self, asked: Asked, marks: &[u8]) {
        let told = self.compare(asked, asked.least());
        let ones = marks.iter().filter(|mark| **mark == 1).count();
        if told != Ok(ones) || self.marks.theirs() != marks {
            self.both_wrong(asked, &told, format!("expected: {marks:?}"));
        }
    }
}
