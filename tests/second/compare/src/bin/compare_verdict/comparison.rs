//! One input for both implementations, with buffers for each.

use crate::tally::Tally;
use second::generate::Random;
use second::lent::{byte, number, word, Lent};
use second::operations::{verdict_by, VerdictTold, FLAG_BYTES, MOST_ALLOWANCE, TABLE_NUMBERS, WORDS_FOR_A_PAIR};
use second::read::{Job, Refusal};
use second::verdict::{verdict, Verdict};

/// A lent buffer is at most so much longer than it must be.
pub const MOST_MORE: usize = 9;

pub type Told = Result<VerdictTold, Refusal>;

/// Numbers of the table, bytes of the flags and of the path, words.
pub type Lengths = [usize; 4];

pub fn least(allowance: usize) -> Lengths {
    let words = WORDS_FOR_A_PAIR * allowance;
    [TABLE_NUMBERS, FLAG_BYTES, allowance, words]
}

/// Bits 0 to 7 the refusal (0: none), from 8 its line, from 32 the pairs, from
/// 48 one more than the length of the missed path, or 0 if complete.
fn packed(told: &Told) -> u64 {
    match told {
        Ok(told) => {
            let missed = told.missed.map_or(0, |length| length as u64 + 1);
            (told.pairs as u64) << 32 | missed << 48
        }
        Err(refusal) => u64::from(refusal.number) | u64::from(refusal.line) << 8,
    }
}

fn unpacked(told: u64) -> String {
    let (refusal, line) = (told & 0xff, told >> 8 & 0xff_ffff);
    let (pairs, missed) = (told >> 32 & 0xffff, told >> 48);
    match (refusal, missed) {
        (0, 0) => format!("complete, {pairs} pairs ({told:#018x})"),
        (0, _) => format!("missed {}, {pairs} pairs ({told:#018x})", missed - 1),
        _ => format!("refused {refusal} line {line} ({told:#018x})"),
    }
}

pub struct Comparison {
    pub random: Random,
    pub table: Lent<u16>,
    pub flags: Lent<u8>,
    pub path: Lent<u8>,
    pub workspace: Lent<u64>,
    pub tally: Tally,
}

impl Comparison {
    pub fn new(seed: u64) -> Comparison {
        let [numbers, flags, steps, words] = least(MOST_ALLOWANCE + 1).map(|n| n + MOST_MORE);
        Comparison {
            random: Random::new(seed),
            table: Lent::new(numbers, number),
            flags: Lent::new(flags, byte),
            path: Lent::new(steps, byte),
            workspace: Lent::new(words, word),
            tally: Tally::default(),
        }
    }

    /// Asks both, and tells what they told if it is the same.
    pub fn compare(&mut self, text: &[u8], allowance: u64, lengths: Lengths) -> Told {
        self.compare_by(verdict, text, allowance, lengths)
    }

    /// The same, with the verdict that `decide` tells for the second one.
    pub fn compare_by(
        &mut self,
        decide: impl Fn(&Job, usize) -> Result<Verdict, u8>,
        text: &[u8],
        allowance: u64,
        lengths: Lengths,
    ) -> Told {
        self.table.lend(lengths[0], &mut self.random);
        self.flags.lend(lengths[1], &mut self.random);
        self.path.lend(lengths[2], &mut self.random);
        self.workspace.lend(lengths[3], &mut self.random);
        let ours = verdict_by(
            decide,
            text,
            allowance as usize,
            self.table.ours(),
            self.flags.ours(),
            self.path.ours(),
            self.workspace.ours(),
        );
        let theirs = self.call(text, allowance);
        let wrong = self.wrong_buffers();
        if theirs != packed(&ours) || !wrong.is_empty() {
            self.differ(text, allowance, theirs, &ours, wrong);
        }
        self.tally.count(&ours);
        ours
    }

    fn call(&mut self, text: &[u8], allowance: u64) -> u64 {
        // Behind the text lies more, which does not belong to it.
        let lent = [text, b"\nquery a\n"].concat();
        let (table, flags) = (self.table.theirs(), self.flags.theirs());
        let (path, workspace) = (self.path.theirs(), self.workspace.theirs());
        server::verdict(&lent[..text.len()], allowance, table, flags, path, workspace)
    }

    fn wrong_buffers(&self) -> Vec<String> {
        let differences = [
            ("table", self.table.difference()),
            ("flags", self.flags.difference()),
            ("path", self.path.difference()),
            ("workspace", self.workspace.difference()),
        ];
        let told = differences.into_iter();
        told.filter_map(|(name, told)| Some(format!("{name} {}", told?))).collect()
    }

    /// Tells a difference and ends the program.
    fn differ(&self, text: &[u8], allowance: u64, theirs: u64, ours: &Told, wrong: Vec<String>) -> ! {
        println!("difference after {} equal answers:", self.tally.inputs);
        println!("{}", text.escape_ascii());
        println!(
            "allowance {allowance}, lengths {} {} {} {}",
            self.table.len(),
            self.flags.len(),
            self.path.len(),
            self.workspace.len()
        );
        println!("cezhappu_verdict: {}", unpacked(theirs));
        println!("second: {}", unpacked(packed(ours)));
        for line in wrong {
            println!("{line}");
        }
        std::process::exit(1)
    }

    /// Ends the program if what both told is wrong.
    pub fn both_wrong(&self, text: &[u8], allowance: usize, told: &Told, wrong: Vec<String>) -> ! {
        self.differ(text, allowance as u64, packed(told), told, wrong)
    }

    /// An input that must be refused.
    pub fn refused(&mut self, text: &[u8], allowance: u64, lengths: Lengths, refusal: Refusal) {
        let told = self.compare(text, allowance, lengths);
        if told != Err(refusal) {
            let wrong = vec![format!("expected: {}", unpacked(packed(&Err(refusal))))];
            self.both_wrong(text, allowance as usize, &told, wrong);
        }
    }

    /// An input that must be told a missed path, or complete; and the count of
    /// pairs, if known.
    pub fn told(&mut self, text: &[u8], allowance: usize, missed: Option<&[u8]>, pairs: Option<usize>) {
        let told = self.compare(text, allowance as u64, least(allowance));
        let mut path = missed.unwrap_or(&[]).to_vec();
        path.resize(allowance, 0);
        let right = told
            .is_ok_and(|told| told.missed == missed.map(<[u8]>::len) && pairs.is_none_or(|pairs| pairs == told.pairs));
        if !right || path != self.path.theirs() {
            let wrong = vec![format!("expected: missed {missed:?}, pairs {pairs:?}")];
            self.both_wrong(text, allowance, &told, wrong);
        }
    }
}
