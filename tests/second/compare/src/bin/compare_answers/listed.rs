//! P8, and refusals that hold together.

use crate::comparison::{Asked, Comparison};
use second::cases;
use second::faults;

/// Tables with one fault each, for one label or list and three recordings.
const BAD_TABLES: [&[u16]; 11] = [
    &[0],
    &[0, 0],
    &[0, 0, 1, 1],
    &[3, 0, 0],
    &[0, 16, 0],
    &[0, 0, 3],
    &[0, 0, 65_535],
    &[0, 0, 1, 0, 0, 1],
    &[0, 0, 1, 0, 0, 0],
    &[1, 0, 0, 0, 0, 1],
    &[2, 0, 2, 1, 0, 1],
];
const BAD_COUNTS: [u64; 5] = [0, 4097, 1 << 16 | 3, 1 << 32 | 3, u64::MAX];
const BAD_STARTS: [u64; 5] = [3, 4, 1 << 16, 1 << 32, u64::MAX];
const BAD_CHOICES: [u64; 5] = [18, 1 << 8, 1 << 16, 1 << 32, u64::MAX];

/// Which refusals an input meets, beside those of the text.
#[derive(Clone, Copy)]
struct Faults {
    of_reading: u8,
    chosen: bool,
    table: bool,
    start: bool,
}

impl Faults {
    /// The first refusal of those after 14 and 8, if any.
    fn first(self, later: &[u8]) -> Option<u8> {
        match self {
            Faults { of_reading, .. } if of_reading > 0 => Some(of_reading),
            Faults { chosen: true, .. } => Some(17),
            Faults { table: true, .. } => Some(15),
            Faults { start: true, .. } => Some(16),
            _ => later.first().copied(),
        }
    }
}

/// Eight optional labels, any of which may come next: before merging, a list
/// word's state is the start with the set of its lists, 256 in all, all
/// accepting. With another list, of a label that the query does not have, there
/// is one more.
fn subsets(other: bool) -> Vec<u8> {
    let labels = ["a", "b", "c", "d", "e", "f", "g", "h"];
    let mut text: String = labels.map(|label| format!("label {label}\n")).concat();
    if other {
        text += "label z\n";
    }
    text += &format!("query ({})*\n", labels.join("|"));
    text += &labels.map(|label| format!("list {label} {label}?\n")).concat();
    if other {
        text += "list z z\n";
    }
    text.into_bytes()
}

impl Comparison {
    pub fn listed(&mut self) {
        let text = cases::EXAMPLE.as_bytes();
        let links = Asked { text, recordings: 3, chosen: Some(0), table: &[0, 0, 1, 1, 1, 0, 1, 2, 2], start: 0 };
        self.told(links, &[1, 0, 1]);
        let lists = Asked { chosen: None, table: &[0, 0, 1, 1, 1, 0], ..links };
        self.told(lists, &[1, 0, 0]);

        // From links, only the chosen expression's standings matter.
        let row = vec!["a"; 63].join(".");
        let asked = Asked {
            text: &format!("label a\nquery {row}\nlist e a\nlist f {row}\n").into_bytes(),
            table: &[0, 0, 1],
            ..links
        };
        self.refused(asked, asked.least(), 9, 0);
        let chosen = |chosen| Asked { chosen: Some(chosen), ..asked };
        self.told(chosen(1), &[0, 1, 0]);
        self.refused(chosen(2), asked.least(), 9, 0);
        self.refused(chosen(3), asked.least(), 17, 0);
    }

    /// Jobs on each side of a limit, on rows of links that ask for every
    /// standing or state.
    pub fn limits(&mut self) {
        for (length, refused) in [(62, false), (63, true)] {
            let row = vec!["a"; length].join(".");
            let table: Vec<u16> = (0..63).flat_map(|from| [from, 0, from + 1]).collect();
            let asked = Asked {
                text: &format!("label a\nquery {row}\n").into_bytes(),
                recordings: 64,
                chosen: Some(0),
                table: &table,
                start: 0,
            };
            let mut marks = [0; 64];
            marks[length] = 1;
            match refused {
                true => self.refused(asked, asked.least(), 9, 0),
                false => self.told(asked, &marks),
            }
        }
        self.most_states();
        for (other, refused) in [(false, false), (true, true)] {
            let table: Vec<u16> = (0..8).flat_map(|from| [from, from, from + 1]).collect();
            let asked = Asked { text: &subsets(other), recordings: 9, chosen: None, table: &table, start: 0 };
            match refused {
                true => self.refused(asked, asked.least(), 10, 0),
                false => self.told(asked, &[1; 9]),
            }
        }
    }

    /// Fifteen labels any number of times and up to 13 more, with lists of one
    /// label and of one or none: 211 states when merged. A circle of the second
    /// list asks for all of them; but for every fifteenth, each recording of the
    /// row is reached by an accepted word of the first.
    fn most_states(&mut self) {
        let query = format!("({})*{}", ["a"; 15].join("."), ".a?".repeat(13));
        let text = format!("label a\nquery {query}\nlist e a\nlist f a?\n");
        let mut table = vec![0, 0, 1, 0, 1, 0];
        table.extend((1..63).flat_map(|from| [from, 0, from + 1]));
        let marks: Vec<u8> = (0..64).map(|recording| u8::from(recording % 15 != 14)).collect();
        let asked = Asked { text: text.as_bytes(), recordings: 64, chosen: None, table: &table, start: 0 };
        self.told(asked, &marks);
    }

    /// All hand-made texts that are refused, and for each two refusals that
    /// can hold together an input that meets both.
    pub fn refusals(&mut self) {
        for case in cases::all().into_iter().filter(|case| case.number > 0) {
            for chosen in [Some(0), None] {
                let asked = Asked { text: &case.text, recordings: 3, chosen, table: &[0, 0, 1], start: 0 };
                self.refused(asked, asked.least(), case.number, case.line);
            }
        }
        for combination in 0..8 * 8 {
            let has = |bit: usize| combination >> bit & 1 == 1;
            let faults = Faults { of_reading: combination as u8 & 7, chosen: has(3), table: has(4), start: has(5) };
            for later in [&[][..], &[9]] {
                self.together(faults, later, true);
            }
            if !faults.chosen {
                for later in [&[][..], &[9], &[10], &[9, 10]] {
                    self.together(faults, later, false);
                }
            }
        }
    }

    /// An input that meets the given refusals, from links or from lists: with
    /// counts and buffers that are refused before, then with none of these.
    fn together(&mut self, faults: Faults, later: &[u8], links: bool) {
        let (text, line) = faults::text(faults.of_reading, later);
        let table = match faults.table {
            true => *self.random.pick(&BAD_TABLES),
            false => &[0, 0, 1],
        };
        let mut picked = |wrong: bool, from: &[u64]| match wrong {
            true => *self.random.pick(from),
            false => 0,
        };
        let chosen = picked(faults.chosen, &BAD_CHOICES);
        let start = picked(faults.start, &BAD_STARTS);
        let asked = Asked { text: &text, recordings: 3, chosen: links.then_some(chosen), table, start };
        let least = asked.least();
        for recordings in BAD_COUNTS {
            let asked = Asked { recordings, ..asked };
            for lengths in [[0, 0], least, [4097, 4 * 4097]] {
                self.refused(asked, lengths, 14, 0);
            }
        }
        for lengths in [[2, least[1]], [3, least[1] - 1], [0, 0]] {
            self.refused(asked, lengths, 8, 0);
        }
        match faults.first(later) {
            Some(number) => self.refused(asked, least, number, line),
            // The query is two labels long, and the only link leads to 1.
            None => self.told(asked, &[0, 0, 0]),
        }
    }
}
