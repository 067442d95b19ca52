//! A seeded generator of job texts: first a fixed part, the same for every
//! seed, then random texts.

mod bad_expression;
mod broken;
mod damaged;
mod expressions;
mod fixed;
mod limit;
mod random;
mod right;

pub use fixed::fixed;
pub use random::Random;
pub use right::{alternative, right_text};

use broken::broken;
use damaged::{damaged, random_expression, too_long};
use limit::at_limit;

/// A text to read. `expected` is the number and line it must have, where the
/// way it was made tells (0 and 0: accepted); `why` the reason, if made by hand.
pub struct Text {
    pub family: &'static str,
    pub bytes: Vec<u8>,
    pub expected: Option<(u8, u32)>,
    pub why: Option<String>,
}

impl Text {
    fn new(family: &'static str, bytes: Vec<u8>) -> Text {
        let (expected, why) = (None, None);
        Text { family, bytes, expected, why }
    }

    fn expecting(self, number: u8, line: u32) -> Text {
        let expected = Some((number, line));
        Text { expected, ..self }
    }
}

/// The kinds of texts, in the order in which they are told.
pub const FAMILIES: [&str; 11] = [
    "hand-made", "every byte", "cut or dropped", "short expressions", "short line sequences", "right", "at a limit",
    "broken in its parts", "damaged", "random expression", "over 8192 bytes",
];

/// Bytes that mean something in a job, and some of their neighbours.
const MARKED_BYTES: &[u8] = b".|*?() \nalqbz09-,/:@A[`{~_\t\r\0\x7f\x80\xff";

/// `count` texts from `seed`.
pub fn texts(seed: u64, count: usize) -> impl Iterator<Item = Text> {
    let mut random = Random::new(seed);
    fixed().into_iter().chain(std::iter::repeat_with(move || random_text(&mut random))).take(count)
}

/// One random text.
pub fn random_text(random: &mut Random) -> Text {
    match random.below(20) {
        0..=4 => Text::new("right", right_text(random)).expecting(0, 0),
        5..=8 => at_limit(random),
        9..=13 => Text::new("broken in its parts", broken(random)),
        14..=17 => Text::new("damaged", damaged(random)),
        18 => Text::new("random expression", random_expression(random)),
        _ => Text::new("over 8192 bytes", too_long(random)).expecting(1, 0),
    }
}
