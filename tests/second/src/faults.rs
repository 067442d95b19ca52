//! Job texts that meet several refusals together, so that the earlier check
//! decides.

use crate::jobs::many;
use crate::read::MOST_TEXT_BYTES;

/// A text that meets the given ones of refusals 9, 10 and 12 and, in its last
/// line, one of 1 to 7 if given (0: none), with the line that this refusal
/// tells. Without 9 and 10 it has over one pair.
pub fn text(of_reading: u8, later: &[u8]) -> (Vec<u8>, u32) {
    let has = |number: u8| later.contains(&number);
    let length = match (has(9), has(10), has(12)) {
        (true, _, _) => 63,
        // 64 states when merged, more than 256 before with a list `a?`.
        (_, _, true) => 62,
        (_, true, _) => 21,
        _ => 2,
    };
    let mut text = format!("label a\nquery {}\nlist e0 a\n", many(length));
    let mut lists = 1;
    if has(10) {
        text += "list e1 a?\n";
        lists += 1;
    }
    if has(12) {
        text += &format!("list e2 {}\n", many(15));
        lists += 1;
    }
    match of_reading {
        0 => {}
        1 => text += &format!("list z {}\n", "*".repeat(MOST_TEXT_BYTES)),
        2 => text += "list z\n",
        3 => text += "list Z a\n",
        4 => {
            for number in lists..17 {
                text += &format!("list f{number} a\n");
            }
        }
        5 => text += "list z a..a\n",
        6 => text += "list z b\n",
        _ => text += &format!("list z {}\n", many(64)),
    }
    let line = match of_reading {
        0 | 1 => 0,
        _ => text.lines().count() as u32,
    };
    (text.into_bytes(), line)
}
