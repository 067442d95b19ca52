//! Jobs that are right but for standing at one limit or one beyond it.

use super::expressions::{nested, occurring, padded, shortest};
use super::random::Random;
use super::right::{add_list, expression, name_of_bytes, names, right_job, right_job_with};
use super::Text;
use crate::read::{
    MOST_DEPTH, MOST_EXPRESSION_BYTES, MOST_LABELS, MOST_LISTS, MOST_NAME_BYTES, MOST_OCCURRENCES, MOST_TEXT_BYTES,
};

/// A text, with the refusal's number and line that are owed beyond the limit.
type Owing = (Vec<u8>, (u8, u32));

/// A job that is right but for standing at one limit or one beyond it.
pub fn at_limit(random: &mut Random) -> Text {
    let beyond = random.one_in(2);
    loop {
        let limit = random.below(9);
        let (bytes, refusal) = match limit {
            0 => text_bytes(random, MOST_TEXT_BYTES + beyond as usize),
            1 => label_count(random, MOST_LABELS + beyond as usize),
            2 => list_count(random, MOST_LISTS + beyond as usize),
            3 => label_name_bytes(random, MOST_NAME_BYTES + beyond as usize),
            4 => list_name_bytes(random, MOST_NAME_BYTES + beyond as usize),
            5 => run_bytes(random, MOST_NAME_BYTES + beyond as usize),
            6 => expression_at_limit(random, 7, |random, labels| {
                let expr = expression(random, labels);
                padded(random, expr, MOST_EXPRESSION_BYTES + beyond as usize)
            }),
            7 => expression_at_limit(random, 7, |random, labels| nested(random, labels, MOST_DEPTH + beyond as usize)),
            _ => expression_at_limit(random, 7, |random, labels| {
                occurring(random, labels, MOST_OCCURRENCES + beyond as usize)
            }),
        };
        // Unless the text's own length is the limit, it must fit.
        if limit == 0 || bytes.len() <= MOST_TEXT_BYTES {
            let (number, line) = if beyond { refusal } else { (0, 0) };
            return Text::new("at a limit", bytes).expecting(number, line);
        }
    }
}

/// A right job but for its length, which is exactly `bytes`, with the refusal
/// owed if that is too many.
fn text_bytes(random: &mut Random, bytes: usize) -> Owing {
    loop {
        let mut draft = right_job(random);
        while draft.lists.len() < MOST_LISTS {
            add_list(random, &mut draft);
        }
        // Lengthen the expressions one after another until the text is as long
        // as wanted.
        let mut missing = bytes.saturating_sub(draft.text().len());
        for number in (0..draft.expressions()).rev() {
            let expr = draft.expression(number).clone();
            let more = missing.min(MOST_EXPRESSION_BYTES - expr.len());
            let wanted = expr.len() + more;
            let expr = padded(random, expr, wanted);
            draft.set_expression(number, expr);
            missing -= more;
        }
        let text = draft.text();
        if text.len() == bytes {
            return (text, (1, 0));
        }
    }
}

fn label_count(random: &mut Random, count: usize) -> Owing {
    let labels = names(random, count);
    let lists = random.between(0, 4);
    (right_job_with(random, labels, lists).text(), (4, count as u32))
}

fn list_count(random: &mut Random, count: usize) -> Owing {
    let mut draft = right_job(random);
    while draft.lists.len() < count {
        add_list(random, &mut draft);
    }
    (draft.text(), (4, draft.line_of_expression(count)))
}

fn label_name_bytes(random: &mut Random, bytes: usize) -> Owing {
    let mut labels = right_job(random).labels;
    let long = name_of_bytes(random, bytes);
    if labels.contains(&long) {
        return label_name_bytes(random, bytes);
    }
    let place = random.below(labels.len());
    labels[place] = long;
    let lists = random.between(0, 4);
    (right_job_with(random, labels, lists).text(), (3, place as u32 + 1))
}

fn list_name_bytes(random: &mut Random, bytes: usize) -> Owing {
    let mut draft = right_job(random);
    let long = name_of_bytes(random, bytes);
    if draft.lists.is_empty() || draft.list_names().contains(&long) {
        return list_name_bytes(random, bytes);
    }
    let number = random.between(1, draft.lists.len());
    draft.lists[number - 1].0 = long;
    (draft.text(), (3, draft.line_of_expression(number)))
}

/// A label of 16 bytes; where it is used, a run of letters of `bytes` bytes.
fn run_bytes(random: &mut Random, bytes: usize) -> Owing {
    let mut draft = right_job(random);
    let long = name_of_bytes(random, bytes);
    if draft.labels.len() == MOST_LABELS || draft.labels.contains(&long[..MOST_NAME_BYTES].to_vec()) {
        return run_bytes(random, bytes);
    }
    draft.labels.push(long[..MOST_NAME_BYTES].to_vec());
    let number = random.below(draft.expressions());
    let before = expression(random, &draft.labels);
    let after = expression(random, &draft.labels);
    let expr = match random.below(3) {
        0 => [&before[..], b".", &long[..]].concat(),
        1 => [&long[..], b"|", &after[..]].concat(),
        _ => [b"(", &long[..], b")*"].concat(),
    };
    if expr.len() > MOST_EXPRESSION_BYTES || expr.split(|byte| b".|*?()".contains(byte)).count() > MOST_OCCURRENCES {
        return run_bytes(random, bytes);
    }
    draft.set_expression(number, expr);
    (draft.text(), (5, draft.line_of_expression(number)))
}

/// A job one of whose expressions is made by `make`.
fn expression_at_limit(random: &mut Random, refusal: u8, make: impl Fn(&mut Random, &[Vec<u8>]) -> Vec<u8>) -> Owing {
    let mut draft = right_job(random);
    // The limits of depth and occurrences need short labels.
    while shortest(&draft.labels).len() > 3 {
        draft = right_job(random);
    }
    let expr = make(random, &draft.labels);
    let number = random.below(draft.expressions());
    draft.set_expression(number, expr);
    (draft.text(), (refusal, draft.line_of_expression(number)))
}
