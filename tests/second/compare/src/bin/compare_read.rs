//! Compares `cezhappu_read` of libserver.a with the second reader on generated
//! job texts. Arguments: a seed and a count of texts, both optional.

use second::generate::{texts, Text};
use second::read::{read_or_fault, Fault, Job};
use second::tally::{Tally, LEAST_INPUTS};

/// Bytes put behind every text. They do not belong to it; a reader that looks
/// beyond the length would find a closing byte and a query.
const BEHIND: &[u8] = b"\nquery a\n";

fn main() {
    let mut arguments = std::env::args().skip(1);
    let seed = argument(arguments.next(), 1);
    let count = argument(arguments.next(), 150_000) as usize;
    assert!(count >= LEAST_INPUTS, "the count must be at least {LEAST_INPUTS}");
    println!("compare_read: seed {seed}, {count} texts");

    let mut tally = Tally::default();
    for text in texts(seed, count) {
        let answer = read_or_fault(&text.bytes);
        let ours = packed(&answer);
        if let Some((number, line)) = text.expected {
            if ours & 0xffff_ffff != u64::from(number) | u64::from(line) << 8 {
                differ(tally.inputs, &text, "expected", told(number.into(), line.into()), ours);
            }
        }
        let theirs = call(&text.bytes);
        if ours != theirs {
            differ(tally.inputs, &text, "cezhappu_read", unpacked(theirs), ours);
        }
        tally.count(&text, &answer);
    }
    print!("{tally}");
    tally.assert_floors();
    println!("compare_read: {} inputs, 0 differences", tally.inputs);
}

fn argument(given: Option<String>, otherwise: u64) -> u64 {
    given.map_or(otherwise, |text| text.parse().expect("the arguments are a seed and a count"))
}

fn call(text: &[u8]) -> u64 {
    let lent = [text, BEHIND].concat();
    server::read(&lent[..text.len()])
}

/// The answer as one number: bits 0 to 7 the refusal (0: none), bits 8 to 31
/// its line, bits 32 to 39 the number of labels, bits 40 to 47 that of lists.
fn packed(answer: &Result<Job, Fault>) -> u64 {
    match answer {
        Ok(job) => (job.labels.len() as u64) << 32 | (job.lists.len() as u64) << 40,
        Err(fault) => u64::from(fault.reason.number()) | u64::from(fault.line) << 8,
    }
}

fn unpacked(answer: u64) -> String {
    let number = answer & 0xff;
    let line = answer >> 8 & 0xff_ffff;
    let labels = answer >> 32 & 0xff;
    let lists = answer >> 40 & 0xff;
    format!("{}, {labels} labels, {lists} lists ({answer:#018x})", told(number, line))
}

fn told(number: u64, line: u64) -> String {
    match number {
        0 if line == 0 => "accepted".to_string(),
        _ => format!("refused {number} line {line}"),
    }
}

/// Tells a difference and ends the program.
fn differ(before: usize, text: &Text, other: &str, theirs: String, ours: u64) -> ! {
    println!("difference after {before} equal answers, in a text of the kind `{}`:", text.family);
    println!("{}", text.bytes.escape_ascii());
    if let Some(why) = &text.why {
        println!("({why})");
    }
    println!("{other}: {theirs}");
    println!("second reader: {}", unpacked(ours));
    std::process::exit(1)
}
