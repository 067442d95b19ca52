//! The stored output of the program `cases`: document 01's listed cases, their
//! texts spelled here anew.

use second::answer::{from_links, from_lists};
use second::counts::{all_standings, all_states};
use second::print::printed_at;
use second::read::read;
use second::turn::Turn;

const MOST: usize = 4096;

const P1: &str =
    "label episode\nlabel mix\nlabel master\nquery episode.(mix|master)\nlist episodes episode\nlist mixes mix\n";

const P2: &str = "label a\nlabel b\nlabel c\nquery a.(b.a|c)*\nlist e1 a\nlist e2 a.c*.b\nlist e3 c\n";

/// So many a's in sequence.
fn sequence(count: usize) -> String {
    vec!["a"; count].join(".")
}

/// A job over the label a, with lists named l and m.
fn over_a(query: &str, lists: &[&str]) -> String {
    let named = lists.iter().zip(["l", "m"]).map(|(list, name)| format!("list {name} {list}\n"));
    format!("label a\nquery {query}\n{}", named.collect::<String>())
}

/// `(a|b)*.a` followed by so many `.(a|b)`.
fn followed(count: usize) -> String {
    format!("label a\nlabel b\nquery (a|b)*.a{}\n", ".(a|b)".repeat(count))
}

/// The titles, texts and allowances, in document 01's order.
fn cases() -> Vec<(String, String, usize)> {
    let p3 = P2.replace("list e3 c\n", "");
    let mut cases = vec![("P1".into(), P1.into(), 11), ("P1".into(), P1.into(), 10)];
    let mut add = |title: &str, text: String| cases.push((title.into(), text, MOST));
    add("P2", P2.into());
    add("P3", p3);
    add("P4", over_a("a*", &["a*"]));
    add("P5", over_a("a", &["a*"]));
    add("P6", over_a("a*", &[]));
    for count in 62..65 {
        add(&format!("{count} a's"), over_a(&sequence(count), &[]));
    }
    for count in [4, 5] {
        add(&format!("(a|b)*.a followed by {count}"), followed(count));
    }
    add("P7", over_a("a.a.a", &["a", "a?"]));
    for count in [20, 21] {
        add(&format!("{count} a's, lists a and a?"), over_a(&sequence(count), &["a", "a?"]));
    }
    for count in [14, 15] {
        add(&format!("62 a's, lists a and {count} a's"), over_a(&sequence(62), &["a", &sequence(count)]));
    }
    add("P8", P1.into());
    cases
}

/// The count that document 01 gives of a refused case.
fn counted(title: &str, text: &str) -> String {
    let job = || read(text.as_bytes()).expect("a job");
    match title {
        "63 a's" | "(a|b)*.a followed by 5" => format!("counted {} standings\n", all_standings(&job())),
        "21 a's, lists a and a?" => format!("counted {} states\n", all_states(&job())),
        _ => String::new(),
    }
}

/// The marks of P8, as the program shows them.
fn marks(word: &str, marks: &[bool]) -> String {
    let shown = marks.iter().map(|mark| format!(" {}", u8::from(*mark)));
    format!("{word}{}\n", shown.collect::<String>())
}

#[test]
fn the_stored_output_is_that_of_the_cases() {
    let mut out = String::new();
    for (title, text, allowance) in cases() {
        out += &format!("case {title}, allowance {allowance}\n");
        out += &printed_at(Turn::Right, text.as_bytes(), allowance);
        out += &counted(&title, &text);
    }
    let job = read(P1.as_bytes()).expect("P1 is a job");
    let links = from_links(&job, 3, &[0, 0, 1, 1, 1, 0, 1, 2, 2], 0, 0).expect("an answer from links");
    let lists = from_lists(&job, 3, &[0, 0, 1, 1, 1, 0], 0).expect("an answer from lists");
    out += &(marks("links", &links.marks) + &marks("lists", &lists.marks));
    let stored = std::fs::read_to_string(concat!(env!("CARGO_MANIFEST_DIR"), "/../../crates/cases/stdout"));
    assert_eq!(stored.expect("the stored output"), out);
}
