//! Tests of the second reader on its own.

use second::cases;
use second::generate;
use second::read::{read, read_or_fault, Expr, Job, List, Refusal};
use second::tally::Tally;

fn label(number: usize) -> Expr {
    Expr::Label(number)
}

fn star(inner: Expr) -> Expr {
    Expr::Star(Box::new(inner))
}

fn opt(inner: Expr) -> Expr {
    Expr::Opt(Box::new(inner))
}

/// The query of a job with the labels a, b and c.
fn query(expr: &str) -> Expr {
    let text = format!("label a\nlabel b\nlabel c\nquery {expr}\n");
    read(text.as_bytes()).expect(expr).query
}

#[test]
fn example_of_the_scope_document() {
    let job = Job {
        labels: vec!["episode".to_string(), "mix".to_string(), "master".to_string()],
        query: Expr::Seq(vec![label(0), Expr::Alt(vec![label(1), label(2)])]),
        lists: vec![
            List { name: "episodes".to_string(), expr: label(0) },
            List { name: "mixes".to_string(), expr: label(1) },
        ],
    };
    assert_eq!(read(cases::EXAMPLE.as_bytes()), Ok(job));
}

#[test]
fn hand_made_table() {
    for case in cases::all() {
        let answer = match read(&case.text) {
            Ok(_) => (0, 0),
            Err(Refusal { number, line }) => (number, line),
        };
        assert_eq!(answer, (case.number, case.line), "{}: {}", case.why, case.text.escape_ascii());
    }
}

/// For every refusal, the table has a text that it decides, and for the
/// limits a text on either side.
#[test]
fn hand_made_table_has_every_refusal() {
    let table = cases::all();
    for number in 0..=7 {
        let count = table.iter().filter(|case| case.number == number).count();
        assert!(count >= 10, "only {count} hand-made texts with {number}");
    }
}

#[test]
fn trees() {
    let (a, b, c) = (label(0), label(1), label(2));
    assert_eq!(query("a"), a);
    assert_eq!(query("()"), Expr::Empty);
    assert_eq!(query("((a))"), a);
    assert_eq!(query("a.b.c"), Expr::Seq(vec![a.clone(), b.clone(), c.clone()]));
    assert_eq!(query("a|b.c"), Expr::Alt(vec![a.clone(), Expr::Seq(vec![b.clone(), c.clone()])]));
    assert_eq!(query("(a|b).c"), Expr::Seq(vec![Expr::Alt(vec![a.clone(), b.clone()]), c.clone()]));
    assert_eq!(query("a.(b.c)"), Expr::Seq(vec![a.clone(), Expr::Seq(vec![b.clone(), c.clone()])]));
    assert_eq!(query("a*?"), opt(star(a.clone())));
    assert_eq!(query("a.b*"), Expr::Seq(vec![a.clone(), star(b.clone())]));
    assert_eq!(query("(a.b)*"), star(Expr::Seq(vec![a.clone(), b.clone()])));
    assert_eq!(query("a.(b.a|c)*"), Expr::Seq(vec![a.clone(), star(Expr::Alt(vec![Expr::Seq(vec![b, a]), c]))]));
}

/// An expression written with no parentheses but those it needs.
fn written(expr: &Expr, labels: &[String]) -> String {
    let inside = |part: &Expr| match part {
        Expr::Alt(_) | Expr::Seq(_) => format!("({})", written(part, labels)),
        _ => written(part, labels),
    };
    match expr {
        Expr::Empty => "()".to_string(),
        Expr::Label(number) => labels[*number].clone(),
        Expr::Star(inner) => inside(inner) + "*",
        Expr::Opt(inner) => inside(inner) + "?",
        Expr::Seq(parts) => parts.iter().map(inside).collect::<Vec<_>>().join("."),
        Expr::Alt(parts) => {
            let parts = parts.iter().map(|part| match part {
                Expr::Alt(_) => inside(part),
                _ => written(part, labels),
            });
            parts.collect::<Vec<_>>().join("|")
        }
    }
}

/// A job read, written and read again is the same job.
#[test]
fn written_and_read_again() {
    let mut jobs = 0;
    for text in generate::texts(7, 100_000) {
        let Ok(job) = read(&text.bytes) else { continue };
        jobs += 1;
        let mut again = String::new();
        for label in &job.labels {
            again += &format!("label {label}\n");
        }
        again += &format!("query {}\n", written(&job.query, &job.labels));
        for list in &job.lists {
            again += &format!("list {} {}\n", list.name, written(&list.expr, &job.labels));
        }
        assert_eq!(read(again.as_bytes()), Ok(job), "{again}");
    }
    assert!(jobs >= 10_000, "only {jobs} jobs");
}

/// The generator's own expectations hold, and it meets every refusal often.
#[test]
fn generated_texts() {
    let mut tally = Tally::default();
    for text in generate::texts(2, 120_000) {
        let answer = read_or_fault(&text.bytes);
        if let Some(expected) = text.expected {
            let found = match &answer {
                Ok(_) => (0, 0),
                Err(fault) => (fault.reason.number(), fault.line),
            };
            assert_eq!(found, expected, "{}: {}", text.family, text.bytes.escape_ascii());
        }
        tally.count(&text, &answer);
    }
    print!("{tally}");
    tally.assert_floors();
}
