//! A fault in one line and another fault in a later line: the earlier line
//! decides.

use super::expressions::{bad_expressions, one_fault};
use super::parts::{labels, lists, START};
use super::Table;

/// Lines that are bad after the list e0: why, the refusal, and the line.
fn bad_list_lines() -> Vec<(&'static str, u8, String)> {
    let mut bad_lists = vec![
        ("wrong word", 2, "lists e a".to_string()),
        ("empty line", 2, String::new()),
        ("second query", 2, "query a".to_string()),
        ("label after the query", 2, "label c".to_string()),
        ("no second space", 2, "list e".to_string()),
        ("bad name", 3, "list E a".to_string()),
        ("repeated name", 3, "list e0 a".to_string()),
    ];
    for (why, expr, number) in one_fault() {
        bad_lists.push((why, number, format!("list e {expr}")));
    }
    bad_lists
}

impl Table {
    /// The second is the last line, so it may also be not closed.
    pub fn pairs_of_list_lines(&mut self) {
        let bad_lists = bad_list_lines();
        for (first_why, number, first) in &bad_lists {
            for (second_why, second_number, second) in &bad_lists {
                let why = format!("{first_why} ({number}), later {second_why} ({second_number})");
                self.refuse(*number, 5, &why, format!("{START}list e0 a\n{first}\n{second}\n"));
                self.refuse(*number, 5, &why, format!("{START}list e0 a\n{first}\nlist f a\n{second}\n"));
                self.refuse(*number, 5, &format!("{why}, not closed"), format!("{START}list e0 a\n{first}\n{second}"));
            }
            let why = format!("{first_why} ({number}), later a 17th list (4)");
            self.refuse(*number, 19, &why, format!("{START}{}{first}\nlist x a\nlist y a\n", lists(15)));
            let why = format!("a 17th list (4), later {first_why} ({number})");
            self.refuse(4, 20, &why, format!("{START}{}list x a\n{first}\n", lists(16)));
            self.refuse(4, 20, &format!("{why}, not closed"), format!("{START}{}list x a\n{first}", lists(16)));
            let why = format!("{first_why} ({number}), later trailing bytes (2)");
            self.refuse(*number, 5, &why, format!("{START}list e0 a\n{first}\nlist"));
        }
    }

    pub fn pairs_of_label_lines(&mut self) {
        let bad_labels = [
            ("wrong word", 2, "labels c"),
            ("query without its space", 2, "querya"),
            ("list before the query", 2, "list e a"),
            ("bad name", 3, "label C"),
            ("repeated name", 3, "label a"),
        ];
        for (first_why, number, first) in bad_labels {
            for (second_why, second_number, second) in bad_labels {
                let why = format!("{first_why} ({number}), later {second_why} ({second_number})");
                self.refuse(number, 2, &why, format!("label a\n{first}\n{second}\nquery a\n"));
            }
            for (why, expr, query_number) in bad_expressions() {
                let why = format!("{first_why} ({number}), later query {why} ({query_number})");
                self.refuse(number, 2, &why, format!("label a\n{first}\nquery {expr}\n"));
            }
            let why = format!("{first_why} ({number}), and the text ends without a query (2)");
            self.refuse(number, 2, &why, format!("label a\n{first}\n"));
            let why = format!("{first_why} ({number}), later a 33rd label (4)");
            self.refuse(number, 2, &why, format!("label a\n{first}\n{}query a\n", labels(33)));
            let why = format!("a 33rd label (4), later {first_why} ({number})");
            self.refuse(4, 33, &why, format!("label a\n{}label x\n{first}\nquery a\n", labels(31)));
            let why = format!("{first_why} ({number}), later trailing bytes (2)");
            self.refuse(number, 2, &why, format!("label a\n{first}\nquery a"));
        }
        self.refuse(4, 33, "a 33rd label (4), and the text ends without a query (2)", labels(33));
    }

    pub fn pairs_of_query_and_list_lines(&mut self) {
        for (why, expr, number) in bad_expressions() {
            let query = format!("label a\nlabel b\nquery {expr}\n");
            for (list_why, list_number, list) in bad_list_lines() {
                let why = format!("query {why} ({number}), later {list_why} ({list_number})");
                self.refuse(number, 3, &why, format!("{query}{list}\n"));
            }
            let why = format!("query {why} ({number}), later a 17th list (4)");
            self.refuse(number, 3, &why, format!("{query}{}", lists(17)));
        }
    }

    /// A 33rd label, and a fault in the query or in a list. Behind the query the
    /// label is out of its place too.
    pub fn pairs_with_a_33rd_label(&mut self) {
        let l32 = format!("label a\nlabel b\n{}", labels(30));
        for (why, expr, number) in bad_expressions() {
            self.refuse(
                4,
                33,
                &format!("a 33rd label (4), later query {why} ({number})"),
                format!("{l32}label x\nquery {expr}\n"),
            );
            self.refuse(
                number,
                33,
                &format!("query {why} ({number}), later a 33rd label (4)"),
                format!("{l32}query {expr}\nlabel x\n"),
            );
            self.refuse(
                number,
                34,
                &format!("list {why} ({number}), later a 33rd label (4)"),
                format!("{l32}query a\nlist e {expr}\nlabel x\n"),
            );
        }
        self.refuse(4, 33, "a 33rd label (4), later a query not closed (2)", format!("{l32}label x\nquery a"));
        self.refuse(4, 33, "a 33rd label (4), later no second space (2)", format!("{l32}label x\nquery a\nlist e\n"));
        self.refuse(4, 33, "a 33rd label (4), later a 17th list (4)", format!("{l32}label x\nquery a\n{}", lists(17)));
        self.refuse(2, 34, "no second space (2), later a 33rd label (4)", format!("{l32}query a\nlist e\nlabel x\n"));
        self.refuse(4, 50, "a 17th list (4), later a 33rd label (4)", format!("{l32}query a\n{}label x\n", lists(17)));
    }
}
