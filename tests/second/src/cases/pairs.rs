//! Pairs of faults in one line, and with a text that is too long: the earlier
//! check decides.

use super::expressions::bad_expressions;
use super::parts::{job_of_bytes, labels, lists, START};
use super::Table;

impl Table {
    /// 2, 4, 3 in a label's line.
    pub fn pairs_in_a_label_line(&mut self) {
        let l32 = labels(32);
        self.refuse(2, 33, "33rd label, not closed: 2 before 4", format!("{l32}label x"));
        self.refuse(2, 33, "33rd label, no space: 2 before 4", format!("{l32}label\n"));
        self.refuse(2, 33, "33rd label, wrong word: 2 before 4", format!("{l32}labels x\n"));
        self.refuse(2, 34, "33rd label, after the query: 2 before 4", format!("{l32}query l0\nlabel x\n"));
        self.refuse(2, 2, "bad name, not closed: 2 before 3", "label a\nlabel B");
        self.refuse(2, 2, "empty name, not closed: 2 before 3", "label a\nlabel ");
        self.refuse(2, 2, "repeated name, not closed: 2 before 3", "label a\nlabel a");
        self.refuse(2, 4, "bad name, after the query: 2 before 3", format!("{START}label B\n"));
        self.refuse(2, 4, "repeated name, after the query: 2 before 3", format!("{START}label a\n"));
        self.refuse(4, 33, "33rd label with a bad name: 4 before 3", format!("{l32}label X\nquery l0\n"));
        self.refuse(4, 33, "33rd label with an empty name: 4 before 3", format!("{l32}label \nquery l0\n"));
        self.refuse(
            4,
            33,
            "33rd label with a name of 17 bytes: 4 before 3",
            format!("{l32}label {}\nquery l0\n", "x".repeat(17)),
        );
        self.refuse(4, 33, "33rd label with a repeated name: 4 before 3", format!("{l32}label l0\nquery l0\n"));
        self.refuse(2, 33, "33rd label, bad name, not closed: 2 before both", format!("{l32}label X"));
    }

    /// 2, then the expression's checks, in a query's line.
    pub fn pairs_in_a_query_line(&mut self) {
        for (why, expr, number) in bad_expressions() {
            self.refuse(number, 3, &format!("query {why}"), format!("label a\nlabel b\nquery {expr}\n"));
            self.refuse(2, 3, &format!("query not closed, {why}: 2 first"), format!("label a\nlabel b\nquery {expr}"));
            self.refuse(
                2,
                3,
                &format!("query with no space, {why}: 2 first"),
                format!("label a\nlabel b\nquery.{expr}\n"),
            );
            self.refuse(2, 1, &format!("query before any label, {why}: 2 first"), format!("query {expr}\nlabel a\n"));
            self.refuse(2, 4, &format!("second query, {why}: 2 first"), format!("{START}query {expr}\n"));
        }
    }

    /// 2, 4, 3 in a list's line.
    pub fn pairs_in_a_list_line(&mut self) {
        let l16 = format!("{START}{}", lists(16));
        self.refuse(2, 20, "17th list, not closed: 2 before 4", format!("{l16}list e a"));
        self.refuse(2, 20, "17th list, no second space: 2 before 4", format!("{l16}list e\n"));
        self.refuse(2, 20, "17th list, no name and no second space: 2 before 4", format!("{l16}list \n"));
        self.refuse(2, 20, "17th list, no space: 2 before 4", format!("{l16}list\n"));
        self.refuse(2, 20, "17th list, wrong word: 2 before 4", format!("{l16}lists e a\n"));
        self.refuse(2, 4, "bad name, no second space: 2 before 3", format!("{START}list E\n"));
        self.refuse(2, 5, "repeated name, no second space: 2 before 3", format!("{START}list e a\nlist e\n"));
        self.refuse(2, 4, "bad name, not closed: 2 before 3", format!("{START}list E a"));
        self.refuse(2, 5, "repeated name, not closed: 2 before 3", format!("{START}list e a\nlist e a"));
        self.refuse(2, 2, "bad name, before the query: 2 before 3", "label a\nlist E a\nquery a\n");
        self.refuse(4, 20, "17th list with a bad name: 4 before 3", format!("{l16}list E a\n"));
        self.refuse(4, 20, "17th list with an empty name: 4 before 3", format!("{l16}list  a\n"));
        self.refuse(4, 20, "17th list with a repeated name: 4 before 3", format!("{l16}list e0 a\n"));
        self.refuse(2, 20, "17th list, bad name, not closed: 2 before both", format!("{l16}list E a"));
    }

    /// 2, 4, 3, then the expression's checks, in a list's line.
    pub fn pairs_with_a_list_expression(&mut self) {
        let l16 = format!("{START}{}", lists(16));
        for (why, expr, number) in bad_expressions() {
            self.refuse(number, 4, &format!("list {why}"), format!("{START}list e {expr}\n"));
            self.refuse(number, 19, &format!("16th list {why}"), format!("{START}{}list e {expr}\n", lists(15)));
            self.refuse(2, 4, &format!("list not closed, {why}: 2 first"), format!("{START}list e {expr}"));
            self.refuse(
                2,
                3,
                &format!("list before the query, {why}: 2 first"),
                format!("label a\nlabel b\nlist e {expr}\nquery a\n"),
            );
            self.refuse(4, 20, &format!("17th list, {why}: 4 first"), format!("{l16}list e {expr}\n"));
            self.refuse(4, 20, &format!("17th list, bad name, {why}: 4 first"), format!("{l16}list 9 {expr}\n"));
            self.refuse(2, 20, &format!("17th list, not closed, {why}: 2 first"), format!("{l16}list e {expr}"));
            self.refuse(3, 4, &format!("bad name, {why}: 3 first"), format!("{START}list E {expr}\n"));
            self.refuse(3, 4, &format!("empty name, {why}: 3 first"), format!("{START}list  {expr}\n"));
            self.refuse(
                3,
                4,
                &format!("name of 17 bytes, {why}: 3 first"),
                format!("{START}list {} {expr}\n", "e".repeat(17)),
            );
            self.refuse(3, 5, &format!("repeated name, {why}: 3 first"), format!("{START}list e a\nlist e {expr}\n"));
            self.refuse(2, 4, &format!("bad name, not closed, {why}: 2 first"), format!("{START}list E {expr}"));
            // The name ends at the next space, so here the expression has one.
            let spaced = if 1 + expr.len() > 512 { 7 } else { 5 };
            self.refuse(spaced, 4, &format!("a third space, {why}"), format!("{START}list e  {expr}\n"));
        }
    }

    /// 1 comes before all.
    pub fn pairs_with_text_too_long(&mut self) {
        let tail = job_of_bytes(8193);
        for start in [
            "\n",
            "x\n",
            "query a\n",
            "list e a\n",
            "label\n",
            "label A\n",
            "label a\nlabel a\n",
            "label a\nquery\n",
            "label a\nquery a\nlist e\n",
        ] {
            self.refuse(1, 0, "a fault in the first lines, and too long: 1 first", format!("{start}{tail}"));
        }
        for (why, expr, number) in bad_expressions() {
            let why = format!("query {why} ({number}), and too long: 1 first");
            self.refuse(1, 0, &why, format!("label a\nlabel b\nquery {expr}\n{tail}"));
        }
        self.refuse(1, 0, "33 labels, and too long: 1 first", labels(33) + &tail);
        self.refuse(1, 0, "17 lists, and too long: 1 first", START.to_string() + &lists(17) + &tail);
        self.refuse(1, 0, "too long, and not closed: 1 first", tail.replace('\n', " "));
        self.refuse(1, 0, "too long, and the last line not closed: 1 first", &job_of_bytes(8194)[..8193]);
        self.refuse(1, 0, "too long, and no query: 1 first", "label a\n".repeat(1025));
    }
}
