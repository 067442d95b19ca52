//! Expressions: right ones, single faults, pairs of faults, and the limits.

use super::parts::{deep, long, long_of_empties, many, START};
use super::Table;

/// Why an expression is bad, the expression, and the number that decides.
type Bad = (&'static str, String, u8);

/// Expressions with one fault or more, in the order of the checks. The labels
/// are a and b.
pub fn bad_expressions() -> Vec<Bad> {
    [one_fault(), too_long_and_more(), not_in_grammar_and_more(), too_deep_and_more(), unknown_and_more()].concat()
}

/// One of each.
pub fn one_fault() -> Vec<Bad> {
    vec![
        ("over 512 bytes", long(513, "a"), 7),
        ("not in the grammar", "a..b".to_string(), 5),
        ("too deep", deep(17, "a"), 7),
        ("too deep by ()", deep(17, ""), 7),
        ("unknown label", "a.c".to_string(), 6),
        ("64 occurrences", many(64), 7),
    ]
}

/// Over 512 bytes, and another fault.
fn too_long_and_more() -> Vec<Bad> {
    vec![
        ("over 512 bytes, and not in the grammar", long(513, "a."), 7),
        ("over 512 bytes, and not in the grammar after that", long(513, "a") + "|", 7),
        ("over 512 bytes, and a byte no expression has", long(513, "A"), 7),
        ("over 512 bytes by spaces alone", " ".repeat(513), 7),
        ("over 512 bytes, and too deep", long(513, &deep(17, "a")), 7),
        ("over 512 bytes, and an unknown label", long(513, "c"), 7),
        ("over 512 bytes, and 64 occurrences", long(513, &many(64)), 7),
    ]
}

/// Not in the grammar, and another fault but not the length.
fn not_in_grammar_and_more() -> Vec<Bad> {
    vec![
        ("too deep, then not in the grammar", deep(17, "a") + ".", 5),
        ("not in the grammar, then too deep", format!(".{}", deep(17, "a")), 5),
        ("17 parentheses not closed", "(".repeat(17), 5),
        ("17 parentheses opened, 16 closed", format!("({}", deep(16, "a")), 5),
        ("17 parentheses closed, 16 opened", format!("{})", deep(16, "a")), 5),
        ("too deep, and nothing after a bar inside", deep(17, "a|"), 5),
        ("too deep, and a space inside", deep(17, "a b"), 5),
        ("512 bytes, 128 deep twice, with no mark between", deep(128, "") + &deep(128, ""), 5),
        ("unknown label, then not in the grammar", "c..a".to_string(), 5),
        ("not in the grammar, then an unknown label", "a..c".to_string(), 5),
        ("unknown label, and a bar at the end", "c|".to_string(), 5),
        ("unknown label, and a byte no expression has", "c.A".to_string(), 5),
        ("64 occurrences, then not in the grammar", many(64) + "|", 5),
        ("not in the grammar, then 64 occurrences", format!("*{}", many(64)), 5),
        ("64 occurrences, and a run of 17 bytes", format!("{}.{}", many(64), "a".repeat(17)), 5),
        ("all four of the later faults", format!("c.{}.{}.", deep(17, "a"), many(64)), 5),
    ]
}

/// Too deep, and another fault but not length or grammar.
fn too_deep_and_more() -> Vec<Bad> {
    vec![
        ("too deep, around an unknown label", deep(17, "c"), 7),
        ("unknown label, then too deep", format!("c.{}", deep(17, "a")), 7),
        ("too deep, then an unknown label", format!("{}.c", deep(17, "a")), 7),
        ("too deep by (), then an unknown label", format!("{}|c", deep(17, "")), 7),
        ("64 occurrences, then too deep", format!("{}.{}", many(64), deep(17, "a")), 7),
        ("too deep, around 64 occurrences", deep(17, &many(64)), 7),
        ("too deep, an unknown label, 64 occurrences", deep(17, &(many(64) + ".c")), 7),
    ]
}

/// Unknown label, and over 63 occurrences.
fn unknown_and_more() -> Vec<Bad> {
    vec![
        ("unknown label the first of 64", format!("c.{}", many(63)), 6),
        ("unknown label the last of 64", format!("{}.c", many(63)), 6),
        ("unknown label after 64 occurrences", format!("{}.c", many(64)), 6),
        ("unknown label after 200 occurrences", format!("{}.c", many(200)), 6),
        ("64 unknown labels", many(64).replace('a', "c"), 6),
    ]
}

impl Table {
    /// Expressions in the query's line and in a list's.
    pub fn expressions(&mut self) {
        let right = [
            "a", "b", "()", "(a)", "a.b", "a|b", "a.b|b.a", "a|b.a|b", "a*", "a?", "a*?", "()*", "(()|a)*", "(a.b)",
            "(a|b).a", "((a))", "(a)*.(b)?", "().()", "()|()", "a.(b.a|b)*",
        ];
        for expr in right {
            self.accept("right expression", format!("label a\nlabel b\nquery {expr}\n"));
            self.accept("right expression", format!("{START}list e {expr}\n"));
        }
        let not_in_the_grammar = [
            "", " ", " a", "a ", "a b", "a. b", ".", "|", "*", "?", "(", ")", ".a", "a.", "|a", "a|", "*a", "?a",
            "a..b", "a||b", "a.|b", "a|.b", "a.*", "a|*", "(*)", "(a", "a)", "(a))", "((a)", ")(", ")a(", "(a.)",
            "(.a)", "(a|)", "(|a)", "(|)", "(.)", "a()", "()a", "()()", "a(b)", "(a)b", "(a)(b)", "a*b", "a*(b)",
            "a?b", "9", "9a", "a.9", "-", "-a", "a.-", "A", "a.B", "a_b", "a+b", "a,b", "a\tb", "a\r", "\0", "a\0",
            "\u{e9}", "a\u{e9}", "a{}", "a[b]", "a/b", "[a]", "a:", "a@", "a`", "a\u{7f}", "(a.b", "a.b)", "a*.",
            "aaaaaaaaaaaaaaaaa", "a.aaaaaaaaaaaaaaaaa", "(())(", "()) ", "( )", "(a )", "\ta", "a\t", "a.\tb", "a\r.b",
            "\u{b}a", "a\u{c}",
        ];
        for expr in not_in_the_grammar {
            let why = "expression not in the grammar";
            self.refuse(5, 3, why, format!("label a\nlabel b\nquery {expr}\n"));
            self.refuse(5, 4, why, format!("{START}list e {expr}\n"));
        }
        self.refuse(5, 2, "a byte over 127 in an expression", b"label a\nquery a\xff\n");
        for expr in ["c", "aa", "ab", "a1", "a-", "a.c", "c.a", "(c)", "c*", "a|b|c", "aaaaaaaaaaaaaaaa", "query"] {
            let why = "expression with an unknown label";
            self.refuse(6, 3, why, format!("label a\nlabel b\nquery {expr}\n"));
            self.refuse(6, 4, why, format!("{START}list e {expr}\n"));
        }
        self.refuse(6, 4, "a list's name is no label", format!("{START}list e e\n"));
        self.refuse(6, 5, "an earlier list's name is no label", format!("{START}list e a\nlist f e\n"));
    }

    /// Right at a limit.
    pub fn expressions_at_limits(&mut self) {
        let inside = [
            ("512 bytes, one label", long(512, "a")),
            ("512 bytes of ()", long_of_empties(512)),
            ("512 bytes, 16 deep", long(512, &deep(16, "a"))),
            ("512 bytes, 63 occurrences", long(512, &many(63))),
            ("16 deep around a label", deep(16, "a")),
            ("16 deep, () innermost", deep(16, "")),
            ("16 deep around 63 occurrences", deep(16, &many(63))),
            ("16 deep twice", format!("{}.{}", deep(16, "a"), deep(16, ""))),
            ("17 parentheses, 16 deep", format!("{}|(a)", deep(16, "a"))),
            ("16 deep inside, after others", deep(15, &format!("a.().(b)*|{}", deep(1, "a|b")))),
            ("63 occurrences", many(63)),
            ("63 occurrences and many ()", format!("{}{}", many(63), ".()".repeat(50))),
            ("63 occurrences in alternatives", many(63).replace('.', "|")),
        ];
        for (why, expr) in &inside {
            self.accept(why, format!("label a\nlabel b\nquery {expr}\n"));
            self.accept(why, format!("{START}list e {expr}\n"));
        }
        self.accept(
            "63 occurrences in the query and in each of two lists",
            format!("label a\nquery {0}\nlist e {0}\nlist f {0}\n", many(63)),
        );
    }

    /// One beyond a limit, or more.
    pub fn expressions_beyond_limits(&mut self) {
        let outside = [
            ("513 bytes, one label", long(513, "a")),
            ("513 bytes of ()", long_of_empties(513)),
            ("1024 bytes", long(1024, "a")),
            ("17 deep around a label", deep(17, "a")),
            ("17 deep, () innermost", deep(17, "")),
            ("17 deep in the last part only", format!("a.{}|a.{}", deep(16, "a"), deep(17, "a"))),
            ("17 deep inside, after others", deep(16, "a.b*|()")),
            ("256 deep", deep(256, "")),
            ("64 occurrences", many(64)),
            ("64 occurrences in alternatives", many(64).replace('.', "|")),
            ("64 occurrences of two labels", format!("{}|{}", many(32), many(32).replace('a', "b"))),
            ("64 occurrences, the last in parentheses", format!("{}.(()|(b))", many(63))),
            ("256 occurrences", many(256)),
        ];
        for (why, expr) in &outside {
            self.refuse(7, 3, why, format!("label a\nlabel b\nquery {expr}\n"));
            self.refuse(7, 4, why, format!("{START}list e {expr}\n"));
        }
    }
}
