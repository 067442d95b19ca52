//! Lines and names: right jobs, single faults, and the limits of counts and
//! bytes.

use super::parts::{full_job, job_of_bytes, labels, lists, many, START};
use super::{Table, EXAMPLE};

impl Table {
    pub fn plain_jobs(&mut self) {
        self.accept("the document's example", EXAMPLE);
        self.accept("least job", "label a\nquery a\n");
        self.accept("the query is the empty path", "label a\nquery ()\n");
        self.accept("a list may have a label's name", format!("{START}list a b\n"));
        self.accept(
            "labels named as the opening words",
            "label label\nlabel query\nlabel list\nquery label.query|list\nlist list list\nlist query query\n",
        );
        self.accept("names that begin alike", "label a\nlabel ab\nlabel a-\nlabel a1\nquery a.ab.a-.a1\n");
        self.accept("a name that ends in hyphens", "label a--\nquery a--\n");
        self.accept("65 standings are no matter for Read", format!("label a\nquery {}\n", many(63)));
        self.accept(
            "65 standings are no matter for Read",
            "label a\nlabel b\nquery (a|b)*.a.(a|b).(a|b).(a|b).(a|b).(a|b)\n",
        );
        self.accept("marks after marks", "label a\nquery a*?*??**.()*?.(a)?*\n");
        self.accept("parentheses around parentheses", "label a\nquery ((a))|((()))\n");
    }

    pub fn form(&mut self) {
        self.refuse(2, 1, "empty text", "");
        self.refuse(2, 1, "empty line", "\n");
        self.refuse(2, 1, "two empty lines", "\n\n");
        self.refuse(2, 2, "no query", "label a\n");
        self.refuse(2, 3, "no query", "label a\nlabel b\n");
        self.refuse(2, 33, "no query after 32 labels", labels(32));
        self.refuse(2, 1, "not closed", "label a");
        self.refuse(2, 1, "one byte", "l");
        self.refuse(2, 1, "a zero byte", "\0");
        self.refuse(2, 2, "query not closed", "label a\nquery a");
        self.refuse(2, 3, "bytes after the last line", "label a\nquery a\n ");
        self.refuse(2, 3, "a zero byte after the last line", "label a\nquery a\n\0");
        self.refuse(2, 4, "list not closed", format!("{START}list e a"));
        self.refuse(2, 4, "empty line at the end", format!("{START}\n"));
        self.refuse(2, 5, "empty line after a list", format!("{START}list e a\n\n"));
        self.refuse(2, 2, "empty line between", "label a\n\nquery a\n");
        self.refuse(2, 50, "bytes after 32 labels, the query and 16 lists", full_job() + "x\n");
        self.refuse(2, 50, "empty line after 32 labels, the query and 16 lists", full_job() + "\n");
    }

    pub fn opening_words(&mut self) {
        for word in ["label", "query", "list"] {
            for (why, line) in [
                ("the word alone", word.to_string()),
                ("the word without its last letter", format!("{} a a", &word[..word.len() - 1])),
                ("the word with a letter more", format!("{word}s a a")),
                ("the word with a capital letter", format!("{} a a", word.replace('l', "L").replace('q', "Q"))),
                ("a space before the word", format!(" {word} a a")),
                ("a tab for the space", format!("{word}\ta\ta")),
                ("no space after the word", format!("{word}a a")),
                ("a zero byte for the space", format!("{word}\0a a")),
            ] {
                self.refuse(2, 1, &format!("{why}, first line"), format!("{line}\n"));
                self.refuse(2, 2, &format!("{why}, after a label"), format!("label a\n{line}\n"));
                self.refuse(2, 4, &format!("{why}, after the query"), format!("{START}{line}\n"));
            }
        }
    }

    pub fn places_of_lines(&mut self) {
        self.refuse(2, 1, "query before any label", "query ()\nlabel a\n");
        self.refuse(2, 1, "list before any label", "list e ()\nlabel a\nquery a\n");
        self.refuse(2, 2, "list before the query", "label a\nlist e a\nquery a\n");
        self.refuse(2, 4, "second query", format!("{START}query a\n"));
        self.refuse(2, 5, "second query after a list", format!("{START}list e a\nquery a\n"));
        self.refuse(2, 4, "label after the query", format!("{START}label c\n"));
        self.refuse(2, 5, "label after a list", format!("{START}list e a\nlabel c\n"));
        self.refuse(2, 4, "list with no name and no second space", format!("{START}list \n"));
        self.refuse(2, 4, "list with no second space", format!("{START}list e\n"));
        self.refuse(2, 4, "a list's second space is a tab", format!("{START}list e\ta\n"));
    }

    pub fn names(&mut self) {
        self.refuse(3, 1, "label with an empty name", "label \n");
        self.refuse(3, 1, "two names", "label a b\nquery a\n");
        self.refuse(3, 1, "two spaces", "label  a\nquery a\n");
        self.refuse(3, 1, "a space at the end", "label a \nquery a\n");
        self.refuse(3, 1, "byte 13 before byte 10", "label a\r\nquery a\r\n");
        self.refuse(3, 4, "list with an empty name", format!("{START}list  e\n"));
        self.refuse(3, 4, "list with an empty name and no expression", format!("{START}list  \n"));
        self.refuse(3, 4, "list with an empty name, then two parts", format!("{START}list  e a\n"));
        for name in ["9", "9a", "-", "-a", "A", "aB", "a_b", "a.b", "()", "a*", "a\t", "\0", "a\0", "\u{e9}", "a\u{e9}"]
        {
            self.refuse(3, 1, "bad name", format!("label {name}\nquery a\n"));
            self.refuse(3, 4, "bad name", format!("{START}list {name} a\n"));
        }
        self.refuse(3, 1, "a byte over 127 in a name", b"label a\xff\nquery a\n");
        self.refuse(3, 2, "repeated label", "label a\nlabel a\nquery a\n");
        self.refuse(3, 3, "repeated label, not the last one", "label a\nlabel b\nlabel a\nquery a\n");
        self.refuse(
            3,
            4,
            "repeated label, neither the first nor the last one",
            "label a\nlabel b\nlabel c\nlabel b\nquery a\n",
        );
        self.refuse(3, 5, "repeated list", format!("{START}list e a\nlist e b\n"));
        self.refuse(3, 6, "repeated list, not the last one", format!("{START}list e a\nlist f a\nlist e b\n"));
        self.refuse(
            3,
            7,
            "repeated list, neither the first nor the last one",
            format!("{START}list e a\nlist f a\nlist g a\nlist f b\n"),
        );
        self.refuse(3, 32, "the 32nd label repeats the first", labels(31) + "label l0\nquery l0\n");
        self.refuse(3, 19, "the 16th list repeats the first", format!("{START}{}list e0 a\n", lists(15)));
    }

    /// 16 bytes are the most.
    pub fn name_bytes(&mut self) {
        let sixteen = "abcdefghijklm-90";
        let seventeen = "abcdefghijklm-901";
        self.accept("label of 16 bytes", format!("label {sixteen}\nquery {sixteen}\n"));
        self.refuse(3, 1, "label of 17 bytes", format!("label {seventeen}\nquery {seventeen}\n"));
        self.accept("list of 16 bytes", format!("{START}list {sixteen} a\n"));
        self.refuse(3, 4, "list of 17 bytes", format!("{START}list {seventeen} a\n"));
        self.accept(
            "two labels of 16 bytes, the last one other",
            "label aaaaaaaaaaaaaaaa\nlabel aaaaaaaaaaaaaaab\nquery aaaaaaaaaaaaaaab\n",
        );
        self.refuse(
            5,
            2,
            "a label of 16 bytes, and a byte more in the query",
            format!("label {sixteen}\nquery {seventeen}\n"),
        );
        self.refuse(
            6,
            2,
            "a label of 16 bytes, and a byte less in the query",
            format!("label {sixteen}\nquery {}\n", &sixteen[..15]),
        );
        self.refuse(3, 1, "a name of 272 bytes, 16 more than 256", format!("label {}\nquery a\n", "a".repeat(272)));
    }

    pub fn counts(&mut self) {
        self.accept("32 labels", labels(32) + "query l31\n");
        self.refuse(4, 33, "33 labels", labels(33) + "query l31\n");
        self.refuse(4, 33, "34 labels", labels(34) + "query l31\n");
        self.accept("16 lists", format!("{START}{}", lists(16)));
        self.refuse(4, 20, "17 lists", format!("{START}{}", lists(17)));
        self.refuse(4, 20, "18 lists", format!("{START}{}", lists(18)));
        self.accept("32 labels and 16 lists", full_job());
        self.refuse(4, 50, "32 labels and 17 lists", full_job() + "list e l0\n");
    }

    pub fn bytes_of_text(&mut self) {
        self.accept("8191 bytes", job_of_bytes(8191));
        self.accept("8192 bytes", job_of_bytes(8192));
        self.refuse(1, 0, "8193 bytes", job_of_bytes(8193));
        self.refuse(1, 0, "8194 bytes", job_of_bytes(8194));
        self.refuse(2, 17, "8192 bytes, the last not closed", &job_of_bytes(8193)[..8192]);
        self.refuse(2, 1, "8192 bytes without byte 10", "a".repeat(8192));
        self.refuse(1, 0, "8193 bytes without byte 10", "a".repeat(8193));
        self.refuse(2, 1, "8192 empty lines", "\n".repeat(8192));
        self.refuse(1, 0, "8193 empty lines", "\n".repeat(8193));
        self.refuse(
            1,
            0,
            "65,536 bytes more than the least job",
            "label a\nquery a\n".to_string() + &"\n".repeat(65536),
        );
        self.refuse(1, 0, "a mebibyte more than the empty text", "x".repeat(1 << 20));
    }
}
