//! What is measured: inputs, and cases made of one or several of them.

#[derive(Clone, Copy, Debug, PartialEq, Eq)]
pub enum Operation {
    Find,
    Verdict,
    Links,
    Lists,
}

impl Operation {
    pub fn words(self) -> &'static str {
        match self {
            Operation::Find => "Find",
            Operation::Verdict => "Verdict",
            Operation::Links => "Answer from links",
            Operation::Lists => "Answer from lists",
        }
    }
}

#[derive(Clone)]
pub struct Input {
    pub operation: Operation,
    pub job: Vec<u8>,
    pub allowance: u64,
    pub recordings: u64,
    /// A table of links, or of lists.
    pub links: Vec<u16>,
    pub start: u64,
}

impl Input {
    pub fn job(operation: Operation, job: &str) -> Input {
        Input { operation, job: job.as_bytes().to_vec(), allowance: 4096, recordings: 0, links: Vec::new(), start: 0 }
    }
}

impl Input {
    fn lines<'a>(&'a self, word: &'a str) -> impl Iterator<Item = &'a str> {
        let text = std::str::from_utf8(&self.job).expect("a job in ASCII");
        text.lines().filter_map(move |line| line.strip_prefix(word))
    }

    pub fn lists(&self) -> usize {
        self.lines("list ").count()
    }

    pub fn query(&self) -> &str {
        self.lines("query ").next().expect("a job with a query")
    }
}

/// One line of the table: the inputs are run one after the other.
pub struct Case {
    /// For files: letters, digits and hyphens.
    pub name: String,
    /// For people.
    pub title: String,
    pub inputs: Vec<Input>,
    /// Whether instructions are counted too.
    pub counted: bool,
    /// Which of the other peers run it.
    pub foma: bool,
    pub sqlite: bool,
    pub rdflib: bool,
}

impl Case {
    pub fn new(name: &str, title: &str, inputs: Vec<Input>) -> Case {
        let (name, title) = (name.to_string(), title.to_string());
        Case { name, title, inputs, counted: false, foma: false, sqlite: false, rdflib: false }
    }

    /// The other peers that run it, by name; with `counted` behind each where
    /// instructions are counted.
    pub fn peers(&self) -> String {
        let names = [("foma", self.foma), ("sqlite", self.sqlite), ("rdflib", self.rdflib)];
        let counted = if self.counted { " counted" } else { "" };
        let runs = names.iter().filter(|(_, runs)| *runs);
        runs.map(|(name, _)| format!("{name}{counted}")).collect::<Vec<_>>().join(" ")
    }

    pub fn operation(&self) -> Operation {
        self.inputs[0].operation
    }
}
