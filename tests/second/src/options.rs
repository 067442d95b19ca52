//! The options of the comparing programs.

use std::collections::HashMap;

/// Options with what was given for each: `--count N --seed S` and the like, in
/// any order.
pub struct Options {
    given: HashMap<String, String>,
}

impl Options {
    /// Those of this program. Stops at any but the named ones.
    pub fn read(names: &[&str]) -> Options {
        let mut given = HashMap::new();
        let mut arguments = std::env::args().skip(1);
        while let Some(name) = arguments.next() {
            assert!(names.contains(&name.as_str()), "the options are {names:?}, not {name}");
            let value = arguments.next().unwrap_or_else(|| panic!("{name} needs a value"));
            given.insert(name, value);
        }
        Options { given }
    }

    pub fn text(&self, name: &str) -> Option<&str> {
        self.given.get(name).map(String::as_str)
    }

    pub fn number(&self, name: &str, otherwise: u64) -> u64 {
        let number = |text: &str| text.parse().unwrap_or_else(|_| panic!("{name} needs a number"));
        self.text(name).map_or(otherwise, number)
    }

    /// The count and the seed; the count is at least `least`.
    pub fn count_and_seed(&self, least: usize) -> (usize, u64) {
        let count = self.number("--count", least as u64) as usize;
        assert!(count >= least, "the count must be at least {least}");
        (count, self.number("--seed", 1))
    }
}
