//! Pairs of refusals that hold together in one text: the earlier one is told,
//! and the hand-made table has a text for each pair.

use second::cases;
use second::conditions::{conditions, pairs, Pair};
use second::generate;
use second::read::read_or_fault;
use std::collections::HashSet;

/// The hand-made table has a text for each pair but those that no text has.
#[test]
fn every_pair_has_a_text() {
    let table = cases::all();
    let had: HashSet<Pair> = table.iter().flat_map(|case| Pair::of(&conditions(&case.text))).collect();
    let holes: Vec<Pair> =
        pairs().into_iter().filter(|pair| pair.excluded().is_none() && !had.contains(pair)).collect();
    assert!(holes.is_empty(), "{} pairs without a text: {holes:#?}", holes.len());
}

/// What is told is the first of the conditions that a text meets, and each pair
/// that a text has is one of those that a text can have.
#[test]
fn the_earliest_is_told() {
    let listed: HashSet<Pair> = pairs().into_iter().collect();
    for text in generate::texts(3, 100_000) {
        let met = conditions(&text.bytes);
        let told = read_or_fault(&text.bytes).err();
        let bytes = text.bytes.escape_ascii();
        assert_eq!(told.as_ref(), met.first(), "{}: {bytes}", text.family);
        for pair in Pair::of(&met) {
            assert!(listed.contains(&pair), "{pair:?} is not listed: {bytes}");
            assert_eq!(pair.excluded(), None, "{pair:?}: {bytes}");
        }
    }
}
