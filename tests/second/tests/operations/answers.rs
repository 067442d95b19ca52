use super::{at_line, no_line, sequence, zeroed, BYTE, WORD};
use second::cases::EXAMPLE;
use second::jobs::many;
use second::operations::{links, lists};
use second::read::read;

#[test]
fn answers_write_their_buffers() {
    for more in [0, 1, 40] {
        let mut marks = vec![BYTE; 3 + more];
        let mut words = vec![WORD; 3 + more];
        let table = [0, 0, 1, 1, 1, 0, 1, 2, 2];
        for (chosen, start, expected) in
            [(0, 0, [1, 0, 1]), (0, 1, [0, 0, 0]), (1, 0, [0, 1, 0]), (2, 1, [1, 0, 0]), (2, 2, [0, 0, 0])]
        {
            let told = links(EXAMPLE.as_bytes(), 3, &table, chosen, start, &mut marks, &mut words);
            let ones = expected.iter().filter(|mark| **mark == 1).count();
            assert_eq!(told, Ok(ones));
            assert_eq!(marks[..3], expected);
            assert!(marks[3..].iter().all(|mark| *mark == BYTE));
            assert!(zeroed(&words, 3, WORD));
        }

        let mut marks = vec![BYTE; 3 + more];
        let mut words = vec![WORD; 12 + more];
        let table = [0, 0, 1, 1, 1, 0];
        let told = lists(EXAMPLE.as_bytes(), 3, &table, 0, &mut marks, &mut words);
        assert_eq!(told, Ok(1));
        assert_eq!(marks[..3], [1, 0, 0]);
        assert!(marks[3..].iter().all(|mark| *mark == BYTE));
        assert!(zeroed(&words, 12, WORD));
    }
}

/// The faults of a table for the example, whose labels are three and whose
/// lists two, with three recordings.
fn bad_tables(labels: u16) -> Vec<Vec<u16>> {
    vec![
        vec![0],
        vec![0, 0],
        vec![0, 0, 1, 1],
        vec![3, 0, 0],
        vec![0, labels, 0],
        vec![0, 0, 3],
        vec![0, 0, 65535],
        vec![0, 0, 1, 0, 0, 1],
        vec![0, 0, 1, 0, 0, 0],
        vec![0, 1, 0, 0, 0, 1],
        vec![1, 0, 0, 0, 1, 1],
    ]
}

#[test]
fn answer_from_links_refuses_in_order() {
    let call = |text: &str, n: usize, table: &[u16], chosen, start, bytes, words| {
        let (mut marks, mut space) = (vec![BYTE; bytes], vec![WORD; words]);
        let told = links(text.as_bytes(), n, table, chosen, start, &mut marks, &mut space);
        let refused = told.unwrap_err();
        let named = if refused.number == 9 { n } else { 0 };
        assert!(zeroed(&marks, named, BYTE));
        assert!(zeroed(&space, named, WORD));
        refused
    };
    let bad = "label a\n";
    let far = sequence(63, &["a", &many(63)]);
    assert_eq!(call(bad, 0, &[0], 9, 9, 0, 0), no_line(14));
    assert_eq!(call(bad, 4097, &[0], 9, 9, 5000, 5000), no_line(14));
    assert_eq!(call(bad, 3, &[0], 9, 9, 2, 3), no_line(8));
    assert_eq!(call(bad, 3, &[0], 9, 9, 3, 2), no_line(8));
    assert_eq!(call(bad, 3, &[0], 9, 9, 3, 3), at_line(2, 2));
    assert_eq!(call(&far, 3, &[0], 3, 9, 3, 3), no_line(17));
    assert_eq!(call(EXAMPLE, 3, &[], 3, 0, 4, 4), no_line(17));
    assert_eq!(call(EXAMPLE, 3, &[], usize::MAX, 0, 4, 4), no_line(17));
    assert_eq!(call(&far, 3, &[0], 0, 9, 3, 3), no_line(15));
    for table in bad_tables(3) {
        assert_eq!(call(EXAMPLE, 3, &table, 0, 3, 3, 3), no_line(15));
    }
    assert_eq!(call(&far, 3, &[0, 0, 1], 0, 3, 3, 3), no_line(16));
    assert_eq!(call(EXAMPLE, 3, &[], 2, 3, 4, 4), no_line(16));
    assert_eq!(call(&far, 3, &[0, 0, 1], 0, 2, 3, 3), no_line(9));
    assert_eq!(call(&far, 3, &[], 2, 2, 5, 6), no_line(9));

    // Only the chosen expression matters, and states do not.
    let mut marks = [BYTE; 3];
    let told = links(far.as_bytes(), 3, &[0, 0, 1], 1, 0, &mut marks, &mut [WORD; 3]);
    assert_eq!((told, marks), (Ok(1), [0, 1, 0]));
    let text = sequence(21, &["a", "a?"]);
    let told = links(text.as_bytes(), 3, &[0, 0, 0], 0, 0, &mut marks, &mut [WORD; 3]);
    assert_eq!((told, marks), (Ok(1), [1, 0, 0]));
}

#[test]
fn answer_from_lists_refuses_in_order() {
    let call = |text: &str, n: usize, table: &[u16], start, bytes, words| {
        let (mut marks, mut space) = (vec![BYTE; bytes], vec![WORD; words]);
        let told = lists(text.as_bytes(), n, table, start, &mut marks, &mut space);
        let refused = told.unwrap_err();
        let named = if matches!(refused.number, 9 | 10) { n } else { 0 };
        assert!(zeroed(&marks, named, BYTE));
        assert!(zeroed(&space, 4 * named, WORD));
        refused
    };
    let bad = "label a\n";
    let far = sequence(63, &["a", "a?"]);
    assert_eq!(call(bad, 0, &[0], 9, 0, 0), no_line(14));
    assert_eq!(call(bad, 4097, &[0], 9, 5000, 50000), no_line(14));
    assert_eq!(call(bad, 3, &[0], 9, 2, 12), no_line(8));
    assert_eq!(call(bad, 3, &[0], 9, 3, 11), no_line(8));
    assert_eq!(call(bad, 3, &[0], 9, 3, 12), at_line(2, 2));
    assert_eq!(call(&far, 3, &[0], 9, 3, 12), no_line(15));
    for table in bad_tables(2) {
        assert_eq!(call(EXAMPLE, 3, &table, 3, 3, 12), no_line(15));
    }
    let without = "label a\nquery a\n";
    assert_eq!(call(without, 3, &[0, 0, 0], 3, 3, 12), no_line(15));
    assert_eq!(call(&far, 3, &[0, 1, 1], 3, 3, 12), no_line(16));
    assert_eq!(call(&far, 3, &[0, 1, 1], 2, 3, 12), no_line(9));
    let states = sequence(21, &["a", "a?"]);
    assert_eq!(call(&states, 3, &[0, 1, 1], 3, 3, 12), no_line(16));
    assert_eq!(call(&states, 3, &[0, 1, 1], 2, 3, 12), no_line(10));
    assert_eq!(call(&states, 3, &[], 2, 5, 17), no_line(10));

    // Over 64 standings of a list are no matter.
    let text = sequence(1, &[&many(63)]);
    assert!(read(text.as_bytes()).is_ok());
    let mut marks = [BYTE; 3];
    let told = lists(text.as_bytes(), 3, &[0, 0, 1], 0, &mut marks, &mut [WORD; 12]);
    assert_eq!((told, marks), (Ok(0), [0, 0, 0]));
}

/// 16,384 links are the most, for lists too, and 4,096 recordings.
#[test]
fn largest_tables() {
    let text = "label a\nlabel b\nquery a*\nlist e a\nlist f a\n";
    let mut table = Vec::new();
    for from in 0..4096 {
        for (label, to) in [(0, from), (0, from + 1), (1, from - 1), (1, from)] {
            table.extend([from, label, to].map(|number: i32| number.clamp(0, 4095) as u16));
        }
    }
    // The ends of the row of recordings have no neighbour: other links.
    table[..12].copy_from_slice(&[0, 0, 0, 0, 0, 1, 0, 1, 0, 0, 1, 1]);
    let last = table.len() - 12;
    table[last..].copy_from_slice(&[4095, 0, 4094, 4095, 0, 4095, 4095, 1, 4094, 4095, 1, 4095]);
    assert_eq!(table.len(), 3 * 16_384);
    let (mut marks, mut words) = (vec![BYTE; 4096], vec![WORD; 4 * 4096]);
    let told = links(text.as_bytes(), 4096, &table, 0, 4000, &mut marks, &mut words);
    assert_eq!(told, Ok(96));
    let told = lists(text.as_bytes(), 4096, &table, 0, &mut marks, &mut words);
    assert_eq!(told, Ok(4096));

    // One link more, still rising.
    table.splice(6..6, [0, 0, 2]);
    let told = links(text.as_bytes(), 4096, &table, 0, 0, &mut marks, &mut words);
    assert_eq!(told, Err(no_line(15)));
    let told = lists(text.as_bytes(), 4096, &table, 0, &mut marks, &mut words);
    assert_eq!(told, Err(no_line(15)));
}
