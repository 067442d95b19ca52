use super::{at_line, no_line, sequence, zeroed, BYTE, NUMBER};
use second::cases::EXAMPLE;
use second::operations::{find, FindTold};

/// The least lengths of Find's buffers, and some longer ones.
const FIND_LENGTHS: [(usize, usize, usize); 4] =
    [(4096, 256, 256), (4097, 256, 257), (4096, 300, 256), (5000, 300, 300)];

#[test]
fn find_writes_its_buffers() {
    for (numbers, bytes, names) in FIND_LENGTHS {
        let (mut table, mut flags, mut word) = (vec![NUMBER; numbers], vec![BYTE; bytes], vec![BYTE; names]);
        let told = find(EXAMPLE.as_bytes(), &mut table, &mut flags, &mut word).unwrap();
        assert_eq!(told, FindTold { standings: 5, states: 4, first: Some(2) });
        let mut expected = vec![0; 4096];
        for (state, row) in [[1, 2], [2, 3], [2, 2], [2, 2]].iter().enumerate() {
            expected[16 * state..16 * state + 2].copy_from_slice(row);
        }
        expected.resize(numbers, NUMBER);
        assert_eq!(table, expected);
        let mut expected = vec![0; 256];
        expected[3] = 1;
        expected.resize(bytes, BYTE);
        assert_eq!(flags, expected);
        let mut expected = vec![0; 256];
        expected[1] = 1;
        expected.resize(names, BYTE);
        assert_eq!(word, expected);

        // Where no word is accepted, or the empty one, the word is all zero.
        for (text, first) in [("label a\nquery a\nlist e a*\n", None), ("label a\nquery a*\n", Some(0))] {
            word.fill(BYTE);
            let told = find(text.as_bytes(), &mut table, &mut flags, &mut word).unwrap();
            assert_eq!(told.first, first);
            assert!(zeroed(&word, 256, BYTE));
        }
    }
}

#[test]
fn find_refuses_in_order() {
    let call = |text: &str, numbers: usize, bytes: usize, names: usize| {
        let (mut table, mut flags, mut word) = (vec![NUMBER; numbers], vec![BYTE; bytes], vec![BYTE; names]);
        let refused = find(text.as_bytes(), &mut table, &mut flags, &mut word).unwrap_err();
        let zero = matches!(refused.number, 9 | 10);
        let (numbers, bytes) = if zero { (4096, 256) } else { (0, 0) };
        assert!(zeroed(&table, numbers, NUMBER));
        assert!(zeroed(&flags, bytes, BYTE));
        assert!(zeroed(&word, bytes, BYTE));
        refused
    };
    assert_eq!(call("label a\n", 4095, 256, 256), no_line(8));
    assert_eq!(call("label a\n", 4096, 255, 256), no_line(8));
    assert_eq!(call("label a\n", 4096, 256, 255), no_line(8));
    assert_eq!(call(&"a".repeat(9000), 4096, 256, 255), no_line(8));
    assert_eq!(call(EXAMPLE, 0, 0, 0), no_line(8));
    assert_eq!(call("label a\n", 4096, 256, 256), at_line(2, 2));
    assert_eq!(call(&"a".repeat(8193), 4096, 256, 256), at_line(1, 0));
    let lists = ["a", "a?"];
    assert_eq!(call(&sequence(63, &lists), 4100, 260, 260), no_line(9));
    assert_eq!(call(&sequence(62, &lists), 4100, 260, 260), no_line(10));
    assert_eq!(call(&sequence(21, &lists), 4096, 256, 256), no_line(10));
}
