use super::{at_line, no_line, sequence, zeroed, BYTE, NUMBER, WORD};
use second::cases::EXAMPLE;
use second::jobs::many;
use second::operations::{find, verdict, VerdictTold};
use second::read::Refusal;

#[test]
fn verdict_writes_its_buffers() {
    for (allowance, more) in [(11, 0), (12, 0), (11, 7), (4096, 0), (4096, 9)] {
        let (mut table, mut flags) = (vec![NUMBER; 4096 + more], vec![BYTE; 256 + more]);
        let mut path = vec![BYTE; allowance + more];
        let mut words = vec![WORD; 18 * allowance + more];
        let mut call = |text: &str| {
            let told = verdict(text.as_bytes(), allowance, &mut table, &mut flags, &mut path, &mut words);
            assert!(zeroed(&words, 18 * allowance, WORD));
            let (mut numbers, mut bytes) = (vec![NUMBER; 4096 + more], vec![BYTE; 256 + more]);
            find(text.as_bytes(), &mut numbers, &mut bytes, &mut [0; 256]).unwrap();
            assert_eq!(table, numbers);
            assert_eq!(flags, bytes);
            (told.unwrap(), path.clone())
        };

        let (told, path) = call(EXAMPLE);
        let missed = Some(2);
        assert_eq!(told, VerdictTold { missed, pairs: 11 });
        let mut expected = vec![0; allowance];
        expected[1] = 2;
        expected.resize(allowance + more, BYTE);
        assert_eq!(path, expected);

        // A complete verdict after a missed path leaves the path all zero.
        let (told, path) = call("label b\nlabel a\nquery a*\nlist e a\n");
        assert_eq!(told.missed, None);
        assert!(zeroed(&path, allowance, BYTE));

        let (told, path) = call("label b\nlabel a\nquery a*\n");
        assert_eq!(told.missed, Some(1));
        assert_eq!(path[..2], [1, 0]);
    }
}

/// The refusal of a text, with this allowance and these lengths of buffers.
fn refused(text: &str, allowance: usize, lengths: [usize; 4]) -> Refusal {
    let [numbers, bytes, steps, words] = lengths;
    let (mut table, mut flags) = (vec![NUMBER; numbers], vec![BYTE; bytes]);
    let (mut path, mut space) = (vec![BYTE; steps], vec![WORD; words]);
    let told = verdict(text.as_bytes(), allowance, &mut table, &mut flags, &mut path, &mut space);
    let refused = told.unwrap_err();
    let zero = matches!(refused.number, 9 | 10 | 12 | 13);
    let named = |length: usize| if zero { length } else { 0 };
    assert!(zeroed(&table, named(4096), NUMBER));
    assert!(zeroed(&flags, named(256), BYTE));
    assert!(zeroed(&path, named(allowance), BYTE));
    assert!(zeroed(&space, named(18 * allowance), WORD));
    refused
}

#[test]
fn verdict_refuses_in_order() {
    let least = |allowance: usize| [4096, 256, allowance, 18 * allowance];
    let bad = "label a\nquery b\n";

    assert_eq!(refused(bad, 0, [0; 4]), no_line(11));
    assert_eq!(refused(EXAMPLE, 0, least(20)), no_line(11));
    assert_eq!(refused(EXAMPLE, 4097, least(4097)), no_line(11));
    for place in 0..4 {
        let mut lengths = least(11);
        lengths[place] -= 1;
        assert_eq!(refused(bad, 11, lengths), no_line(8));
        let mut lengths = least(4096);
        lengths[place] -= 1;
        assert_eq!(refused(EXAMPLE, 4096, lengths), no_line(8));
    }
    assert_eq!(refused(bad, 11, least(11)), at_line(6, 2));
    assert_eq!(refused(&"a".repeat(8193), 1, least(1)), at_line(1, 0));
    assert_eq!(refused(EXAMPLE, 10, least(10)), no_line(13));
    assert_eq!(refused(EXAMPLE, 10, [4200, 300, 11, 181]), no_line(13));
    assert_eq!(refused(EXAMPLE, 1, least(1)), no_line(13));
    let lists = ["a", "a?", &many(15)];
    assert_eq!(refused(&sequence(63, &lists), 5, least(9)), no_line(9));
    assert_eq!(refused(&sequence(62, &lists), 5, least(9)), no_line(10));
    let lists = ["a", &many(15)];
    assert_eq!(refused(&sequence(62, &lists), 5, least(9)), no_line(12));
    let lists = ["a", &many(14)];
    assert_eq!(refused(&sequence(62, &lists), 5, least(9)), no_line(13));
}
