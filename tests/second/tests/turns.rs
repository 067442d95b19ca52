//! The scope document's wrong turns and those of merging, each on a stored job
//! where it prints another answer than the right one.

use second::print::{printed, printed_by};
use second::turn::Turn;

/// Checks both answers, given without the line of standings, which no turn
/// changes.
fn differ(turn: Turn, job: &str, standings: usize, right: &str, wrong: &str) {
    let whole = |answer: &str| format!("query {standings}\n{answer}");
    assert_eq!(printed(job.as_bytes()), whole(right));
    assert_eq!(printed_by(Turn::Right, job.as_bytes()), whole(right));
    assert_eq!(printed_by(turn, job.as_bytes()), whole(wrong));
    assert_ne!(right, wrong);
}

/// The list has `a`, but also the empty path and `a.a`, which are no query
/// paths: its name leads astray. It is accepted for `a` alone, and nothing
/// seems to be missed.
#[test]
fn one_path_fits() {
    differ(
        Turn::OnePathFits,
        "label a\nquery a\nlist e a*\n",
        3,
        "states 1\n0 - 0\nempty\nmissed a\npairs 3\n",
        "states 2\n0 - 1\n1 + 1\nfirst e\ncomplete\npairs 3\n",
    );
}

/// After `a` the query stands at both its a's, and may end at the first.
/// Complemented one by one, the second refuses the path; and after `a.a`,
/// where the query stands nowhere, no place is left to refuse.
#[test]
fn complement_before_standings() {
    differ(
        Turn::ComplementFirst,
        "label a\nlabel b\nquery a|a.b\nlist e a\n",
        4,
        "states 3\n0 - 1\n1 + 2\n2 - 2\nfirst e\nmissed a b\npairs 6\n",
        "states 3\n0 - 1\n1 - 2\n2 + 2\nfirst e e\nmissed a a\npairs 6\n",
    );
}

/// Here every standing has one place, and Find is right. But the path `a`
/// reaches two cover places: the state after `e`, which accepts, and the
/// occurrence inside the list, which does not, and so seems to refuse it.
#[test]
fn complement_before_cover_sets() {
    differ(
        Turn::ComplementFirst,
        "label a\nquery a*\nlist e a\n",
        2,
        "states 1\n0 + 0\nfirst\ncomplete\npairs 2\n",
        "states 1\n0 + 0\nfirst\nmissed a\npairs 2\n",
    );
}

/// The list has the empty path, which is no query path. Without it, the name
/// spells `a` alone, and is accepted.
#[test]
fn no_empty_path() {
    differ(
        Turn::NoEmptyPath,
        "label a\nquery a\nlist e a?\n",
        3,
        "states 1\n0 - 0\nempty\nmissed a\npairs 3\n",
        "states 3\n0 - 1\n1 + 2\n2 - 2\nfirst e\ncomplete\npairs 4\n",
    );
}

/// The verdict is the same, for a name with an empty part can be left out of
/// an accepted word. But the empty path reaches the state after `e` as well, and
/// so `a` the list's occurrence in that state; without it only `a.a` does, and
/// has a pair of its own.
#[test]
fn no_empty_path_counts() {
    differ(
        Turn::NoEmptyPath,
        "label a\nquery ()\nlist e a*\n",
        2,
        "states 2\n0 + 1\n1 - 1\nfirst\ncomplete\npairs 2\n",
        "states 2\n0 + 1\n1 - 1\nfirst\ncomplete\npairs 3\n",
    );
}

/// The list goes on after `a`, to `a.a`, which is no query path. Ended at the
/// first `a`, it seems to have that path alone.
#[test]
fn first_end() {
    differ(
        Turn::FirstEnd,
        "label a\nquery a\nlist e a.a?\n",
        3,
        "states 1\n0 - 0\nempty\nmissed a\npairs 3\n",
        "states 3\n0 - 1\n1 + 2\n2 - 2\nfirst e\ncomplete\npairs 4\n",
    );
}

/// Now the query has all that the list has. The list may end before its first
/// label; ended there, it never reads one, and `a` is missed.
#[test]
fn first_end_before_any_label() {
    differ(
        Turn::FirstEnd,
        "label a\nquery a*\nlist e a*\n",
        2,
        "states 1\n0 + 0\nfirst\ncomplete\npairs 2\n",
        "states 1\n0 + 0\nfirst\nmissed a\npairs 2\n",
    );
}

/// No list word spells `b`, so a search among list words never meets it.
#[test]
fn among_list_words() {
    differ(
        Turn::AmongListWords,
        "label a\nlabel b\nquery a|b\nlist e a\n",
        4,
        "states 3\n0 - 1\n1 + 2\n2 - 2\nfirst e\nmissed b\npairs 6\n",
        "states 3\n0 - 1\n1 + 2\n2 - 2\nfirst e\ncomplete\npairs 6\n",
    );
}

/// An even number of a's, with states that go round in twos. Flags apart, both
/// states lead to states like themselves.
#[test]
fn flags_ignored() {
    differ(
        Turn::FlagsIgnored,
        "label a\nquery (a.a)*\nlist e a\n",
        3,
        "states 2\n0 + 1\n1 - 0\nfirst\ncomplete\npairs 3\n",
        "states 1\n0 + 0\nfirst\ncomplete\npairs 3\n",
    );
}

/// Neither the first state nor the dead one accepts, and neither leads to an
/// accepting state by one name; the word `e e` tells them apart.
#[test]
fn one_round() {
    differ(
        Turn::OneRound,
        "label a\nquery a.a\nlist e a\n",
        4,
        "states 4\n0 - 1\n1 - 2\n2 + 3\n3 - 3\nfirst e e\ncomplete\npairs 5\n",
        "states 3\n0 - 1\n1 - 2\n2 + 0\nfirst e e\ncomplete\npairs 6\n",
    );
}

/// An even number of a's again, with states that go round in fours: no two
/// have the same row, for each leads to the next.
#[test]
fn equal_rows() {
    differ(
        Turn::EqualRows,
        "label a\nquery (a.a.a.a)*.(a.a)?\nlist e a\n",
        5,
        "states 2\n0 + 1\n1 - 0\nfirst\ncomplete\npairs 5\n",
        "states 4\n0 + 1\n1 - 2\n2 + 3\n3 - 0\nfirst\ncomplete\npairs 5\n",
    );
}

/// Without the dead state the row of the accepting one has nowhere to lead.
/// With a zero left there, `e e e` seems to be accepted.
#[test]
fn dead_dropped() {
    differ(
        Turn::DeadDropped,
        "label a\nquery a\nlist e a\n",
        3,
        "states 3\n0 - 1\n1 + 2\n2 - 2\nfirst e\ncomplete\npairs 4\n",
        "states 2\n0 - 1\n1 + 0\nfirst e\ncomplete\npairs 4\n",
    );
}

/// The words `f` and `e f` have different standings, after which the same words
/// are accepted. Their state comes before the dead one by its first word, and
/// after it by the last.
#[test]
fn last_members() {
    differ(
        Turn::LastMembers,
        "label a\nlabel b\nquery a.b|b\nlist e a\nlist f b\n",
        5,
        "states 4\n0 - 1 2\n1 - 3 2\n2 + 3 3\n3 - 3 3\nfirst f\ncomplete\npairs 9\n",
        "states 4\n0 - 1 3\n1 - 2 3\n2 - 2 2\n3 + 2 2\nfirst f\ncomplete\npairs 9\n",
    );
}
