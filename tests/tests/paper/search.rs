//! The search for the last committed slot.

use beside::frame::SIZE;
use beside::library::under_test;
use beside::model::{limit, walk_up, Search};

use crate::common::{chain, set, Card};

/// A book with blocks in these rounds.
fn book(term: u32, rounds: &[u32]) -> Vec<u8> {
    Card::made(0, 1, term, &chain(1, rounds), 1).log
}

/// The round found and the slots read.
fn search(log: &[u8], limit: u32) -> (u32, u32) {
    let Search { round, slots_read } = under_test().search(log, limit);
    (round, slots_read)
}

/// From the limit down to the first filled slot, both counted; every limit of a book with gaps.
#[test]
fn the_search_ends_at_the_first_filled_slot() {
    let log = book(8, &[2, 3, 6]);
    let expected = [
        (0, (0, 0)),
        (1, (0, 1)),
        (2, (2, 1)),
        (3, (3, 1)),
        (4, (3, 2)),
        (5, (3, 3)),
        (6, (6, 1)),
        (7, (6, 2)),
        (8, (6, 3)),
    ];
    for (limit, found) in expected {
        assert_eq!(search(&log, limit), found, "limit {limit}");
    }
}

#[test]
fn the_search_reads_down_to_round_1_when_none_is_filled() {
    for limit in 0..=6 {
        assert_eq!(search(&book(6, &[]), limit), (0, limit));
    }
    for limit in 0..=4 {
        assert_eq!(search(&book(6, &[5, 6]), limit), (0, limit));
    }
}

#[test]
fn no_round_allowed_reads_nothing() {
    assert_eq!(search(&book(1, &[1]), 0), (0, 0));
    assert_eq!(search(&book(4, &[1, 2, 3, 4]), 0), (0, 0));
    assert_eq!(search(&[], 0), (0, 0));
}

/// A round above the last slot has no filled slot, and counts as one read.
#[test]
fn a_limit_above_the_book_counts_from_the_limit() {
    for (limit, read) in [(3, 2), (4, 3), (5, 4), (100, 99), (5_000, 4_999)] {
        assert_eq!(search(&book(3, &[1, 2]), limit), (2, read));
        assert_eq!(search(&book(3, &[]), limit), (0, limit));
        assert_eq!(search(&[], limit), (0, limit));
    }
}

/// A slot is filled when its first byte is 1, whatever else stands there.
#[test]
fn the_search_reads_first_bytes() {
    let mut log = book(5, &[1]);
    for (round, first) in [(2, 0), (3, 2), (4, 255), (5, 3)] {
        log[SIZE * (round - 1)..SIZE * round].fill(9);
        log[SIZE * (round - 1)] = first;
    }
    assert_eq!(search(&log, 5), (1, 5));
    log[SIZE * 2..SIZE * 3].fill(0);
    log[SIZE * 2] = 1;
    assert_eq!(search(&log, 5), (3, 3));
}

#[test]
fn the_search_on_a_term_of_4096_rounds() {
    let mut log = vec![0; SIZE * 4_096];
    assert_eq!(search(&log, 4_094), (0, 4_094));
    log[0] = 1;
    assert_eq!(search(&log, 4_096), (1, 4_096));
    log[SIZE * 4_093] = 1;
    assert_eq!(search(&log, 4_094), (4_094, 1));
    assert_eq!(search(&log, 4_093), (1, 4_093));
    assert_eq!(search(&log, 4_096), (4_094, 3));
}

/// The commit cases of the bench sheet, by the round that is waited for.
#[test]
fn the_search_finds_what_the_sheet_commits() {
    let at = |f, line: &[u32], round| search(&book(6, line), limit(round, f));
    assert_eq!(at(1, &[1, 2], 3), (1, 1), "case 2");
    assert_eq!(at(1, &[1], 2), (0, 0), "case 2, line 1 alone");
    assert_eq!(at(1, &[1, 3], 4), (1, 2), "case 3");
    assert_eq!(at(1, &[1, 3], 5), (3, 1), "case 3, round 4 shown");
    assert_eq!(at(2, &[1, 2, 3], 4), (1, 1), "case 4");
    assert_eq!(at(1, &[1, 2, 3], 4), (2, 1), "case 10");
}

/// The search finds what commit does, and reads one slot more than it skips rounds.
#[test]
fn the_search_finds_what_calls_commit() {
    let mut card = Card::made(3, 3, 9, &chain(3, &[1, 2, 4]), 5);
    for (round, found) in [(6, (2, 1)), (7, (2, 2)), (8, (4, 1)), (9, (4, 2))] {
        card.blames(&set(round - 1, &[0, 2, 5, 6]));
        assert_eq!(card.record.round, round);
        assert_eq!(search(&card.log, limit(round, 3)), found);
        assert_eq!(card.record.committed_round, found.0);
    }
}

/// Every book of eight slots, every limit up to two above it.
#[test]
fn the_search_finds_what_the_walk_up_does() {
    for filled in 0..1 << 8 {
        let mut log = vec![0; SIZE * 8];
        for round in (0..8).filter(|index| filled >> index & 1 == 1) {
            log[SIZE * round] = 1;
        }
        for limit in 0..=10 {
            let (round, read) = search(&log, limit);
            assert_eq!(round, walk_up(&log, limit));
            assert_eq!(read, limit + u32::from(round > 0) - round);
        }
    }
}
