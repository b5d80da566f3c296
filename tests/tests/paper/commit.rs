//! Committing by R.

use beside::frame::{self, blame, block, SIZE};
use beside::model::{slots, Answer};

use crate::common::{chain, double, set, told, Card};

/// A way to show R with no block stored.
type Pass = fn(&mut Card) -> Answer;

const BY_A_BLAME: Pass = |card| {
    let round = card.record.round;
    card.blame(&blame(0, round));
    card.blame(&blame(1, round))
};

const BY_A_SET: Pass = |card| {
    let round = card.record.round;
    card.blames(&set(round, &[1, 0]))
};

const BY_A_TICK: Pass = |card| {
    let round = card.record.round;
    card.blame(&blame(0, round));
    while card.record.left > 1 {
        card.tick();
    }
    card.tick()
};

const PASSES: [Pass; 3] = [BY_A_BLAME, BY_A_SET, BY_A_TICK];

/// f = 1, card 2, line 1, 2, 3, R = 4: showing round 4 commits round 3, inside the term and at its end.
fn commits_by(pass: Pass) {
    for (term, leader) in [(6, 1), (4, 255)] {
        let mut card = Card::open(2, 1, 3, term);
        card.branch(&chain(1, &[1, 2]));
        assert_eq!((card.line(), card.record.round), (vec![1, 2, 3], 4));
        assert_eq!((card.committed(), card.read(3).number), ((2, 2), 15));
        let kept = card.log.clone();
        let answer = pass(&mut card);
        assert_eq!((answer.number, answer.leader), (0, leader));
        assert_eq!((card.record.round, card.record.left), (5, 3));
        assert_eq!((card.committed(), card.read(3).number), ((3, 3), 0));
        assert_eq!((card.record.tip_round, card.record.tip_height), (3, 3));
        assert!(card.log == kept, "no block was stored");
    }
}

#[test]
fn a_blame_commits() {
    commits_by(BY_A_BLAME);
}

#[test]
fn a_set_of_blames_commits() {
    commits_by(BY_A_SET);
}

#[test]
fn a_tick_commits() {
    commits_by(BY_A_TICK);
}

#[test]
fn what_a_blame_committed_is_not_undone() {
    let mut card = Card::open(2, 1, 2, 6);
    card.branch(&chain(1, &[1, 2]));
    card.blames(&set(3, &[0, 1]));
    let parent = *frame::name(&slots(&card.log)[1]);
    let other = block(1, 5, 3, &parent, b"");
    assert_eq!(told(card.branch(&[other])), (13, 4));
    card.blames(&set(4, &[0, 1]));
    assert_eq!(told(card.branch(&[other])), (12, 0), "round 3 is committed");
}

/// Each shown round is one more towards f; an empty slot at the limit leaves the one below.
#[test]
fn skipped_rounds_count_one_by_one() {
    let mut card = Card::made(3, 3, 9, &chain(3, &[1, 2, 4]), 5);
    card.commit(1, 1);
    for (round, committed) in [(6, (2, 2)), (7, (2, 2)), (8, (4, 3)), (9, (4, 3))] {
        card.blames(&set(round - 1, &[0, 2, 5, 6]));
        assert_eq!((card.record.round, card.committed()), (round, committed));
    }
    assert_eq!((card.record.tip_round, card.line()), (4, vec![1, 2, 4]));
}

#[test]
fn a_term_without_blocks_commits_the_genesis() {
    for pass in PASSES {
        let mut card = Card::open(2, 1, 1, 2);
        for round in [2, 3] {
            assert_eq!(pass(&mut card).record.round, round);
            assert_eq!(card.committed(), (0, 0));
        }
        assert_eq!((card.tick().number, card.line()), (3, vec![]));
    }
}

/// The card's own block lifts R once more: by the R before it less would be committed.
#[test]
fn a_call_commits_by_its_last_r() {
    let mut card = Card::open(1, 1, 2, 6);
    assert_eq!(card.branch(&chain(1, &[1])).frames, 1);
    assert_eq!((card.record.round, card.committed()), (3, (1, 1)));
    let passes: [Pass; 3] = [
        |card| {
            card.blames(&set(3, &[0, 1]));
            card.blame(&blame(2, 3))
        },
        |card| card.blames(&set(3, &[0, 1, 2])),
        |card| {
            card.blames(&set(3, &[0, 1]));
            card.tick();
            card.tick()
        },
    ];
    for pass in passes {
        let mut card = Card::made(3, 2, 6, &chain(2, &[1, 2]), 3);
        pass(&mut card);
        assert_eq!((card.line(), card.record.round), (vec![1, 2, 4], 5));
        assert_eq!(card.committed(), (2, 2));
    }
}

/// A record that no call made: calls that leave R leave what is committed, though the rule at R gives another round.
#[test]
fn nothing_is_renewed_where_r_does_not_grow() {
    let calls: [Pass; 7] = [
        |card| card.blame(&blame(0, 2)),
        |card| card.blames(&set(3, &[0, 1])),
        |card| card.blame(&blame(1, 4)),
        |card| card.blames(&set(4, &[1])),
        |card| card.tick(),
        |card| {
            card.record.left = 1;
            card.tick()
        },
        |card| {
            card.record.left = 0;
            card.tick()
        },
    ];
    for (call, committed) in calls
        .iter()
        .flat_map(|call| [(call, 0), (call, 1), (call, 3)])
    {
        let mut card = Card::made(2, 1, 6, &chain(1, &[1, 2, 3]), 4);
        card.commit(committed, committed);
        assert_eq!(call(&mut card).number, 0);
        assert_eq!(card.record.round, 4);
        assert_eq!(card.committed(), (committed, committed));
        BY_A_SET(&mut card);
        assert_eq!((card.record.round, card.committed()), (5, (3, 3)));
    }
}

/// A record that no call made may have more committed than the rule gives.
#[test]
fn renewing_may_lower_what_no_call_committed() {
    for pass in PASSES {
        let mut card = Card::made(2, 1, 6, &chain(1, &[1]), 4);
        (card.record.tip_round, card.record.tip_height) = (3, 3);
        card.commit(3, 2);
        pass(&mut card);
        assert_eq!((card.record.round, card.committed()), (5, (1, 1)));
    }
}

/// A book that no call made may hold slots above the tip: one is committed, and the next call says 2.
#[test]
fn a_slot_above_the_tip_is_committed() {
    for pass in PASSES {
        let frames = chain(1, &[1, 2, 3, 5]);
        let mut card = Card::made(2, 1, 6, &frames[..3], 4);
        (card.record.tip_round, card.record.tip_height) = (1, 1);
        assert_eq!(told(pass(&mut card)), (0, 0));
        assert_eq!((card.record.round, card.committed()), (5, (3, 3)));
        assert_eq!((card.record.tip_round, card.record.tip_height), (1, 1));
        assert_eq!(told(card.branch(&frames[3..])), (2, 0));
        assert_eq!(told(card.blame(&blame(0, 5))), (2, 0));
        assert_eq!(card.refused_set(set(5, &[0, 1]).as_flattened()), (2, 0));
        assert_eq!(told(card.tick()), (2, 0));
        assert_eq!((card.read(1).number, card.fetch(0).number), (2, 2));
        assert_eq!(card.refused_pair(double(0, 1).as_flattened()), (2, 0));
    }
}

/// The height is the one that stands in the slot.
#[test]
fn a_committed_slot_gives_its_height() {
    let mut card = Card::made(2, 1, 6, &chain(1, &[1, 2, 3]), 4);
    let mut slot = slots(&card.log)[2];
    frame::set_height(&mut slot, 77);
    card.log[2 * SIZE..3 * SIZE].copy_from_slice(&slot);
    BY_A_SET(&mut card);
    assert_eq!(card.committed(), (3, 77));
    assert_eq!(told(card.tick()), (2, 0));
}
