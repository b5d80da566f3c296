//! The bench sheet, a tick with two frames, and the rehearsal.

use std::collections::VecDeque;

use beside::frame::{self, blame, block, Frame, GENESIS};
use beside::model::{in_turn, leader, shown, slots};

use crate::common::{chain, set, told, Card};

#[test]
fn sheet_1_leaders() {
    let at = |round| leader(round, 1, &in_turn(1));
    assert_eq!([1, 3, 4].map(at), [0, 2, 0]);
    assert_eq!(leader(16, 7, &in_turn(7)), 0);
}

#[test]
fn sheet_2_line_1_2() {
    let mut card = Card::open(2, 1, 2, 2);
    let frames = chain(1, &[1, 2]);
    card.branch(&frames[..1]);
    assert_eq!((card.record.round, card.committed()), (2, (0, 0)));
    card.branch(&frames[1..]);
    assert_eq!((card.record.round, card.committed()), (3, (1, 1)));
}

/// R = 4, and R = 5 with round 4 shown, inside the term and at its end.
#[test]
fn sheet_3_line_1_3() {
    for term in [4, 6] {
        let mut card = Card::open(2, 1, 2, term);
        card.branch(&chain(1, &[1]));
        card.blame(&blame(0, 2));
        let answer = card.blame(&blame(1, 2));
        assert_eq!((answer.frames, card.line()), (1, vec![1, 3]));
        assert_eq!((card.record.round, card.committed()), (4, (1, 1)));
        card.blame(&blame(0, 4));
        assert_eq!((card.record.round, card.committed()), (4, (1, 1)));
        card.blame(&blame(1, 4));
        assert_eq!((card.record.round, card.committed()), (5, (3, 2)));
        assert_eq!((card.record.tip_round, card.line()), (3, vec![1, 3]));
    }
}

#[test]
fn sheet_4_line_1_2_3() {
    let mut card = Card::open(4, 2, 2, 3);
    assert_eq!(card.branch(&chain(2, &[1, 2, 3])).number, 0);
    assert_eq!((card.record.round, card.committed()), (4, (1, 1)));
}

#[test]
fn sheet_5_shown() {
    assert!(shown(3, 1) && !shown(1, 1) && shown(21, 2));
    assert!(!shown(0b1111_1000, 1), "bits from n on do not count");
}

#[test]
fn sheet_6_stale() {
    let mut card = Card::made(0, 1, 6, &chain(1, &[1, 2]), 3);
    let frames = chain(1, &[1, 2, 3]);
    assert_eq!(card.branch(&frames[..2]).number, 10);
    assert_eq!(card.branch(&frames).number, 0);
}

#[test]
fn sheet_7_entries() {
    for (length, number) in [(400, 0), (401, 5)] {
        let mut card = Card::closed(2);
        card.entry = vec![9; length];
        assert_eq!(card.try_open(0, 1, 2, 2).number, number);
    }
}

#[test]
fn sheet_8_ticks() {
    let mut quick = Card::open(1, 1, 1, 3);
    assert_eq!(quick.tick().frames, 1);
    assert_eq!(*quick.out_frame(0), blame(1, 1));
    assert_eq!((quick.tick().frames, quick.record.left), (0, 0));
    let mut slow = Card::open(1, 1, 2, 3);
    assert_eq!([slow.tick().frames, slow.tick().frames], [0, 1]);
}

#[test]
fn sheet_9_skipped_round() {
    let frames = chain(1, &[1, 3]);
    for own in [0, 1] {
        let mut card = Card::made(own, 1, 6, &frames[..1], 3);
        card.masks[1] = 1;
        assert_eq!(told(card.branch(&frames[1..])), (13, 2));
        card.masks[1] = 3;
        let answer = card.branch(&frames[1..]);
        assert_eq!(told(answer), (0, 0));
        let expected = if own == 0 { (5, 1) } else { (4, 0) };
        assert_eq!((card.record.round, answer.frames), expected);
    }
}

#[test]
fn sheet_10_undone() {
    let mut card = Card::open(1, 1, 2, 6);
    card.branch(&chain(1, &[1]));
    let own = slots(&card.log)[1];
    card.branch(&[block(2, 3, 3, frame::name(&own), b"")]);
    assert_eq!((card.line(), card.record.round), (vec![1, 2, 3], 4));
    assert_eq!(card.committed(), (2, 2));
    let mut frames = slots(&card.log)[..3].to_vec();
    let other = block(0, 4, 2, frame::name(&frames[0]), b"");
    assert_eq!(told(card.branch(&[other])), (13, 2));
    card.blames(&set(2, &[0, 2]));
    card.blames(&set(3, &[0, 2]));
    assert_eq!((card.record.round, card.committed()), (4, (2, 2)));
    assert_eq!(told(card.branch(&[other])), (12, 0));
    frames.push(block(0, 4, 4, frame::name(&frames[2]), b""));
    assert_eq!(told(card.branch(&frames)), (0, 0));
    assert_eq!(card.line(), [1, 2, 3, 4, 5], "it leads round 5 itself");
    assert_eq!((card.record.round, card.committed()), (6, (4, 4)));
}

#[test]
fn sheet_11_term_of_one_round() {
    let mut card = Card::open(0, 1, 1, 1);
    assert_eq!((card.record.round, card.line()), (2, vec![1]));
    assert_eq!(card.committed(), (0, 0));
    assert_eq!(card.tick().number, 3);
}

/// Lines of the rehearsal for an input.
fn rehearse(input: &str) -> String {
    let mut cards: Vec<Card> = (0..3).map(|own| Card::open(own, 1, 2, 6)).collect();
    let mut queues: [VecDeque<Frame>; 3] = Default::default();
    let mut lines = String::new();
    let opening = *cards[0].out_frame(0);
    queues[1].push_back(opening);
    queues[2].push_back(opening);
    for line in input.lines() {
        let index = usize::from(line.as_bytes()[2] - b'0');
        let card = &mut cards[index];
        let answer = if line.starts_with('t') {
            card.tick()
        } else {
            let Some(frame) = queues[index].pop_front() else {
                continue;
            };
            if frame::kind(&frame) == frame::BLOCK {
                card.branch(&[frame])
            } else {
                card.blame(&frame)
            }
        };
        let r = answer.record;
        let (number, tip, committed) = (answer.number, r.tip_round, r.committed_round);
        lines += &format!("{index} {number} {} {tip} {committed}\n", r.round);
        for place in 0..usize::from(answer.frames) {
            let frame = *cards[index].out_frame(place);
            (0..3)
                .filter(|&other| other != index)
                .for_each(|other| queues[other].push_back(frame));
        }
    }
    lines
}

#[test]
fn rehearsal() {
    let lines = rehearse("d 1\nd 2\nd 2\nd 0\n");
    assert_eq!(lines, "1 0 3 2 1\n2 0 2 1 0\n2 0 4 3 2\n0 0 3 2 1\n");
    assert_eq!(rehearse("d 0\n"), "", "nothing for an empty queue");
}

#[test]
fn a_tick_puts_out_blame_and_block() {
    let mut card = Card::open(1, 1, 1, 6);
    card.blame(&blame(2, 1));
    let answer = card.tick();
    assert_eq!(
        (answer.frames, answer.record.round, answer.leader),
        (2, 3, 2)
    );
    assert_eq!(*card.out_frame(0), blame(1, 1));
    assert_eq!(*card.out_frame(1), block(1, 2, 1, &GENESIS, b""));
}
