//! Who is marked, and that marks stay and change nothing else.

use beside::frame::{self, blame, block};
use beside::model::{slots, Answer};

use crate::common::{
    chain, double, made_with, marked, numbers, padded, seat, set, shuffled, told, turn, Card, FINE,
};

/// Each round of two turns, each n: the card on the round's seat is marked by its number, and nothing else changes.
#[test]
fn two_blocks_of_a_round_mark_its_leader() {
    for (f, seed) in (1..=7).flat_map(|f| [(f, 12), (f, 13), (f, 14)]) {
        let (seats, last) = (shuffled(f, seed), 4 * u32::from(f) + 2);
        for (round, at) in (1..=last).flat_map(|round| [(round, 1), (round, last + 1)]) {
            let mut card = made_with(&seats, last, at);
            let (record, lead) = (card.record, seat(&seats, round));
            let [one, other] = double(lead, round);
            assert_eq!(card.equivocation(&[one, other]), marked(record, lead));
            card.record = record;
            assert_eq!(card.equivocation(&[other, one]), marked(record, lead));
        }
    }
}

/// A leader that is marked is marked again, and others beside it, until all are.
#[test]
fn marks_stay_and_grow() {
    for f in 1..=7 {
        let seats = shuffled(f, 15);
        let n = seats.len() as u32;
        let mut card = made_with(&seats, 2 * n, 1);
        let mut marks = 0;
        for round in 1..=2 * n {
            let lead = seat(&seats, round);
            let record = card.record;
            assert_eq!(record.equivocators, marks);
            for _ in 0..2 {
                assert_eq!(
                    card.equivocation(&double(lead, round)),
                    marked(record, lead)
                );
            }
            marks |= 1 << lead;
        }
        assert_eq!(u32::from(marks), (1 << n) - 1);
    }
}

#[test]
fn a_card_is_opened_without_marks() {
    for f in 1..=7 {
        for own in turn(f) {
            let card = Card::seated(own, f, 1, 2, &shuffled(f, 16));
            assert_eq!(card.record.equivocators, 0);
        }
    }
    let mut card = Card::open(1, 1, 1, 6);
    card.equivocation(&double(0, 1));
    assert_eq!(card.record.equivocators, 1);
    let answer = card.try_open(1, 1, 1, 6);
    assert_eq!((answer.number, answer.record.equivocators), (0, 0));
}

/// Every bit from n on, by itself and beside marks, in every call; every set of marks below n for f = 1 and 2.
#[test]
fn refusal_2_of_a_mark_from_n_on() {
    for f in 1..=7 {
        let rotation = padded(&shuffled(f, 17));
        let all = ((1u32 << (2 * f + 1)) - 1) as u16;
        for bit in 2 * f + 1..=15 {
            for below in [0, 1, all, all >> 1] {
                let marks = 1 << bit | below;
                assert_eq!(numbers(f, rotation, marks), [2; 7], "{marks:#b}");
            }
        }
        assert_eq!(numbers(f, rotation, !all), [2; 7]);
        assert_eq!(numbers(f, rotation, u16::MAX), [2; 7]);
        for marks in [all, all - 1, all >> 1].into_iter().chain(0..=all.min(31)) {
            assert_eq!(numbers(f, rotation, marks), FINE, "{marks:#b}");
        }
    }
}

/// Calls of every kind, taken and refused, on a card with a line.
fn some_calls(card: &mut Card) -> Vec<Answer> {
    let round = card.record.round;
    let next = block(0, 4, 4, frame::name(&slots(&card.log)[2]), b"next");
    let mut answers = vec![
        card.branch(&[next, next]),
        card.blame(&blame(2, 2)),
        card.blame(&blame(2, 2)),
        card.tick(),
        card.branch(&[next]),
        card.blames(&set(round + 2, &[0, 2])),
        card.blames(&set(round + 9, &[0, 2])),
    ];
    while answers.last().is_none_or(|answer| answer.number != 3) {
        answers.push(card.blame(&blame(0, card.record.round.min(9))));
        answers.push(card.tick());
    }
    answers
}

/// Whatever cards are marked, each call answers and leaves the same, and keeps the marks.
#[test]
fn marks_change_nothing_else() {
    let made = |marks| {
        let mut card = Card::made(1, 1, 9, &chain(1, &[1, 2, 3]), 4);
        card.commit(2, 2);
        card.record.equivocators = marks;
        card
    };
    let mut plain = made(0);
    let expected = some_calls(&mut plain);
    let out = plain.out.clone();
    assert!(expected.iter().any(|answer| answer.frames == 2));
    for marks in 1..8 {
        let mut card = made(marks);
        let answers = some_calls(&mut card);
        for (answer, mut expected) in answers.into_iter().zip(expected.clone()) {
            expected.record.equivocators = marks;
            assert_eq!(answer, expected);
        }
        assert!(card.log == plain.log && card.masks == plain.masks && card.out == out);
        for height in 0..8 {
            assert_eq!(card.read(height), plain.read(height));
            assert_eq!(card.fetch(height), plain.fetch(height));
            assert!(card.out == plain.out);
        }
    }
}

/// f = 1: card 1 signs two blocks for round 2, and each of the others takes one. Handed both, they mark it, go on as before and blame
/// nobody for it.
#[test]
fn two_cards_mark_a_third() {
    let [mut zero, mut two] = [0, 2].map(|own| Card::open(own, 1, 1, 6));
    let first = *zero.out_frame(0);
    assert_eq!(told(two.branch(&[first])), (0, 0));
    let pair = [b"1", b"2"].map(|entry| block(1, 2, 2, frame::name(&first), entry));
    assert_eq!(told(zero.branch(&pair[..1])), (0, 0));
    assert_eq!(told(two.branch(&pair[1..])), (0, 0));
    for card in [&mut zero, &mut two] {
        let record = card.record;
        let (log, masks) = (card.log.clone(), card.masks.clone());
        assert_eq!(card.equivocation(&pair), marked(record, 1));
        assert!(card.log == log && card.masks == masks);
    }
    let third = *two.out_frame(0);
    assert_eq!(told(zero.branch(&[third])), (11, 0), "on the other block");
    assert_eq!(told(zero.branch(&[pair[1], third])), (0, 0));
    assert_eq!(
        (zero.line(), zero.record.equivocators),
        (vec![1, 2, 3, 4], 0b10)
    );
    let own = [first, *zero.out_frame(0)];
    assert_eq!(
        zero.refused_pair(own.as_flattened()),
        (18, 0),
        "its own two"
    );
}
