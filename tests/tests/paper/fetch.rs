//! Filling the tray, and a card that comes back with what it fetched.

use beside::frame::{self, blame, block, Frame, GENESIS, SIZE};
use beside::model::{slots, Fetched};

use crate::common::{chain, gave, set, told, Card};

/// Fetches into a buffer of this length: what was answered, and the frames. Later bytes are untouched.
fn fetch_into(card: &mut Card, length: usize, height: u32) -> (Fetched, Vec<Frame>) {
    card.out = vec![0xee; length];
    let fetched = card.fetch(height);
    let (given, later) = card.out.split_at(SIZE * fetched.count);
    assert!(later.iter().all(|&byte| byte == 0xee), "{length} bytes");
    (fetched, slots(given).to_vec())
}

/// Lengths of out buffers, and the whole frames that they take.
const TRAYS: [(usize, usize); 14] = [
    (1024, 2),
    (1025, 2),
    (1535, 2),
    (1536, 3),
    (1537, 3),
    (2047, 3),
    (2048, 4),
    (2559, 4),
    (2560, 5),
    (3071, 5),
    (3072, 6),
    (3073, 6),
    (3584, 7),
    (65_535, 127),
];

/// Every height of a line of six, whatever of it is committed.
#[test]
fn fetch_fills_the_tray() {
    let frames = chain(1, &[1, 2, 4, 5, 7, 8]);
    for ((length, room), committed) in TRAYS.into_iter().flat_map(|tray| [(tray, 0), (tray, 2)]) {
        let mut card = Card::made(0, 1, 9, &frames, 9);
        card.commit(committed, committed);
        for height in 0..6 {
            let above = &frames[height..];
            let count = above.len().min(room);
            let expected = (gave(0, count), above[..count].to_vec());
            assert_eq!(fetch_into(&mut card, length, height as u32), expected);
        }
        for height in [6, 7, 9, u32::MAX] {
            let expected = (gave(15, 0), vec![]);
            assert_eq!(fetch_into(&mut card, length, height), expected);
        }
    }
}

/// A book that no call made is read by its bytes: the lowest rounds come first where heights fall, and
/// slots above the tip belong to the line.
#[test]
fn fetch_goes_by_rounds_on_any_book() {
    let heights = [3, 1, 3, u32::MAX, 2, 0, 1 << 31];
    let slot = |(round, height)| block(0, round, height, &GENESIS, b"");
    let frames: Vec<Frame> = (1..).zip(heights).map(slot).collect();
    let mut card = Card::made(2, 1, 8, &frames, 8);
    (card.record.tip_round, card.record.tip_height) = (3, 2);
    card.log[SIZE * 2] = 2;
    let expected: [(u32, &[u32]); 7] = [
        (0, &[1, 2, 4, 5, 7]),
        (1, &[1, 4, 5, 7]),
        (2, &[1, 4, 7]),
        (3, &[4, 7]),
        (1 << 31, &[4]),
        (u32::MAX - 1, &[4]),
        (u32::MAX, &[]),
    ];
    for (height, all) in expected {
        for (length, room) in TRAYS {
            let (fetched, given) = fetch_into(&mut card, length, height);
            let rounds = &all[..all.len().min(room)];
            let number = if rounds.is_empty() { 15 } else { 0 };
            assert_eq!(fetched, gave(number, rounds.len()));
            assert!(given.iter().map(frame::round).eq(rounds.iter().copied()));
        }
    }
}

/// 2, 4, 15, whatever else holds; the out buffer keeps its bytes.
#[test]
fn fetch_refuses_in_order() {
    let mut card = Card::made(0, 1, 9, &chain(1, &[1, 2]), 3);
    for length in [0, 1, 511, 512, 1023] {
        for height in [0, 1, 2, u32::MAX] {
            assert_eq!(fetch_into(&mut card, length, height).0, gave(4, 0));
        }
    }
    assert_eq!(fetch_into(&mut card, 1024, 2).0, gave(15, 0));
    card.record.own = 2;
    for (length, height) in [(0, 0), (1023, 2), (1024, 2), (1024, 0)] {
        assert_eq!(fetch_into(&mut card, length, height).0, gave(2, 0));
    }
}

/// Going on from the last height given, until 15, brings the line from any height on, whatever the trays.
#[test]
fn fetching_on_brings_the_whole_line() {
    let frames = chain(2, &[1, 2, 3, 5, 8, 9, 10, 12]);
    let mut card = Card::made(0, 2, 13, &frames, 13);
    for (from, skip) in (0..=8).flat_map(|from| (0..TRAYS.len()).map(move |skip| (from, skip))) {
        let (mut height, mut all) = (from, Vec::new());
        for (length, room) in TRAYS.into_iter().cycle().skip(skip) {
            let (fetched, given) = fetch_into(&mut card, length, height);
            let Some(last) = given.last() else {
                assert_eq!(fetched, gave(15, 0));
                break;
            };
            height = frame::height(last);
            assert!(given.len() == room || height == 8, "the tray is filled");
            all.extend(given);
        }
        assert_eq!(all, frames[from as usize..]);
    }
}

/// Cards 1 and 2 pass over a round of card 0 and put out a block each.
fn without_card_0(one: &mut Card, two: &mut Card) {
    let round = one.record.round;
    assert_eq!([one.tick().frames, two.tick().frames], [1, 1]);
    assert_eq!(one.blame(&blame(2, round)).frames, 1);
    assert_eq!(two.blame(&blame(1, round)).frames, 0);
    assert_eq!(two.branch(&[*one.out_frame(0)]).frames, 1);
    assert_eq!(told(one.branch(&[*two.out_frame(0)])), (0, 0));
    assert_eq!([one.record.round, two.record.round], [round + 3; 2]);
}

/// Card 0 is away from its opening on, and rounds 1 and 4, which it leads, are passed over. It comes back with the blocks of rounds
/// 2, 3, 5 and 6. The blames of round 1, up to its R, go in first; before those of round 4, above it, go the blocks below that round.
#[test]
fn a_card_that_was_away_comes_back() {
    let [mut back, mut one, mut two] = [0, 1, 2].map(|own| Card::open(own, 1, 1, 8));
    without_card_0(&mut one, &mut two);
    without_card_0(&mut one, &mut two);
    assert_eq!((back.line(), two.line()), (vec![1], vec![2, 3, 5, 6]));
    assert_eq!((back.record.round, back.committed()), (2, (0, 0)));
    let (fetched, mut frames) = fetch_into(&mut two, 1535, 0);
    assert_eq!(fetched, gave(0, 2));
    let (fetched, later) = fetch_into(&mut two, 65_535, frame::height(&frames[1]));
    assert_eq!(fetched, gave(0, 2));
    frames.extend(later);
    assert_eq!(fetch_into(&mut two, 1024, 4).0, gave(15, 0));
    let above_its_tip = &frames[back.record.tip_height as usize..];
    assert_eq!(told(back.branch(above_its_tip)), (11, 0));
    assert_eq!(told(back.branch(&frames)), (13, 1), "up to R");
    assert_eq!(told(back.blames(&set(1, &[1, 2]))), (0, 0));
    assert_eq!(told(back.branch(&frames)), (13, 4), "above R");
    assert_eq!(back.refused_set(set(4, &[1, 2]).as_flattened()), (14, 0));
    assert_eq!(told(back.branch(&frames[..2])), (0, 0), "it leads 4");
    assert_eq!((back.line(), back.record.round), (vec![2, 3, 4], 5));
    assert_eq!(told(back.branch(&frames[2..])), (13, 4));
    assert_eq!(told(back.blames(&set(4, &[1, 2]))), (0, 0));
    assert_eq!(told(back.branch(&frames)), (0, 0), "all of them again");
    assert_eq!((back.line(), back.record.round), (vec![2, 3, 5, 6, 7], 8));
    assert_eq!((two.committed(), back.committed()), ((5, 3), (6, 4)));
    assert_eq!(slots(&back.log)[..6], slots(&two.log)[..6]);
}
