//! Sets of blames.

use beside::frame::{self, blame, block, Frame, SIZE};
use beside::library::under_test;
use beside::model::Record;

use crate::common::{chain, set, told, Card};

#[test]
fn a_set_of_another_length_is_cut() {
    for f in [1, 7] {
        let mut card = Card::made(1, f, 6, &[], 1);
        let frames: Vec<u8> = set(1, &[0, 2]).as_flattened().repeat(8);
        let whole = 15 * SIZE;
        for length in [0, 1, 511, 513, 1025, whole - 1, whole + 1, 16 * SIZE] {
            let told = card.refused_set(&frames[..length]);
            assert_eq!(told, (6, 0), "{length} bytes");
        }
        assert_eq!(card.refused_set(&[9; 16 * SIZE]), (6, 0), "6 before 7");
        let told = card.refused_set(&frames[..whole]);
        assert_eq!(told, (16, 0), "15 frames are whole, whatever n is");
    }
}

#[test]
fn refusals_7_and_8_of_a_set_frame_by_frame() {
    let mut card = Card::made(1, 2, 6, &[], 1);
    let good = set(1, &[4, 0, 3]);
    for index in 0..3 {
        let place = index as u32;
        let mut frames = good.clone();
        frames[index][300] = 1;
        assert_eq!(card.refused_set(frames.as_flattened()), (7, place));
        frame::seal(&mut frames[index]);
        assert_eq!(card.refused_set(frames.as_flattened()), (8, place));
        for bad in [blame(5, 1), blame(0, 0), blame(0, 7), chain(2, &[1])[0]] {
            frames[index] = bad;
            assert_eq!(card.refused_set(frames.as_flattened()), (8, place));
        }
    }
    let (mut frames, mut swapped) = (good.clone(), good);
    (frames[1], frames[2][0]) = (blame(5, 1), 9);
    assert_eq!(card.refused_set(frames.as_flattened()), (8, 1));
    (swapped[1][0], swapped[2]) = (9, blame(5, 1));
    assert_eq!(card.refused_set(swapped.as_flattened()), (7, 1));
}

#[test]
fn refusal_8_at_every_field_of_a_blame_in_a_set() {
    let harms: [fn(&mut Frame); 10] = [
        |frame| frame[0] = 1,
        |frame| frame[0] = 3,
        |frame| frame[1] = 3,
        |frame| frame::set_length(frame, 1),
        |frame| frame::set_round(frame, 0),
        |frame| frame::set_round(frame, 7),
        |frame| frame::set_height(frame, 1),
        |frame| frame[12] = 1,
        |frame| frame[443] = 1,
        |frame| frame[479] = 1,
    ];
    for harm in harms {
        let mut card = Card::made(1, 1, 6, &[], 1);
        let mut frames = set(1, &[0, 2]);
        harm(&mut frames[1]);
        frame::seal(&mut frames[1]);
        assert_eq!(card.refused_set(frames.as_flattened()), (8, 1));
    }
}

#[test]
fn refusal_16_two_rounds_or_a_signer_twice() {
    let mut card = Card::made(1, 2, 6, &chain(2, &[1, 2]), 3);
    for (first, second) in [(0, 1), (0, 2), (1, 2), (1, 3), (2, 3), (0, 3)] {
        let mut frames = set(3, &[0, 2, 3, 4]);
        frames[second] = frames[first];
        assert_eq!(card.refused_set(frames.as_flattened()), (16, 0));
        let mut frames = set(3, &[0, 2, 3, 4]);
        frames[first] = blame([0, 2, 3, 4][first], 2);
        assert_eq!(card.refused_set(frames.as_flattened()), (16, 0));
    }
    let both = [blame(0, 2), blame(0, 3)];
    assert_eq!(card.refused_set(both.as_flattened()), (16, 0));
    let far = [blame(0, 1), blame(2, 3)];
    assert_eq!(card.refused_set(far.as_flattened()), (16, 0));
}

#[test]
fn refusal_16_after_8_of_every_frame_and_before_14() {
    let mut card = Card::made(1, 2, 6, &chain(2, &[1, 2]), 3);
    let mut frames = set(3, &[0, 0, 2, 3]);
    frames[3][0] = 1;
    assert_eq!(card.refused_set(frames.as_flattened()), (7, 3), "7 later");
    frame::seal(&mut frames[3]);
    assert_eq!(card.refused_set(frames.as_flattened()), (8, 3), "8 later");
    let mut rounds = [blame(0, 3), blame(2, 4), blame(5, 3)];
    assert_eq!(card.refused_set(rounds.as_flattened()), (8, 2));
    rounds[2] = blame(3, 3);
    assert_eq!(card.refused_set(rounds.as_flattened()), (16, 0));
    let early = set(4, &[0, 2, 0]);
    assert_eq!(card.refused_set(early.as_flattened()), (16, 0), "14 too");
    let early = [blame(0, 4), blame(2, 5)];
    assert_eq!(card.refused_set(early.as_flattened()), (16, 0), "14 too");
    card.masks.fill(0b11111);
    let stale = set(2, &[0, 2, 0]);
    assert_eq!(card.refused_set(stale.as_flattened()), (16, 0), "10 too");
}

#[test]
fn refusals_14_and_10_of_a_set() {
    let mut card = Card::made(1, 2, 6, &chain(2, &[1, 2]), 3);
    card.masks[3] = 0b101;
    let early = set(4, &[0, 2]);
    assert_eq!(
        card.refused_set(early.as_flattened()),
        (14, 0),
        "14 before 10"
    );
    assert_eq!(card.refused_set(set(6, &[3]).as_flattened()), (14, 0));
    for round in [1, 3] {
        card.masks[round as usize - 1] = 0b1101;
        for signers in [&[0][..], &[2, 0], &[3, 0, 2]] {
            let stale = set(round, signers);
            assert_eq!(card.refused_set(stale.as_flattened()), (10, 0));
        }
    }
}

#[test]
fn bits_already_set_are_passed_over() {
    for signers in [[0, 2, 4], [4, 2, 0], [2, 4, 0]] {
        let mut card = Card::made(1, 3, 6, &chain(3, &[1, 2]), 3);
        card.masks[1] = 0b10100;
        assert_eq!(told(card.blames(&set(2, &signers))), (0, 0));
        assert_eq!(card.masks, [0, 0b10101, 0, 0, 0, 0]);
    }
}

#[test]
fn a_set_for_an_older_round_moves_nothing() {
    let mut card = Card::made(1, 1, 6, &chain(1, &[1, 2]), 3);
    let record = Record {
        left: 1,
        ..card.record
    };
    card.record = record;
    let answer = card.blames(&set(2, &[2, 0, 1]));
    assert_eq!((told(answer), answer.frames, answer.leader), ((0, 0), 0, 2));
    assert_eq!((card.record, card.masks[1]), (record, 7));
}

#[test]
fn a_set_that_does_not_show_r_moves_nothing() {
    let mut card = Card::made(1, 3, 6, &[], 1);
    card.masks[0] = 1 << 7;
    card.record.left = 1;
    let record = card.record;
    let answer = card.blames(&set(1, &[6, 0, 3]));
    assert_eq!((told(answer), answer.leader), ((0, 0), 0));
    assert_eq!(
        card.record, record,
        "three of seven; bits from n on do not count"
    );
    assert_eq!(card.masks[0], 0b1100_1001);
}

#[test]
fn r_grows_once_for_a_set() {
    let all: Vec<u8> = (0..15).rev().collect();
    for count in 8..=15 {
        let mut card = Card::made(5, 7, 64, &[], 1);
        card.record.left = 0;
        let answer = card.blames(&set(1, &all[..count]));
        assert_eq!((told(answer), answer.frames, answer.leader), ((0, 0), 0, 1));
        assert_eq!((card.record.round, card.record.left), (2, 2));
        assert_eq!(card.masks[0], 0x7fff >> (15 - count) << (15 - count));
        assert!(card.masks[1..].iter().all(|&mask| mask == 0));
    }
    let mut card = Card::made(5, 7, 64, &[], 1);
    card.masks[..2].fill(0x7f);
    card.blames(&set(1, &all));
    assert_eq!((card.record.round, card.masks[1]), (2, 0x7f));
}

#[test]
fn a_set_that_shows_r_may_put_out_a_block() {
    let frames = chain(2, &[1, 2]);
    let mut card = Card::made(3, 2, 6, &frames, 3);
    card.entry = b"entry".to_vec();
    let answer = card.blames(&set(3, &[0, 1, 2, 4]));
    let block = block(3, 4, 3, frame::name(&frames[1]), b"entry");
    assert_eq!((told(answer), answer.frames, answer.leader), ((0, 0), 1, 4));
    assert_eq!(card.out, [block, [0xee; SIZE]].as_flattened());
    assert_eq!(card.line(), [1, 2, 4]);
    assert_eq!((card.record.round, card.record.tip_round), (5, 4));
    assert_eq!(card.record.committed_round, 2);
    assert_eq!(card.masks, [0, 0, 0b10111, 0, 0, 0]);
}

#[test]
fn a_set_that_shows_the_last_round_ends_the_term() {
    let mut card = Card::made(0, 1, 3, &chain(1, &[1, 2]), 3);
    let answer = card.blames(&set(3, &[1, 2, 0]));
    assert_eq!((answer.record.round, answer.leader), (4, 255));
    assert_eq!(card.refused_set(&blame(0, 3)), (3, 0));
}

/// Records, masks and frames of every kind: the same answer and the same bytes.
#[test]
fn a_set_of_one_is_a_blame() {
    let mut damaged = blame(0, 3);
    damaged[511] ^= 1;
    let frames = [
        blame(0, 3),
        blame(2, 3),
        blame(0, 2),
        blame(0, 4),
        blame(3, 3),
        chain(1, &[1])[0],
        damaged,
    ];
    for (frame, mask) in frames.iter().flat_map(|frame| [(frame, 0), (frame, 1)]) {
        for (own, bytes) in [(0, SIZE), (1, SIZE), (2, SIZE), (1, 511), (1, 0)] {
            let made = || {
                let mut card = Card::made(own, 1, 6, &chain(1, &[1, 2]), 3);
                card.masks[2] = mask;
                card
            };
            let (mut one, mut other) = (made(), made());
            let blames = under_test().blames(one.record, &frame[..bytes], one.lend());
            assert_eq!(blames, other.blame(&frame[..bytes]));
            assert!(one.log == other.log && one.masks == other.masks);
            assert!(one.out == other.out);
        }
    }
}

/// Handed in one by one, the frames of a set that is taken leave what the set does.
#[test]
fn a_set_leaves_what_its_blames_leave() {
    for own in [1, 3] {
        let made = || Card::made(own, 2, 6, &chain(2, &[1, 2]), 3);
        let (mut one, mut other) = (made(), made());
        let signers = [4, 0, 2];
        let answer = one.blames(&set(3, &signers));
        let last = signers.map(|signer| other.blame(&blame(signer, 3)))[2];
        assert_eq!(answer, last);
        assert!(one.log == other.log && one.masks == other.masks);
        assert!(one.out == other.out);
    }
}
