//! Refusals 1 to 15, each in its place.

use beside::frame::{self, blame, Frame, SIZE};
use beside::library::under_test;
use beside::model::Record;

use crate::common::{chain, double, gave, set, told, Card};

#[test]
fn refusal_1_set_up() {
    let setups = [
        (0, 0, 1, 2),
        (0, 8, 1, 2),
        (0, 1, 0, 2),
        (0, 1, 60_001, 2),
        (3, 1, 1, 2),
    ];
    for (own, f, wait, term) in setups {
        let answer = Card::closed(2).try_open(own, f, wait, term);
        assert_eq!((told(answer), answer.leader), ((1, 0), 255));
        assert_eq!(answer.record, Record::default());
    }
    for term in [0, 1, 3, 4_097] {
        assert_eq!(told(Card::closed(2).try_open(0, 1, 1, term)), (1, 0));
    }
    let mut card = Card::closed(2);
    card.masks.push(0);
    assert_eq!(told(card.try_open(0, 1, 1, 2)), (1, 0));
    assert!(
        card.log.iter().all(|&byte| byte == 7),
        "a refused open writes nothing"
    );
}

#[test]
fn refusal_2_record() {
    let changes: [fn(&mut Record); 10] = [
        |record| record.own = 0,
        |record| record.f = 0,
        |record| record.wait = 0,
        |record| record.term = 7,
        |record| record.round = 8,
        |record| record.left = 3,
        |record| record.tip_round = 4,
        |record| record.tip_height = 4,
        |record| record.committed_round = 4,
        |record| record.committed_height = 3,
    ];
    for change in changes {
        let frames = chain(1, &[1, 2, 3, 4]);
        let mut card = Card::made(1, 1, 6, &frames[..3], 4);
        card.commit(2, 2);
        change(&mut card.record);
        let handed = card.record;
        assert_eq!(told(card.branch(&frames[3..])), (2, 0));
        assert_eq!(told(card.blame(&blame(0, 4))), (2, 0));
        assert_eq!(told(card.blames(&set(4, &[0, 2]))), (2, 0));
        assert_eq!(told(card.tick()), (2, 0));
        assert_eq!((card.read(1).number, card.fetch(0).number), (2, 2));
        assert_eq!(card.record, handed, "a refusal gives the record back");
        let number = card.equivocation(&double(0, 1)).number;
        let expected = if handed.term == 7 { 0 } else { 2 };
        assert_eq!(number, expected, "equivocation is lent no log");
    }
    let mut card = Card::made(2, 1, 6, &[], 1);
    card.masks.pop();
    assert_eq!(told(card.tick()), (2, 0));
    assert_eq!(card.read(1).number, 15, "read is lent no masks");
    for term in [0, 4_097, u32::MAX] {
        card.record.term = term;
        assert_eq!(card.refused_pair(double(0, 1).as_flattened()), (2, 0));
    }
}

#[test]
fn refusal_3_term_over() {
    let mut card = Card::made(1, 1, 3, &chain(1, &[1, 2, 3]), 4);
    card.out.clear();
    assert_eq!(told(card.branch(&chain(1, &[1]))), (3, 0));
    assert_eq!(told(card.blame(&blame(0, 1))), (3, 0));
    assert_eq!(told(card.blames(&[])), (3, 0), "3 before 4 and 6");
    assert_eq!(told(card.tick()), (3, 0));
}

#[test]
fn refusals_4_and_5() {
    let frames = chain(1, &[1]);
    for (out, number) in [(1023, 4), (1024, 5)] {
        let mut card = Card::made(1, 1, 3, &[], 1);
        card.entry = vec![0; 401];
        card.out = vec![0; out];
        assert_eq!(told(card.branch(&frames)), (number, 0));
        assert_eq!(told(card.blame(&blame(0, 1))), (number, 0));
        assert_eq!(told(card.blames(&[])), (number, 0), "before 6");
        assert_eq!(told(card.tick()), (number, 0));
        assert_eq!(told(card.try_open(0, 1, 1, 3)), (number, 0));
        assert_eq!(card.fetch(0).number, if number == 4 { 4 } else { 15 });
        assert_eq!(card.read(0).number, 15);
    }
}

#[test]
fn refusal_6_cut() {
    let frames = chain(1, &[1, 2]);
    let mut card = Card::made(2, 1, 2, &[], 1);
    let record = card.record;
    for bytes in [0, 1, 511, 513, 1023, 1025] {
        let mut all = frames.as_flattened().to_vec();
        all.resize(bytes, 0);
        assert_eq!(told(under_test().branch(record, &all, card.lend())), (6, 0));
        assert_eq!(told(under_test().blame(record, &all, card.lend())), (6, 0));
    }
    let three = [frames[0], frames[1], frames[1]];
    assert_eq!(told(card.branch(&three)), (6, 0), "more than T");
    assert_eq!(told(card.blame(frames.as_flattened())), (6, 0));
}

#[test]
fn refusals_7_8_9_frame_by_frame() {
    let good = chain(1, &[1, 2, 3]);
    let mut card = Card::made(1, 1, 6, &[], 1);
    let mut frames = good.clone();
    frames[1][100] ^= 1;
    assert_eq!(told(card.branch(&frames)), (7, 1));
    frame::seal(&mut frames[1]);
    assert_eq!(told(card.branch(&frames)), (8, 1), "a byte after the entry");
    let mut frames = good.clone();
    frames.swap(1, 2);
    assert_eq!(told(card.branch(&frames)), (9, 1));
    frames[2][0] = 9;
    assert_eq!(
        told(card.branch(&frames)),
        (9, 1),
        "9 of a frame before 7 of the next"
    );
    let mut bad = blame(0, 1);
    bad[480] ^= 1;
    assert_eq!(told(card.blame(&bad)), (7, 0));
    assert_eq!(told(card.blame(&good[0])), (8, 0));
    assert_eq!(told(card.blame(&blame(3, 1))), (8, 0));
    assert_eq!(told(card.blame(&blame(0, 7))), (8, 0));
}

/// Makes a frame one that is refused for 7, for 8 or, if it is a block, for 9.
fn spoil(frame: &mut Frame, number: u8) {
    frame[if number == 9 { 12 } else { 479 }] ^= 1;
    if number > 7 {
        frame::seal(frame);
    }
}

/// One or two frames spoiled in every way and at every place: number and place are the lower one's.
fn lowest_is_told(good: &[Frame], numbers: &[u8], mut hand_in: impl FnMut(&[Frame]) -> (u8, u32)) {
    let ways = |from| (from..good.len()).flat_map(|at| numbers.iter().map(move |&why| (at, why)));
    for (place, number) in ways(0).filter(|&way| way != (0, 9)) {
        let mut frames = good.to_vec();
        spoil(&mut frames[place], number);
        let told = (number, place as u32);
        assert_eq!(hand_in(&frames), told, "of {}", good.len());
        for (later, other) in ways(place + 1) {
            let mut frames = frames.clone();
            spoil(&mut frames[later], other);
            let what = format!("{other} at {later} of {}", good.len());
            assert_eq!(hand_in(&frames), told, "{what}");
        }
    }
}

#[test]
fn refusals_7_8_9_of_the_lowest_frame_of_up_to_13() {
    let mut card = Card::made(1, 1, 13, &[], 1);
    for last in 1..=13 {
        let good = chain(1, &Vec::from_iter(1..=last));
        lowest_is_told(&good, &[7, 8, 9], |frames| told(card.branch(frames)));
    }
}

#[test]
fn refusals_7_and_8_of_the_lowest_frame_of_every_set() {
    let mut card = Card::made(1, 7, 2, &[], 1);
    for n in 1..=15 {
        let good = set(1, &Vec::from_iter(0..n));
        lowest_is_told(&good, &[7, 8], |frames| told(card.blames(frames)));
    }
}

#[test]
fn refusal_8_at_every_field_of_a_block() {
    let harms: [fn(&mut Frame); 9] = [
        |frame| frame[0] = 2,
        |frame| frame[1] = 1,
        |frame| frame::set_length(frame, 401),
        |frame| frame::set_round(frame, 0),
        |frame| frame::set_round(frame, 7),
        |frame| frame::set_height(frame, 0),
        |frame| frame::set_height(frame, 2),
        |frame| frame[45] = 1,
        |frame| frame[479] = 1,
    ];
    for harm in harms {
        let mut card = Card::made(1, 1, 6, &[], 1);
        let mut frame = chain(1, &[1])[0];
        harm(&mut frame);
        frame::seal(&mut frame);
        assert_eq!(told(card.branch(&[frame])), (8, 0));
    }
}

#[test]
fn refusals_10_and_14_of_a_blame() {
    let mut card = Card::made(1, 1, 6, &chain(1, &[1, 2]), 3);
    card.masks[3] = 1;
    assert_eq!(told(card.blame(&blame(0, 4))), (14, 0), "14 before 10");
    card.masks[2] = 1;
    assert_eq!(told(card.blame(&blame(0, 3))), (10, 0));
    assert_eq!(told(card.blame(&blame(0, 2))), (0, 0));
    assert_eq!(card.record.round, 3, "an older round moves nothing");
    let answer = card.blame(&blame(2, 3));
    assert_eq!((answer.record.round, answer.leader), (4, 0));
}

#[test]
fn refusals_11_13_12() {
    let frames = chain(1, &[1, 2, 3]);
    let mut card = Card::made(2, 1, 6, &frames[..1], 2);
    assert_eq!(told(card.branch(&frames[2..])), (11, 0));
    let far = chain(1, &[3, 4]);
    assert_eq!(told(card.branch(&far)), (13, 1));
    card.commit(1, 1);
    assert_eq!(told(card.branch(&far)), (13, 1), "13 before 12");
    card.masks[..2].fill(7);
    assert_eq!(told(card.branch(&far)), (12, 0));
}

#[test]
fn refusal_15_absent() {
    let mut card = Card::made(1, 1, 6, &chain(1, &[1, 2]), 3);
    assert_eq!(card.read(1).number, 15);
    card.commit(1, 1);
    let part = card.read(1);
    assert_eq!((part.number, part.start, part.length), (0, 44, 1));
    assert_eq!(card.read(2).number, 15);
    assert_eq!(card.fetch(2), gave(15, 0));
    assert_eq!(card.fetch(1), gave(0, 1));
    assert_eq!(card.out_frame(1), &[0xee; SIZE], "later bytes untouched");
    assert_eq!(card.fetch(0), gave(0, 2));
}
