//! Two blocks of one round: what is refused as none.

use beside::frame::{self, blame, block, Frame, GENESIS};
use beside::library::under_test;
use beside::model::{in_turn, leader};

use crate::common::{chain, double, made_with, marked, seat, shuffled, Card};

/// Lengths other than 1,024, also some that are 1,024 in 16 bits.
const LENGTHS: [usize; 16] = [
    0, 1, 480, 511, 512, 513, 1022, 1023, 1025, 1535, 1536, 1537, 2048, 65_535, 66_560, 132_096,
];

/// 6 comes after 2 and before 7.
#[test]
fn a_pair_of_another_length_is_cut() {
    let mut card = Card::made(1, 1, 6, &[], 1);
    let frames = double(0, 1).as_flattened().repeat(129);
    for length in LENGTHS {
        card.record.own = 1;
        assert_eq!(card.refused_pair(&frames[..length]), (6, 0), "{length}");
        assert_eq!(card.refused_pair(&vec![9; length]), (6, 0), "{length}");
        card.record.own = 0;
        assert_eq!(card.refused_pair(&frames[..length]), (2, 0), "{length}");
    }
    assert_eq!(card.refused_pair(&frames[..1024]), (2, 0));
    card.record.own = 1;
    assert_eq!(card.refused_pair(&[9; 1024]), (7, 0));
    let record = card.record;
    let taken = under_test().equivocation(record, &frames[..1024]);
    assert_eq!(taken, marked(record, 0));
}

/// 7 and 8 of the first frame, then of the second; 18 after both.
#[test]
fn refusals_7_and_8_of_a_pair_frame_by_frame() {
    let card = Card::made(1, 1, 6, &[], 1);
    let [good, other] = double(0, 1);
    let (mut check, mut form) = (other, other);
    check[100] ^= 1;
    form[100] ^= 1;
    frame::seal(&mut form);
    let expected = [
        ([check, good], (7, 0)),
        ([good, check], (7, 1)),
        ([check, check], (7, 0)),
        ([form, good], (8, 0)),
        ([good, form], (8, 1)),
        ([form, form], (8, 0)),
        ([check, form], (7, 0)),
        ([form, check], (8, 0)),
        ([good, good], (18, 0)),
    ];
    for (pair, told) in expected {
        assert_eq!(card.refused_pair(pair.as_flattened()), told);
    }
}

#[test]
fn refusal_8_at_every_field_of_a_pair() {
    let harms: [fn(&mut Frame); 14] = [
        |frame| frame[0] = 0,
        |frame| frame[0] = 2,
        |frame| frame[0] = 3,
        |frame| frame[1] = 1,
        |frame| frame[1] = 16,
        |frame| frame::set_length(frame, 401),
        |frame| frame::set_length(frame, 0),
        |frame| frame::set_round(frame, 0),
        |frame| frame::set_round(frame, 7),
        |frame| frame::set_height(frame, 0),
        |frame| frame::set_height(frame, 5),
        |frame| frame[45] = 1,
        |frame| frame[443] = 1,
        |frame| frame[479] = 1,
    ];
    let card = Card::made(1, 1, 6, &[], 1);
    for (harm, index) in harms.iter().flat_map(|harm| [(harm, 0), (harm, 1)]) {
        let mut pair = double(0, 4);
        harm(&mut pair[index]);
        assert_eq!(card.refused_pair(pair.as_flattened()), (7, index as u32));
        frame::seal(&mut pair[index]);
        assert_eq!(card.refused_pair(pair.as_flattened()), (8, index as u32));
    }
}

#[test]
fn blames_are_no_pair() {
    let card = Card::made(1, 1, 6, &[], 1);
    let (one, blame) = (double(0, 1)[0], blame(0, 1));
    let expected = [
        ([one, blame], (8, 1)),
        ([blame, one], (8, 0)),
        ([blame, blame], (8, 0)),
    ];
    for (pair, told) in expected {
        assert_eq!(card.refused_pair(pair.as_flattened()), told);
    }
}

/// Each round of two turns, each signer but the leader, in the first frame, in the second and in both.
#[test]
fn both_signers_of_a_pair_are_the_leader() {
    for f in [1, 2, 7] {
        let (seats, last) = (shuffled(f, 18), 4 * u32::from(f) + 2);
        for round in 1..=last {
            let card = made_with(&seats, last, 1);
            let lead = seat(&seats, round);
            let good = double(lead, round);
            let aliens = [15, 16, 255, lead | 16, lead | 32, lead | 128];
            let signers = (0..seats.len() as u8).chain(aliens);
            for signer in signers.filter(|&signer| signer != lead) {
                let bad = double(signer, round);
                let pairs = [([bad[0], good[1]], 0), ([good[0], bad[1]], 1), (bad, 0)];
                for (pair, place) in pairs {
                    assert_eq!(card.refused_pair(pair.as_flattened()), (8, place));
                }
            }
        }
    }
}

/// Equal frames; two rounds, of one leader and of two; whatever is marked already.
#[test]
fn refusal_18_equal_names_or_two_rounds() {
    let seats = [2, 0, 1];
    for (at, marks) in [(1, 0), (7, 0), (1, 0b100), (7, 0b111)] {
        let mut card = made_with(&seats, 6, at);
        card.record.equivocators = marks;
        for (one, other) in (1..=6).flat_map(|one| (1..=6).map(move |other| (one, other))) {
            let first = double(seat(&seats, one), one)[0];
            let index = usize::from(one != other && (one + other) % 2 == 0);
            let second = double(seat(&seats, other), other)[index];
            let pair = [first, second];
            assert_eq!(card.refused_pair(pair.as_flattened()), (18, 0));
        }
    }
}

/// A name is the check as it stands; one that is not its bytes' is 7.
#[test]
fn refusal_7_before_equal_names() {
    let card = Card::made(1, 1, 6, &[], 1);
    let [one, other] = double(0, 1);
    let (mut namesake, mut renamed) = (other, one);
    namesake[480..].copy_from_slice(frame::name(&one));
    renamed[480..].copy_from_slice(frame::name(&other));
    let expected = [
        ([one, namesake], (7, 1)),
        ([namesake, one], (7, 0)),
        ([one, renamed], (7, 1)),
        ([renamed, one], (7, 0)),
        ([namesake, namesake], (7, 0)),
    ];
    for (pair, told) in expected {
        assert_eq!(card.refused_pair(pair.as_flattened()), told);
    }
}

#[test]
fn refusal_18_after_8_of_the_second() {
    let card = Card::made(1, 1, 6, &[], 1);
    let first = double(0, 1)[0];
    for signer in [0, 2] {
        let mut pair = [first, double(signer, 2)[1]];
        assert_eq!(
            card.refused_pair(pair.as_flattened()),
            (8, 1),
            "round 2's is 1"
        );
        pair[1][200] = 1;
        assert_eq!(card.refused_pair(pair.as_flattened()), (7, 1));
    }
    let beyond = [double(2, 6)[0], double(0, 7)[0]];
    assert_eq!(card.refused_pair(beyond.as_flattened()), (8, 1));
}

/// Rounds 1 and T are a round of the term, 0 and T + 1 are none.
#[test]
fn the_rounds_of_a_pair_are_the_terms() {
    for term in [1, 2, 4, 4_096] {
        let mut card = Card::made(1, 1, term, &[], 1);
        let (record, last) = (card.record, leader(term, 1, &in_turn(1)));
        assert_eq!(card.equivocation(&double(last, term)), marked(record, last));
        for (round, signer) in [(0, 0), (0, 2), (term + 1, leader(term + 1, 1, &in_turn(1)))] {
            let pair = double(signer, round);
            assert_eq!(card.refused_pair(pair.as_flattened()), (8, 0), "{round}");
        }
    }
}

/// The term is over: nothing is refused for that.
#[test]
fn a_pair_is_judged_after_the_term() {
    let mut card = Card::open(0, 1, 1, 1);
    assert_eq!((card.record.round, card.tick().number), (2, 3));
    let [own, other] = [*card.out_frame(0), block(0, 1, 1, &GENESIS, b"other")];
    assert_eq!(card.refused_pair(&own), (6, 0));
    let mut bad = other;
    bad[511] ^= 1;
    assert_eq!(card.refused_pair([own, bad].as_flattened()), (7, 1));
    let foreign = double(1, 1)[0];
    assert_eq!(card.refused_pair([own, foreign].as_flattened()), (8, 1));
    assert_eq!(card.refused_pair([own, own].as_flattened()), (18, 0));
    let record = card.record;
    assert_eq!(card.equivocation(&[own, other]), marked(record, 0));
    assert_eq!(card.equivocation(&[other, own]), marked(record, 0));
    assert_eq!((card.tick().number, card.record.equivocators), (3, 1));
}

/// Heights, parents and entries may differ or not, the frames be held, committed, passed over or far above R.
#[test]
fn a_pair_need_not_be_linked() {
    let frames = chain(1, &[1, 2, 3]);
    let mut card = Card::made(1, 1, 9, &frames, 4);
    card.commit(2, 2);
    let far = [9; 32];
    let pairs = [
        [frames[0], block(0, 1, 1, &far, b"x")],
        [frames[2], block(2, 3, 1, &GENESIS, b"")],
        [block(0, 4, 4, &far, b""), block(0, 4, 2, &far, b"")],
        [
            block(2, 9, 9, &far, b""),
            block(2, 9, 1, &GENESIS, &[7; 400]),
        ],
        [block(2, 9, 9, &far, b"a"), block(2, 9, 9, &far, b"b")],
    ];
    for pair in pairs {
        let record = card.record;
        let expected = marked(record, frame::signer(&pair[0]));
        assert_eq!(card.equivocation(&pair), expected);
    }
    assert_eq!(card.record.equivocators, 0b101);
}
