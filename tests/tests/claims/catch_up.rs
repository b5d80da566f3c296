//! A card that comes back.

use std::collections::BTreeSet;

use beside::call::What;
use beside::catch_up::Reply;
use beside::frame::{block, name, round, signer, GENESIS, SIZE};
use beside::library::{Library, Model};
use beside::model::{slots, Answer, Lent, Record, Setup};
use beside::replaced::{again, honest, Ask, Replaced};
use beside::rng::Rng;

use crate::common::{Cards, FORGED, HOLDS};

/// f = 2, card 4 is away. The leaders of rounds 2 and 3 are silent: cards 0 and 3 pass over them with
/// the blames of card 1, and card 3 puts out a block for round 4 on that of round 1.
fn beside_an_absent_card(library: &dyn Library) -> Cards<'_> {
    let mut cards = Cards::open(2, &[0, 3, 4], 0b11001, library);
    let first = cards.line(0, 0);
    assert_eq!(cards.branch(3, &first), 0);
    for round in [2, 3] {
        assert_eq!([0, 3].map(|card| cards.step(card, What::Tick)), [0, 0]);
        assert_eq!(cards.blames(0, round, &[3, 1]), 0);
        assert_eq!(cards.blames(3, round, &[0, 1]), 0);
    }
    assert_eq!([0, 3, 4].map(|card| cards.round(card)), [4, 5, 1]);
    cards
}

/// Round 2 is above the absent card's R: the block of round 1 goes before it by itself.
#[test]
fn a_card_comes_back_by_branches_and_blames() {
    let mut cards = beside_an_absent_card(&Model);
    let frames = cards.line(3, 0);
    assert_eq!(cards.hand_in(4, 3, 2), Ok(Reply::Split(2)));
    assert_eq!(cards.blames(4, 2, &[0, 1, 3]), 14);
    assert_eq!(cards.hand_in(4, 3, 1), Ok(Reply::Taken));
    assert_eq!(cards.branch(4, &frames[..1]), 0);
    for round in [2, 3] {
        assert_eq!(cards.hand_in(4, 3, 1), Ok(Reply::Stale));
        assert_eq!(cards.hand_in(4, 3, 2), Ok(Reply::Unshown(round)));
        assert_eq!(cards.blames(4, round, &[0, 1, 3]), 0);
    }
    assert_eq!(cards.between(4, 3).frames(), &frames[1..], "1 is committed");
    assert_eq!(cards.hand_in(4, 3, 1), Ok(Reply::Taken));
    assert_eq!(cards.branch(4, &frames[1..]), 0);
    assert_eq!((&cards.line(4, 0)[..2], cards.round(4)), (&frames[..], 6));
    assert_eq!(cards.hand_in(3, 4, 2), Ok(Reply::Taken), "its own block 5");
    assert_eq!(cards.end(), HOLDS);
}

/// Takes blames of any round.
fn takes_early_blames(ask: &Ask, mut lent: Lent) -> Answer {
    let answer = honest(ask, again(&mut lent));
    let (Ask::Blames(_, bytes), 14) = (ask, answer.number) else {
        return answer;
    };
    for frame in slots(bytes) {
        lent.masks[round(frame) as usize - 1] |= 1 << signer(frame);
    }
    Answer {
        number: 0,
        ..answer
    }
}

/// Round 2 is shown before it has come, round 3 is not: the block of round 1 brings R to 2 alone, and
/// the blames of round 3 stay early.
#[test]
fn the_frames_before_a_skipped_round_bring_r_to_it() {
    let library = Replaced::machine(takes_early_blames);
    let mut cards = beside_an_absent_card(&library);
    assert_eq!(cards.hand_in(4, 3, 2), Ok(Reply::Split(2)));
    assert_eq!(cards.blames(4, 2, &[0, 1, 3]), 0);
    let message = "claim: card 4, handed the frames of card 3 below round 3, which is not shown, \
                   answered 0 and waits for round 2";
    assert_eq!(cards.hand_in(4, 3, 2), Err(message.into()));
}

fn refusal(number: u8, record: Record) -> Answer {
    Answer {
        number,
        place: 0,
        frames: 0,
        leader: 255,
        record,
    }
}

/// Refuses a branch that ends in the round waited for.
fn stale_at_r(ask: &Ask, lent: Lent) -> Answer {
    let record = ask.record();
    match ask {
        Ask::Branch(_, bytes) if slots(bytes).last().map(round) == Some(record.round) => {
            refusal(10, record)
        }
        _ => honest(ask, lent),
    }
}

/// All three frames are answered as they should be, the first by itself is not.
#[test]
fn the_first_frames_count_by_themselves() {
    let slip = Replaced::machine(stale_at_r);
    let mut cards = Cards::open(2, &[0, 1, 4], 0b10011, &Model);
    let first = cards.line(0, 0);
    assert_eq!(cards.branch(1, &first), 0);
    let second = cards.line(1, 1);
    let third = block(2, 3, 3, name(&second[0]), b"");
    assert_eq!(cards.branch(1, &[third]), 0);
    let replies = [1, 2, 3].map(|count| cards.hand_in(4, 1, count));
    assert!(replies.iter().all(|reply| *reply == Ok(Reply::Taken)));
    cards.library = &slip;
    let message = "claim: card 4, handed 1 of 3 frames of card 1 above its committed height, \
                   answered (10, 0), not (0, 0)";
    assert_eq!(cards.hand_in(4, 1, 3), Ok(Reply::Taken));
    assert_eq!(cards.hand_in(4, 1, 1), Err(message.into()));
}

/// f = 1, card 2 is silent, and cards 0 and 1 hold blocks 1 and 2. Card 0 passes over round 3 with a
/// blame of card 2, and puts out block 4.
fn ahead_of_card_1() -> Cards<'static> {
    let mut cards = Cards::open(1, &[0, 1], 0b011, &Model);
    let first = cards.line(0, 0);
    assert_eq!(cards.branch(1, &first), 0);
    let second = cards.line(1, 1);
    assert_eq!(cards.branch(0, &second), 0);
    assert_eq!(cards.step(0, What::Tick), 0);
    assert_eq!(cards.blames(0, 3, &[2]), 0);
    cards
}

/// Answers 12 to a branch that brings a committed frame again.
fn undone_by_committed_frames(ask: &Ask, lent: Lent) -> Answer {
    let record = ask.record();
    match ask {
        Ask::Branch(_, bytes) if round(&slots(bytes)[0]) <= record.committed_round => {
            refusal(12, record)
        }
        _ => honest(ask, lent),
    }
}

/// The blames after a 13 commit block 2. What was fetched before begins with it, and is taken.
#[test]
fn frames_fetched_before_blames_are_taken_after_them() {
    let slip = Replaced::machine(undone_by_committed_frames);
    let mut cards = ahead_of_card_1();
    let had = cards.record(1);
    assert_eq!((had.round, had.committed_round), (3, 1));
    let fetched = cards.line(0, had.committed_height);
    assert_eq!(fetched.iter().map(round).collect::<Vec<_>>(), [2, 4]);
    let told = |cards: &Cards| cards.hand_in_earlier([1, 0], &had, &fetched);
    assert_eq!(told(&cards), Ok(Reply::Unshown(3)));
    assert_eq!(cards.branch(1, &fetched), 13);
    assert_eq!(cards.blames(1, 3, &[0, 2]), 0);
    assert_eq!(cards.record(1).committed_round, 2);
    assert_eq!(cards.between(1, 0).frames(), &fetched[1..]);
    assert_eq!(told(&cards), Ok(Reply::Taken));
    cards.library = &slip;
    let message = "claim: card 1, handed 2 of 2 frames of card 0 above round 1, up to which it \
                   had committed, answered (12, 0), not (0, 0)";
    assert_eq!(cards.hand_in(1, 0, 1), Ok(Reply::Taken), "not of now");
    assert_eq!(told(&cards), Err(message.into()));
    cards.library = &Model;
    assert_eq!(cards.branch(1, &fetched), 0);
    assert_eq!((&cards.line(1, 1)[..2], cards.round(1)), (&fetched[..], 6));
    assert_eq!(told(&cards), Ok(Reply::Stale));
    assert_eq!(cards.end(), HOLDS);
}

/// What card 2 had committed before it was opened again does not count, as it has lost that.
#[test]
fn a_card_that_is_opened_again_had_nothing() {
    let mut cards = Cards::open(1, &[0, 1, 2], 0b011, &Model);
    let first = cards.line(0, 0);
    assert_eq!(cards.branch(1, &first), 0);
    let frames = cards.line(1, 0);
    assert_eq!(cards.branch(2, &frames), 0);
    let had = cards.record(2);
    let rounds = |cards: &Cards| {
        let record = |seed| cards.runner.earlier.record(2, &mut Rng::new(seed));
        let records = (0..20).filter_map(record);
        BTreeSet::from_iter(records.map(|record| record.committed_round))
    };
    assert_eq!((had.committed_round, rounds(&cards)), (2, [0, 2].into()));
    let setup = Setup {
        own: 2,
        f: 1,
        wait: 1,
        term: 8,
    };
    let seats = cards.head.seats().to_vec();
    assert_eq!(cards.step(2, What::Open(setup, seats)), 0);
    assert_eq!(rounds(&cards), [0].into());
    assert_eq!(cards.branch(0, &frames[1..]), 0);
    let third = block(2, 3, 3, name(&frames[1]), b"");
    assert_eq!(cards.branch(0, &[third]), 0);
    let told = cards.hand_in_earlier([2, 0], &had, &cards.line(0, 0));
    let told = told.expect_err("loose");
    assert!(told.ends_with("answered (11, 0), not (0, 0)"), "{told}");
    assert_eq!(cards.end(), HOLDS);
}

/// Puts out its block and stores it, both without a check.
fn leaves_out_the_check(ask: &Ask, mut lent: Lent) -> Answer {
    let answer = honest(ask, again(&mut lent));
    if let (Ask::Open(..), 1) = (ask, answer.frames) {
        lent.out[480..SIZE].fill(0);
        lent.log[480..SIZE].fill(0);
    }
    answer
}

/// The line's frames are looked at by themselves, and no card need be sound for that.
#[test]
fn a_line_is_a_run_of_good_blocks() {
    let library = Replaced::machine(leaves_out_the_check);
    for sound in [0b111, 0] {
        let mut cards = Cards::open(1, &[0, 1, 2], sound, &library);
        let message =
            "claim: frame 0 of the line of card 0 above height 0 is no good block, or not \
                       the child of the one before";
        assert_eq!(cards.end(), (None, Err(message.into())));
        cards.runner.claims.rules = None;
        let message = "claim: card 2, handed 1 of 1 frames of card 0 above its committed height, \
                       answered (7, 0), not (0, 0)";
        let told = (sound != 0).then(|| message.into());
        assert_eq!(cards.end().1.err(), told);
    }
}

/// The height that counts is the committed one. Card 1 has signed two blocks for round 2: card 0 has
/// one as its tip, and what card 2 holds above the tip's height stands on the other.
#[test]
fn frames_above_the_tips_height_may_be_loose() {
    let mut cards = Cards::open(1, &[0, 2], 0b101, &Model);
    let first = cards.line(0, 0);
    let [one, other] = [b"1", b"2"].map(|entry| block(1, 2, 2, name(&first[0]), entry));
    assert_eq!(cards.branch(2, &first), 0);
    assert_eq!((cards.branch(0, &[one]), cards.branch(2, &[other])), (0, 0));
    let record = cards.runner.sides()[0].record;
    assert_eq!((record.committed_height, record.tip_height), (1, 2));
    let above = cards.line(2, record.tip_height);
    assert_eq!((above.len(), round(&above[0]), record.round), (1, 3, 3));
    assert_eq!(cards.branch(0, &above), 11);
    assert_eq!(cards.between(0, 2).frames(), [other, above[0]]);
    assert_eq!(cards.hand_in(0, 2, 2), Ok(Reply::Taken));
    assert_eq!(cards.end(), HOLDS);
}

/// A giver that is behind may be on another branch: 10 comes before 11. Cards 0 and 1 have signed two
/// blocks each, and card 2 has committed one of round 1, that card 3 does not hold.
#[test]
fn frames_of_another_branch_are_stale() {
    let mut cards = Cards::open(2, &[2, 3, 4], 0b11100, &Model);
    for (card, entry) in [(2, b"1"), (3, b"2")] {
        let first = block(0, 1, 1, &GENESIS, entry);
        let second = block(1, 2, 2, name(&first), entry);
        assert_eq!(cards.branch(card, &[first, second]), 0);
    }
    assert_eq!(cards.runner.sides()[2].record.committed_round, 1);
    assert!(!cards.between(2, 3).attaches());
    assert_eq!(cards.hand_in(2, 3, 1), Ok(Reply::Stale));
    assert_eq!(cards.end(), HOLDS);
}

/// Card 2 counts among the f, and takes part lawfully. Once it was handed a forged block nothing is
/// due for it: it may have committed what sound cards lack.
#[test]
fn a_lawful_card_is_due_until_it_is_misled() {
    let mut cards = Cards::open(1, &[0, 1, 2], 0b011, &Model);
    let due = |cards: &Cards| {
        let (claims, sides) = (&cards.runner.claims, cards.runner.sides());
        [0, 1, 2].map(|card| claims.catching_up_is_due_for(card, &sides[card]))
    };
    assert_eq!((due(&cards), cards.end()), ([true; 3], HOLDS));
    let forged = block(0, 1, 1, &GENESIS, b"forged");
    let second = block(1, 2, 2, name(&forged), b"forged");
    assert_eq!(cards.branch(2, &[forged, second]), 0);
    assert_eq!(due(&cards), [true, true, false]);
    let first = cards.line(0, 0);
    assert_eq!(cards.branch(1, &first), 0);
    let second = cards.line(1, 1);
    let third = block(2, 3, 3, name(&second[0]), b"");
    assert_eq!(cards.branch(0, &[second[0], third]), 0);
    assert_eq!((cards.round(0), cards.round(2)), (5, 4));
    let told = cards.hand_in(2, 0, 2).expect_err("loose");
    assert!(told.ends_with("answered (11, 0), not (0, 0)"), "{told}");
    assert_eq!(cards.end(), HOLDS);
}

/// A card that bears another number, or has another f, T or rotation, does not.
#[test]
fn a_lawful_card_shares_what_sound_cards_share() {
    let cards = Cards::open(1, &[0, 1, 2], 0b011, &Model);
    let (claims, side) = (&cards.runner.claims, &cards.runner.sides()[2]);
    assert!(claims.is_lawful(2, side));
    let others: [fn(&mut Record); 4] = [
        |record| record.own = 1,
        |record| record.f = 2,
        |record| record.term = 7,
        |record| record.rotation.swap(0, 1),
    ];
    for change in others {
        let mut other = side.clone();
        change(&mut other.record);
        assert!(!claims.is_lawful(2, &other));
    }
}

/// Sound cards' blocks were forged, and committed lists have parted: nothing is due.
#[test]
fn where_blocks_are_forged_a_run_may_be_loose() {
    let mut cards = Cards::open(1, &[0, 2], 0b101, &Model);
    let first = block(0, 1, 1, &GENESIS, b"forged");
    let second = block(1, 2, 2, name(&first), b"");
    assert_eq!(cards.branch(2, &[first, second]), 0);
    let fourth = block(0, 4, 4, name(&cards.line(2, 2)[0]), b"forged");
    let fifth = block(1, 5, 5, name(&fourth), b"");
    assert_eq!(cards.branch(2, &[fourth, fifth]), 0);
    let second = block(1, 2, 2, name(&cards.line(0, 0)[0]), b"");
    let third = block(2, 3, 3, name(&second), b"forged");
    assert_eq!(cards.branch(0, &[second, third]), 0);
    assert_eq!((cards.round(0), cards.round(2)), (5, 7));
    let told = cards.hand_in(0, 2, 2).expect_err("loose");
    assert!(told.ends_with("answered (11, 0), not (0, 0)"), "{told}");
    assert_eq!(cards.end(), (FORGED, Ok(())));
}
