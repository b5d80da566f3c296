//! Who may be marked, and by which calls.

use beside::call::{Call, Step, What};
use beside::coverage::Coverage;
use beside::frame::{blame, block, name, GENESIS};
use beside::library::{Library, Model};
use beside::model::{self, Answer, Marked, Record, Setup};
use beside::replaced::{honest, Ask, Equivocation, Machine, Replaced};
use beside::runner::Runner;

use crate::common::{beside_a_dead_card, double, head, pair, Cards, FORGED, HOLDS};

/// Takes one block twice, and marks its signer.
fn takes_equal_blocks(record: Record, frames: &[u8]) -> Marked {
    let marked = model::equivocation(record, frames);
    match marked.number {
        18 => Marked {
            number: 0,
            record: Record {
                equivocators: record.equivocators | 1 << frames[1],
                ..record
            },
            ..marked
        },
        _ => marked,
    }
}

/// What is told when the block of round 1, by card 0, is handed in twice to card 1, after what a list did before.
fn handed_twice(sound: u16, before: fn(&mut Cards)) -> Result<u8, String> {
    let library = Replaced::equivocation(takes_equal_blocks);
    let mut cards = Cards::open(1, &[0, 1, 2], sound, &library);
    let first = cards.line(0, 0)[0];
    before(&mut cards);
    cards.told(1, pair([first, first]))
}

/// No other premise is needed: neither the count of sound cards, nor that sound leaders are not blamed, nor that other frames are not
/// forged; and the marked record may be that of a card that is not sound.
#[test]
fn no_sound_card_is_marked_whatever_other_premise_fails() {
    let message = "claim: sound card 0 is marked in the record of card 1";
    for sound in [0b111, 0b011, 0b001, 0b101] {
        let told = handed_twice(sound, |_| ());
        assert_eq!(told, Err(message.into()), "{sound:#b}");
    }
    let blamed = |cards: &mut Cards| {
        assert_eq!(cards.step(1, What::Tick), 0);
        let broken = Some("a sound card blamed a sound leader's round");
        assert_eq!(cards.runner.claims.broken(), broken);
    };
    assert_eq!(handed_twice(0b111, blamed), Err(message.into()));
    let forged = |cards: &mut Cards| {
        let other = block(0, 1, 1, &GENESIS, b"forged");
        assert_eq!(cards.branch(1, &[other]), 0);
        assert_eq!(cards.step(2, pair(double(0, 1))), 0);
        assert_eq!(cards.step(1, pair(double(1, 2))), 0);
        assert_eq!(cards.runner.claims.broken(), FORGED);
        assert_eq!((cards.marks(1), cards.marks(2)), (0b10, 0b1));
    };
    assert_eq!(handed_twice(0b111, forged), Err(message.into()));
}

/// Forged blocks that equivocation refused excuse no mark; those that it took do.
#[test]
fn forged_blocks_that_were_refused_excuse_nothing() {
    let refused = |cards: &mut Cards| {
        let [one, mut damaged] = double(0, 1);
        damaged[511] ^= 1;
        assert_eq!(cards.step(1, pair([one, damaged])), 7);
        assert_eq!(cards.step(1, pair([one, blame(0, 1)])), 8);
        assert_eq!((cards.marks(1), cards.runner.claims.broken()), (0, FORGED));
    };
    let message = "claim: sound card 0 is marked in the record of card 1";
    assert_eq!(handed_twice(0b111, refused), Err(message.into()));
    let taken = |cards: &mut Cards| assert_eq!(cards.step(1, pair(double(0, 1))), 0);
    assert_eq!(handed_twice(0b111, taken), Ok(0));
}

/// A card of that number which is not sound, or a record that calls did not make.
#[test]
fn marks_of_cards_that_are_not_sound_are_not_told() {
    let opened_again = |cards: &mut Cards| {
        let setup = Setup {
            own: 0,
            f: 1,
            wait: 1,
            term: 8,
        };
        let seats = cards.head.seats().to_vec();
        assert_eq!(cards.step(0, What::Open(setup, seats)), 0);
    };
    assert_eq!(handed_twice(0b110, |_| ()), Ok(0));
    assert_eq!(handed_twice(0b111, opened_again), Ok(0));
    assert_eq!(handed_twice(0b111, |cards| cards.write(0)), Ok(0));
    assert_eq!(handed_twice(0b111, |cards| cards.write(1)), Ok(0));
}

/// With two blocks forged in its name a sound card is marked, and nothing is told; nor is it later, when its real block comes,
/// by a branch and beside a forged one.
#[test]
fn two_forged_blocks_mark_a_sound_card() {
    let mut cards = Cards::open(1, &[0, 1, 2], 0b111, &Model);
    let (first, forged) = (cards.line(0, 0), double(0, 1));
    assert_eq!(cards.step(1, pair(forged)), 0);
    assert_eq!((cards.marks(1), cards.end()), (0b1, (FORGED, Ok(()))));
    assert_eq!(cards.branch(1, &first), 0);
    assert_eq!(cards.step(1, pair([first[0], forged[0]])), 0);
    assert_eq!((cards.marks(1), cards.end()), (0b1, (FORGED, Ok(()))));
}

/// One forged block beside the real one is enough.
#[test]
fn a_forged_block_beside_the_real_one_marks_a_sound_card() {
    let mut cards = Cards::open(1, &[0, 1, 2], 0b111, &Model);
    let first = cards.line(0, 0)[0];
    let forged = block(0, 1, 1, &GENESIS, b"forged");
    assert_eq!(cards.step(1, pair([first, forged])), 0);
    assert_eq!(cards.step(1, What::Tick), 0);
    assert_eq!((cards.marks(1), cards.end()), (0b1, (FORGED, Ok(()))));
}

/// f = 1: cards 0 and 2 are sound and mark card 1 by its own two blocks, each time it is told of them.
#[test]
fn marks_stand_while_the_premises_hold() {
    let mut cards = Cards::open(1, &[0, 2], 0b101, &Model);
    let first = cards.line(0, 0);
    let two = [b"1", b"2"].map(|entry| block(1, 2, 2, name(&first[0]), entry));
    for card in [0, 2] {
        assert_eq!(cards.step(card, pair(two)), 0);
        assert_eq!(cards.step(card, pair([two[1], two[0]])), 0);
    }
    assert_eq!(cards.branch(2, &first), 0);
    assert_eq!(
        (cards.branch(0, &two[..1]), cards.branch(2, &two[1..])),
        (0, 0)
    );
    let third = cards.line(2, 2);
    assert_eq!(cards.branch(0, &[two[1], third[0]]), 0);
    assert_eq!([cards.marks(0), cards.marks(2)], [0b10; 2]);
    assert_eq!(cards.step(0, pair([third[0], third[0]])), 18);
    assert_eq!(cards.end(), HOLDS);
}

/// Calls that change marks, and what is told of each after card 1 was marked at card 2.
fn changed_by(machine: Machine, what: What) -> String {
    let library = Replaced::machine(machine);
    let mut cards = Cards::open(1, &[0, 2], 0, &library);
    assert_eq!(cards.step(2, pair(double(1, 2))), 0);
    assert_eq!(cards.marks(2), 0b10);
    cards.told(2, what).expect_err("a claim")
}

fn with_marks(answer: Answer, equivocators: u16) -> Answer {
    let record = Record {
        equivocators,
        ..answer.record
    };
    Answer { record, ..answer }
}

#[test]
fn marks_that_calls_change_are_told() {
    let clears: Machine = |ask, lent| with_marks(honest(ask, lent), 0);
    let sets: Machine = |ask, lent| {
        let answer = honest(ask, lent);
        let marks = answer.record.equivocators;
        match ask {
            Ask::Open(..) => answer,
            _ => with_marks(answer, marks | 0b1),
        }
    };
    let first = block(0, 1, 1, &GENESIS, b"");
    let calls = [
        ("branch", What::Branch(first.to_vec())),
        ("blame", What::Blame(blame(1, 1).to_vec())),
        ("blames", What::Blames(blame(1, 1).repeat(2))),
        ("tick", What::Tick),
    ];
    for (word, call) in calls {
        let cleared = format!("claim: {word} made the marks 0b0 of 0b10");
        assert_eq!(changed_by(clears, call.clone()), cleared);
        let set = format!("claim: {word} made the marks 0b11 of 0b10");
        assert_eq!(changed_by(sets, call), set);
    }
    let opens: Machine = |ask, lent| match ask {
        Ask::Open(..) => with_marks(honest(ask, lent), 0b100),
        _ => honest(ask, lent),
    };
    let library = Replaced::machine(opens);
    let mut runner = Runner::beside(&library, &library, &head(0));
    let open = Step::Call(beside_a_dead_card()[0].clone());
    let told = runner.step(&open, &mut Coverage::new()).err();
    assert_eq!(
        told.as_deref(),
        Some("claim: open made the marks 0b100 of 0b0")
    );
}

/// Marks a second card, too.
fn marks_two(record: Record, frames: &[u8]) -> Marked {
    let mut marked = model::equivocation(record, frames);
    if marked.number == 0 {
        marked.record.equivocators |= 0b101;
    }
    marked
}

/// Leaves no mark but the new one.
fn marks_anew(mut record: Record, frames: &[u8]) -> Marked {
    record.equivocators = 0;
    model::equivocation(record, frames)
}

#[test]
fn equivocation_sets_one_mark_and_clears_none() {
    let slips: [(Equivocation, u8, &str); 2] = [
        (marks_two, 18, "0b111 of 0b0"),
        (marks_anew, 0, "0b10 of 0b1"),
    ];
    for (slip, number, part) in slips {
        let library = Replaced::equivocation(slip);
        let mut cards = Cards::open(1, &[1], 0, &library);
        let [one, other] = double(0, 1);
        let second = if number == 18 { one } else { other };
        assert_eq!(cards.step(1, pair([one, second])), number);
        let message = format!("claim: equivocation made the marks {part}");
        assert_eq!(cards.told(1, pair(double(1, 2))), Err(message));
    }
}

/// Marks card 1 where card 0 is marked, and card 0 elsewhere.
fn marks_the_other(record: Record, frames: &[u8]) -> Marked {
    let mut marked = model::equivocation(record, frames);
    if marked.number == 0 {
        let other = 1 << (record.equivocators & 1);
        marked.record.equivocators = record.equivocators | other;
    }
    marked
}

/// What is told of a pair of card 2's blocks where cards 0 and 2 are marked. The entry, that no pair needs, decides whether the
/// call is made with other marks too, and with which.
fn told_with_entry(library: &dyn Library, entry: u8) -> Option<String> {
    let mut cards = Cards::open(1, &[1], 0, library);
    let mut call = Call::new(&cards.head, 1, pair(double(2, 3)));
    let record = cards.runner.sides()[1].record;
    call.record = Some(Record {
        equivocators: 0b101,
        ..record
    });
    call.entry = vec![entry];
    let step = cards.runner.step(&Step::Call(call), &mut Coverage::new());
    step.err()
}

/// Also where each record holds the other's new mark already.
#[test]
fn both_records_get_the_same_mark() {
    let library = Replaced::equivocation(marks_the_other);
    let told: Vec<_> = (0..=255)
        .filter_map(|entry| told_with_entry(&library, entry))
        .collect();
    for other in ["0b0", "0b10", "0b110"] {
        let message = format!(
            "claim: equivocation with the marks {other} in the record, not 0b101, differs in more \
             than these marks"
        );
        assert!(told.contains(&message), "{other}: {told:?}");
    }
    let honest = (0..=255).find_map(|entry| told_with_entry(&Model, entry));
    assert_eq!(honest, None);
}
