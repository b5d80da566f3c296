//! When the claims about leaders are due.

use beside::call::{Call, Step, What};
use beside::coverage::Coverage;
use beside::frame::{block, GENESIS};
use beside::model::{Answer, Lent};
use beside::replaced::{honest, Ask, Machine, Replaced};
use beside::runner::Runner;

use crate::common::{beside_a_dead_card, head};

/// Tells card 2 whatever the round.
fn tells_card_2(ask: &Ask, lent: Lent) -> Answer {
    let answer = honest(ask, lent);
    let leader = answer.leader.max(2);
    Answer { leader, ..answer }
}

/// Tells the card before the leader, but card 1 the leader.
fn tells_two(ask: &Ask, lent: Lent) -> Answer {
    let answer = honest(ask, lent);
    match (answer.leader, answer.record.own) {
        (255, _) | (_, 1) => answer,
        (leader, _) => Answer {
            leader: (leader + 2) % 3,
            ..answer
        },
    }
}

/// What is told of the leaders when cards 1 and 2 are opened and card 1 takes block 1, so that it waits for round 3.
fn leaders_told(machine: Machine, sound: u16) -> Option<String> {
    let library = Replaced::machine(machine);
    let mut runner = Runner::beside(&library, &library, &head(sound));
    let first = block(0, 1, 1, &GENESIS, b"");
    let mut calls = beside_a_dead_card()[..2].to_vec();
    calls.push(Call::new(&head(0), 1, What::Branch(first.to_vec())));
    let step = |call| runner.step(&Step::Call(call), &mut Coverage::new()).err();
    calls.into_iter().find_map(step)
}

#[test]
fn one_leader_is_told_for_a_round_and_another_for_the_next() {
    let same = "claim: card 2 was told as the leader of rounds 3 and 1";
    assert_eq!(leaders_told(tells_card_2, 0b110).as_deref(), Some(same));
    let two = "claim: leaders 0 and 2 were told of round 1";
    assert_eq!(leaders_told(tells_two, 0b110).as_deref(), Some(two));
    for machine in [tells_card_2, tells_two] {
        assert_eq!(leaders_told(machine, 0), None, "no card is sound");
    }
    assert_eq!(leaders_told(honest, 0b110), None);
}
