//! When the claims about the search are due.

use beside::call::Step;
use beside::coverage::Coverage;
use beside::frame::SIZE;
use beside::model::{self, Search};
use beside::replaced::{Find, Replaced};
use beside::runner::{Runner, Side};

use crate::common::{beside_a_dead_card, head, written};

fn one_slot_more(log: &[u8], limit: u32) -> Search {
    let search = model::search(log, limit);
    Search {
        slots_read: search.slots_read + 1,
        ..search
    }
}

fn none_found(log: &[u8], limit: u32) -> Search {
    Search {
        round: 0,
        ..model::search(log, limit)
    }
}

/// Makes the calls beside a dead card with the same search on both sides; the call that failed and what was told.
fn told(search: Find, sound: u16, rules: bool) -> Result<Vec<Side>, (usize, String)> {
    let library = Replaced::search(search);
    let mut runner = Runner::beside(&library, &library, &head(sound));
    if !rules {
        runner.claims.rules = None;
    }
    for (index, call) in beside_a_dead_card().into_iter().enumerate() {
        let step = runner.step(&Step::Call(call), &mut Coverage::new());
        step.map_err(|message| (index, message))?;
    }
    Ok(runner.sides().to_vec())
}

#[test]
fn the_search_reads_f_and_1_slots_beside_a_dead_card() {
    let sides = told(model::search, 0b110, true).expect("the model is itself");
    let expected = Search {
        round: 3,
        slots_read: 2,
    };
    assert_eq!(sides[1].record.round, 6);
    assert_eq!(
        model::search(sides[1].log.part(SIZE * 8), 6 - 1 - 1),
        expected
    );
}

#[test]
fn more_slots_are_told_while_the_premises_hold() {
    let message = "claim: the search of card 1 read 3 slots, more than f + 1";
    let told = told(one_slot_more, 0b110, false).err();
    assert_eq!(told, Some((10, message.into())));
}

/// A sound card's round was blamed; too few cards are sound.
#[test]
fn more_slots_are_not_told_where_a_premise_fails() {
    for sound in [0b111, 0b010] {
        assert!(told(one_slot_more, sound, false).is_ok());
    }
}

#[test]
fn slots_beyond_the_shown_rounds_are_told_whoever_is_sound() {
    let message = "claim: the search of card 2 read 2 slots, with 0 shown rounds in a row from R - 1 - f down";
    for sound in [0b110, 0b111, 0b010, 0] {
        let told = told(one_slot_more, sound, true).err();
        assert_eq!(told, Some((6, message.into())));
    }
}

#[test]
fn another_round_than_the_committed_one_is_told() {
    let message = "claim: the search of card 2 found round 0, committed is round 2";
    let told = told(none_found, 0, true).err();
    assert_eq!(told, Some((6, message.into())));
}

/// The host writes card 2's state as it is: from there on nothing is due for it.
#[test]
fn nothing_is_told_of_a_card_whose_host_wrote_its_state() {
    let library = Replaced::search(one_slot_more);
    let mut runner = Runner::beside(&library, &library, &head(0));
    for (index, call) in beside_a_dead_card().into_iter().enumerate() {
        if index == 6 {
            let state = written(&runner.sides()[2]);
            let written = runner.step(&Step::Write(2, state), &mut Coverage::new());
            assert!(written.is_ok());
        }
        let step = runner.step(&Step::Call(call), &mut Coverage::new());
        match index {
            7 => {
                let message = step.expect_err("due for card 1");
                assert!(message.starts_with("claim: the search of card 1 read 2 slots"));
                return;
            }
            _ => assert!(step.is_ok()),
        }
    }
}
