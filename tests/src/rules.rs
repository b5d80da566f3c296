//! What every card keeps to, whoever lies, while its host lends it what its last call left: no call
//! answers 2, its committed list only grows, and it ends in the highest filled slot up to R - 1 - f.
//! The search finds that slot, and reads at most one slot more than there are shown rounds in a row
//! from R - 1 - f down.

use crate::call::{Call, Head, What};
use crate::frame::{self, Frame, SIZE};
use crate::model::{limit, line, shown, Search};
use crate::runner::{Outcome, Side};

pub struct Rules {
    term: u32,
    /// The committed list of each card since it was opened; none where its host broke the rules.
    lists: Vec<Option<Vec<Frame>>>,
}

impl Rules {
    pub fn new(head: &Head) -> Rules {
        Rules {
            term: head.term,
            lists: vec![None; head.cards],
        }
    }

    /// The host wrote a card's state by itself.
    pub fn written(&mut self, card: usize) {
        self.lists[card] = None;
    }

    /// Whether a card was opened and its host has kept the rules since.
    pub fn are_kept(&self, card: usize) -> bool {
        self.lists[card].is_some()
    }

    /// Checks them after a call at a card; the side and the search are the library's.
    pub fn after(
        &mut self,
        call: &Call,
        outcome: &Outcome,
        side: &Side,
        search: Search,
    ) -> Result<(), String> {
        let taken = outcome.kept().is_some();
        match &call.what {
            What::Open(setup, _) if taken => {
                self.lists[call.card] = (setup.term == self.term).then(Vec::new);
            }
            _ if taken && call.record.is_some() => self.written(call.card),
            _ => {}
        }
        let Some(list) = &mut self.lists[call.card] else {
            return Ok(());
        };
        if outcome.number() == Some(2) && call.lends_all(self.term) {
            return Err(format!("claim: card {} answered 2", call.card));
        }
        if taken && !grow(list, side) {
            let card = call.card;
            return Err(format!("claim: the committed list of card {card} shrank"));
        }
        if taken && !is_by_rule(side) {
            let card = call.card;
            return Err(format!(
                "claim: card {card} has committed another slot than its R gives"
            ));
        }
        if taken {
            check_search(call.card, side, search)?;
        }
        Ok(())
    }
}

/// Adds what is new to a committed list; false if the side's does not begin with it.
fn grow(list: &mut Vec<Frame>, side: &Side) -> bool {
    let book = side.log.part(SIZE * side.record.committed_round as usize);
    let mut committed = line(book);
    let kept = list.iter().all(|held| committed.next() == Some(held));
    list.extend(committed);
    kept
}

/// Whether the committed slot is the last filled one of those up to R - 1 - f.
fn is_by_rule(side: &Side) -> bool {
    let record = &side.record;
    let allowed = |round: &u32| round + u32::from(record.f) < record.round;
    let filled = |round: &u32| frame::filled(side.slot(*round));
    let last = (1..=record.term).take_while(allowed).filter(filled).last();
    let height = last.map_or(0, |round| frame::height(side.slot(round)));
    (record.committed_round, record.committed_height) == (last.unwrap_or(0), height)
}

/// Every round below R is shown or has a filled slot, so the search passes over shown rounds alone.
fn check_search(card: usize, side: &Side, search: Search) -> Result<(), String> {
    let record = &side.record;
    let Search { round, slots_read } = search;
    if round != record.committed_round {
        let committed = record.committed_round;
        return Err(format!(
            "claim: the search of card {card} found round {round}, committed is round {committed}"
        ));
    }
    let masks = side.masks.part(record.term as usize);
    let shown = |round: &u32| shown(masks[*round as usize - 1], record.f);
    let rounds = (1..=limit(record.round, record.f)).rev();
    let in_a_row = rounds.take_while(shown).count() as u32;
    if slots_read > in_a_row + 1 {
        return Err(format!(
            "claim: the search of card {card} read {slots_read} slots, with {in_a_row} shown rounds \
             in a row from R - 1 - f down"
        ));
    }
    Ok(())
}
