//! What cards had earlier in a list, for the claims about what was fetched then: of each card the
//! records since it was opened, one for each block that was its committed one, and one line.

use crate::call::{Call, What};
use crate::catch_up::Card;
use crate::frame::Frame;
use crate::model::Record;
use crate::rng::Rng;
use crate::runner::Outcome;

/// One in so many calls at a card is followed by keeping its line.
const KEPT: usize = 16;

pub struct Earlier {
    /// The last with each committed block, the oldest first; none before a card is opened.
    records: Vec<Vec<Record>>,
    lines: Vec<Option<Vec<Frame>>>,
}

impl Earlier {
    pub fn new(cards: usize) -> Earlier {
        Earlier {
            records: vec![Vec::new(); cards],
            lines: vec![None; cards],
        }
    }

    /// Notes what a call left at a card, its line only while the claims are due for it.
    pub fn after(&mut self, call: &Call, outcome: &Outcome, card: Card, due: bool) {
        if let Some(record) = outcome.kept() {
            let records = &mut self.records[card.number];
            let opened = matches!(call.what, What::Open(..));
            records.retain(|had| !opened && had.committed_round != record.committed_round);
            records.push(*record);
        }
        let mut rng = Rng::new(call.seed().rotate_left(16));
        if due && rng.below(KEPT) == 0 {
            self.lines[card.number] = Some(card.above(0));
        }
    }

    /// A record that a card had since it was opened, mostly the last one before it committed more.
    pub fn record(&self, card: usize, rng: &mut Rng) -> Option<Record> {
        let records = &self.records[card];
        match (&records[..], rng.below(3)) {
            ([], _) => None,
            ([.., before, _], 1..) => Some(*before),
            _ => Some(rng.pick(records)),
        }
    }

    /// The line that a card had.
    pub fn line(&self, card: usize) -> Option<&[Frame]> {
        self.lines[card].as_deref()
    }
}
