//! The claims about marks, whoever lies and whatever other premise fails.
//!
//! No sound card is marked in a record that calls made, whosever it is, unless equivocation took a
//! frame forged in its name there. No call clears a mark: a card is opened without any, equivocation
//! sets at most one, and no other call sets one. And marks change nothing but themselves: on copies,
//! with other marks in the record, a call answers and leaves the same, and marks the same card.

use crate::call::{Call, Head, What};
use crate::frame;
use crate::model::{all_cards, Record, MOST_F};
use crate::rng::Rng;
use crate::runner::{Buffer, Outcome, Side};
use crate::sound::Sound;

/// Who was marked, and what else held or failed.
pub const MARKED: [&str; 6] = [
    "marked, premises hold",
    "marked, more than f cards not sound",
    "marked, a sound leader blamed",
    "marked, other frames forged",
    "marked in a card that is not sound",
    "a sound card marked by forging",
];

/// For each card the signers in whose names equivocation took forged frames; none where a host wrote
/// the record.
pub struct Marks {
    forged: Vec<Option<u16>>,
}

impl Marks {
    pub fn new(head: &Head) -> Marks {
        Marks {
            forged: vec![None; head.cards],
        }
    }

    /// The host wrote a card's record by itself.
    pub fn written(&mut self, card: usize) {
        self.forged[card] = None;
    }

    /// Whether a card's marks were all made by calls.
    pub fn are_calls(&self, card: usize) -> bool {
        self.forged[card].is_some()
    }

    /// Notes what a call that was taken did to a card's marks.
    fn taken(&mut self, call: &Call, sound: &Sound) {
        match (&call.what, &mut self.forged[call.card]) {
            (What::Open(..), forged) => *forged = Some(0),
            (_, forged) if call.record.is_some() => *forged = None,
            (What::Equivocation(_), Some(forged)) => {
                for frame in call.frames(0).iter().filter(|frame| sound.is_forged(frame)) {
                    *forged |= 1 << frame::signer(frame);
                }
            }
            _ => {}
        }
    }

    /// No sound card is marked after a call at a card; the side is the library's.
    pub fn after(
        &mut self,
        call: &Call,
        outcome: &Outcome,
        side: &Side,
        sound: &Sound,
    ) -> Result<(), String> {
        if outcome.kept().is_some() {
            self.taken(call, sound);
        }
        let Some(forged) = self.forged[call.card] else {
            return Ok(());
        };
        let marked = side.record.equivocators & sound.cards() & !forged;
        if marked == 0 {
            return Ok(());
        }
        Err(format!(
            "claim: sound card {} is marked in the record of card {}",
            marked.trailing_zeros(),
            call.card
        ))
    }
}

/// No call but open clears a mark, and no call but equivocation sets one.
pub fn check(call: &Call, handed: &Record, outcome: &Outcome) -> Result<(), String> {
    let Some(record) = outcome.record() else {
        return Ok(());
    };
    let (before, most) = match call.what {
        What::Open(..) => (0, 0),
        What::Equivocation(_) if outcome.kept().is_some() => (handed.equivocators, 1),
        _ => (handed.equivocators, 0),
    };
    let after = record.equivocators;
    let (cleared, set) = (before & !after, after & !before);
    if cleared != 0 || set.count_ones() > most {
        let word = call.word();
        return Err(format!(
            "claim: {word} made the marks {after:#b} of {before:#b}"
        ));
    }
    Ok(())
}

/// Other marks below n than a record has; none if its own are not below n.
pub fn other(rng: &mut Rng, record: &Record) -> Option<Record> {
    let all = all_cards(record.f.clamp(1, MOST_F));
    let own = record.equivocators;
    if own & !all != 0 {
        return None;
    }
    let any = rng.number() as u16 & all;
    let equivocators = match rng.pick(&[0, all, any, any, own ^ 1]) {
        same if same == own => own ^ 1,
        other => other,
    };
    Some(Record {
        equivocators,
        ..*record
    })
}

/// What a call with other marks in the record came to, on copies.
pub struct Other {
    pub handed: Record,
    pub outcome: Outcome,
    pub side: Side,
    pub out: Buffer<u8>,
}

impl Other {
    /// The call as it was made came to the same but for the marks: each record has its own and the
    /// same new one, that one of the two may have had before.
    pub fn same_as(
        &self,
        call: &Call,
        handed: &Record,
        outcome: &Outcome,
        side: &Side,
        out: &Buffer<u8>,
    ) -> Result<(), String> {
        check(call, &self.handed, &self.outcome)?;
        let (own, other) = (handed.equivocators, self.handed.equivocators);
        let set = outcome.marks() & !own | self.outcome.marks() & !other;
        let same = set.count_ones() <= 1
            && *outcome == outcome.with_marks(own | set)
            && self.outcome == outcome.with_marks(other | set)
            && self.side.difference(side).is_none()
            && self.out.difference(out, out.room()).is_none();
        if same {
            return Ok(());
        }
        Err(format!(
            "claim: {} with the marks {other:#b} in the record, not {own:#b}, differs in more than \
             these marks",
            call.word()
        ))
    }
}
