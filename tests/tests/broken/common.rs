//! What slips are made of: the model asked on copies, and what it answered or was lent changed.

use beside::frame::{self, Frame};
use beside::model::{self, slots, Answer, Lent, Record};
use beside::replaced::{again, honest, Ask, Machine, Replaced};

/// A slip's name, and the model with the slip.
pub type Slip = (&'static str, Replaced);

/// What the model would answer, with other masks perhaps.
pub fn trial(ask: &Ask, lent: &Lent, masks: &[u16]) -> Answer {
    on_copies(lent, masks, |lent| honest(ask, lent))
}

/// A call on copies of the buffers.
pub fn on_copies(lent: &Lent, masks: &[u16], call: impl FnOnce(Lent) -> Answer) -> Answer {
    let (mut log, mut out) = (lent.log.to_vec(), lent.out.to_vec());
    call(Lent {
        log: &mut log,
        masks: &mut masks.to_vec(),
        entry: lent.entry,
        out: &mut out,
    })
}

/// The leader of a round by a record's rotation.
pub fn leader(round: u32, record: &Record) -> u8 {
    model::leader(round, record.f, &record.rotation)
}

pub fn refusal(number: u8, record: Record) -> Answer {
    Answer {
        number,
        place: 0,
        frames: 0,
        leader: 255,
        record,
    }
}

/// The highest filled slot that passes a test becomes the committed one.
pub fn commit(record: &mut Record, log: &[u8], fits: impl Fn(u32, u32) -> bool) {
    let book = slots(log).iter().zip(1..);
    let filled = book.filter(|(slot, _)| frame::filled(slot));
    let passing = filled.filter(|(slot, round)| fits(*round, frame::height(slot)));
    let last = passing
        .last()
        .map(|(slot, round)| (round, frame::height(slot)));
    (record.committed_round, record.committed_height) = last.unwrap_or((0, 0));
}

/// What a call that was taken has done to R and the line.
pub struct Done {
    pub before: Record,
    pub after: Record,
    pub own_block: bool,
}

impl Done {
    pub fn grew(&self) -> bool {
        self.after.round > self.before.round
    }

    pub fn stored(&self) -> bool {
        self.after.tip_round != self.before.tip_round
    }

    /// R - 1 - f for an R.
    pub fn limit(&self, round: u32) -> u32 {
        round.saturating_sub(1 + u32::from(self.after.f))
    }

    /// The record with the committed slot that it had before.
    pub fn not_renewed(&self) -> Record {
        Record {
            committed_round: self.before.committed_round,
            committed_height: self.before.committed_height,
            ..self.after
        }
    }
}

/// Calls the model and changes the record that it leaves.
pub fn amend(ask: &Ask, mut lent: Lent, other: impl Fn(&Done, &[u8]) -> Record) -> Answer {
    let mut answer = honest(ask, again(&mut lent));
    if answer.number == 0 {
        let last = slots(lent.out)[..usize::from(answer.frames)].last();
        let done = Done {
            before: ask.record(),
            after: answer.record,
            own_block: last.is_some_and(frame::filled),
        };
        answer.record = other(&done, lent.log);
    }
    answer
}

/// Calls the model with other masks and keeps what it added to them.
pub fn with_masks(ask: &Ask, mut lent: Lent, mask: impl Fn(u32, u16) -> u16) -> Answer {
    let kept = lent.masks.to_vec();
    for (round, value) in (1..).zip(lent.masks.iter_mut()) {
        *value = mask(round, *value);
    }
    let lied = lent.masks.to_vec();
    let answer = honest(ask, again(&mut lent));
    for ((value, lied), kept) in lent.masks.iter_mut().zip(lied).zip(kept) {
        *value = if *value == 0 {
            0
        } else {
            kept | *value & !lied
        };
    }
    answer
}

/// A bit for each signer below 16.
pub fn signers(frames: &[Frame]) -> u16 {
    let low = frames.iter().map(frame::signer).filter(|&card| card < 16);
    low.fold(0, |bits, card| bits | 1 << card)
}

/// The leader that an answer tells if it goes by the record's rotation.
pub fn tell(answer: &mut Answer) {
    let record = answer.record;
    if answer.number == 0 && record.round <= record.term {
        answer.leader = leader(record.round, &record);
    }
}

pub fn bit(card: u8) -> u16 {
    1u16.checked_shl(card.into()).unwrap_or(0)
}

/// The marks that count, where those from n on do not.
pub fn below_n(record: &Record) -> u16 {
    let known = (1..=model::MOST_F).contains(&record.f);
    let all = if known { model::all_cards(record.f) } else { 0 };
    record.equivocators & all
}

pub fn with_marks(record: Record, equivocators: u16) -> Record {
    Record {
        equivocators,
        ..record
    }
}

/// The model with another machine for each slip.
pub fn machines(slips: &[(&'static str, Machine)]) -> Vec<Slip> {
    let broken = |&(name, machine)| (name, Replaced::machine(machine));
    slips.iter().map(broken).collect()
}
