//! Slips of branch.

use beside::frame::{self, SIZE};
use beside::model::{self, attaching, slots, Answer, Lent, Record};
use beside::replaced::{again, honest, Ask};

use crate::common::{machines, refusal, trial, with_masks, Slip};

pub fn takes_unshown_rounds(ask: &Ask, lent: Lent) -> Answer {
    match ask {
        Ask::Branch(..) => with_masks(ask, lent, |_, _| u16::MAX),
        _ => honest(ask, lent),
    }
}

fn counts_bits_above_n(ask: &Ask, lent: Lent) -> Answer {
    let Ask::Branch(record, _) = ask else {
        return honest(ask, lent);
    };
    let f = u32::from(record.f);
    with_masks(ask, lent, |_, mask| {
        if mask.count_ones() > f {
            u16::MAX
        } else {
            mask
        }
    })
}

pub fn zeroes_before_judging(ask: &Ask, mut lent: Lent) -> Answer {
    let answer = honest(ask, again(&mut lent));
    if let (Ask::Branch(record, bytes), 7..=9) = (ask, answer.number) {
        let first = &slots(bytes)[0];
        let in_term = (1..=record.term).contains(&frame::round(first));
        if answer.place > 0 && in_term {
            if let Some(attach) = attaching(lent.log, first) {
                lent.log[SIZE * attach as usize..].fill(0);
            }
        }
    }
    answer
}

pub fn keeps_old_slots(ask: &Ask, mut lent: Lent) -> Answer {
    let kept = lent.log.to_vec();
    let answer = honest(ask, again(&mut lent));
    if let (Ask::Branch(..), 0) = (ask, answer.number) {
        for (slot, old) in lent
            .log
            .as_chunks_mut::<SIZE>()
            .0
            .iter_mut()
            .zip(slots(&kept))
        {
            if !frame::filled(slot) {
                *slot = *old;
            }
        }
    }
    answer
}

pub fn refuses_committed_frames(ask: &Ask, lent: Lent) -> Answer {
    if let Ask::Branch(record, bytes) = ask {
        let first = slots(bytes).first().map_or(0, frame::round);
        let kept = (lent.log.to_vec(), lent.masks.to_vec(), lent.out.to_vec());
        let Lent {
            log,
            masks,
            entry,
            out,
        } = lent;
        let answer = honest(
            ask,
            Lent {
                log,
                masks,
                entry,
                out,
            },
        );
        if answer.number == 0 && first <= record.committed_round {
            log.copy_from_slice(&kept.0);
            masks.copy_from_slice(&kept.1);
            out.copy_from_slice(&kept.2);
            return refusal(12, *record);
        }
        return answer;
    }
    honest(ask, lent)
}

pub fn refuses_every_frame(ask: &Ask, lent: Lent) -> Answer {
    match ask {
        Ask::Branch(record, _) => refusal(11, *record),
        _ => honest(ask, lent),
    }
}

fn undone_before_unshown(ask: &Ask, lent: Lent) -> Answer {
    let Ask::Branch(record, _) = ask else {
        return honest(ask, lent);
    };
    let masks = vec![u16::MAX; lent.masks.len()];
    match trial(ask, &lent, &masks).number {
        12 => refusal(12, *record),
        _ => honest(ask, lent),
    }
}

/// Takes branches that undo committed slots.
pub fn undoes(ask: &Ask, mut lent: Lent) -> Answer {
    let answer = honest(ask, again(&mut lent));
    let (Ask::Branch(record, bytes), 12) = (ask, answer.number) else {
        return answer;
    };
    let forgetful = Record {
        committed_round: 0,
        committed_height: 0,
        ..*record
    };
    model::branch(forgetful, bytes, lent)
}

/// Gives another number where the model takes a branch, or says 13 to it, and the round that it
/// attaches to fits.
fn instead_on(ask: &Ask, lent: Lent, number: u8, fits: fn(&Record, u32) -> bool) -> Answer {
    let answer = trial(ask, &lent, lent.masks);
    if let (Ask::Branch(record, bytes), 0 | 13) = (ask, answer.number) {
        let attach = attaching(lent.log, &slots(bytes)[0]);
        if attach.is_some_and(|round| fits(record, round)) {
            return refusal(number, *record);
        }
    }
    honest(ask, lent)
}

pub fn loose_on_the_committed_block(ask: &Ask, lent: Lent) -> Answer {
    instead_on(ask, lent, 11, |record, round| {
        round > 0 && round == record.committed_round
    })
}

/// Where frames above it are held.
pub fn undone_on_the_committed_block(ask: &Ask, lent: Lent) -> Answer {
    instead_on(ask, lent, 12, |record, round| {
        round < record.tip_round && round == record.committed_round
    })
}

/// On a block between the committed one and the tip.
pub fn loose_above_the_committed_block(ask: &Ask, lent: Lent) -> Answer {
    instead_on(ask, lent, 11, |record, round| {
        (record.committed_round + 1..record.tip_round).contains(&round)
    })
}

/// On a block below the committed one, so with committed frames again.
pub fn loose_below_the_committed_block(ask: &Ask, lent: Lent) -> Answer {
    instead_on(ask, lent, 11, |record, round| {
        round < record.committed_round
    })
}

pub fn place_of_the_wrong_round(ask: &Ask, lent: Lent) -> Answer {
    let mut answer = honest(ask, lent);
    if answer.number == 13 {
        answer.place += 1;
    }
    answer
}

pub fn slips() -> Vec<Slip> {
    machines(&[
        ("takes unshown rounds", takes_unshown_rounds),
        ("counts bits above n", counts_bits_above_n),
        ("12 before 13", undone_before_unshown),
        ("place of the wrong round", place_of_the_wrong_round),
    ])
}
