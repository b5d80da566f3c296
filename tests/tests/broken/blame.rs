//! Slips of blame, and of what shows a round.

use beside::frame::{self, Frame, SIZE};
use beside::model::{self, shown, slots, Answer, Lent};
use beside::replaced::{again, honest, Ask};

use crate::common::{leader, machines, refusal, signers, with_masks, Slip};

/// Takes a repeated blame by letting it stand for another card's.
pub fn counts_a_blame_twice(ask: &Ask, mut lent: Lent) -> Answer {
    let answer = honest(ask, again(&mut lent));
    let (Ask::Blame(record, bytes), 10) = (ask, answer.number) else {
        return answer;
    };
    let frame = &slots(bytes)[0];
    let mask = &mut lent.masks[frame::round(frame) as usize - 1];
    *mask = *mask & !(1 << frame::signer(frame)) | 1 << (*mask).trailing_ones();
    model::blame(*record, bytes, lent)
}

/// One more card seems to blame every round that somebody blames.
pub fn shows_with_f(ask: &Ask, lent: Lent) -> Answer {
    let (signers, round) = match ask {
        Ask::Blame(_, bytes) | Ask::Blames(_, bytes) => {
            let first = slots(bytes).first().map_or(0, frame::round);
            (signers(slots(bytes)), first)
        }
        ask => (1 << ask.record().own.min(15), ask.record().round),
    };
    let n = 2 * u32::from(ask.record().f) + 1;
    with_masks(ask, lent, |at, mask| {
        let taken = mask | if at == round { signers } else { 0 };
        let free = (0..n.min(16)).find(|card| taken >> card & 1 == 0);
        match free {
            Some(card) if taken != 0 => mask | 1 << card,
            _ => mask,
        }
    })
}

/// Puts its block of the next round out again when an older round becomes shown.
pub fn puts_out_again(ask: &Ask, mut lent: Lent) -> Answer {
    let mut answer = honest(ask, again(&mut lent));
    if let (Ask::Blame(record, bytes), 0) = (ask, answer.number) {
        let round = frame::round(&slots(bytes)[0]);
        let mask = lent.masks[round as usize - 1];
        let next = round + 1;
        if next < record.round && shown(mask, record.f) && leader(next, record) == record.own {
            let block: Frame = slots(lent.log)[round as usize];
            lent.out[..SIZE].copy_from_slice(&block);
            answer.frames = 1;
        }
    }
    answer
}

fn stale_before_early(ask: &Ask, mut lent: Lent) -> Answer {
    let answer = honest(ask, again(&mut lent));
    if let (Ask::Blame(record, bytes), 14) = (ask, answer.number) {
        let frame = &slots(bytes)[0];
        let mask = lent.masks[frame::round(frame) as usize - 1];
        if mask >> frame::signer(frame) & 1 == 1 {
            return refusal(10, *record);
        }
    }
    answer
}

fn sets_a_bit_though_refused(ask: &Ask, mut lent: Lent) -> Answer {
    let answer = honest(ask, again(&mut lent));
    if let (Ask::Blame(record, _), 7) = (ask, answer.number) {
        lent.masks[record.round as usize - 1] |= 1;
    }
    answer
}

pub fn slips() -> Vec<Slip> {
    machines(&[
        ("10 before 14", stale_before_early),
        ("bit set though refused", sets_a_bit_though_refused),
    ])
}
