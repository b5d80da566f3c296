//! Slips of sets of blames.

use beside::frame::{self, Frame, SIZE};
use beside::model::{self, shown, slots, Answer, Lent};
use beside::replaced::{again, honest, Ask};

use crate::common::{amend, commit, leader, machines, refusal, signers, tell, trial, Slip};

fn is_set(frames: &[Frame]) -> bool {
    let rounds = |pair: &[Frame]| frame::round(&pair[0]) == frame::round(&pair[1]);
    frames.windows(2).all(rounds) && signers(frames).count_ones() as usize == frames.len()
}

/// Calls the model again with another set where it said 16.
pub fn mend(ask: &Ask, mut lent: Lent, other: fn(&[Frame]) -> Vec<Frame>) -> Answer {
    let answer = honest(ask, again(&mut lent));
    match (ask, answer.number) {
        (Ask::Blames(record, bytes), 16) => {
            let set = other(slots(bytes));
            model::blames(*record, set.as_flattened(), lent)
        }
        _ => answer,
    }
}

/// Passes over a signer's second frame.
fn takes_a_signer_twice(ask: &Ask, lent: Lent) -> Answer {
    mend(ask, lent, |frames| {
        let mut set: Vec<Frame> = Vec::new();
        for frame in frames {
            if signers(&set) & signers(&[*frame]) == 0 {
                set.push(*frame);
            }
        }
        set
    })
}

/// Lets a signer's second frame stand for another card's.
fn counts_a_signer_twice(ask: &Ask, lent: Lent) -> Answer {
    mend(ask, lent, |frames| {
        let mut set: Vec<Frame> = Vec::new();
        for frame in frames {
            let free = signers(frames) | signers(&set);
            let twice = signers(&set) & signers(&[*frame]) != 0;
            set.push(match twice {
                true => frame::blame(free.trailing_ones() as u8, frame::round(frame)),
                false => *frame,
            });
        }
        set
    })
}

/// Takes all frames of a set for blames of the first one's round.
fn takes_two_rounds(ask: &Ask, lent: Lent) -> Answer {
    mend(ask, lent, |frames| {
        let round = frame::round(&frames[0]);
        let blame = |frame| frame::blame(frame::signer(frame), round);
        frames.iter().map(blame).collect()
    })
}

fn grows_for_each_blame(ask: &Ask, mut lent: Lent) -> Answer {
    let mut answer = honest(ask, again(&mut lent));
    if let (Ask::Blames(record, bytes), 0) = (ask, answer.number) {
        if answer.record.round > record.round {
            let spare = slots(bytes).len() as u32 - 1;
            let spare = spare.saturating_sub(record.f.into());
            answer.record.round = (answer.record.round + spare).min(record.term + 1);
        }
    }
    answer
}

fn grows_by_an_older_round(ask: &Ask, mut lent: Lent) -> Answer {
    let mut answer = honest(ask, again(&mut lent));
    if let (Ask::Blames(record, bytes), 0) = (ask, answer.number) {
        let round = frame::round(&slots(bytes)[0]);
        if round < record.round && shown(lent.masks[round as usize - 1], record.f) {
            answer.record.round += 1;
        }
    }
    answer
}

fn refuses_where_a_bit_stands(ask: &Ask, lent: Lent) -> Answer {
    let taken = trial(ask, &lent, lent.masks).number == 0;
    if let (Ask::Blames(record, bytes), true) = (ask, taken) {
        let round = frame::round(&slots(bytes)[0]);
        if lent.masks[round as usize - 1] & signers(slots(bytes)) != 0 {
            return refusal(10, *record);
        }
    }
    honest(ask, lent)
}

pub fn takes_stale_sets(ask: &Ask, lent: Lent) -> Answer {
    let answer = honest(ask, lent);
    match (ask, answer.number) {
        (Ask::Blames(record, _), 10) => Answer {
            number: 0,
            leader: leader(record.round, record),
            ..answer
        },
        _ => answer,
    }
}

/// Sets the bits of a refused set's first frames.
fn leave_bits(ask: &Ask, mut lent: Lent, count: fn(&Answer, usize) -> usize) -> Answer {
    let answer = honest(ask, again(&mut lent));
    if let Ask::Blames(_, bytes) = ask {
        let frames = slots(bytes);
        for frame in &frames[..count(&answer, frames.len())] {
            lent.masks[frame::round(frame) as usize - 1] |= signers(&[*frame]);
        }
    }
    answer
}

fn sets_bits_before_the_last_is_judged(ask: &Ask, lent: Lent) -> Answer {
    leave_bits(ask, lent, |answer, _| match answer.number {
        7 | 8 => answer.place as usize,
        _ => 0,
    })
}

fn leaves_bits_of_no_set(ask: &Ask, lent: Lent) -> Answer {
    leave_bits(ask, lent, |answer, all| match answer.number {
        16 => all,
        _ => 0,
    })
}

fn early_before_no_set(ask: &Ask, lent: Lent) -> Answer {
    let answer = honest(ask, lent);
    match (ask, answer.number) {
        (Ask::Blames(record, bytes), 16) if frame::round(&slots(bytes)[0]) > record.round => {
            refusal(14, *record)
        }
        _ => answer,
    }
}

fn stale_before_no_set(ask: &Ask, mut lent: Lent) -> Answer {
    let answer = honest(ask, again(&mut lent));
    if let (Ask::Blames(record, bytes), 14 | 16) = (ask, answer.number) {
        let mask = lent.masks[frame::round(&slots(bytes)[0]) as usize - 1];
        if signers(slots(bytes)) & !mask == 0 {
            return refusal(10, *record);
        }
    }
    answer
}

/// Tells frames of two rounds, or a signer twice, before it judges the later frames.
fn no_set_before(number: u8, ask: &Ask, lent: Lent) -> Answer {
    let answer = honest(ask, lent);
    if let (Ask::Blames(record, bytes), true) = (ask, answer.number == number) {
        if !is_set(&slots(bytes)[..answer.place as usize]) {
            return refusal(16, *record);
        }
    }
    answer
}

fn no_set_before_a_later_check(ask: &Ask, lent: Lent) -> Answer {
    no_set_before(7, ask, lent)
}

fn no_set_before_a_later_form(ask: &Ask, lent: Lent) -> Answer {
    no_set_before(8, ask, lent)
}

fn first_place_of_a_set(ask: &Ask, lent: Lent) -> Answer {
    let answer = honest(ask, lent);
    match ask {
        Ask::Blames(..) => Answer { place: 0, ..answer },
        _ => answer,
    }
}

fn cuts_sets_at_n(ask: &Ask, lent: Lent) -> Answer {
    let number = trial(ask, &lent, lent.masks).number;
    match ask {
        Ask::Blames(record, bytes)
            if number > 6 && slots(bytes).len() as u32 > model::cards(record.f) =>
        {
            refusal(6, *record)
        }
        _ => honest(ask, lent),
    }
}

fn takes_16_frames(ask: &Ask, mut lent: Lent) -> Answer {
    let answer = honest(ask, again(&mut lent));
    match ask {
        Ask::Blames(record, bytes) if answer.number == 6 && bytes.len() == 16 * SIZE => {
            model::blames(*record, &bytes[..15 * SIZE], lent)
        }
        _ => answer,
    }
}

/// After a set, waits for the round of the block that it put out, and commits by that round.
pub fn waits_for_its_own_round(ask: &Ask, lent: Lent) -> Answer {
    let Ask::Blames(..) = ask else {
        return honest(ask, lent);
    };
    let mut answer = amend(ask, lent, |done, log| {
        let mut record = done.after;
        if done.own_block {
            record.round -= 1;
            record.tip_round -= 1;
            let limit = done.limit(record.round);
            commit(&mut record, log, |round, _| round <= limit);
        }
        record
    });
    tell(&mut answer);
    answer
}

pub fn slips() -> Vec<Slip> {
    machines(&[
        ("R grows for each blame past f", grows_for_each_blame),
        ("R grows by an older round", grows_by_an_older_round),
        ("signer twice, taken", takes_a_signer_twice),
        ("signer twice, counted", counts_a_signer_twice),
        ("two rounds, taken", takes_two_rounds),
        ("refused where a bit stands", refuses_where_a_bit_stands),
        ("taken with no fresh bit", takes_stale_sets),
        (
            "bits set before the last is judged",
            sets_bits_before_the_last_is_judged,
        ),
        ("bits of no set left", leaves_bits_of_no_set),
        ("14 before 16", early_before_no_set),
        ("10 before 16 and 14", stale_before_no_set),
        ("16 before a later frame's 7", no_set_before_a_later_check),
        ("16 before a later frame's 8", no_set_before_a_later_form),
        ("place always the first", first_place_of_a_set),
        ("6 above n frames", cuts_sets_at_n),
        ("16 frames taken", takes_16_frames),
    ])
}
