//! Slips of marks in the other calls.

use beside::frame::{self, Frame};
use beside::model::{self, line_above, slots, Answer, Fetched, Lent, Part, Record, NOBODY};
use beside::replaced::{honest, Ask, Replaced};

use crate::common::{
    amend, below_n, bit, leader, machines, refusal, trial, with_marks, Done, Slip,
};
use crate::fetch::{give, read_absent};

/// Calls the model with other marks. The record comes back with those handed in.
fn marked_otherwise(ask: &Ask, lent: Lent, marks: fn(&Record) -> u16) -> Answer {
    let other = |record| with_marks(record, marks(&record));
    let mut answer = match *ask {
        Ask::Open(..) => return honest(ask, lent),
        Ask::Branch(record, frames) => model::branch(other(record), frames, lent),
        Ask::Blame(record, frame) => model::blame(other(record), frame, lent),
        Ask::Blames(record, frames) => model::blames(other(record), frames, lent),
        Ask::Tick(record) => model::tick(other(record), lent),
    };
    answer.record.equivocators = ask.record().equivocators;
    answer
}

fn branch_with_any_marks(ask: &Ask, lent: Lent) -> Answer {
    match ask {
        Ask::Branch(..) => marked_otherwise(ask, lent, below_n),
        _ => honest(ask, lent),
    }
}

fn blame_with_any_marks(ask: &Ask, lent: Lent) -> Answer {
    match ask {
        Ask::Blame(..) => marked_otherwise(ask, lent, below_n),
        _ => honest(ask, lent),
    }
}

fn blames_with_any_marks(ask: &Ask, lent: Lent) -> Answer {
    match ask {
        Ask::Blames(..) => marked_otherwise(ask, lent, below_n),
        _ => honest(ask, lent),
    }
}

fn tick_with_any_marks(ask: &Ask, lent: Lent) -> Answer {
    match ask {
        Ask::Tick(_) => marked_otherwise(ask, lent, below_n),
        _ => honest(ask, lent),
    }
}

fn read_with_any_marks(record: Record, log: &[u8], height: u32) -> Part {
    model::read(with_marks(record, below_n(&record)), log, height)
}

fn fetch_with_any_marks(record: Record, log: &[u8], height: u32, out: &mut [u8]) -> Fetched {
    model::fetch(with_marks(record, below_n(&record)), log, height, out)
}

/// One bit too far.
fn lets_bit_n_pass(ask: &Ask, lent: Lent) -> Answer {
    marked_otherwise(ask, lent, |record| {
        record.equivocators & !bit(record.f.saturating_mul(2) + 1)
    })
}

/// Bits below 15 alone.
fn lets_bit_15_pass(ask: &Ask, lent: Lent) -> Answer {
    marked_otherwise(ask, lent, |record| record.equivocators & 0x7fff)
}

/// Clears the marks in the calls that the slip names.
fn clears_marks(ask: &Ask, lent: Lent, named: fn(&Ask, &Done) -> bool) -> Answer {
    amend(ask, lent, |done, _| match named(ask, done) {
        true => with_marks(done.after, 0),
        false => done.after,
    })
}

pub fn branch_clears_marks(ask: &Ask, lent: Lent) -> Answer {
    clears_marks(ask, lent, |ask, _| matches!(ask, Ask::Branch(..)))
}

pub fn blame_clears_marks(ask: &Ask, lent: Lent) -> Answer {
    clears_marks(ask, lent, |ask, _| matches!(ask, Ask::Blame(..)))
}

pub fn set_clears_marks(ask: &Ask, lent: Lent) -> Answer {
    clears_marks(ask, lent, |ask, _| matches!(ask, Ask::Blames(..)))
}

pub fn tick_clears_marks(ask: &Ask, lent: Lent) -> Answer {
    clears_marks(ask, lent, |ask, _| matches!(ask, Ask::Tick(_)))
}

fn marks_end_with_the_term(ask: &Ask, lent: Lent) -> Answer {
    clears_marks(ask, lent, |_, done| done.after.round > done.after.term)
}

/// The leader of a round that was passed over, as if it had equivocated, where no block is stored.
pub fn marks_the_blamed(ask: &Ask, lent: Lent) -> Answer {
    amend(ask, lent, |done, _| {
        let record = done.after;
        match done.grew() && !done.stored() && done.before.round > 0 {
            true => {
                let lead = leader(done.before.round, &record);
                with_marks(record, record.equivocators | bit(lead))
            }
            false => record,
        }
    })
}

pub fn opens_marked(ask: &Ask, lent: Lent) -> Answer {
    let mut answer = honest(ask, lent);
    if let (Ask::Open(..), 0) = (ask, answer.number) {
        answer.record.equivocators = bit(answer.record.own);
    }
    answer
}

pub fn refusals_lose_marks(ask: &Ask, lent: Lent) -> Answer {
    let mut answer = honest(ask, lent);
    if answer.number != 0 {
        answer.record.equivocators = 0;
    }
    answer
}

/// Takes no block of a marked leader.
pub fn refuses_marked_leaders(ask: &Ask, lent: Lent) -> Answer {
    let number = trial(ask, &lent, lent.masks).number;
    if let (Ask::Branch(record, bytes), 0) = (ask, number) {
        let marked = |frame: &Frame| record.equivocators & bit(frame::signer(frame)) != 0;
        if slots(bytes).iter().any(marked) {
            return refusal(8, *record);
        }
    }
    honest(ask, lent)
}

/// Tells the next leader that is not marked.
pub fn passes_over_marked_leaders(ask: &Ask, lent: Lent) -> Answer {
    let answer = honest(ask, lent);
    let Record { round, term, .. } = answer.record;
    let marked = |lead: &u8| answer.record.equivocators & bit(*lead) != 0;
    if !marked(&answer.leader) {
        return answer;
    }
    let mut leaders = (round..=term).map(|round| leader(round, &answer.record));
    Answer {
        leader: leaders.find(|lead| !marked(lead)).unwrap_or(NOBODY),
        ..answer
    }
}

/// Waits for a marked leader one tick.
pub fn waits_less_for_marked_leaders(ask: &Ask, lent: Lent) -> Answer {
    let mut answer = honest(ask, lent);
    let record = &mut answer.record;
    if answer.leader != NOBODY && record.equivocators & bit(answer.leader) != 0 {
        record.left = record.left.min(1);
    }
    answer
}

pub fn read_without_marks(record: Record, log: &[u8], height: u32) -> Part {
    let part = model::read(record, log, height);
    match (part.number, record.equivocators) {
        (0, 0) => part,
        (0, _) => read_absent(record, log, height),
        _ => part,
    }
}

/// Leaves out frames of marked signers.
pub fn fetch_without_marked(record: Record, log: &[u8], height: u32, out: &mut [u8]) -> Fetched {
    let marked = |frame: &&Frame| record.equivocators & bit(frame::signer(frame)) != 0;
    let frames = line_above(log, height).filter(|frame| !marked(frame));
    give(record, log, out, frames)
}

pub fn slips() -> Vec<Slip> {
    let mut slips = machines(&[
        ("any marks, branch", branch_with_any_marks),
        ("any marks, blame", blame_with_any_marks),
        ("any marks, blames", blames_with_any_marks),
        ("any marks, tick", tick_with_any_marks),
        ("bit n let pass", lets_bit_n_pass),
        ("bit 15 let pass", lets_bit_15_pass),
        ("cleared by a branch", branch_clears_marks),
        ("cleared by a blame", blame_clears_marks),
        ("cleared by a set", set_clears_marks),
        ("cleared by a tick", tick_clears_marks),
        ("cleared at R = T + 1", marks_end_with_the_term),
        ("leaders passed over marked", marks_the_blamed),
        ("opened with a mark", opens_marked),
        ("lost by refusals", refusals_lose_marks),
        ("marked leaders refused", refuses_marked_leaders),
        ("marked leaders passed over", passes_over_marked_leaders),
        ("shorter wait for the marked", waits_less_for_marked_leaders),
    ]);
    slips.extend([
        ("any marks, read", Replaced::read(read_with_any_marks)),
        ("any marks, fetch", Replaced::fetch(fetch_with_any_marks)),
        ("no read with marks", Replaced::read(read_without_marks)),
        (
            "no fetch of the marked",
            Replaced::fetch(fetch_without_marked),
        ),
    ]);
    slips
}
