//! Slips of what any call answers and leaves, and of ticks.

use beside::model::{self, Answer, Lent, Record};
use beside::replaced::{again, honest, Ask};

use crate::common::{leader, machines, refusal, Slip};

pub fn leaves_the_book(ask: &Ask, mut lent: Lent) -> Answer {
    let kept = lent.log.to_vec();
    let answer = honest(ask, again(&mut lent));
    if ask.record().tip_round > 0 {
        lent.log.copy_from_slice(&kept);
    }
    answer
}

pub fn blames_on_the_first_tick(ask: &Ask, lent: Lent) -> Answer {
    let Ask::Tick(record) = ask else {
        return honest(ask, lent);
    };
    let mut hasty = *record;
    hasty.left = hasty.left.min(1);
    let mut answer = model::tick(hasty, lent);
    if answer.number != 0 {
        answer.record = *record;
    }
    answer
}

pub fn term_over_early(ask: &Ask, lent: Lent) -> Answer {
    match ask {
        Ask::Tick(record) if record.term > 0 && record.round == record.term => refusal(3, *record),
        _ => honest(ask, lent),
    }
}

pub fn same_result_always(_: &Ask, _: Lent) -> Answer {
    refusal(2, Record::default())
}

pub fn says_two_writes_none(ask: &Ask, mut lent: Lent) -> Answer {
    let kept = lent.out.to_vec();
    let mut answer = honest(ask, again(&mut lent));
    if answer.frames == 2 {
        lent.out.copy_from_slice(&kept);
    }
    if answer.number == 0 && answer.frames > 0 {
        answer.frames = 2;
    }
    answer
}

fn writes_none(ask: &Ask, mut lent: Lent) -> Answer {
    let kept = lent.out.to_vec();
    let answer = honest(ask, again(&mut lent));
    lent.out.copy_from_slice(&kept);
    answer
}

fn touches_later_bytes(ask: &Ask, mut lent: Lent) -> Answer {
    let answer = honest(ask, again(&mut lent));
    if let Some(last) = lent.out.last_mut() {
        if answer.frames == 1 {
            *last = last.wrapping_add(1);
        }
    }
    answer
}

fn leader_though_refused(ask: &Ask, lent: Lent) -> Answer {
    let mut answer = honest(ask, lent);
    if answer.number == 10 {
        answer.leader = leader(answer.record.round, &answer.record);
    }
    answer
}

pub fn slips() -> Vec<Slip> {
    machines(&[
        ("writes none", writes_none),
        ("touches later bytes", touches_later_bytes),
        ("leader though refused", leader_though_refused),
    ])
}
