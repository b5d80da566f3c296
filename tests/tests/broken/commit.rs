//! Slips of committing by R.

use beside::frame::{self, SIZE};
use beside::model::{slots, Answer, Lent};
use beside::replaced::{honest, Ask};

use crate::common::{amend, commit, machines, Done, Slip};

/// In the calls that the slip names, commits up to the round that it gives.
fn commits_to(ask: &Ask, lent: Lent, named: fn(&Done) -> bool, to: fn(&Done) -> u32) -> Answer {
    amend(ask, lent, |done, log| {
        let mut record = done.after;
        if named(done) {
            let limit = to(done);
            commit(&mut record, log, |round, _| round <= limit);
        }
        record
    })
}

/// Leaves what was committed in the calls that the slip names.
fn leaves_committed(ask: &Ask, lent: Lent, left: fn(&Done) -> bool) -> Answer {
    amend(ask, lent, |done, _| match left(done) {
        true => done.not_renewed(),
        false => done.after,
    })
}

/// R - f.
pub fn commits_one_round_early(ask: &Ask, lent: Lent) -> Answer {
    commits_to(ask, lent, Done::grew, |done| {
        done.limit(done.after.round + 1)
    })
}

pub fn commits_by_heights(ask: &Ask, lent: Lent) -> Answer {
    amend(ask, lent, |done, log| {
        let mut record = done.after;
        if done.grew() {
            let limit = done.limit(record.round);
            commit(&mut record, log, |_, height| height <= limit);
        }
        record
    })
}

/// Tip round - f, wherever R grows.
pub fn commits_by_the_tip(ask: &Ask, lent: Lent) -> Answer {
    commits_to(ask, lent, Done::grew, |done| {
        done.limit(done.after.tip_round + 1)
    })
}

fn commits_up_to_the_tip(ask: &Ask, lent: Lent) -> Answer {
    commits_to(ask, lent, Done::grew, |done| {
        done.limit(done.after.round).min(done.after.tip_round)
    })
}

/// By the R that the last growth of a call starts from.
fn commits_before_r_grows(ask: &Ask, lent: Lent) -> Answer {
    commits_to(ask, lent, Done::grew, |done| match done.own_block {
        true => done.limit(done.after.round - 1),
        false => done.limit(done.before.round),
    })
}

/// By the R that a blame, a tick or a branch brings, not by the one after the card's own block.
fn commits_by_the_first_r(ask: &Ask, lent: Lent) -> Answer {
    let own_block = |done: &Done| done.own_block;
    commits_to(ask, lent, own_block, |done| {
        done.limit(done.after.round - 1)
    })
}

fn commits_though_r_stays(ask: &Ask, lent: Lent) -> Answer {
    let stays = |done: &Done| !done.grew();
    commits_to(ask, lent, stays, |done| done.limit(done.after.round))
}

fn commits_by_idle_ticks(ask: &Ask, lent: Lent) -> Answer {
    match ask {
        Ask::Tick(record) if record.left == 0 => commits_though_r_stays(ask, lent),
        _ => honest(ask, lent),
    }
}

fn commits_by_passed_rounds(ask: &Ask, lent: Lent) -> Answer {
    match ask {
        Ask::Blame(record, bytes) | Ask::Blames(record, bytes)
            if slots(bytes).first().map_or(0, frame::round) < record.round =>
        {
            commits_though_r_stays(ask, lent)
        }
        _ => honest(ask, lent),
    }
}

fn commits_where_a_block_is_stored(ask: &Ask, lent: Lent) -> Answer {
    leaves_committed(ask, lent, |done| !done.stored())
}

fn commits_nothing_by_a_blame(ask: &Ask, lent: Lent) -> Answer {
    match ask {
        Ask::Blame(..) => commits_where_a_block_is_stored(ask, lent),
        _ => honest(ask, lent),
    }
}

fn commits_nothing_by_a_set(ask: &Ask, lent: Lent) -> Answer {
    match ask {
        Ask::Blames(_, bytes) if bytes.len() > SIZE => commits_where_a_block_is_stored(ask, lent),
        _ => honest(ask, lent),
    }
}

fn commits_nothing_by_a_tick(ask: &Ask, lent: Lent) -> Answer {
    match ask {
        Ask::Tick(_) => commits_where_a_block_is_stored(ask, lent),
        _ => honest(ask, lent),
    }
}

pub fn commits_nothing_at_the_end(ask: &Ask, lent: Lent) -> Answer {
    leaves_committed(ask, lent, |done| done.after.round > done.after.term)
}

fn never_lowers_the_committed_round(ask: &Ask, lent: Lent) -> Answer {
    leaves_committed(ask, lent, |done| {
        done.after.committed_round < done.before.committed_round
    })
}

/// A blame, a set or a tick renews the committed round alone.
fn leaves_the_committed_height(ask: &Ask, lent: Lent) -> Answer {
    amend(ask, lent, |done, _| {
        let mut record = done.after;
        if !done.stored() {
            record.committed_height = done.before.committed_height;
        }
        record
    })
}

pub fn commits_nothing(ask: &Ask, lent: Lent) -> Answer {
    let mut answer = honest(ask, lent);
    if answer.number == 0 {
        (
            answer.record.committed_round,
            answer.record.committed_height,
        ) = (0, 0);
    }
    answer
}

pub fn slips() -> Vec<Slip> {
    machines(&[
        ("tip round - f", commits_by_the_tip),
        ("up to the tip", commits_up_to_the_tip),
        ("where a block is stored", commits_where_a_block_is_stored),
        ("before R grows", commits_before_r_grows),
        ("by the first R", commits_by_the_first_r),
        ("though R stays", commits_though_r_stays),
        ("by an idle tick", commits_by_idle_ticks),
        ("by a passed round", commits_by_passed_rounds),
        ("not by a blame", commits_nothing_by_a_blame),
        ("not by a set", commits_nothing_by_a_set),
        ("not by a tick", commits_nothing_by_a_tick),
        ("not at R = T + 1", commits_nothing_at_the_end),
        ("never lowered", never_lowers_the_committed_round),
        ("height left", leaves_the_committed_height),
    ])
}
