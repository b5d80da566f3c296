//! Slips of the search for the last committed slot.

use beside::call::{Call, Head, List, State, Step, What};
use beside::drive::replay;
use beside::frame::{self, SIZE};
use beside::model::{self, in_turn, slots, Record, Search};
use beside::replaced::{Find, Replaced};

/// The right round with another count.
fn recount(log: &[u8], limit: u32, count: impl Fn(Search) -> u32) -> Search {
    let right = model::search(log, limit);
    Search {
        slots_read: count(right),
        ..right
    }
}

pub fn counts_one_slot_more(log: &[u8], limit: u32) -> Search {
    recount(log, limit, |right| right.slots_read + u32::from(limit > 0))
}

fn leaves_out_the_one_found(log: &[u8], limit: u32) -> Search {
    recount(log, limit, |right| {
        right.slots_read - u32::from(right.round > 0)
    })
}

fn counts_where_none_is_allowed(log: &[u8], limit: u32) -> Search {
    recount(log, limit, |right| right.slots_read.max(1))
}

fn counts_slots_of_the_log_alone(log: &[u8], limit: u32) -> Search {
    let above = limit.saturating_sub(slots(log).len() as u32);
    recount(log, limit, |right| right.slots_read - above)
}

/// Goes on below the one found, and gives the last filled slot that it met.
pub fn gives_the_lowest(log: &[u8], limit: u32) -> Search {
    let mut allowed = slots(log).iter().take(limit as usize);
    let lowest = allowed.position(frame::filled);
    Search {
        round: lowest.map_or(0, |index| index as u32 + 1),
        slots_read: limit,
    }
}

pub fn counts_down_to_round_1(log: &[u8], limit: u32) -> Search {
    recount(log, limit, |_| limit)
}

/// The walk up from round 1 reads the slots that there are.
pub fn walks_up(log: &[u8], limit: u32) -> Search {
    Search {
        round: model::walk_up(log, limit),
        slots_read: limit.min(slots(log).len() as u32),
    }
}

pub fn begins_one_below(log: &[u8], limit: u32) -> Search {
    model::search(log, limit.saturating_sub(1))
}

/// Takes a slot with any first byte but 0 for a filled one.
fn takes_any_kind(log: &[u8], limit: u32) -> Search {
    let mut log = log.to_vec();
    for slot in log.as_chunks_mut::<SIZE>().0 {
        slot[0] = slot[0].min(frame::BLOCK);
    }
    model::search(&log, limit)
}

/// A slip of the search: its name, a limit, and what it gives for that in the book of `told_by`.
type SearchSlip = (&'static str, Find, u32, (u32, u32));

pub const SEARCH_SLIPS: [SearchSlip; 9] = [
    ("one slot more", counts_one_slot_more, 4, (3, 3)),
    ("found one not counted", leaves_out_the_one_found, 4, (3, 1)),
    (
        "counts with no round allowed",
        counts_where_none_is_allowed,
        0,
        (0, 1),
    ),
    (
        "counts slots of the log alone",
        counts_slots_of_the_log_alone,
        8,
        (3, 4),
    ),
    ("gives the lowest", gives_the_lowest, 4, (1, 4)),
    ("counts down to round 1", counts_down_to_round_1, 4, (3, 4)),
    ("walks up from round 1", walks_up, 4, (3, 4)),
    ("begins one below", begins_one_below, 4, (3, 1)),
    ("takes any kind", takes_any_kind, 4, (4, 1)),
];

/// What a search gives up to a limit in a book of six slots, 1 and 3 filled and 4 of kind 2: the message of one call.
fn told_by(search: Find, limit: u32) -> String {
    let mut log = vec![0; SIZE * 6];
    for (round, kind) in [(1, 1), (3, 1), (4, 2)] {
        log[SIZE * (round - 1)] = kind;
    }
    let record = Record {
        f: 1,
        term: 6,
        round: limit + 2,
        ..Record::default()
    };
    let head = Head {
        f: 1,
        term: 6,
        cards: 1,
        sound: 0,
        rotation: in_turn(1),
    };
    let masks = vec![0; 6];
    let state = State { record, log, masks };
    let steps = vec![
        Step::Write(0, state),
        Step::Call(Call::new(&head, 0, What::Tick)),
    ];
    let told = replay(&Replaced::search(search), &List { head, steps });
    told.expect_err("a slip").1
}

#[test]
fn slips_of_the_search_are_told() {
    let right = [(0, (0, 0)), (4, (3, 2)), (8, (3, 6))];
    for (name, search, limit, found) in SEARCH_SLIPS {
        let (_, expected) = right.iter().find(|case| case.0 == limit).expect("a limit");
        let words = |(round, read)| format!("Search {{ round: {round}, slots_read: {read} }}");
        let message = format!(
            "search in 6 slots, filled 1, 3, limit {limit}, differs:\n  library {}\n  model   {}",
            words(found),
            words(*expected)
        );
        assert_eq!(told_by(search, limit), message, "{name}");
    }
}
