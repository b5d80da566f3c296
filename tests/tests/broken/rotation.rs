//! Slips of the rotation.

use beside::frame;
use beside::model::{
    self, in_turn, is_rotation, seats, Answer, Fetched, Lent, Part, Record, Rotation, LEAST_OUT,
    NOBODY,
};
use beside::replaced::{honest, Ask, Replaced};

use crate::common::{amend, leader, machines, on_copies, refusal, tell, trial, Slip};

pub fn n(f: u8) -> usize {
    model::cards(f) as usize
}

/// f as a call is handed it, where it has n cards.
fn known_f(ask: &Ask) -> Option<u8> {
    let f = match ask {
        Ask::Open(setup, _) => setup.f,
        _ => ask.record().f,
    };
    (1..=model::MOST_F).contains(&f).then_some(f)
}

/// The rotation that a call is handed, as a record holds it.
fn handed(ask: &Ask) -> Rotation {
    let Ask::Open(_, lent) = ask else {
        return ask.record().rotation;
    };
    let mut rotation = Rotation::default();
    for (seat, card) in rotation.iter_mut().zip(*lent) {
        *seat = *card;
    }
    rotation
}

/// Whether a call is handed a rotation that it may go by.
fn is_seated(ask: &Ask, f: u8) -> bool {
    let rotation = handed(ask);
    match ask {
        Ask::Open(_, lent) => is_rotation(lent, f),
        _ => is_rotation(&rotation[..n(f)], f) && all_zero(&rotation[n(f)..]),
    }
}

/// Calls the model with another rotation. The record comes back with the one that was handed in.
fn reseated(ask: &Ask, lent: Lent, rotation: Rotation) -> Answer {
    let other = |record| Record { rotation, ..record };
    let mut answer = match *ask {
        Ask::Open(setup, _) => model::open(setup, seats(&rotation, setup.f), lent),
        Ask::Branch(record, frames) => model::branch(other(record), frames, lent),
        Ask::Blame(record, frame) => model::blame(other(record), frame, lent),
        Ask::Blames(record, frames) => model::blames(other(record), frames, lent),
        Ask::Tick(record) => model::tick(other(record), lent),
    };
    if !matches!(ask, Ask::Open(..)) || answer.number == 0 {
        answer.record.rotation = handed(ask);
    }
    answer
}

/// As before there was a rotation: 17 and 2 look at it, and nothing goes by it.
pub fn leads_by_number(ask: &Ask, lent: Lent) -> Answer {
    match known_f(ask) {
        Some(f) if is_seated(ask, f) => reseated(ask, lent, in_turn(f)),
        _ => honest(ask, lent),
    }
}

fn tells_by_number(ask: &Ask, lent: Lent) -> Answer {
    let mut answer = honest(ask, lent);
    if answer.leader != NOBODY {
        let Record { round, f, .. } = answer.record;
        answer.leader = model::leader(round, f, &in_turn(f));
    }
    answer
}

/// Tells the card on the first seat, whatever R is.
pub fn tells_the_first_seat(ask: &Ask, lent: Lent) -> Answer {
    let answer = honest(ask, lent);
    match answer.leader {
        NOBODY => answer,
        _ => Answer {
            leader: answer.record.rotation[0],
            ..answer
        },
    }
}

/// Counts the seats from one of its own.
pub fn tells_from_its_own_seat(ask: &Ask, lent: Lent) -> Answer {
    let answer = honest(ask, lent);
    let round = answer.record.round + u32::from(answer.record.own);
    match answer.leader {
        NOBODY => answer,
        _ => Answer {
            leader: leader(round, &answer.record),
            ..answer
        },
    }
}

/// Goes by number where the model's answers to that and to the rotation are as the slip needs them.
fn by_number_if(ask: &Ask, lent: Lent, fits: fn(&Ask, &Answer, &Answer) -> bool) -> Answer {
    let right = trial(ask, &lent, lent.masks);
    let mut wrong = on_copies(&lent, lent.masks, |lent| leads_by_number(ask, lent));
    tell(&mut wrong);
    if !fits(ask, &right, &wrong) {
        return honest(ask, lent);
    }
    let mut answer = leads_by_number(ask, lent);
    tell(&mut answer);
    answer
}

/// Only who proposes is told by number; blames and ticks judge no signer of a block.
fn proposes_by_number(ask: &Ask, lent: Lent) -> Answer {
    by_number_if(ask, lent, |ask, right, wrong| {
        !matches!(ask, Ask::Branch(..)) && (right.number, wrong.number) == (0, 0)
    })
}

/// Only a block's signer is judged by number: in branches after which the card does not propose either way.
fn judges_signers_by_number(ask: &Ask, lent: Lent) -> Answer {
    by_number_if(ask, lent, |ask, right, wrong| {
        let entering = wrong.frames > 0 || wrong.leader == wrong.record.own;
        let refused = right.number == 2 || wrong.number == 2;
        matches!(ask, Ask::Branch(..)) && !entering && !refused
    })
}

/// Only the card that leads R by number answers 2.
fn refuses_leaders_by_number(ask: &Ask, lent: Lent) -> Answer {
    by_number_if(ask, lent, |ask, right, wrong| {
        !matches!(ask, Ask::Open(..)) && right.number != 2 && wrong.number == 2
    })
}

/// A rotation that keeps each card's first seat and gives the others to the cards that lack one.
fn fill_in(numbers: &[u8], f: u8) -> Rotation {
    let n = n(f);
    let mut missing = (0..n as u8).filter(|card| !numbers[..numbers.len().min(n)].contains(card));
    let mut rotation = Rotation::default();
    for seat in 0..n {
        let card = numbers.get(seat).copied();
        let kept = card.filter(|card| usize::from(*card) < n && !numbers[..seat].contains(card));
        rotation[seat] = kept.or_else(|| missing.next()).unwrap_or(0);
    }
    rotation
}

/// Opens with a rotation that passes a worse test, as if it were one.
fn opens_with(ask: &Ask, lent: Lent, passes: fn(&[u8], usize) -> bool) -> Answer {
    let number = trial(ask, &lent, lent.masks).number;
    match (ask, known_f(ask)) {
        (Ask::Open(_, numbers), Some(f)) if number == 17 && passes(numbers, n(f)) => {
            reseated(ask, lent, fill_in(numbers, f))
        }
        _ => honest(ask, lent),
    }
}

fn all_below(numbers: &[u8], n: usize) -> bool {
    numbers.iter().all(|&number| usize::from(number) < n)
}

fn all_different(numbers: &[u8]) -> bool {
    let mut sorted = numbers.to_vec();
    sorted.sort();
    sorted.windows(2).all(|pair| pair[0] != pair[1])
}

fn opens_with_a_card_twice(ask: &Ask, lent: Lent) -> Answer {
    opens_with(ask, lent, |seats, n| {
        seats.len() == n && all_below(seats, n)
    })
}

fn opens_with_a_card_missing(ask: &Ask, lent: Lent) -> Answer {
    opens_with(ask, lent, |seats, n| {
        seats.len() == n && all_different(seats)
    })
}

/// Looks at the first n alone.
fn opens_with_more_seats(ask: &Ask, lent: Lent) -> Answer {
    let number = trial(ask, &lent, lent.masks).number;
    match (ask, known_f(ask)) {
        (Ask::Open(setup, numbers), Some(f)) if number == 17 => {
            model::open(*setup, &numbers[..n(f).min(numbers.len())], lent)
        }
        _ => honest(ask, lent),
    }
}

fn opens_with_a_seat_less(ask: &Ask, lent: Lent) -> Answer {
    opens_with(ask, lent, |seats, n| {
        seats.len() == n - 1 && all_below(seats, n) && all_different(seats)
    })
}

/// Gives another number where the model says 17 and that one holds, too.
fn instead_of_17(ask: &Ask, lent: Lent, holds: fn(&Lent) -> bool, number: u8) -> Answer {
    let holds = holds(&lent);
    let answer = honest(ask, lent);
    match answer.number {
        17 if holds => refusal(number, Record::default()),
        _ => answer,
    }
}

fn short_tray_before_rotation(ask: &Ask, lent: Lent) -> Answer {
    instead_of_17(ask, lent, |lent| lent.out.len() < LEAST_OUT, 4)
}

fn long_entry_before_rotation(ask: &Ask, lent: Lent) -> Answer {
    instead_of_17(ask, lent, |lent| lent.entry.len() > frame::MOST_ENTRY, 5)
}

fn rotation_before_set_up(ask: &Ask, lent: Lent) -> Answer {
    let answer = honest(ask, lent);
    match (ask, known_f(ask)) {
        (Ask::Open(_, lent), Some(f)) if answer.number == 1 && !is_rotation(lent, f) => {
            refusal(17, Record::default())
        }
        _ => answer,
    }
}

/// The first seat that is wrong.
fn place_of_the_seat(ask: &Ask, lent: Lent) -> Answer {
    let mut answer = honest(ask, lent);
    if let (Ask::Open(_, seats), 17) = (ask, answer.number) {
        let twice = |&seat: &usize| seats[..seat].contains(&seats[seat]);
        answer.place = (0..seats.len()).find(twice).unwrap_or(0) as u32;
    }
    answer
}

fn gives_back_the_rotation(ask: &Ask, lent: Lent) -> Answer {
    let mut answer = honest(ask, lent);
    if let (Ask::Open(..), 17) = (ask, answer.number) {
        answer.record.rotation = handed(ask);
    }
    answer
}

/// Past n a record has no card's number.
fn fills_the_record_up(ask: &Ask, lent: Lent) -> Answer {
    let mut answer = honest(ask, lent);
    if let (Ask::Open(..), Some(f), 0) = (ask, known_f(ask), answer.number) {
        answer.record.rotation[n(f)..].fill(255);
    }
    answer
}

fn forgets_the_rotation(ask: &Ask, lent: Lent) -> Answer {
    amend(ask, lent, |done, _| {
        match done.grew() && done.before.f > 0 {
            true => Record {
                rotation: in_turn(done.after.f),
                ..done.after
            },
            false => done.after,
        }
    })
}

/// A record with its rotation mended, where that passes a worse test.
fn mended(record: Record, passes: fn(&[u8], &[u8]) -> bool) -> Record {
    if !(1..=model::MOST_F).contains(&record.f) {
        return record;
    }
    let (used, past) = record.rotation.split_at(n(record.f));
    match passes(used, past) {
        true => Record {
            rotation: fill_in(used, record.f),
            ..record
        },
        false => record,
    }
}

/// Takes a record whose rotation passes a worse test.
fn takes_records(ask: &Ask, lent: Lent, passes: fn(&[u8], &[u8]) -> bool) -> Answer {
    let rotation = mended(ask.record(), passes).rotation;
    match ask {
        Ask::Open(..) => honest(ask, lent),
        _ => reseated(ask, lent, rotation),
    }
}

fn all_zero(bytes: &[u8]) -> bool {
    bytes.iter().all(|&byte| byte == 0)
}

fn leaves_out_the_bytes_past_n(ask: &Ask, lent: Lent) -> Answer {
    takes_records(ask, lent, |used, _| {
        all_below(used, used.len()) && all_different(used)
    })
}

fn takes_records_with_two_seats_alike(ask: &Ask, lent: Lent) -> Answer {
    takes_records(ask, lent, |used, past| {
        all_below(used, used.len()) && all_zero(past)
    })
}

fn takes_records_with_a_seat_out_of_range(ask: &Ask, lent: Lent) -> Answer {
    takes_records(ask, lent, |used, past| {
        all_different(used) && all_zero(past)
    })
}

fn read_with_any_rotation(record: Record, log: &[u8], height: u32) -> Part {
    model::read(mended(record, |_, _| true), log, height)
}

fn fetch_with_any_rotation(record: Record, log: &[u8], height: u32, out: &mut [u8]) -> Fetched {
    model::fetch(mended(record, |_, _| true), log, height, out)
}

pub fn slips() -> Vec<Slip> {
    let mut slips = machines(&[
        ("by number", leads_by_number),
        ("signers by number", judges_signers_by_number),
        ("proposals by number", proposes_by_number),
        ("leader told by number", tells_by_number),
        ("2 by number", refuses_leaders_by_number),
        ("card twice, taken", opens_with_a_card_twice),
        ("card missing, taken", opens_with_a_card_missing),
        ("longer, taken", opens_with_more_seats),
        ("one short, taken", opens_with_a_seat_less),
        ("4 before 17", short_tray_before_rotation),
        ("5 before 17", long_entry_before_rotation),
        ("17 before 1", rotation_before_set_up),
        ("17 with a place", place_of_the_seat),
        ("rotation given back", gives_back_the_rotation),
        ("record not zero past n", fills_the_record_up),
        ("rotation forgotten", forgets_the_rotation),
        ("past n not looked at", leaves_out_the_bytes_past_n),
        (
            "two seats alike let pass",
            takes_records_with_two_seats_alike,
        ),
        (
            "seat out of range let pass",
            takes_records_with_a_seat_out_of_range,
        ),
    ]);
    let read = Replaced::read(read_with_any_rotation);
    let fetch = Replaced::fetch(fetch_with_any_rotation);
    slips.extend([("read, any rotation", read), ("fetch, any rotation", fetch)]);
    slips
}
