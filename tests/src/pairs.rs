//! The ways in which equivocation refuses or takes two frames, as rows of the coverage table.

use crate::call::Call;
use crate::coverage::{by_number, zip, Before, Reached};
use crate::frame::{self, Frame, CHECK_AT, SIZE};
use crate::model::{all_cards, block_in_form, leader, slots, Marked, Record};

const RECORD: [&str; 3] = ["record, and cut", "record, and check", "record, and 18"];

const CUT: [&str; 11] = [
    "cut, no bytes",
    "cut, under 511 bytes",
    "cut, 511 bytes",
    "cut, one frame",
    "cut, bytes after one frame",
    "cut, 1,023 bytes",
    "cut, 1,025 bytes",
    "cut, three frames",
    "cut, four or more frames",
    "cut, bytes after two frames or more",
    "cut, and check",
];

const CHECK: [&str; 7] = [
    "check, first frame",
    "check, second frame",
    "check, both frames",
    "check, first, and form, second",
    "check, second, and two rounds",
    "check, the other's name",
    "check, the other's bytes",
];

const FORM: [&str; 13] = [
    "form, first frame",
    "form, second frame",
    "form, both frames",
    "form, first, and check, second",
    "form, second, and two rounds",
    "form, first's signer alone",
    "form, second's signer alone",
    "form, signer by number",
    "form, block and blame",
    "form, blame and block",
    "form, two blames",
    "form, round 0",
    "form, round T + 1",
];

const NO_DOUBLE: [&str; 4] = [
    "18, equal frames",
    "18, two rounds of one leader",
    "18, two rounds of two leaders",
    "18, R = T + 1",
];

const TAKEN: [&str; 18] = [
    "taken, first mark",
    "taken, beside other marks",
    "taken, marked already",
    "taken, all n marks then",
    "taken at R = T + 1",
    "taken, round 1",
    "taken, round T",
    "taken, round below R",
    "taken, R",
    "taken, round above R",
    "taken, one frame held",
    "taken, no frame held",
    "taken, one parent",
    "taken, two parents",
    "taken, two heights",
    "taken, entries alone differ",
    "taken, leader not by number",
    "taken, own number marked",
];

const TAKEN_OF: [&str; 7] = [
    "taken, n = 3",
    "taken, n = 5",
    "taken, n = 7",
    "taken, n = 9",
    "taken, n = 11",
    "taken, n = 13",
    "taken, n = 15",
];

/// Every way there is.
pub fn ways() -> impl Iterator<Item = &'static str> {
    let refused = RECORD.into_iter().chain(CUT).chain(CHECK).chain(FORM);
    refused.chain(NO_DOUBLE).chain(TAKEN).chain(TAKEN_OF)
}

/// The ways of a call.
pub fn reached(call: &Call, before: &Before, marked: &Marked) -> Vec<Reached> {
    let bytes = call.handed();
    match (marked.number, call.frames(0)) {
        (2, _) => bad_record(bytes),
        (6, _) => cut(bytes),
        (7, [first, second]) => bad_check([first, second], &before.record, marked.place),
        (8, [first, second]) => bad_form([first, second], &before.record, marked.place),
        (18, [first, second]) => no_double([first, second], &before.record),
        (_, [first, second]) => taken([first, second], before, &marked.record),
        _ => Vec::new(),
    }
}

type Pair<'a> = [&'a Frame; 2];

fn is_wrong(frame: &Frame) -> bool {
    !frame::check_is_right(frame)
}

fn is_blame(frame: &Frame) -> bool {
    frame::kind(frame) == frame::BLAME
}

fn two_rounds([first, second]: Pair) -> bool {
    frame::round(first) != frame::round(second)
}

fn bad_record(bytes: &[u8]) -> Vec<Reached> {
    let reached = match slots(bytes) {
        [first, second] if bytes.len() == 2 * SIZE => {
            let wrong = is_wrong(first) || is_wrong(second);
            [false, wrong, !wrong && first == second]
        }
        _ => [true, false, false],
    };
    zip(reached, RECORD).into()
}

fn cut(bytes: &[u8]) -> Vec<Reached> {
    let (length, whole) = (bytes.len(), bytes.len().is_multiple_of(SIZE));
    let reached = [
        length == 0,
        (1..511).contains(&length),
        length == 511,
        length == SIZE,
        (513..1023).contains(&length),
        length == 1023,
        length == 1025,
        length == 3 * SIZE,
        length > 3 * SIZE && whole,
        length > 1025 && !whole,
        slots(bytes).first().is_some_and(is_wrong),
    ];
    zip(reached, CUT).into()
}

fn bad_check(pair: Pair, record: &Record, place: u32) -> Vec<Reached> {
    let [first, second] = pair;
    let (at_first, both) = (place == 0, is_wrong(first) && is_wrong(second));
    let same_bytes = first[..CHECK_AT] == second[..CHECK_AT];
    let same_name = frame::name(first) == frame::name(second);
    let reached = [
        at_first,
        !at_first,
        both,
        at_first && !both && !block_in_form(record, second),
        !at_first && two_rounds(pair),
        same_name && !same_bytes,
        same_bytes && !same_name,
    ];
    zip(reached, CHECK).into()
}

fn bad_form(pair: Pair, record: &Record, place: u32) -> Vec<Reached> {
    let [first, second] = pair;
    let at_first = place == 0;
    let bad = pair[place as usize];
    let alone = by_signer_alone(bad, record);
    let seconds = !block_in_form(record, second);
    let round = frame::round(bad);
    let reached = [
        at_first,
        !at_first,
        at_first && !is_wrong(second) && seconds,
        at_first && is_wrong(second),
        !at_first && two_rounds(pair),
        alone && at_first,
        alone && !at_first,
        alone && round > 0 && frame::signer(bad) == by_number(round, record.f),
        !at_first && is_blame(second),
        at_first && is_blame(first) && !is_wrong(second) && !seconds,
        is_blame(first) && is_blame(second),
        round == 0,
        round == record.term + 1,
    ];
    zip(reached, FORM).into()
}

/// Whether a frame is in form but for its signer.
fn by_signer_alone(frame: &Frame, record: &Record) -> bool {
    let (mut mended, round) = (*frame, frame::round(frame));
    if !(1..=record.term).contains(&round) {
        return false;
    }
    mended[1] = leader(round, record.f, &record.rotation);
    mended != *frame && block_in_form(record, &mended)
}

fn no_double(pair: Pair, record: &Record) -> Vec<Reached> {
    let [first, second] = pair;
    let one_leader = frame::signer(first) == frame::signer(second);
    let reached = [
        first == second,
        two_rounds(pair) && one_leader,
        two_rounds(pair) && !one_leader,
        record.round > record.term,
    ];
    zip(reached, NO_DOUBLE).into()
}

fn taken(pair: Pair, before: &Before, after: &Record) -> Vec<Reached> {
    let ([first, second], record) = (pair, &before.record);
    let (marks, round) = (record.equivocators, frame::round(first));
    let (signer, at) = (frame::signer(first), round.cmp(&record.round));
    let fresh = after.equivocators != marks;
    let one_parent = frame::parent(first) == frame::parent(second);
    let one_height = frame::height(first) == frame::height(second);
    let reached = [
        marks == 0,
        fresh && marks != 0,
        !fresh,
        fresh && after.equivocators == all_cards(record.f),
        record.round > record.term,
        round == 1,
        round == record.term,
        at.is_lt(),
        at.is_eq(),
        at.is_gt(),
        before.held > 0,
        before.held == 0,
        one_parent,
        !one_parent,
        !one_height,
        one_parent && one_height,
        signer != by_number(round, record.f),
        signer == record.own,
    ];
    let mut rows = zip(reached, TAKEN).to_vec();
    rows.push((true, TAKEN_OF[usize::from(record.f) - 1]));
    rows
}
