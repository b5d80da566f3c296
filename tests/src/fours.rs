//! Frames in groups of four, whose checks a library may judge at once: where a branch or a set of
//! blames was refused, what else was wrong in that group, and how many frames were taken, as rows of
//! the coverage table. A group of fewer than four is the last one.

use std::collections::BTreeMap;
use std::sync::LazyLock;

use crate::call::{Call, What};
use crate::coverage::Row;
use crate::frame::{self, Frame};
use crate::model::{blame_in_form, block_in_form, is_child, slots, Answer, Record};

const FOUR: usize = 4;

/// Refusals of a frame, in the order in which they are told of it.
const CHECK: u8 = 7;
const FORM: u8 = 8;
const PARTED: u8 = 9;

/// The rows of a call and the refusals that it can give.
const CALLS: [(&str, &[u8]); 2] = [(BRANCH, &[CHECK, FORM, PARTED]), (BLAMES, &[CHECK, FORM])];
const BRANCH: &str = "branch, in fours";
const BLAMES: &str = "blames, in fours";

#[derive(Clone, Copy, PartialEq, Eq, PartialOrd, Ord)]
enum Way {
    /// By number, size of the group and place in it.
    Refused(u8, usize, usize),
    /// In a group of this size, after one of four that was good.
    Later(usize),
    /// The number told, and that of a later frame of its group.
    Order(u8, u8),
    /// With at least one whole group, by the number of frames left over.
    Taken(usize),
}

impl Way {
    fn label(self) -> String {
        let word = |number| match number {
            CHECK => "check",
            FORM => "form",
            _ => "parted",
        };
        match self {
            Way::Refused(number, size, place) => {
                format!("{}, frame {} of {size}", word(number), place + 1)
            }
            Way::Later(size) => format!("refused, a later group of {size}"),
            Way::Order(told, after) => format!("{} told, {} after it", word(told), word(after)),
            Way::Taken(rest) => format!("taken, 4k + {rest} frames"),
        }
    }
}

/// The ways of a call with these refusals.
fn ways(numbers: &[u8]) -> Vec<Way> {
    let mut ways = Vec::new();
    for &number in numbers {
        let sizes = (1..=FOUR).flat_map(|size| (0..size).map(move |place| (size, place)));
        ways.extend(sizes.map(|(size, place)| Way::Refused(number, size, place)));
    }
    ways.extend((1..=FOUR).map(Way::Later));
    for &number in &numbers[1..] {
        ways.extend([Way::Order(CHECK, number), Way::Order(number, CHECK)]);
    }
    ways.extend((0..FOUR).map(Way::Taken));
    ways
}

/// Made once, so that rows can share them.
static LABELS: LazyLock<BTreeMap<Way, &'static str>> = LazyLock::new(|| {
    let all = CALLS.iter().flat_map(|(_, numbers)| ways(numbers));
    all.map(|way| (way, &*way.label().leak())).collect()
});

/// Every way there is.
pub fn rows() -> impl Iterator<Item = Row> {
    let of_call = |(call, numbers): (&'static str, &[u8])| {
        let label = move |way| (call, LABELS[&way]);
        ways(numbers).into_iter().map(label)
    };
    CALLS.into_iter().flat_map(of_call)
}

pub fn is_row(row: &Row) -> bool {
    CALLS.iter().any(|call| call.0 == row.0)
}

/// The ways of a call.
pub fn reached(call: &Call, record: &Record, answer: &Answer) -> Vec<Row> {
    let (group, numbers) = match call.what {
        What::Branch(_) => CALLS[0],
        What::Blames(_) => CALLS[1],
        _ => return Vec::new(),
    };
    let frames = slots(call.handed());
    let ways = match answer.number {
        0 if frames.len() >= FOUR => vec![Way::Taken(frames.len() % FOUR)],
        CHECK..=PARTED => {
            let alone = |place: usize| match numbers.contains(&PARTED) {
                true => block(record, frames, place),
                false => blame(record, &frames[place]),
            };
            refused(frames.len(), answer, alone)
        }
        _ => Vec::new(),
    };
    ways.iter().map(|way| (group, LABELS[way])).collect()
}

/// The ways of a refusal, with what each later frame would be refused for.
fn refused(frames: usize, answer: &Answer, alone: impl Fn(usize) -> u8) -> Vec<Way> {
    let (told, place) = (answer.number, answer.place as usize);
    let start = place - place % FOUR;
    let end = frames.min(start + FOUR);
    let mut ways = vec![Way::Refused(told, end - start, place - start)];
    if start > 0 {
        ways.push(Way::Later(end - start));
    }
    let after: Vec<u8> = (place + 1..end).map(alone).collect();
    let orders = [
        (CHECK, FORM),
        (CHECK, PARTED),
        (FORM, CHECK),
        (PARTED, CHECK),
    ];
    let fits = |&(first, other): &(u8, u8)| told == first && after.contains(&other);
    let orders = orders.into_iter().filter(fits);
    ways.extend(orders.map(|(first, other)| Way::Order(first, other)));
    ways
}

/// What a block after others is refused for if those are good; 0 for nothing.
fn block(record: &Record, frames: &[Frame], place: usize) -> u8 {
    let (frame, before) = (&frames[place], &frames[place - 1]);
    if !frame::check_is_right(frame) {
        CHECK
    } else if !block_in_form(record, frame) {
        FORM
    } else if block_in_form(record, before) && !is_child(frame, before) {
        PARTED
    } else {
        0
    }
}

fn blame(record: &Record, frame: &Frame) -> u8 {
    if !frame::check_is_right(frame) {
        CHECK
    } else if !blame_in_form(record, frame) {
        FORM
    } else {
        0
    }
}
