//! Slips of checks that are judged four frames at a time, each in branch and in blames.

use std::ops::RangeInclusive;

use beside::coverage::Coverage;
use beside::drive::run;
use beside::frame::{self, Frame};
use beside::lists::Sizes;
use beside::model::{blame_in_form, block_in_form, is_child, slots, Answer, Lent};
use beside::replaced::{honest, Ask};

use crate::common::{machines, refusal, trial, Slip};

const FOUR: usize = 4;

/// Frames of a call, and whether each one's check was found right.
struct Judged<'a> {
    ask: &'a Ask<'a>,
    frames: &'a [Frame],
    right: Vec<bool>,
}

/// Number and place of a refusal.
type Told = Option<(u8, usize)>;

impl Judged<'_> {
    /// 7, 8 or 9 of one frame.
    fn fault(&self, place: usize) -> Option<u8> {
        let (record, frame) = (self.ask.record(), &self.frames[place]);
        let in_form = match self.ask {
            Ask::Branch(..) => block_in_form,
            _ => blame_in_form,
        };
        let parted = |before: &Frame| in_form(&record, before) && !is_child(frame, before);
        if !self.right[place] {
            Some(7)
        } else if !in_form(&record, frame) {
            Some(8)
        } else if matches!(self.ask, Ask::Branch(..)) && place > 0 {
            parted(&self.frames[place - 1]).then_some(9)
        } else {
            None
        }
    }

    /// The refusal with the least key in the first group, of so many frames, that has one.
    fn told_by(&self, size: usize, key: fn(u8, usize) -> (bool, usize)) -> Told {
        let places: Vec<usize> = (0..self.frames.len()).collect();
        let fault = |&place: &usize| self.fault(place).map(|number| (number, place));
        places.chunks(size).find_map(|group| {
            let faults = group.iter().filter_map(fault);
            faults.min_by_key(|&(number, place)| key(number, place))
        })
    }

    /// The lowest frame's refusal, as it has to be told.
    fn told(&self) -> Told {
        self.told_by(FOUR, |_, place| (false, place))
    }

    /// The same with other results in each group of a size.
    fn with(&mut self, size: usize, change: fn(&[Frame], &mut [bool])) -> Told {
        let groups = self.frames.chunks(FOUR).zip(self.right.chunks_mut(FOUR));
        for (group, right) in groups.filter(|(group, _)| group.len() == size) {
            change(group, right);
        }
        self.told()
    }

    /// The same with so many frames after whole groups passed over.
    fn pass_over(&mut self, left: RangeInclusive<usize>) -> Told {
        let (whole, rest) = self.right.as_chunks_mut::<FOUR>();
        if !whole.is_empty() && left.contains(&rest.len()) {
            rest.fill(true);
        }
        self.told()
    }
}

/// Whether a frame's check begins with so many bytes of another's digest.
fn fits(frame: &Frame, other: &Frame, bytes: usize) -> bool {
    frame::digest(other)[..bytes] == frame::name(frame)[..bytes]
}

/// What is told of several frames.
type Slipping = fn(&mut Judged) -> Told;

/// The model but for what is told of several frames; where that is nothing, it goes on as if all
/// checks were right.
fn judge(ask: &Ask, lent: Lent, bytes: &[u8], slip: Slipping) -> Answer {
    let frames = slots(bytes);
    if frames.len() < 2 || matches!(trial(ask, &lent, lent.masks).number, 2..=6) {
        return honest(ask, lent);
    }
    let right = frames.iter().map(frame::check_is_right).collect();
    let told = slip(&mut Judged { ask, frames, right });
    let (record, mended) = (ask.record(), mend(frames));
    match (told, ask) {
        (Some((number, place)), _) => Answer {
            place: place as u32,
            ..refusal(number, record)
        },
        (_, Ask::Branch(..)) => honest(&Ask::Branch(record, mended.as_flattened()), lent),
        _ => honest(&Ask::Blames(record, mended.as_flattened()), lent),
    }
}

/// The frames with right checks, each with the name of the one before if it had it.
fn mend(frames: &[Frame]) -> Vec<Frame> {
    let mut mended = frames.to_vec();
    for index in 0..frames.len() {
        if index > 0 && frame::parent(&frames[index]) == frame::name(&frames[index - 1]) {
            let name = *frame::name(&mended[index - 1]);
            mended[index][12..44].copy_from_slice(&name);
        }
        if !frame::check_is_right(&mended[index]) {
            frame::seal(&mut mended[index]);
        }
    }
    mended
}

fn in_branch(ask: &Ask, lent: Lent, slip: Slipping) -> Answer {
    match *ask {
        Ask::Branch(_, bytes) => judge(ask, lent, bytes, slip),
        _ => honest(ask, lent),
    }
}

fn in_blames(ask: &Ask, lent: Lent, slip: Slipping) -> Answer {
    match *ask {
        Ask::Blames(_, bytes) => judge(ask, lent, bytes, slip),
        _ => honest(ask, lent),
    }
}

macro_rules! in_both {
    ($(($name:literal, $slip:expr)),* $(,)?) => {
        machines(&[$(
            (concat!("branch, ", $name), |ask, lent| in_branch(ask, lent, $slip)),
            (concat!("blames, ", $name), |ask, lent| in_blames(ask, lent, $slip)),
        )*])
    };
}

/// A check is found right or wrong by something else.
pub fn slips() -> Vec<Slip> {
    in_both![
        ("last of four by the third's digest", |judged| {
            judged.with(4, |group, right| right[3] = fits(&group[3], &group[2], 32))
        }),
        ("last of four by the third's result", |judged| {
            judged.with(4, |_, right| right[3] = right[2])
        }),
        ("results of four in reverse", |judged| {
            judged.with(4, |_, right| right.reverse())
        }),
        ("third of three not checked", |judged| {
            judged.with(3, |_, right| right[2] = true)
        }),
        ("third of three by the first's digest", |judged| {
            judged.with(3, |group, right| right[2] = fits(&group[2], &group[0], 32))
        }),
        ("fifth by the first's result", |judged| {
            if judged.right.len() > FOUR {
                judged.right[4] = judged.right[0];
            }
            judged.told()
        }),
        ("rest passed over", |judged| judged.pass_over(1..=3)),
        ("one left passed over", |judged| judged.pass_over(1..=1)),
        ("two left passed over", |judged| judged.pass_over(2..=2)),
        ("last word of the fourth not compared", |judged| {
            judged.with(4, |group, right| right[3] = fits(&group[3], &group[3], 28))
        }),
    ]
}

/// The checks are right, and another frame's refusal or another place is told.
pub fn order_slips() -> Vec<Slip> {
    in_both![
        ("7 of a group before its 8 and 9", |judged| {
            judged.told_by(FOUR, |number, place| (number != 7, place))
        }),
        ("7 of all frames before 8 and 9", |judged| {
            judged.told_by(usize::MAX, |number, place| (number != 7, place))
        }),
        ("8 and 9 of a group before its 7", |judged| {
            judged.told_by(FOUR, |number, place| (number == 7, place))
        }),
        ("last refusal of a group", |judged| {
            judged.told_by(FOUR, |_, place| (false, usize::MAX - place))
        }),
        ("place of the group's first", |judged| {
            let told = judged.told()?;
            Some((told.0, told.1 - told.1 % FOUR))
        }),
        ("place inside the group", |judged| {
            let told = judged.told()?;
            Some((told.0, told.1 % FOUR))
        }),
    ]
}

/// What finds a slip is the slip: told as it has to be, nothing is found.
#[test]
fn judging_four_at_a_time_is_no_slip() {
    for (name, library) in in_both![("none", |judged| judged.told())] {
        for seed in 1..=60 {
            let passed = run(&library, seed, Sizes::All, &mut Coverage::new());
            let wrong = passed.err().map(|failure| failure.message);
            assert_eq!(wrong, None, "{name}, seed {seed}");
        }
    }
}
