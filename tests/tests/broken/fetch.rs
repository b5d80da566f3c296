//! Slips of read, of fetch and of filling the tray.

use beside::frame::{self, Frame, SIZE};
use beside::model::{self, line, line_above, Fetched, Part, Record, LEAST_OUT};
use beside::replaced::{Fetch, Replaced};

use crate::common::Slip;

pub fn read_absent(record: Record, log: &[u8], height: u32) -> Part {
    let part = model::read(record, log, height);
    Part {
        number: if part.number == 0 { 15 } else { part.number },
        start: 0,
        length: 0,
    }
}

/// Reads the line up to the tip.
fn read_uncommitted(mut record: Record, log: &[u8], height: u32) -> Part {
    let part = model::read(record, log, height);
    record.committed_round = record.tip_round;
    match part.number {
        15 => model::read(record, log, height),
        _ => part,
    }
}

pub fn fetch_none(record: Record, log: &[u8], height: u32, out: &mut [u8]) -> Fetched {
    let kept = out.to_vec();
    let mut fetched = model::fetch(record, log, height, out);
    out.copy_from_slice(&kept);
    fetched.count = 0;
    fetched
}

fn fetch_more_than_said(record: Record, log: &[u8], height: u32, out: &mut [u8]) -> Fetched {
    let mut fetched = model::fetch(record, log, height, out);
    fetched.count = fetched.count.min(1);
    fetched
}

/// Copies the frames that a slip takes for the right ones, as many as fit.
pub fn give<'a>(
    record: Record,
    log: &[u8],
    out: &mut [u8],
    frames: impl Iterator<Item = &'a Frame>,
) -> Fetched {
    let judged = model::fetch(record, log, 0, &mut out.to_vec());
    if matches!(judged.number, 2 | 4) {
        return judged;
    }
    let mut count = 0;
    for (place, frame) in out.as_chunks_mut().0.iter_mut().zip(frames) {
        *place = *frame;
        count += 1;
    }
    let number = if count == 0 { 15 } else { 0 };
    Fetched { number, count }
}

fn room(out: &[u8]) -> usize {
    out.len() / SIZE
}

pub fn fetch_one_fewer(record: Record, log: &[u8], height: u32, out: &mut [u8]) -> Fetched {
    let most = room(out).saturating_sub(1);
    give(record, log, out, line_above(log, height).take(most))
}

fn fetch_one(record: Record, log: &[u8], height: u32, out: &mut [u8]) -> Fetched {
    give(record, log, out, line_above(log, height).take(1))
}

pub fn fetch_highest_first(record: Record, log: &[u8], height: u32, out: &mut [u8]) -> Fetched {
    let frames: Vec<_> = line_above(log, height).collect();
    give(record, log, out, frames.into_iter().rev())
}

/// In rising round, but the last that fit.
fn fetch_the_highest(record: Record, log: &[u8], height: u32, out: &mut [u8]) -> Fetched {
    let frames: Vec<_> = line_above(log, height).collect();
    let spare = frames.len().saturating_sub(room(out));
    give(record, log, out, frames.into_iter().skip(spare))
}

fn fetch_lowest_heights(record: Record, log: &[u8], height: u32, out: &mut [u8]) -> Fetched {
    let mut frames: Vec<_> = line_above(log, height).collect();
    frames.sort_by_key(|frame| frame::height(frame));
    give(record, log, out, frames.into_iter())
}

/// Frames above a height from the slots up to a round.
fn line_up_to(log: &[u8], round: u32, height: u32) -> impl Iterator<Item = &Frame> {
    line_above(&log[..log.len().min(SIZE * round as usize)], height)
}

pub fn fetch_committed(record: Record, log: &[u8], height: u32, out: &mut [u8]) -> Fetched {
    let frames = line_up_to(log, record.committed_round, height);
    give(record, log, out, frames)
}

fn fetch_up_to_the_tip(record: Record, log: &[u8], height: u32, out: &mut [u8]) -> Fetched {
    give(record, log, out, line_up_to(log, record.tip_round, height))
}

/// Room counted in slots walked.
pub fn fetch_from_as_many_slots(
    record: Record,
    log: &[u8],
    height: u32,
    out: &mut [u8],
) -> Fetched {
    let frames = line_up_to(log, room(out) as u32, height);
    give(record, log, out, frames)
}

/// Room counted in frames of the line, whatever their heights.
fn fetch_from_as_many_frames(record: Record, log: &[u8], height: u32, out: &mut [u8]) -> Fetched {
    let above = |frame: &&Frame| frame::height(frame) > height;
    let frames = line(log).take(room(out)).filter(above);
    give(record, log, out, frames)
}

pub fn fetch_of_the_height_too(record: Record, log: &[u8], height: u32, out: &mut [u8]) -> Fetched {
    let above = |frame: &&Frame| frame::height(frame) >= height;
    give(record, log, out, line(log).filter(above))
}

/// Takes the height for a round.
pub fn fetch_above_a_round(record: Record, log: &[u8], height: u32, out: &mut [u8]) -> Fetched {
    let above = log.get(SIZE * height as usize..).unwrap_or_default();
    give(record, log, out, line(above))
}

/// Ends at a frame that is not above the height, once it has one that is.
fn fetch_to_a_low_frame(record: Record, log: &[u8], height: u32, out: &mut [u8]) -> Fetched {
    let above = |frame: &&Frame| frame::height(frame) > height;
    let first = |frame: &&Frame| !above(frame);
    let frames = line(log).skip_while(first).take_while(above);
    give(record, log, out, frames)
}

/// As many as the tip is higher.
fn fetch_by_the_tips_height(record: Record, log: &[u8], height: u32, out: &mut [u8]) -> Fetched {
    let all = record.tip_height.saturating_sub(height) as usize;
    give(record, log, out, line_above(log, height).take(all))
}

/// Rounds the out buffer's length up: the next frame's first bytes go to the tail.
fn fetch_into_the_tail(record: Record, log: &[u8], height: u32, out: &mut [u8]) -> Fetched {
    let fetched = model::fetch(record, log, height, out);
    let tail = out.as_chunks_mut::<SIZE>().1;
    let next = line_above(log, height).nth(fetched.count);
    if let (0, Some(next)) = (fetched.number, next) {
        tail.copy_from_slice(&next[..tail.len()]);
    }
    fetched
}

/// Counts the frame in the tail, too.
fn fetch_counts_the_tail(record: Record, log: &[u8], height: u32, out: &mut [u8]) -> Fetched {
    let fetched = fetch_into_the_tail(record, log, height, out);
    let rounded_up = out.len().div_ceil(SIZE);
    let all = line_above(log, height).count();
    Fetched {
        count: match fetched.number {
            0 => all.min(rounded_up),
            _ => 0,
        },
        ..fetched
    }
}

fn fetch_clears_the_rest(record: Record, log: &[u8], height: u32, out: &mut [u8]) -> Fetched {
    let fetched = model::fetch(record, log, height, out);
    if fetched.number == 0 {
        out[SIZE * fetched.count..].fill(0);
    }
    fetched
}

/// 15 before 4.
fn fetch_absent_first(record: Record, log: &[u8], height: u32, out: &mut [u8]) -> Fetched {
    let fetched = model::fetch(record, log, height, out);
    match (fetched.number, line_above(log, height).next()) {
        (4, None) => Fetched {
            number: 15,
            ..fetched
        },
        _ => fetched,
    }
}

/// 4 before 2.
fn fetch_short_tray_first(record: Record, log: &[u8], height: u32, out: &mut [u8]) -> Fetched {
    let fetched = model::fetch(record, log, height, out);
    match out.len() {
        0..LEAST_OUT => Fetched {
            number: 4,
            ..fetched
        },
        _ => fetched,
    }
}

pub fn slips() -> Vec<Slip> {
    let slips: [(&str, Fetch); 19] = [
        ("fetch more than said", fetch_more_than_said),
        ("one fewer than fit", fetch_one_fewer),
        ("one frame at most", fetch_one),
        ("highest rounds first", fetch_highest_first),
        ("the highest rounds", fetch_the_highest),
        ("lowest heights first", fetch_lowest_heights),
        ("committed frames alone", fetch_committed),
        ("frames up to the tip", fetch_up_to_the_tip),
        ("room counted in slots", fetch_from_as_many_slots),
        ("room counted in all frames", fetch_from_as_many_frames),
        ("frames of the height too", fetch_of_the_height_too),
        ("height taken for a round", fetch_above_a_round),
        ("ends at a low frame", fetch_to_a_low_frame),
        ("counted by the tip's height", fetch_by_the_tips_height),
        ("a part of a frame in the tail", fetch_into_the_tail),
        ("frame in the tail counted", fetch_counts_the_tail),
        ("rest of the tray cleared", fetch_clears_the_rest),
        ("15 before 4", fetch_absent_first),
        ("4 before 2", fetch_short_tray_first),
    ];
    let broken = |(name, fetch)| (name, Replaced::fetch(fetch));
    let mut slips = Vec::from(slips.map(broken));
    slips.push(("read uncommitted", Replaced::read(read_uncommitted)));
    slips
}
