//! What fetches are asked: heights and out buffers at and around their edges.

use crate::frame::SIZE;
use crate::model::{Record, LEAST_OUT};
use crate::rng::Rng;

/// A height at or next to one of a record's, 0 or the largest number.
pub fn height(rng: &mut Rng, record: &Record) -> u32 {
    let (committed, tip) = (record.committed_height, record.tip_height);
    let edge = rng.pick(&[0, committed, committed, tip, tip, u32::MAX]);
    match rng.below(4) {
        0 => edge.saturating_sub(1),
        1 => edge.saturating_add(1),
        _ => edge,
    }
}

/// The length of an out buffer, up to so many frames: room for as many as there are, about as many
/// or any number, at times with a tail of less than a frame; seldom it is too short.
pub fn tray(rng: &mut Rng, frames: usize, most: usize) -> usize {
    if rng.chance(4) {
        return rng.below(LEAST_OUT);
    }
    let any = 2 + rng.below(most - 1);
    let fewer = frames.saturating_sub(1);
    let room = rng.pick(&[2, any, fewer, frames, frames, frames + 1]);
    let tail = rng.pick(&[0, 0, 0, 1, SIZE - 1, any % SIZE]);
    SIZE * room.clamp(2, most) + tail
}
