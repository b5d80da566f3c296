//! Frames: 512 bytes each, numbers big-endian.

use crate::sha256;

pub const SIZE: usize = 512;
/// Where the check begins; it covers all bytes before it.
pub const CHECK_AT: usize = 480;
pub const ENTRY_AT: usize = 44;
pub const MOST_ENTRY: usize = 400;
pub const BLOCK: u8 = 1;
pub const BLAME: u8 = 2;
/// The name of the genesis.
pub const GENESIS: Name = [0; 32];

pub type Frame = [u8; SIZE];
pub type Name = [u8; 32];

/// `N` bytes of a frame from `at` on.
fn part<const N: usize>(frame: &Frame, at: usize) -> &[u8; N] {
    frame[at..at + N].try_into().expect("N bytes")
}

pub fn kind(frame: &Frame) -> u8 {
    frame[0]
}

pub fn signer(frame: &Frame) -> u8 {
    frame[1]
}

/// The entry's length as the frame says it.
pub fn length(frame: &Frame) -> usize {
    usize::from(u16::from_be_bytes(*part(frame, 2)))
}

pub fn round(frame: &Frame) -> u32 {
    u32::from_be_bytes(*part(frame, 4))
}

pub fn height(frame: &Frame) -> u32 {
    u32::from_be_bytes(*part(frame, 8))
}

pub fn parent(frame: &Frame) -> &Name {
    part(frame, 12)
}

/// The check, as it stands.
pub fn name(frame: &Frame) -> &Name {
    part(frame, CHECK_AT)
}

/// Whether a slot of the book holds a block.
pub fn filled(slot: &Frame) -> bool {
    slot[0] == BLOCK
}

/// The digest of the bytes before the check.
pub fn digest(frame: &Frame) -> Name {
    sha256::digest(&frame[..CHECK_AT])
}

/// The digests of four frames; zeros for another number of bytes.
pub fn digest4(frames: &[u8]) -> [Name; 4] {
    match frames.as_chunks() {
        ([a, b, c, d], []) => [a, b, c, d].map(digest),
        _ => [[0; 32]; 4],
    }
}

pub fn check_is_right(frame: &Frame) -> bool {
    digest(frame) == *name(frame)
}

/// Writes the right check.
pub fn seal(frame: &mut Frame) {
    let check = digest(frame);
    frame[CHECK_AT..].copy_from_slice(&check);
}

pub fn set_round(frame: &mut Frame, round: u32) {
    frame[4..8].copy_from_slice(&round.to_be_bytes());
}

pub fn set_height(frame: &mut Frame, height: u32) {
    frame[8..12].copy_from_slice(&height.to_be_bytes());
}

pub fn set_length(frame: &mut Frame, length: u16) {
    frame[2..4].copy_from_slice(&length.to_be_bytes());
}

/// Writes a sealed block over whatever stood there; the entry is at most 400 bytes.
pub fn write_block(
    frame: &mut Frame,
    signer: u8,
    round: u32,
    height: u32,
    parent: &Name,
    entry: &[u8],
) {
    frame.fill(0);
    frame[0] = BLOCK;
    frame[1] = signer;
    set_length(frame, entry.len() as u16);
    set_round(frame, round);
    set_height(frame, height);
    frame[12..ENTRY_AT].copy_from_slice(parent);
    frame[ENTRY_AT..ENTRY_AT + entry.len()].copy_from_slice(entry);
    seal(frame);
}

/// Writes a sealed blame over whatever stood there.
pub fn write_blame(frame: &mut Frame, signer: u8, round: u32) {
    frame.fill(0);
    frame[0] = BLAME;
    frame[1] = signer;
    set_round(frame, round);
    seal(frame);
}

/// A sealed block by itself.
pub fn block(signer: u8, round: u32, height: u32, parent: &Name, entry: &[u8]) -> Frame {
    let mut frame = [0; SIZE];
    write_block(&mut frame, signer, round, height, parent, entry);
    frame
}

/// A sealed blame by itself.
pub fn blame(signer: u8, round: u32) -> Frame {
    let mut frame = [0; SIZE];
    write_blame(&mut frame, signer, round);
    frame
}
