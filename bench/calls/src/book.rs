//! Books of what is run here: the slots of a term, filled or skipped.

use crate::card::rotation;
use beside::frame::{self, GENESIS, SIZE};
use beside::model::leader;

/// The bytes of an entry.
const ENTRY: u32 = 100;

/// The entry of a round's block.
pub fn entry(round: u32) -> Vec<u8> {
    (0..ENTRY)
        .map(|i| (i * 167 + round * 31 + 13) as u8)
        .collect()
}

/// The slots of rounds 1 to `last`: a chain with a block in each round that is not skipped.
pub fn book(f: u8, last: u32, skipped: impl Fn(u32) -> bool) -> Vec<u8> {
    let (mut parent, mut height) = (GENESIS, 0);
    let mut log = vec![0; last as usize * SIZE];
    for (slot, round) in log.as_chunks_mut().0.iter_mut().zip(1..) {
        if !skipped(round) {
            height += 1;
            let signer = leader(round, f, &rotation(f));
            frame::write_block(slot, signer, round, height, &parent, &entry(round));
            parent = *frame::name(slot);
        }
    }
    log
}
