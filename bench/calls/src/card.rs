//! One card, for whole terms and for one that comes back; and the rotation of all that is run here.

use beside::frame::SIZE;
use beside::model::{cards, Answer, Lent, Record, Rotation, LEAST_OUT};

/// The seats are shuffled, always in the same way: 1, 3, 5 and so on, then 0, 2, 4 and so on.
pub fn rotation(f: u8) -> Rotation {
    let (mut rotation, n) = (Rotation::default(), cards(f) as u8);
    for (seat, i) in rotation.iter_mut().zip(0..n) {
        *seat = (2 * i + 1) % n;
    }
    rotation
}

pub struct Card {
    pub record: Record,
    pub log: Vec<u8>,
    pub masks: Vec<u16>,
}

impl Card {
    /// A card that is not opened yet.
    pub fn closed(term: u32) -> Card {
        Card {
            record: Record::default(),
            log: vec![0; term as usize * SIZE],
            masks: vec![0; term as usize],
        }
    }

    /// Its record and buffers become copies of another card's.
    pub fn become_like(&mut self, other: &Card) {
        self.record = other.record;
        self.log.copy_from_slice(&other.log);
        self.masks.copy_from_slice(&other.masks);
    }

    /// One call, lent this entry: its answer, and the frames that it emitted.
    pub fn call(
        &mut self,
        entry: &[u8],
        call: impl FnOnce(Record, Lent) -> Answer,
    ) -> (Answer, Vec<Vec<u8>>) {
        let mut out = [0; LEAST_OUT];
        let lent = Lent {
            log: &mut self.log,
            masks: &mut self.masks,
            entry,
            out: &mut out,
        };
        let answer = call(self.record, lent);
        self.record = answer.record;
        let emitted = out[..usize::from(answer.frames) * SIZE].chunks_exact(SIZE);
        (answer, emitted.map(<[u8]>::to_vec).collect())
    }
}
