//! A term without faults, on the library: every card sound, every frame delivered at once, and no clock needed.

use crate::card::{rotation, Card};
use beside::ffi::Archive;
use beside::library::Library;
use beside::model::{seats, Answer, Lent, Record, Setup, NOBODY};
use std::collections::VecDeque;

/// What a term took.
#[derive(Default)]
pub struct Counts {
    pub committed: u32,
    /// Frames that the cards emitted.
    pub emitted: usize,
    /// Copies of them on the cables, one to each other card.
    pub sent: usize,
    /// Copies that the cards relayed to the next leader.
    pub relayed: usize,
}

/// A frame under way.
struct Copy {
    frame: Vec<u8>,
    to: usize,
}

struct Cabinet {
    cards: Vec<Card>,
    cables: VecDeque<Copy>,
    counts: Counts,
}

const ENTRY: [u8; 100] = [7; 100];

impl Cabinet {
    /// One call at a card, and the sending of what it emitted.
    fn call(&mut self, at: usize, call: impl Fn(Record, Lent) -> Answer) -> Answer {
        let (answer, frames) = self.cards[at].call(&ENTRY, call);
        for frame in frames {
            self.counts.emitted += 1;
            for to in (0..self.cards.len()).filter(|&to| to != at) {
                self.send(&frame, to);
                self.counts.sent += 1;
            }
        }
        answer
    }

    fn send(&mut self, frame: &[u8], to: usize) {
        let frame = frame.to_vec();
        self.cables.push_back(Copy { frame, to });
    }

    /// Hands in a copy; the card relays a block that it takes to the next leader, unless that is itself or made the block.
    fn deliver(&mut self, copy: Copy) {
        let Copy { frame, to } = copy;
        let answer = self.call(to, |record, lent| Archive.branch(record, &frame, lent));
        match answer.number {
            0 => {}
            // Known already, or the term is over.
            3 | 10 => return,
            number => panic!("a block of a sound card is refused: {number}"),
        }
        let leader = usize::from(answer.leader);
        if answer.frames == 0 && answer.leader != NOBODY && leader != usize::from(frame[1]) {
            self.send(&frame, leader);
            self.counts.relayed += 1;
        }
    }
}

pub fn run(f: u8, term: u32) -> Counts {
    let n = 2 * f + 1;
    let mut cabinet = Cabinet {
        cards: (0..n).map(|_| Card::closed(term)).collect(),
        cables: VecDeque::new(),
        counts: Counts::default(),
    };
    for own in 0..n {
        let setup = Setup {
            own,
            f,
            wait: 1,
            term,
        };
        let answer = cabinet.call(usize::from(own), |_, lent| {
            Archive.open(setup, seats(&rotation(f), f), lent)
        });
        assert_eq!(answer.number, 0, "open");
    }
    while let Some(copy) = cabinet.cables.pop_front() {
        cabinet.deliver(copy);
    }
    let first = &cabinet.cards[0];
    cabinet.counts.committed = first.record.committed_height;
    for card in &cabinet.cards {
        assert_eq!(
            card.record.round,
            term + 1,
            "every card has passed every round"
        );
        assert_eq!(card.record.committed_height, first.record.committed_height);
        assert!(card.log == first.log, "the logs agree");
    }
    cabinet.counts
}
