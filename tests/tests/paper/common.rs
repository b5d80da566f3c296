//! A card with its buffers, and the frames, rotations and answers that the tests share.

use beside::frame::{self, blame, block, Frame, GENESIS, SIZE};
use beside::library::under_test;
use beside::model::{
    in_turn, leader, slots, Answer, Fetched, Lent, Marked, Part, Record, Rotation, Setup,
};
use beside::rng::Rng;

/// A card with its buffers.
pub struct Card {
    pub record: Record,
    pub log: Vec<u8>,
    pub masks: Vec<u16>,
    pub entry: Vec<u8>,
    pub out: Vec<u8>,
}

impl Card {
    /// A card that is opened already, with the rotation 0, 1, 2 and so on.
    pub fn open(own: u8, f: u8, wait: u32, term: u32) -> Card {
        Card::seated(own, f, wait, term, &turn(f))
    }

    /// A card that is opened already.
    pub fn seated(own: u8, f: u8, wait: u32, term: u32, seats: &[u8]) -> Card {
        let mut card = Card::closed(term);
        let answer = card.try_seats(own, f, wait, term, seats);
        assert_eq!(answer.number, 0);
        card.record = answer.record;
        card
    }

    pub fn closed(term: u32) -> Card {
        Card {
            record: Record::default(),
            log: vec![7; SIZE * term as usize],
            masks: vec![7; term as usize],
            entry: Vec::new(),
            out: vec![0xee; 1024],
        }
    }

    /// A card in a state made by hand: blocks in their slots, the tip the last, R as given.
    pub fn made(own: u8, f: u8, term: u32, blocks: &[Frame], round: u32) -> Card {
        let mut card = Card::closed(term);
        card.log.fill(0);
        card.masks.fill(0);
        for block in blocks {
            let at = SIZE * (frame::round(block) as usize - 1);
            card.log[at..at + SIZE].copy_from_slice(block);
        }
        card.record = Record {
            own,
            f,
            wait: 2,
            term,
            round,
            left: 2,
            tip_round: blocks.last().map_or(0, frame::round),
            tip_height: blocks.last().map_or(0, frame::height),
            rotation: in_turn(f),
            ..Record::default()
        };
        card
    }

    pub fn lend(&mut self) -> Lent<'_> {
        Lent {
            log: &mut self.log,
            masks: &mut self.masks,
            entry: &self.entry,
            out: &mut self.out,
        }
    }

    pub fn try_open(&mut self, own: u8, f: u8, wait: u32, term: u32) -> Answer {
        self.try_seats(own, f, wait, term, &turn(f))
    }

    pub fn try_seats(&mut self, own: u8, f: u8, wait: u32, term: u32, seats: &[u8]) -> Answer {
        let setup = Setup { own, f, wait, term };
        under_test().open(setup, seats, self.lend())
    }

    /// Opens with a rotation that is refused: number and place. Nothing may change.
    pub fn refused_seats(&mut self, f: u8, seats: &[u8]) -> (u8, u32) {
        let kept = (self.log.clone(), self.masks.clone(), self.out.clone());
        let term = self.masks.len() as u32;
        let answer = self.try_seats(0, f, 1, term, seats);
        assert_eq!((answer.frames, answer.leader), (0, 255));
        assert_eq!(answer.record, Record::default(), "a record of zeros");
        assert!(kept.0 == self.log && kept.1 == self.masks && kept.2 == self.out);
        told(answer)
    }

    pub fn keep(&mut self, answer: Answer) -> Answer {
        self.record = answer.record;
        answer
    }

    pub fn branch(&mut self, frames: &[Frame]) -> Answer {
        let record = self.record;
        let answer = under_test().branch(record, frames.as_flattened(), self.lend());
        self.keep(answer)
    }

    pub fn blame(&mut self, frame: &[u8]) -> Answer {
        let record = self.record;
        let answer = under_test().blame(record, frame, self.lend());
        self.keep(answer)
    }

    pub fn blames(&mut self, frames: &[Frame]) -> Answer {
        let record = self.record;
        let answer = under_test().blames(record, frames.as_flattened(), self.lend());
        self.keep(answer)
    }

    /// Hands in a set that is refused: number and place. Nothing may change.
    pub fn refused_set(&mut self, frames: &[u8]) -> (u8, u32) {
        let record = self.record;
        let kept = (self.log.clone(), self.masks.clone(), self.out.clone());
        let answer = under_test().blames(record, frames, self.lend());
        assert_ne!(answer.number, 0);
        assert_eq!(
            (answer.record, answer.frames, answer.leader),
            (record, 0, 255)
        );
        assert!(kept.0 == self.log && kept.1 == self.masks && kept.2 == self.out);
        told(answer)
    }

    pub fn tick(&mut self) -> Answer {
        let record = self.record;
        let answer = under_test().tick(record, self.lend());
        self.keep(answer)
    }

    pub fn equivocation(&mut self, pair: &[Frame; 2]) -> Marked {
        let marked = under_test().equivocation(self.record, pair.as_flattened());
        self.record = marked.record;
        marked
    }

    /// Hands in frames that are no equivocation: number and place. The record comes back as it was.
    pub fn refused_pair(&self, frames: &[u8]) -> (u8, u32) {
        let marked = under_test().equivocation(self.record, frames);
        assert_ne!(marked.number, 0);
        assert_eq!(marked.record, self.record);
        (marked.number, marked.place)
    }

    pub fn read(&self, height: u32) -> Part {
        under_test().read(self.record, &self.log, height)
    }

    pub fn fetch(&mut self, height: u32) -> Fetched {
        under_test().fetch(self.record, &self.log, height, &mut self.out)
    }

    pub fn out_frame(&self, index: usize) -> &Frame {
        &slots(&self.out)[index]
    }

    /// Committed round and height.
    pub fn committed(&self) -> (u32, u32) {
        (self.record.committed_round, self.record.committed_height)
    }

    pub fn commit(&mut self, round: u32, height: u32) {
        (self.record.committed_round, self.record.committed_height) = (round, height);
    }

    /// The rounds of the line.
    pub fn line(&self) -> Vec<u32> {
        let rounds = 1..=self.record.term;
        rounds
            .filter(|&round| frame::filled(&slots(&self.log)[round as usize - 1]))
            .collect()
    }
}

/// The rotation 0, 1, 2 and so on as open is lent it.
pub fn turn(f: u8) -> Vec<u8> {
    let n = 2 * usize::from(f) + 1;
    in_turn(f)[..n.min(15)].to_vec()
}

/// Blocks of the given rounds, each on the one before, the first on the genesis.
pub fn chain(f: u8, rounds: &[u32]) -> Vec<Frame> {
    let mut frames: Vec<Frame> = Vec::new();
    for (&round, height) in rounds.iter().zip(1..) {
        let parent = frames.last().map_or(GENESIS, |last| *frame::name(last));
        let signer = leader(round, f, &in_turn(f));
        frames.push(block(signer, round, height, &parent, b"x"));
    }
    frames
}

/// A set of blames of one round.
pub fn set(round: u32, signers: &[u8]) -> Vec<Frame> {
    signers.iter().map(|&signer| blame(signer, round)).collect()
}

pub fn told(answer: Answer) -> (u8, u32) {
    (answer.number, answer.place)
}

/// A rotation in any order; seats from 0 on.
pub fn shuffled(f: u8, seed: u64) -> Vec<u8> {
    let mut seats = turn(f);
    Rng::new(seed).shuffle(&mut seats);
    seats
}

/// As a record holds it.
pub fn padded(seats: &[u8]) -> Rotation {
    let mut rotation = Rotation::default();
    rotation[..seats.len()].copy_from_slice(seats);
    rotation
}

/// The numbers that every call gives to a rotation and marks in a record whose term is over, so that nobody leads: 3, 15 and 0 if
/// they are fine.
pub fn numbers(f: u8, rotation: Rotation, marks: u16) -> [u8; 7] {
    let mut card = Card::made(0, f, 1, &[], 2);
    (card.record.rotation, card.record.equivocators) = (rotation, marks);
    let record = card.record;
    let marked = under_test().equivocation(record, double(rotation[0], 1).as_flattened());
    if marked.number != 0 {
        assert_eq!(marked.record, record);
    }
    let answers = [
        card.branch(&chain(f, &[1])),
        card.blame(&blame(0, 1)),
        card.blames(&set(1, &[0, 1])),
        card.tick(),
    ];
    assert_eq!(answers.map(|answer| answer.record), [record; 4]);
    let [branch, blame, blames, tick] = answers.map(|answer| answer.number);
    [
        branch,
        blame,
        blames,
        tick,
        card.read(1).number,
        card.fetch(0).number,
        marked.number,
    ]
}

pub const FINE: [u8; 7] = [3, 3, 3, 3, 15, 15, 0];

/// The card on a round's seat.
pub fn seat(seats: &[u8], round: u32) -> u8 {
    seats[(round as usize - 1) % seats.len()]
}

pub fn gave(number: u8, count: usize) -> Fetched {
    Fetched { number, count }
}

/// Two blocks of a round, with different entries.
pub fn double(signer: u8, round: u32) -> [Frame; 2] {
    [b"1", b"2"].map(|entry| block(signer, round, 1, &GENESIS, entry))
}

/// What equivocation gives when it marks a card in a record.
pub fn marked(record: Record, card: u8) -> Marked {
    Marked {
        number: 0,
        place: 0,
        record: Record {
            equivocators: record.equivocators | 1 << card,
            ..record
        },
    }
}

/// A card in a state made by hand with these seats, that leads neither R nor round 1.
pub fn made_with(seats: &[u8], term: u32, round: u32) -> Card {
    let f = seats.len() as u8 / 2;
    let leads = |own: &u8| *own == seat(seats, round) || *own == seats[0];
    let own = turn(f).into_iter().find(|own| !leads(own));
    let mut card = Card::made(own.expect("three cards"), f, term, &[], round);
    card.record.rotation = padded(seats);
    card
}
