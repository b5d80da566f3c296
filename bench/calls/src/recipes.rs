//! What the host of a card that comes back does: how it asks a neighbour for frames and blames, and by which calls it hands them
//! in. The same on either side.

use crate::card::Card;
use beside::frame::{self, Frame, SIZE};
use beside::library::Library;
use beside::model::{Answer, Fetched, Lent, Record, LEAST_OUT};
use std::time::Instant;

/// The frames of a piece, and the skipped rounds whose blames an answer brings, where frames go in piece by piece.
const PIECE: usize = 32;

#[derive(Clone, Copy)]
pub enum Way {
    /// One frame an exchange, the least that was promised before F-5, handed in when it comes.
    OneFrame,
    /// All frames are collected and handed in as one branch. Where 13 names a round: its blames, and the rest again.
    WhenTold,
    /// All frames are collected and handed in piece by piece. Where 13 names a round: the blames that have come, and a piece again.
    ByPieces,
    /// All frames are collected and handed in run by run, each after the blames of the rounds skipped before it. So does
    /// examples/card.c, but for the question: it asks at a gap whose blames have not come, for those of `PIECE` skipped rounds.
    ByRuns,
    /// The same with each tray when it comes: a run may be cut where the tray ends.
    ByTrays,
}

/// The card that has all rounds, and the blames that its host keeps.
pub struct Neighbour {
    pub card: Card,
    /// By round, from 1 on: f + 1 blames if it was skipped, else none.
    pub blames: Vec<Vec<u8>>,
}

/// What the host of the card that comes back has at hand.
pub struct Desk {
    pub card: Card,
    tray: Vec<u8>,
    /// What has come and is not handed in.
    frames: Vec<u8>,
}

impl Desk {
    /// With a tray for so many frames: two at least, whatever is used of them.
    pub fn new(card: Card, tray: usize) -> Desk {
        Desk {
            card,
            tray: vec![0; LEAST_OUT.max(tray * SIZE)],
            frames: Vec::new(),
        }
    }
}

#[derive(Clone, Copy, Debug, Default, PartialEq, Eq)]
pub struct Counts {
    /// Fetches answered with frames.
    pub fetches: usize,
    /// Questions for blames, of one round or of several.
    pub questions: usize,
    /// Sets of blames handed in, each by a call.
    pub sets: usize,
    pub branches: usize,
    /// One for each frame handed in or emitted.
    pub digests: usize,
}

/// What it took, in calls and in seconds.
#[derive(Default)]
pub struct Trip {
    pub counts: Counts,
    pub answers: Vec<Answer>,
    /// All fetches, where they come first.
    pub fetching: Option<f64>,
    pub all: f64,
}

/// What became of frames handed in.
enum Offer {
    Taken,
    /// They end below R.
    Ended,
    /// The blames of a round are missing. So many frames below it were taken.
    Lacks {
        round: u32,
        below: usize,
    },
}

struct Host<'a, L> {
    library: &'a L,
    neighbour: &'a Neighbour,
    card: &'a mut Card,
    /// The blames of all skipped rounds below this one have come. Not kept where 13 names each.
    got: u32,
    trip: Trip,
}

impl<L: Library> Host<'_, L> {
    /// The neighbour fills the tray from a height on: how many frames. None is 15.
    fn fetch(&mut self, height: u32, tray: &mut [u8]) -> usize {
        let Card { record, log, .. } = &self.neighbour.card;
        let fetched = self.library.fetch(*record, log, height, tray);
        let count = (tray.len() / SIZE).min((record.tip_height - height) as usize);
        let number = if count == 0 { 15 } else { 0 };
        assert_eq!(fetched, Fetched { number, count }, "above {height}");
        self.trip.counts.fetches += count.min(1);
        count
    }

    /// One call at the card, which is behind and therefore lent no entry.
    fn call(&mut self, handed: usize, call: impl FnOnce(Record, Lent) -> Answer) -> Answer {
        let (answer, _) = self.card.call(&[], call);
        self.trip.counts.digests += handed + usize::from(answer.frames);
        self.trip.answers.push(answer);
        answer
    }

    fn branch(&mut self, frames: &[Frame]) -> Answer {
        let library = self.library;
        self.trip.counts.branches += 1;
        self.call(frames.len(), |record, lent| {
            library.branch(record, frames.as_flattened(), lent)
        })
    }

    /// Hands in the blames of a skipped round.
    fn skip(&mut self, round: u32) {
        let (library, set) = (self.library, &self.neighbour.blames[round as usize - 1]);
        self.trip.counts.sets += 1;
        let answer = self.call(set.len() / SIZE, |record, lent| {
            library.blames(record, set, lent)
        });
        assert_eq!(answer.number, 0, "blames of round {round}");
    }

    /// All that the neighbour has above the committed height, tray by tray, until one is not full.
    fn each_tray(&mut self, tray: &mut [u8], mut come: impl FnMut(&mut Self, &[u8])) {
        let mut height = self.card.record.committed_height;
        loop {
            let count = self.fetch(height, tray);
            come(self, &tray[..count * SIZE]);
            height += count as u32;
            if count < tray.len() / SIZE {
                return;
            }
        }
    }

    /// Frame by frame, until there is none. One that ends below R, where the card proposed, waits for the next.
    fn one_by_one(&mut self, tray: &mut [u8], frames: &mut Vec<u8>) {
        let mut height = self.card.record.committed_height;
        while self.fetch(height, tray) > 0 {
            frames.extend_from_slice(&tray[..SIZE]);
            height += 1;
            if self.when_told(frames.as_chunks().0) {
                frames.clear();
            }
        }
        assert!(frames.is_empty(), "the last frame is taken");
    }

    /// Hands frames in whole. Where 13 names a round above R, then those below it by themselves.
    fn offer(&mut self, frames: &[Frame]) -> Offer {
        let answer = self.branch(frames);
        match answer.number {
            0 => return Offer::Taken,
            10 => return Offer::Ended,
            number => assert_eq!(number, 13, "the neighbour's frames"),
        }
        let (round, mut below) = (answer.place, 0);
        if round > answer.record.round {
            below = frames.partition_point(|frame| frame::round(frame) < round);
            assert_eq!(self.branch(&frames[..below]).number, 0, "what is below");
        }
        Offer::Lacks { round, below }
    }

    /// Hands frames in whole; of a round that 13 names, it asks for the blames, and hands in the rest again. Whether they were
    /// taken: not where they end below R.
    fn when_told(&mut self, mut frames: &[Frame]) -> bool {
        loop {
            match self.offer(frames) {
                Offer::Taken => return true,
                Offer::Ended => return false,
                Offer::Lacks { round, below } => {
                    frames = &frames[below..];
                    self.trip.counts.questions += 1;
                    self.skip(round);
                }
            }
        }
    }

    /// Hands in a piece from the first frame above the committed height on, again and again, until that ends below R.
    fn by_pieces(&mut self, frames: &[Frame]) {
        loop {
            let height = self.card.record.committed_height;
            let first = frames.partition_point(|frame| frame::height(frame) <= height);
            match self.offer(&frames[first..frames.len().min(first + PIECE)]) {
                Offer::Taken => {}
                Offer::Ended => return,
                Offer::Lacks { round, .. } => self.skip_all(round),
            }
        }
    }

    /// Asks for the blames of a skipped round and those after it, if they have not come. Hands in all up to R that the card lacks.
    fn skip_all(&mut self, lacks: u32) {
        let blames = &self.neighbour.blames;
        let is_skipped = |&round: &u32| !blames[round as usize - 1].is_empty();
        if lacks >= self.got {
            let answer = (lacks..=blames.len() as u32).filter(is_skipped);
            self.got = answer.take(PIECE).last().expect("a skipped round") + 1;
            self.trip.counts.questions += 1;
        }
        let above = self.card.record.committed_round + 1;
        for round in (above..self.got).filter(is_skipped) {
            if round <= self.card.record.round && self.card.masks[round as usize - 1] == 0 {
                self.skip(round);
            }
        }
        let mask = self.card.masks[lacks as usize - 1];
        assert_ne!(mask, 0, "the blames of round {lacks} are in");
    }

    /// Hands frames in run by run, each after the blames of the rounds skipped before it. A run that ends below R, where the card
    /// proposed, goes in with the next. All blames come by one question. How many frames were taken.
    fn by_runs(&mut self, frames: &[Frame]) -> usize {
        let (mut taken, mut seen, before) = (0, 0, self.trip.counts.sets);
        for run in frames.chunk_by(|a, b| frame::round(a) + 1 == frame::round(b)) {
            let first = frame::round(&run[0]);
            (self.got..first).for_each(|round| self.skip(round));
            self.got = first + run.len() as u32;
            seen += run.len();
            match self.branch(&frames[taken..seen]).number {
                0 => taken = seen,
                number => assert_eq!(number, 10, "the run from round {first}"),
            }
        }
        self.trip.counts.questions += usize::from(self.trip.counts.sets > before);
        taken
    }
}

/// Brings the card on to where its neighbour is.
pub fn come_back<L: Library>(
    library: &L,
    neighbour: &Neighbour,
    way: Way,
    desk: &mut Desk,
) -> Trip {
    let Desk { card, tray, frames } = desk;
    frames.clear();
    let mut host = Host {
        library,
        neighbour,
        got: card.record.committed_round + 1,
        card,
        trip: Trip::default(),
    };
    let began = Instant::now();
    if matches!(way, Way::WhenTold | Way::ByPieces | Way::ByRuns) {
        host.each_tray(tray, |_, come| frames.extend_from_slice(come));
        host.trip.fetching = Some(began.elapsed().as_secs_f64());
    }
    match way {
        Way::OneFrame => host.one_by_one(tray, frames),
        Way::WhenTold => assert!(host.when_told(frames.as_chunks().0), "all is taken"),
        Way::ByPieces => host.by_pieces(frames.as_chunks().0),
        Way::ByRuns => assert_eq!(host.by_runs(frames.as_chunks().0) * SIZE, frames.len()),
        Way::ByTrays => host.each_tray(tray, |host, come| {
            frames.extend_from_slice(come);
            let taken = host.by_runs(frames.as_chunks().0);
            frames.drain(..taken * SIZE);
        }),
    }
    host.trip.all = began.elapsed().as_secs_f64();
    host.trip
}
