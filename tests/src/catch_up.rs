//! The claims about a card that comes back: it takes over the line of another, the giver, from its
//! own committed height on, or from any block above that both hold.
//!
//! Whoever lies, while the giver's host keeps the rules: its line frames above any height are good
//! blocks, each the child of the one before, and fetching on from the height of the last one given
//! brings them all, each tray filled, until 15.
//!
//! Whoever lies, while both cards take part lawfully: a branch of the giver's frames above a block
//! that both hold, from the taker's committed one on, or of the first of them, is 3 at the end of the
//! term, 10 if it ends below R, 13 with the first skipped round that is not shown, else taken; it is
//! never loose and undoes nothing. Where that round is above R, the frames below it are taken by
//! themselves, and R is then no longer below it. The genesis is such a block while the taker has
//! committed nothing.
//!
//! While the premises hold, with nothing forged handed to the two either: the same of the giver's
//! frames above the taker's committed height, so the giver holds that block or is behind. And of what
//! was fetched earlier: of the frames that the giver had at any time above a height that the taker
//! had committed at any time since it was opened, though it has committed more since.

use std::cmp::Ordering;

use crate::frame::{self, Frame, SIZE};
use crate::library::Library;
use crate::model::{block_in_form, filled, is_child, line_above, slots, unshown};
use crate::model::{Answer, Fetched, Lent, Record, LEAST_OUT};
use crate::rng::Rng;
use crate::runner::Side;

/// A card as the library left it, and its number.
#[derive(Clone, Copy)]
pub struct Card<'a> {
    pub number: usize,
    pub side: &'a Side,
}

impl<'a> Card<'a> {
    fn log(&self) -> &'a [u8] {
        self.side.log.part(SIZE * self.side.record.term as usize)
    }

    fn masks(&self) -> &'a [u16] {
        self.side.masks.part(self.side.record.term as usize)
    }

    /// The frames of its line above a height.
    pub fn above(&self, height: u32) -> Vec<Frame> {
        line_above(self.log(), height).copied().collect()
    }
}

/// The answer to a branch of the giver's frames, by the claims.
#[derive(Clone, Copy, Debug, PartialEq, Eq)]
pub enum Reply {
    TermOver,
    Stale,
    /// With the round that is not shown, up to R.
    Unshown(u32),
    /// With the round that is not shown, above R.
    Split(u32),
    Taken,
}

impl Reply {
    /// Number and place.
    fn told(self) -> (u8, u32) {
        match self {
            Reply::TermOver => (3, 0),
            Reply::Stale => (10, 0),
            Reply::Unshown(round) | Reply::Split(round) => (13, round),
            Reply::Taken => (0, 0),
        }
    }
}

/// Which claims are due for two cards.
#[derive(Clone, Copy, Debug, Default, PartialEq, Eq)]
pub struct Due {
    /// About the giver's frames.
    pub giver: bool,
    /// About those above the taker's committed height.
    pub committed: bool,
    /// About those above a block that both hold.
    pub shared: bool,
}

/// The replies to all frames above a block and to fewer.
#[derive(Clone, Copy, Debug)]
pub struct Replies {
    /// The block's round.
    pub start: u32,
    pub all: Reply,
    pub fewer: Option<Reply>,
}

/// What was checked of two cards.
#[derive(Clone, Copy, Debug, Default)]
pub struct Checked {
    /// Fetches until all frames were there.
    pub pieces: Option<usize>,
    pub committed: Option<Replies>,
    pub shared: Option<Replies>,
}

/// The block that a run starts above: its round and height, zeros for the genesis.
#[derive(Clone, Copy, Debug, PartialEq, Eq)]
struct Start {
    round: u32,
    height: u32,
}

impl Start {
    /// The committed block.
    fn committed(record: &Record) -> Start {
        Start {
            round: record.committed_round,
            height: record.committed_height,
        }
    }
}

/// A card that comes back, and what the giver has for it.
pub struct CatchUp<'a> {
    library: &'a dyn Library,
    taker: Card<'a>,
    giver: Card<'a>,
    /// The taker's committed block, one that it had committed, or one above that both hold.
    start: Start,
    /// The giver's line above its height, that of now or an earlier one.
    frames: Vec<Frame>,
}

impl<'a> CatchUp<'a> {
    /// None if the giver has nothing for the taker above its committed height.
    pub fn new(library: &'a dyn Library, taker: Card<'a>, giver: Card<'a>) -> Option<Self> {
        let start = Start::committed(&taker.side.record);
        let frames = giver.above(start.height);
        CatchUp::above(library, [taker, giver], start, frames)
    }

    /// What the giver had above the height that the taker had committed: a line of the one, and a
    /// record of the other, from any two moments. None if that is nothing.
    pub fn earlier(
        library: &'a dyn Library,
        cards: [Card<'a>; 2],
        had: &Record,
        line: &[Frame],
    ) -> Option<Self> {
        let start = Start::committed(had);
        let above = |frame: &&Frame| frame::height(frame) > start.height;
        let frames = line.iter().filter(above).copied().collect();
        CatchUp::above(library, cards, start, frames)
    }

    fn above(
        library: &'a dyn Library,
        [taker, giver]: [Card<'a>; 2],
        start: Start,
        frames: Vec<Frame>,
    ) -> Option<Self> {
        (!frames.is_empty()).then_some(CatchUp {
            library,
            taker,
            giver,
            start,
            frames,
        })
    }

    /// The blocks from the taker's committed one on that both hold, in rising round.
    fn shared(&self) -> Vec<Start> {
        let committed = self.taker.side.record.committed_round;
        let genesis = Start {
            round: 0,
            height: 0,
        };
        let given = slots(self.giver.log());
        let both = filled(self.taker.log()).filter(|&(round, slot)| {
            round >= committed && given.get(round as usize - 1) == Some(slot)
        });
        let starts = both.map(|(round, slot)| Start {
            round,
            height: frame::height(slot),
        });
        let genesis = (committed == 0).then_some(genesis);
        genesis.into_iter().chain(starts).collect()
    }

    /// The giver's frames above the highest block that both hold, at times above another; none if
    /// there are none.
    fn on_shared(&self, rng: &mut Rng) -> Option<Self> {
        let shared = self.shared();
        let start = match (shared.last()?, rng.below(3)) {
            (_, 0) => rng.pick(&shared),
            (&highest, _) => highest,
        };
        let frames = self.giver.above(start.height);
        CatchUp::above(self.library, [self.taker, self.giver], start, frames)
    }

    pub fn taker(&self) -> &'a Side {
        self.taker.side
    }

    pub fn giver(&self) -> &'a Side {
        self.giver.side
    }

    pub fn frames(&self) -> &[Frame] {
        &self.frames
    }

    /// Whether the giver's line above the start still begins with the frames.
    pub fn stands(&self) -> bool {
        self.giver
            .above(self.start.height)
            .starts_with(&self.frames)
    }

    /// The taker's own line above the start.
    pub fn held(&self) -> Vec<Frame> {
        self.taker.above(self.start.height)
    }

    /// Whether the first frame is a child of the start.
    pub fn attaches(&self) -> bool {
        let parent = match self.start.round {
            0 => &frame::GENESIS,
            round => frame::name(self.taker.side.slot(round)),
        };
        frame::parent(&self.frames[0]) == parent
    }

    /// Checks the claims that are due; above the committed block once, where two are.
    pub fn check(&self, due: Due, rng: &mut Rng) -> Result<Checked, String> {
        let mut checked = Checked::default();
        if due.giver {
            self.check_run()?;
            checked.pieces = Some(self.fetch_on(rng)?);
        }
        if due.committed {
            checked.committed = Some(self.hand_in_some(rng)?);
        }
        let shared = due.shared.then(|| self.on_shared(rng)).flatten();
        let another = |shared: &CatchUp| !due.committed || shared.start != self.start;
        if let Some(shared) = shared.filter(another) {
            checked.shared = Some(shared.hand_in_some(rng)?);
        }
        Ok(checked)
    }

    /// Hands in all frames, and fewer if there are several.
    pub fn hand_in_some(&self, rng: &mut Rng) -> Result<Replies, String> {
        let all = self.frames.len();
        let fewer = (all > 1).then(|| 1 + rng.below(all - 1));
        Ok(Replies {
            start: self.start.round,
            all: self.hand_in(all)?,
            fewer: fewer.map(|count| self.hand_in(count)).transpose()?,
        })
    }

    /// The frames are good blocks, each the child of the one before.
    pub fn check_run(&self) -> Result<(), String> {
        let mut before: Option<&Frame> = None;
        for (index, frame) in self.frames.iter().enumerate() {
            let in_form = block_in_form(&self.giver.side.record, frame);
            let linked = before.is_none_or(|parent| is_child(frame, parent));
            if !in_form || !linked || !frame::check_is_right(frame) {
                let (giver, height) = (self.giver.number, self.start.height);
                return Err(format!(
                    "claim: frame {index} of the line of card {giver} above height {height} is no \
                     good block, or not the child of the one before"
                ));
            }
            before = Some(frame);
        }
        Ok(())
    }

    /// Fetching on brings the frames piece by piece, each tray filled; how many pieces.
    pub fn fetch_on(&self, rng: &mut Rng) -> Result<usize, String> {
        let (mut height, mut rest, mut pieces) = (self.start.height, &self.frames[..], 0);
        loop {
            let room = 2 + rng.below(self.frames.len());
            let mut out = vec![0; SIZE * room + rng.pick(&[0, 0, 1, SIZE - 1])];
            let record = self.giver.side.record;
            let fetched = self
                .library
                .fetch(record, self.giver.log(), height, &mut out);
            let (piece, later) = rest.split_at(rest.len().min(room));
            let expected = Fetched {
                number: if piece.is_empty() { 15 } else { 0 },
                count: piece.len(),
            };
            if fetched != expected || slots(&out)[..piece.len()] != *piece {
                let giver = self.giver.number;
                return Err(format!(
                    "claim: fetching on at card {giver} from height {height} with room for {room} \
                     did not give the next {}: {fetched:?}",
                    piece.len()
                ));
            }
            let Some(last) = piece.last() else {
                return Ok(pieces);
            };
            (height, rest, pieces) = (frame::height(last), later, pieces + 1);
        }
    }

    /// What the claims say of a branch of the first frames.
    fn reply(&self, frames: &[Frame]) -> Reply {
        let record = &self.taker.side.record;
        let last = frames.last().map_or(0, frame::round);
        if record.round > record.term {
            return Reply::TermOver;
        }
        if last < record.round {
            return Reply::Stale;
        }
        match unshown(self.taker.masks(), record.f, self.start.round, frames) {
            None => Reply::Taken,
            Some(round) if round > record.round => Reply::Split(round),
            Some(round) => Reply::Unshown(round),
        }
    }

    /// Hands the first frames to a copy of the taker.
    pub fn hand_in(&self, count: usize) -> Result<Reply, String> {
        let frames = &self.frames[..count];
        let (answer, reply) = (self.branch(frames), self.reply(frames));
        let told = (answer.number, answer.place);
        if told != reply.told() {
            let (taker, giver, all) = (self.taker.number, self.giver.number, self.frames.len());
            return Err(format!(
                "claim: card {taker}, handed {count} of {all} frames of card {giver} above {}, \
                 answered {told:?}, not {:?}",
                self.origin(),
                reply.told()
            ));
        }
        if let Reply::Split(round) = reply {
            self.check_split(round)?;
        }
        Ok(reply)
    }

    /// What the frames are above.
    fn origin(&self) -> String {
        let round = self.start.round;
        match round.cmp(&self.taker.side.record.committed_round) {
            Ordering::Less => format!("round {round}, up to which it had committed"),
            Ordering::Equal => "its committed height".into(),
            Ordering::Greater => format!("the shared block of round {round}"),
        }
    }

    /// The frames below a round that is not shown are taken, and R is then no longer below it.
    fn check_split(&self, unshown: u32) -> Result<(), String> {
        let below = |frame: &Frame| frame::round(frame) < unshown;
        let count = self.frames.partition_point(below);
        let Answer { number, record, .. } = self.branch(&self.frames[..count]);
        if number == 0 && record.round >= unshown {
            return Ok(());
        }
        let (taker, giver, round) = (self.taker.number, self.giver.number, record.round);
        Err(format!(
            "claim: card {taker}, handed the frames of card {giver} below round {unshown}, which is \
             not shown, answered {number} and waits for round {round}"
        ))
    }

    /// The answer of a copy of the taker, lent an entry of up to 400 bytes.
    fn branch(&self, frames: &[Frame]) -> Answer {
        let entry = vec![7; 100 * (frames.len() % 5)];
        let lent = Lent {
            log: &mut self.taker.log().to_vec(),
            masks: &mut self.taker.masks().to_vec(),
            entry: &entry,
            out: &mut [0; LEAST_OUT],
        };
        let record = self.taker.side.record;
        self.library.branch(record, frames.as_flattened(), lent)
    }
}
