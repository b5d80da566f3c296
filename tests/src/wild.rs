//! Records, books and masks that no call made, and calls on them.

use crate::call::{Call, Head, State, Step, What};
use crate::changes::{self, change, edge, rotation, Hand};
use crate::fetches;
use crate::frame::{self, Frame, Name, GENESIS, MOST_ENTRY, SIZE};
use crate::model::{all_cards, cards, in_turn, leader, line_above, seats, slots};
use crate::model::{Record, Rotation, Setup, LEAST_OUT};
use crate::rng::Rng;
use crate::runner::Side;

pub struct Wild {
    rng: Rng,
    head: Head,
    steps: usize,
    /// Calls until the next state.
    calls: usize,
    /// Who signs the blocks that are made.
    signers: Rotation,
}

impl Wild {
    pub fn new(rng: Rng, head: Head, steps: usize) -> Wild {
        Wild {
            rng,
            signers: head.rotation,
            head,
            steps,
            calls: 0,
        }
    }

    pub fn head(&self) -> &Head {
        &self.head
    }

    pub fn next(&mut self, sides: &[Side]) -> Option<Step> {
        if self.steps == 0 {
            return None;
        }
        self.steps -= 1;
        if self.calls == 0 {
            self.calls = 3 + self.rng.below(12);
            let state = self.state();
            return Some(Step::Write(0, state));
        }
        self.calls -= 1;
        let mut call = self.choose(&sides[0]);
        if self.rng.chance(22) {
            let mut hand = self.hand(sides[0].record);
            change(&mut hand, &mut call);
        }
        Some(Step::Call(call))
    }

    fn hand(&mut self, kept: Record) -> Hand<'_> {
        Hand {
            rng: &mut self.rng,
            head: &self.head,
            strict: false,
            kept,
        }
    }

    /// A whole state. Half of the books are a chain with gaps, the others hold anything.
    fn state(&mut self) -> State {
        let tidy = self.rng.chance(50);
        let log = self.book(tidy);
        let mut masks = self.masks();
        let mut record = self.record(&log);
        if self.rng.chance(35) {
            self.ripen(&mut record, &mut masks);
        }
        if self.rng.chance(12) {
            let mut hand = self.hand(record);
            edge(&mut hand, &mut record);
        }
        State { record, log, masks }
    }

    /// One blame more and R grows; the card may lead the next round.
    fn ripen(&mut self, record: &mut Record, masks: &mut [u16]) {
        let (f, round, term) = (self.head.f, record.round, self.head.term);
        if round > term {
            return;
        }
        if round < term && self.rng.chance(60) {
            record.own = leader(round + 1, f, &record.rotation);
        }
        record.left = 1;
        let mut mask = 0u16;
        while mask.count_ones() < f.into() {
            mask |= 1 << self.rng.within(0, cards(f) - 1);
        }
        masks[round as usize - 1] = mask;
    }

    fn masks(&mut self) -> Vec<u16> {
        let full = all_cards(self.head.f);
        let habit = self.rng.below(4);
        let mask = |rng: &mut Rng| match (habit, rng.below(5)) {
            (0, _) | (_, 0) => 0,
            (1, _) | (_, 1) => full,
            (_, 2) => rng.number() as u16 & !full,
            (_, 3) => (rng.number() & rng.number()) as u16,
            _ => rng.number() as u16,
        };
        (0..self.head.term).map(|_| mask(&mut self.rng)).collect()
    }

    fn book(&mut self, tidy: bool) -> Vec<u8> {
        let mut book: Vec<Frame> = Vec::with_capacity(self.head.term as usize);
        self.signers = self.head.rotation;
        let gaps = self.rng.pick(&[0, 10, 40, 90]);
        let mut top: Option<usize> = None;
        for round in 1..=self.head.term {
            let empty = self.rng.chance(gaps);
            let slot = if empty {
                self.empty_slot()
            } else if tidy || self.rng.chance(50) {
                self.child(top.map(|top| &book[top]), round)
            } else {
                self.odd_slot(&book, round)
            };
            if frame::filled(&slot) {
                top = Some(book.len());
            }
            book.push(slot);
        }
        book.into_flattened()
    }

    /// A slot that is not filled, at times with a byte that is not zero.
    fn empty_slot(&mut self) -> Frame {
        let mut slot = [0; SIZE];
        match self.rng.below(12) {
            0 => slot[0] = 2,
            1 => slot[1 + self.rng.below(SIZE - 1)] = 1,
            _ => {}
        }
        slot
    }

    /// A block of a round on a slot, in form if the slot is.
    fn child(&mut self, parent: Option<&Frame>, round: u32) -> Frame {
        let (name, height) = match parent {
            Some(slot) => (*frame::name(slot), frame::height(slot).wrapping_add(1)),
            None => (GENESIS, 1),
        };
        self.block(&name, round, height)
    }

    fn block(&mut self, parent: &Name, round: u32, height: u32) -> Frame {
        let length = self.rng.pick(&[0, 0, 2, 5, 399, 400]);
        let entry = self.rng.bytes(length);
        let signer = leader(round.max(1), self.head.f, &self.signers);
        frame::block(signer, round, height, parent, &entry)
    }

    /// A slot that no call would leave there.
    fn odd_slot(&mut self, book: &[Frame], round: u32) -> Frame {
        let any = (!book.is_empty()).then(|| book[self.rng.below(book.len())]);
        let mut slot = self.child(any.as_ref(), round);
        match self.rng.below(9) {
            0 => slot = any.unwrap_or(slot),
            1 => slot[0] = self.rng.pick(&[0, 2, 255]),
            2 => frame::set_height(&mut slot, self.odd_height(round)),
            3 => frame::set_length(&mut slot, self.rng.pick(&[400, 401, 468, 469, 65_535])),
            4 => frame::set_round(&mut slot, self.rng.pick(&[0, 1, round + 1, u32::MAX])),
            5 => {
                slot = [0; SIZE];
                slot[0] = frame::BLOCK;
            }
            6 => {
                slot.copy_from_slice(&self.rng.noise(SIZE));
                slot[0] = self.rng.pick(&[0, 1, 1, 1, 2]);
            }
            7 => slot[frame::CHECK_AT..].fill(0),
            _ => {}
        }
        slot
    }

    fn odd_height(&mut self, round: u32) -> u32 {
        self.rng.pick(&[0, 1, round, round + 1, u32::MAX, 1 << 31])
    }

    /// A record in its ranges, mostly one that fits the book, at times with filled slots above the
    /// tip.
    fn record(&mut self, log: &[u8]) -> Record {
        let (f, term) = (self.head.f, self.head.term);
        let round = match self.rng.below(12) {
            0 => term + 1,
            1 => 1,
            _ => self.rng.within(1, term + 1),
        };
        let rotation = self.rotation(10);
        let mut own = self.rng.within(0, cards(f) - 1) as u8;
        if own == leader(round, f, &rotation) && round <= term {
            own = ((u32::from(own) + 1) % cards(f)) as u8;
        }
        let below = if self.rng.chance(20) {
            self.rng.within(0, round - 1)
        } else {
            round - 1
        };
        let tip_round = self.top(log, below);
        let tip_height = self.height_at(log, tip_round, tip_round);
        let by_rule = (round - 1).saturating_sub(f.into()).min(tip_round);
        let limit = self.rng.pick(&[tip_round, by_rule, by_rule]);
        let committed_round = self.top(log, limit);
        let most = committed_round.min(tip_height);
        let wait = self.rng.pick(&[1, 2, 3, 60_000]);
        Record {
            own,
            f,
            wait,
            term,
            round,
            left: self.rng.pick(&[0, 1, 1, 2, wait]).min(wait),
            tip_round,
            tip_height,
            committed_round,
            committed_height: self.height_at(log, committed_round, most),
            rotation,
            equivocators: self.marks(),
        }
    }

    /// Marks below n: none, some or all.
    fn marks(&mut self) -> u16 {
        let any = self.rng.number() as u16;
        all_cards(self.head.f) & self.rng.pick(&[0, 0, any, u16::MAX])
    }

    /// The list's rotation, or in so many of a hundred cases another.
    fn rotation(&mut self, percent: usize) -> Rotation {
        let (n, mut rotation) = (cards(self.head.f) as usize, self.head.rotation);
        if self.rng.chance(percent) {
            self.rng.shuffle(&mut rotation[..n]);
        }
        rotation
    }

    /// Mostly the highest filled round up to a limit, else any round up to it.
    fn top(&mut self, log: &[u8], limit: u32) -> u32 {
        if self.rng.chance(20) {
            return self.rng.within(0, limit);
        }
        let below = &slots(log)[..limit as usize];
        let top = below.iter().rposition(frame::filled);
        top.map_or(0, |index| index as u32 + 1)
    }

    /// Mostly the height that stands in a slot, at most `most`.
    fn height_at(&mut self, log: &[u8], round: u32, most: u32) -> u32 {
        if round == 0 || self.rng.chance(10) {
            return self.rng.within(0, most);
        }
        frame::height(&slots(log)[round as usize - 1]).min(most)
    }

    fn choose(&mut self, side: &Side) -> Call {
        let kinds = if self.head.term_at_edge() { 110 } else { 100 };
        let what = match self.rng.below(kinds) {
            0..=36 => What::Branch(self.branch(side)),
            37..=45 => What::Blame(self.blame(side)),
            46..=56 => What::Blames(self.set(side)),
            57..=67 => What::Tick,
            68..=78 => What::Equivocation(self.pair(side)),
            79..=87 => What::Read(self.height(side)),
            88..=96 => return self.fetch(side),
            _ => return self.open(side),
        };
        let mut call = Call::new(&self.head, 0, what);
        let length = self.rng.pick(&[0, 0, 1, 4, 400]);
        call.entry = self.rng.bytes(length);
        call
    }

    fn fetch(&mut self, side: &Side) -> Call {
        let height = match self.rng.chance(35) {
            true => fetches::height(&mut self.rng, &side.record),
            false => self.height(side),
        };
        let mut call = Call::new(&self.head, 0, What::Fetch(height));
        let frames = line_above(side.log.part(call.log_len), height).count();
        let most = self.head.term as usize + 2;
        call.out_len = fetches::tray(&mut self.rng, frames, most);
        call
    }

    /// An open, at times with a rotation that is none, and then at times with other faults, or with
    /// sizes beyond the edge.
    fn open(&mut self, side: &Side) -> Call {
        let setup = Setup {
            own: self.rng.within(0, cards(self.head.f) - 1) as u8,
            f: self.head.f,
            wait: self.rng.pick(&[1, 2, 60_000]),
            term: self.head.term,
        };
        let seats = seats(&self.rotation(40), self.head.f).to_vec();
        let mut call = Call::new(&self.head, 0, What::Open(setup, seats));
        let length = self.rng.pick(&[0, 0, 1, 4, 400]);
        call.entry = self.rng.bytes(length);
        if self.head.term_at_edge() && self.rng.chance(20) {
            changes::setup(&mut self.hand(side.record), &mut call);
        } else if self.rng.chance(30) {
            rotation(&mut self.hand(side.record), &mut call);
            if self.rng.chance(20) {
                call.out_len = self.rng.pick(&[0, 512, LEAST_OUT - 1]);
            }
            if self.rng.chance(20) {
                call.entry = self.rng.bytes(MOST_ENTRY + 1);
            }
        }
        call
    }

    /// A height near one that stands in the book.
    fn height(&mut self, side: &Side) -> u32 {
        let book = slots(side.log.part(SIZE * self.head.term as usize));
        let height = frame::height(&book[self.rng.below(book.len())]);
        match self.rng.below(4) {
            0 => height.saturating_sub(1),
            1 => self.rng.pick(&[0, 1, u32::MAX]),
            _ => height,
        }
    }

    /// A round to blame, mostly R or the next.
    fn blamed(&mut self, side: &Side) -> u32 {
        let term = self.head.term;
        match self.rng.below(4) {
            0 => self.rng.within(1, term),
            1 => side.record.round.saturating_add(1).clamp(1, term),
            _ => side.record.round.clamp(1, term),
        }
    }

    fn blame(&mut self, side: &Side) -> Vec<u8> {
        let round = self.blamed(side);
        let signer = self.rng.within(0, cards(self.head.f) - 1) as u8;
        frame::blame(signer, round).to_vec()
    }

    /// Blames of different cards for one round, at times with a signer twice or a second round.
    fn set(&mut self, side: &Side) -> Vec<u8> {
        let n = cards(self.head.f) as usize;
        let mut signers: Vec<u8> = (0..n as u8).collect();
        self.rng.shuffle(&mut signers);
        let (enough, any) = (usize::from(self.head.f) + 1, 1 + self.rng.below(n));
        signers.truncate(self.rng.pick(&[1, 2, enough, any, n]));
        if self.rng.chance(12) {
            let signer = self.rng.pick(&signers);
            let last = signers.len() - 1;
            signers[last] = signer;
        }
        let round = self.blamed(side);
        let blame = |&signer: &u8| frame::blame(signer, round);
        let mut frames: Vec<Frame> = signers.iter().map(blame).collect();
        if self.rng.chance(12) {
            let index = self.rng.below(frames.len());
            frames[index] = frame::blame(signers[index], self.blamed(side));
        }
        frames.into_flattened()
    }

    /// Mostly two blocks of a round by its leader; also a held one, one block twice, another round or
    /// signer, and blames.
    fn pair(&mut self, side: &Side) -> Vec<u8> {
        let (f, term) = (self.head.f, self.head.term);
        let book = slots(side.log.part(SIZE * term as usize));
        self.signers = match self.rng.below(12) {
            0 => in_turn(f),
            1 => self.head.rotation,
            _ => side.record.rotation,
        };
        let round = self.pair_round(&side.record);
        let mut pair = [self.double(book, round), self.double(book, round)];
        let (one, n) = (self.rng.below(2), cards(f));
        let rounds = [round + n, round.saturating_sub(1), 0, term + 1];
        let other = self.rng.pick(&rounds);
        match self.rng.below(20) {
            0 => pair[one] = pair[1 - one],
            1 | 2 => pair[one] = self.double(book, other),
            3 => pair[one] = frame::blame(self.rng.bit(all_cards(f)), round),
            4 => pair = [0, 1].map(|signer| frame::blame(signer, 1)),
            5 | 6 => {
                pair[one][1] = self.rng.within(0, n) as u8;
                frame::seal(&mut pair[one]);
            }
            7..=9 => pair[one] = book[round.clamp(1, term) as usize - 1],
            _ => {}
        }
        pair.as_flattened().to_vec()
    }

    /// The round of two blocks, at times one beyond the term.
    fn pair_round(&mut self, record: &Record) -> u32 {
        let term = self.head.term;
        match self.rng.below(16) {
            0 => self.rng.pick(&[0, term + 1]),
            1..=3 => self.rng.pick(&[1, term]),
            4..=6 => record.round.clamp(1, term),
            _ => self.rng.within(1, term),
        }
    }

    /// A block of a round on any slot or on the genesis, in form if the round is in the term.
    fn double(&mut self, book: &[Frame], round: u32) -> Frame {
        let parent = match self.rng.chance(60) {
            true => *frame::name(&book[self.rng.below(book.len())]),
            false => GENESIS,
        };
        let height = self.rng.pick(&[1, round, 1 + round / 2]).min(round);
        self.block(&parent, round, height)
    }

    /// A chain that starts on a slot or the genesis, with or without held frames before it.
    fn branch(&mut self, side: &Side) -> Vec<u8> {
        let book = slots(side.log.part(SIZE * self.head.term as usize));
        let start = self.start(side, book);
        self.signers = self.head.rotation;
        if self.rng.chance(6) {
            self.signers = in_turn(self.head.f);
        }
        let mut frames: Vec<Frame> = Vec::new();
        if self.rng.chance(40) {
            frames = held(book, start);
            let keep = self.rng.below(frames.len() + 1);
            frames.drain(..keep);
        }
        let mut parent = (start > 0).then(|| book[start - 1]);
        let mut round = start as u32;
        let gap = self.rng.pick(&[0, 0, 1, 2]);
        let stop = self.rng.pick(&[0, 0, 5]);
        let goal = self.goal(side);
        while frames.len() < self.head.term as usize {
            round += 1 + self.rng.within(0, gap);
            if round > self.head.term {
                break;
            }
            let frame = self.child(parent.as_ref(), round);
            frames.push(frame);
            parent = Some(frame);
            if round >= goal || self.rng.chance(stop) {
                break;
            }
        }
        frames.into_flattened()
    }

    /// The slot under the first new frame, 0 for the genesis.
    fn start(&mut self, side: &Side, book: &[Frame]) -> usize {
        let record = &side.record;
        let pick = match self.rng.below(5) {
            0 => 0,
            1 => record.committed_round as usize,
            2 => self.rng.below(book.len() + 1),
            _ => record.tip_round as usize,
        };
        pick.min(book.len())
    }

    /// The round that a branch should reach.
    fn goal(&mut self, side: &Side) -> u32 {
        let term = self.head.term;
        match self.rng.below(8) {
            0 => 1,
            1 => term,
            2 => self.rng.within(1, term),
            3 => side.record.round.saturating_sub(1),
            4 => side.record.round.saturating_add(1),
            _ => side.record.round,
        }
    }
}

/// The frames that lead to a slot through their parents' names, the oldest first.
fn held(book: &[Frame], start: usize) -> Vec<Frame> {
    let mut frames = Vec::new();
    let mut round = start;
    while round > 0 && frame::filled(&book[round - 1]) {
        let frame = book[round - 1];
        frames.push(frame);
        let below = &book[..round - 1];
        let parent = |slot: &Frame| frame::name(slot) == frame::parent(&frame);
        round = below.iter().rposition(parent).map_or(0, |index| index + 1);
    }
    frames.reverse();
    frames
}
