//! Runs of n cards whose cables lose, repeat, delay and reorder frames, beside cards that
//! equivocate, stay silent, replay and withhold.

use std::collections::{HashMap, VecDeque};

use crate::call::{Call, Head, Step, What};
use crate::changes::{change, rotation, Hand};
use crate::fetches;
use crate::frame::{self, Frame, Name, GENESIS, SIZE};
use crate::model::{cards, in_turn, leader, line_above, seats, slots};
use crate::model::{Rotation, Setup, LEAST_OUT};
use crate::rng::Rng;
use crate::runner::{Outcome, Side};

/// All frames known so far, by name and by round.
struct Pool {
    frames: Vec<Frame>,
    by_name: HashMap<Name, usize>,
    /// The leaders' alone. Round r at index r; a call may be lent a term of one round more.
    blocks: Vec<Vec<usize>>,
    blames: Vec<Vec<usize>>,
    /// The rounds for which a leader signed two blocks or more.
    doubles: Vec<usize>,
}

impl Pool {
    fn new(term: u32) -> Pool {
        let rounds = || vec![Vec::new(); term as usize + 2];
        Pool {
            frames: Vec::new(),
            by_name: HashMap::new(),
            blocks: rounds(),
            blames: rounds(),
            doubles: Vec::new(),
        }
    }

    /// Takes a frame in, with the leader of its round.
    fn add(&mut self, frame: &Frame, leader: u8) -> usize {
        if let Some(&index) = self.by_name.get(frame::name(frame)) {
            return index;
        }
        let index = self.frames.len();
        self.frames.push(*frame);
        self.by_name.insert(*frame::name(frame), index);
        let round = frame::round(frame) as usize;
        if frame::kind(frame) == frame::BLAME {
            self.blames[round].push(index);
        } else if frame::signer(frame) == leader {
            self.blocks[round].push(index);
            if self.blocks[round].len() == 2 {
                self.doubles.push(round);
            }
        }
        index
    }

    fn flatten(&self, frames: &[usize]) -> Vec<u8> {
        let frames = frames.iter().map(|&index| self.frames[index]);
        frames.collect::<Vec<_>>().into_flattened()
    }

    /// A block and up to `most - 1` of its forebears, the oldest first.
    fn path(&self, last: usize, most: usize) -> Vec<u8> {
        let mut path = vec![last];
        let mut frame = &self.frames[last];
        while path.len() < most {
            let Some(&index) = self.by_name.get(frame::parent(frame)) else {
                break;
            };
            path.push(index);
            frame = &self.frames[index];
        }
        path.reverse();
        self.flatten(&path)
    }
}

/// How a run goes, in cases of a hundred.
struct Habits {
    loss: usize,
    repeat: usize,
    overtake: usize,
    /// How often a blame comes in a set.
    bundle: usize,
    withhold: usize,
    equivocate: usize,
    /// How often two blocks of one round are handed in as soon as they are made.
    tell: usize,
    /// How often a maker takes the old turn for the rotation.
    astray: usize,
    /// How often a faulty card does something.
    busy: usize,
    change: usize,
    tick: usize,
    opening: usize,
    /// How often a card goes away or comes back.
    away: usize,
    longest_wait: u32,
}

impl Habits {
    fn new(rng: &mut Rng) -> Habits {
        Habits {
            loss: rng.pick(&[0, 5, 20, 60]),
            repeat: rng.pick(&[0, 5, 30]),
            overtake: rng.pick(&[0, 10, 50]),
            bundle: rng.pick(&[0, 40, 90]),
            withhold: rng.pick(&[0, 20, 80]),
            equivocate: rng.pick(&[0, 40, 90]),
            tell: rng.pick(&[0, 20, 60]),
            astray: rng.pick(&[0, 0, 10, 30]),
            busy: rng.pick(&[0, 8, 16]),
            change: rng.pick(&[0, 8, 25]),
            tick: rng.pick(&[4, 12, 30]),
            opening: rng.pick(&[100, 30, 30, 3]),
            away: rng.pick(&[0, 1, 1, 3]),
            longest_wait: rng.pick(&[1, 2, 2, 3, 5]),
        }
    }
}

pub struct Cabinet {
    rng: Rng,
    head: Head,
    /// The premises of the claims are kept.
    strict: bool,
    /// Cards whose frames are made here, not by calls.
    makers: u16,
    /// A maker that is opened, too, and its rotation.
    neighbour: Option<(u8, Rotation)>,
    habits: Habits,
    pool: Pool,
    inbox: Vec<VecDeque<usize>>,
    open: u16,
    /// Cards that are left out for a while.
    away: u16,
    coming: VecDeque<Call>,
    /// The card for which frames are being fetched.
    fetching: Option<usize>,
    steps: usize,
}

impl Cabinet {
    /// A run of a number of steps. In a strict one the makers are at most f and not sound.
    pub fn new(mut rng: Rng, head: Head, strict: bool, makers: u16, steps: usize) -> Cabinet {
        Cabinet {
            habits: Habits::new(&mut rng),
            neighbour: choose_neighbour(&mut rng, &head, makers),
            rng,
            strict,
            makers,
            pool: Pool::new(head.term),
            inbox: vec![VecDeque::new(); head.cards],
            open: 0,
            away: 0,
            coming: VecDeque::new(),
            fetching: None,
            steps,
            head,
        }
    }

    /// In some lists a maker that is not sound is opened and called as a sound card is: with the blocks
    /// made for it beside its own, or passed over while it is away, it counts among the f.
    pub fn with_lawful_maker(mut self) -> Cabinet {
        let unsound = self.makers & !self.head.sound;
        if unsound != 0 && self.rng.chance(40) {
            self.neighbour = Some((self.rng.bit(unsound), self.head.rotation));
        }
        self
    }

    pub fn head(&self) -> &Head {
        &self.head
    }

    /// The next step, from the cards as they are.
    pub fn next(&mut self, sides: &[Side]) -> Option<Step> {
        if self.steps == 0 {
            return None;
        }
        self.steps -= 1;
        if self.is_over(sides) {
            self.steps = self.steps.min(24);
        }
        let mut call = match self.coming.pop_front() {
            Some(call) => call,
            None => self.choose(sides),
        };
        if self.rng.chance(self.habits.change) {
            self.change(&mut call, sides);
        }
        Some(Step::Call(call))
    }

    fn is_over(&self, sides: &[Side]) -> bool {
        let done = |card: &u8| sides[usize::from(*card)].record.round > self.head.term;
        let mut sound = (0..16).filter(|card| self.head.sound >> card & 1 == 1);
        sound.all(|card| done(&card))
    }

    /// What changes of a call at a card need to know.
    fn change_hand(&mut self, card: usize, sides: &[Side]) -> Hand<'_> {
        Hand {
            rng: &mut self.rng,
            head: &self.head,
            strict: self.strict,
            kept: sides[card].record,
        }
    }

    fn change(&mut self, call: &mut Call, sides: &[Side]) {
        change(&mut self.change_hand(call.card, sides), call);
        let again = matches!(call.what, What::Open(..)) && self.open >> call.card & 1 == 1;
        if again && self.strict {
            call.out_len = call.out_len.min(LEAST_OUT - 1);
        }
    }

    fn choose(&mut self, sides: &[Side]) -> Call {
        let neighbour: u16 = self.neighbour.map_or(0, |(card, _)| 1 << card);
        let closed = (self.head.sound | neighbour) & !self.open;
        if closed != 0 && (self.open == 0 || self.rng.chance(self.habits.opening)) {
            let card = self.rng.bit(closed);
            return self.open(card);
        }
        if self.rng.chance(self.habits.away) {
            let card = 1 << self.rng.bit(self.open);
            self.away = self.rng.pick(&[0, card, card]);
        }
        let mut card = self.present();
        if neighbour >> card & 1 == 1 {
            card = self.present();
        }
        if self.makers != 0 && self.rng.chance(self.habits.busy) {
            self.make(sides);
        }
        if self.rng.chance(self.habits.tick) {
            return self.tick(card, sides);
        }
        match self.rng.below(100) {
            0..=42 => self.help(card, sides),
            43..=63 => self.deliver(card, sides),
            64..=72 => self.replay(card, sides),
            73..=76 => self.equivocation(card, sides),
            77..=84 => self.catch_up(card, sides),
            85..=90 => self.read(card, sides),
            91..=94 => self.fetch(card, sides),
            95 => self.digest(card),
            96..=97 => self.open_again(card, sides),
            _ => self.tick(card, sides),
        }
    }

    /// An open card that is not away, if there is one.
    fn present(&mut self) -> usize {
        let cards = match self.open & !self.away {
            0 => self.open,
            cards => cards,
        };
        self.rng.bit(cards).into()
    }

    /// A call of the machine with an entry.
    fn call(&mut self, card: usize, what: What) -> Call {
        let mut call = Call::new(&self.head, card, what);
        let length = match self.rng.below(20) {
            0 => 400,
            1 => self.rng.below(401),
            2..=8 => 0,
            _ => 1 + self.rng.below(6),
        };
        call.entry = self.rng.bytes(length);
        if self.rng.chance(10) {
            call.out_len += self.rng.below(600);
        }
        call
    }

    fn open(&mut self, card: u8) -> Call {
        let wait = if self.rng.chance(1) {
            60_000
        } else {
            self.rng.within(1, self.habits.longest_wait)
        };
        let setup = Setup {
            own: card,
            f: self.head.f,
            wait,
            term: self.head.term,
        };
        let rotation = match self.neighbour {
            Some((neighbour, rotation)) if neighbour == card => rotation,
            _ => self.head.rotation,
        };
        let seats = seats(&rotation, self.head.f).to_vec();
        self.call(usize::from(card), What::Open(setup, seats))
    }

    /// Opens an open card, refused in a strict run.
    fn open_again(&mut self, card: usize, sides: &[Side]) -> Call {
        let mut call = self.open(card as u8);
        if self.strict || self.rng.chance(70) {
            let fault = self.rng.below(4);
            if fault < 2 {
                rotation(&mut self.change_hand(card, sides), &mut call);
            }
            if fault > 0 {
                call.out_len = self.rng.pick(&[0, 512, LEAST_OUT - 1]);
            }
        }
        call
    }

    /// In a strict run no tick of a sound card may blame a sound leader.
    fn may_tick(&self, card: usize, sides: &[Side]) -> bool {
        let record = &sides[card].record;
        let lead = self.head.leader(record.round.max(1));
        let sound = self.head.sound >> card & self.head.sound >> lead & 1 == 1;
        !self.strict || record.left != 1 || !sound
    }

    fn tick(&mut self, card: usize, sides: &[Side]) -> Call {
        if self.may_tick(card, sides) {
            self.call(card, What::Tick)
        } else {
            self.help(card, sides)
        }
    }

    /// Hands in a frame of the pool: a blame or a set with it, or a block with some forebears.
    fn hand(&mut self, card: usize, index: usize) -> Call {
        let frame = &self.pool.frames[index];
        if frame::kind(frame) == frame::BLAME {
            let what = if self.rng.chance(self.habits.bundle) {
                What::Blames(self.bundle(index))
            } else {
                What::Blame(frame.to_vec())
            };
            return self.call(card, what);
        }
        let most = match self.rng.below(10) {
            0..=5 => 1,
            6..=7 => 1 + self.rng.below(4),
            8 => 1 + self.rng.below(self.head.term as usize),
            _ => self.head.term as usize,
        };
        let bytes = self.pool.path(index, most);
        self.call(card, What::Branch(bytes))
    }

    /// A blame with others of its round, at times with one twice or one of another round.
    fn bundle(&mut self, index: usize) -> Vec<u8> {
        let round = frame::round(&self.pool.frames[index]) as usize;
        let mut set = self.pool.blames[round].clone();
        self.rng.shuffle(&mut set);
        set.truncate(1 + self.rng.below(set.len()));
        if !set.contains(&index) {
            set.push(index);
        }
        match self.rng.below(16) {
            0 | 1 => set.push(set[0]),
            2 => set.extend(
                self.pool
                    .blames
                    .get(round + 1)
                    .and_then(|next| next.first()),
            ),
            3 => set.extend(self.pool.blames[round - 1].last()),
            _ => {}
        }
        self.rng.shuffle(&mut set);
        self.pool.flatten(&set)
    }

    /// Something that is likely to bring the card on, or else another card.
    fn help(&mut self, card: usize, sides: &[Side]) -> Call {
        if let Some(index) = self.helpful(card, sides) {
            return self.hand(card, index);
        }
        let other = self.present();
        match self.helpful(other, sides) {
            Some(index) => self.hand(other, index),
            None if sides[card].record.left > 0 && self.may_tick(card, sides) => {
                self.call(card, What::Tick)
            }
            None => self.read(card, sides),
        }
    }

    /// A blame for the round that a card waits for, or a block of that round or a later one.
    fn helpful(&mut self, card: usize, sides: &[Side]) -> Option<usize> {
        let round = sides[card].record.round as usize;
        let last = self.head.term as usize;
        if !(1..=last).contains(&round) {
            return None;
        }
        if self.rng.chance(40) && !self.pool.blames[round].is_empty() {
            let mask = sides[card].masks.part(last)[round - 1];
            let index = self.rng.pick(&self.pool.blames[round]);
            if mask >> frame::signer(&self.pool.frames[index]) & 1 == 0 {
                return Some(index);
            }
        }
        let end = last.min(round + self.rng.pick(&[0, 0, 1, 2, 6]));
        let found = (round..=end).find(|&r| !self.pool.blocks[r].is_empty())?;
        Some(self.rng.pick(&self.pool.blocks[found]))
    }

    /// The next frame of the card's cable, or a later one that overtakes it.
    fn deliver(&mut self, card: usize, sides: &[Side]) -> Call {
        let length = self.inbox[card].len();
        if length == 0 {
            return self.help(card, sides);
        }
        let at = if self.rng.chance(self.habits.overtake) {
            self.rng.below(length)
        } else {
            0
        };
        let index = self.inbox[card].remove(at).expect("inside the queue");
        self.hand(card, index)
    }

    /// Any frame of the past.
    fn replay(&mut self, card: usize, sides: &[Side]) -> Call {
        if self.pool.frames.is_empty() {
            return self.read(card, sides);
        }
        let length = self.pool.frames.len();
        let near = length.min(self.rng.pick(&[4, 30, usize::MAX]));
        let index = length - 1 - self.rng.below(near);
        self.hand(card, index)
    }

    /// Hands in two frames: two blocks of a leader for one round, where there are any, or others.
    fn equivocation(&mut self, card: usize, sides: &[Side]) -> Call {
        if self.pool.frames.is_empty() {
            return self.read(card, sides);
        }
        let pair = match self.pool.doubles.is_empty() || self.rng.chance(40) {
            true => self.any_pair(),
            false => {
                let round = self.rng.pick(&self.pool.doubles);
                self.double(round)
            }
        };
        let frames = self.pool.flatten(&pair);
        Call::new(&self.head, card, What::Equivocation(frames))
    }

    /// Two blocks of a round that has two or more.
    fn double(&mut self, round: usize) -> [usize; 2] {
        let mut blocks = self.pool.blocks[round].clone();
        self.rng.shuffle(&mut blocks);
        [blocks[0], blocks[1]]
    }

    /// Any frame, and the same, one of the leader's next round, one of the same round, or any other.
    fn any_pair(&mut self) -> [usize; 2] {
        let any = |rng: &mut Rng, pool: &Pool| rng.below(pool.frames.len());
        let first = any(&mut self.rng, &self.pool);
        let round = frame::round(&self.pool.frames[first]) as usize;
        let next = round + cards(self.head.f) as usize;
        let near = match self.rng.below(5) {
            0 => return [first, first],
            1 => self.pool.blocks.get(next),
            2 => self.pool.blocks.get(round),
            3 => self.pool.blames.get(round),
            _ => None,
        };
        let second = match near.filter(|near| !near.is_empty()) {
            Some(near) => self.rng.pick(near),
            None => any(&mut self.rng, &self.pool),
        };
        match self.rng.chance(50) {
            true => [first, second],
            false => [second, first],
        }
    }

    /// Fetches at another card what is then handed to this one.
    fn catch_up(&mut self, card: usize, sides: &[Side]) -> Call {
        let other = usize::from(self.rng.bit(self.open));
        self.fetching = Some(card);
        let record = &sides[card].record;
        let height = self
            .rng
            .pick(&[0, record.committed_height, record.tip_height]);
        self.fetch_from(other, height, sides)
    }

    fn fetch(&mut self, card: usize, sides: &[Side]) -> Call {
        let record = &sides[card].record;
        let height = match self.rng.chance(50) {
            true => fetches::height(&mut self.rng, record),
            false => self.rng.within(0, record.tip_height.min(5_000) + 1),
        };
        self.fetch_from(card, height, sides)
    }

    fn fetch_from(&mut self, card: usize, height: u32, sides: &[Side]) -> Call {
        let mut call = Call::new(&self.head, card, What::Fetch(height));
        let frames = line_above(sides[card].log.part(call.log_len), height).count();
        let most = self.head.term as usize + 2;
        call.out_len = fetches::tray(&mut self.rng, frames, most);
        call
    }

    fn read(&mut self, card: usize, sides: &[Side]) -> Call {
        let record = &sides[card].record;
        let high = record.committed_height.min(5_000) + 1;
        let height = match self.rng.below(4) {
            0 => high - 1,
            1 => high,
            _ => self.rng.within(0, high),
        };
        Call::new(&self.head, card, What::Read(height))
    }

    fn digest(&mut self, card: usize) -> Call {
        let length = match self.rng.below(3) {
            0 => self
                .rng
                .pick(&[0, 1, 55, 56, 57, 63, 64, 65, 119, 120, 128, 480, 512]),
            _ => self.rng.below(300),
        };
        let bytes = self.rng.noise(length);
        Call::new(&self.head, card, What::Digest(bytes))
    }

    /// A faulty card makes a block or a blame.
    fn make(&mut self, sides: &[Side]) {
        let rounds = |sides: &[Side]| {
            let cards = (0..16).filter(|card| self.open >> card & 1 == 1);
            let rounds = cards.map(|card: usize| sides[card].record.round);
            let term = self.head.term;
            rounds.map(|round| round.clamp(1, term)).collect::<Vec<_>>()
        };
        let rounds = rounds(sides);
        let (Some(&low), Some(&high)) = (rounds.iter().min(), rounds.iter().max()) else {
            return;
        };
        let high = (high + 2).min(self.head.term);
        let low = if self.rng.chance(30) {
            low.saturating_sub(3).max(1)
        } else {
            low
        };
        let round = self.rng.within(low.min(high), high);
        let maker = self.rng.bit(self.makers);
        if self.rng.chance(35) {
            let index = self.add(&frame::blame(maker, round));
            self.send(index, None);
        } else {
            self.make_blocks(maker, round);
        }
    }

    /// One block, or several for the same round, from `low` on.
    fn make_blocks(&mut self, maker: u8, low: u32) {
        let f = self.head.f;
        let by_number = self.rng.chance(self.habits.astray);
        let rotation = if by_number {
            in_turn(f)
        } else {
            self.head.rotation
        };
        let mut turn = low..low + cards(f);
        let round = turn.find(|&round| leader(round, f, &rotation) == maker);
        let Some(round) = round.filter(|&round| round <= self.head.term) else {
            return;
        };
        let several = self.rng.chance(self.habits.equivocate);
        let count = if several { 2 + self.rng.below(2) } else { 1 };
        for _ in 0..count {
            let (parent, height) = self.parent(round);
            let length = self.rng.pick(&[0, 1, 3, 400]);
            let entry = self.rng.bytes(length);
            let block = frame::block(maker, round, height, &parent, &entry);
            let index = self.add(&block);
            if !self.rng.chance(self.habits.withhold) {
                self.send(index, None);
            }
        }
        let doubled = self.pool.blocks[round as usize].len() > 1;
        if doubled && self.rng.chance(self.habits.tell) {
            let pair = self.double(round as usize);
            let (card, frames) = (self.present(), self.pool.flatten(&pair));
            let call = Call::new(&self.head, card, What::Equivocation(frames));
            self.coming.push_back(call);
        }
    }

    /// A parent for a block and the block's height: mostly the nearest block below its round.
    fn parent(&mut self, round: u32) -> (Name, u32) {
        for below in (1..round as usize).rev() {
            let blocks = &self.pool.blocks[below];
            if blocks.is_empty() || self.rng.chance(20) {
                continue;
            }
            let parent = &self.pool.frames[self.rng.pick(blocks)];
            return (*frame::name(parent), frame::height(parent) + 1);
        }
        (GENESIS, 1)
    }

    fn add(&mut self, frame: &Frame) -> usize {
        let leader = self.head.leader(frame::round(frame));
        self.pool.add(frame, leader)
    }

    /// Puts a frame on the cables to all other cards.
    fn send(&mut self, index: usize, from: Option<usize>) {
        for card in 0..self.inbox.len() {
            let sound = self.head.sound >> card & 1 == 1;
            if !sound || Some(card) == from || self.rng.chance(self.habits.loss) {
                continue;
            }
            let times = 1 + usize::from(self.rng.chance(self.habits.repeat));
            for _ in 0..times {
                self.inbox[card].push_back(index);
            }
        }
    }

    /// Takes note of what a call came to.
    pub fn learn(&mut self, call: &Call, outcome: &Outcome, out: &[u8]) {
        match outcome {
            Outcome::Answer(answer) if answer.number == 0 => {
                if matches!(call.what, What::Open(..)) {
                    self.open |= 1 << call.card;
                }
                for frame in &slots(out)[..usize::from(answer.frames)] {
                    let index = self.add(frame);
                    self.send(index, Some(call.card));
                }
            }
            Outcome::Answer(answer) if matches!(answer.number, 11 | 13) => self.keep(call),
            Outcome::Fetched(fetched) => {
                if let (Some(card), 0) = (self.fetching.take(), fetched.number) {
                    let frames = out[..SIZE * fetched.count].to_vec();
                    let call = self.call(card, What::Branch(frames));
                    self.coming.push_back(call);
                }
            }
            _ => {}
        }
    }

    /// A loose or unshown frame may come again later.
    fn keep(&mut self, call: &Call) {
        for frame in slots(call.handed()) {
            let known = self.pool.by_name.get(frame::name(frame)).copied();
            if let (Some(index), true) = (known, self.rng.chance(50)) {
                self.inbox[call.card].push_back(index);
            }
        }
    }
}

/// In some lists a maker that is not sound, and a rotation of its own.
fn choose_neighbour(rng: &mut Rng, head: &Head, makers: u16) -> Option<(u8, Rotation)> {
    let unsound = makers & !head.sound;
    if unsound == 0 || !rng.chance(20) {
        return None;
    }
    let mut rotation = in_turn(head.f);
    if rotation == head.rotation || rng.chance(50) {
        let n = cards(head.f) as usize;
        rng.shuffle(&mut rotation[..n]);
    }
    Some((rng.bit(unsound), rotation))
}
