//! The three claims about sound cards, checked call by call on the library's buffers, and what
//! committing by R adds to them: sound cards that wait for one round have committed the same, R is at
//! most 2f + 1 above the committed round, and the search for it reads at most f + 1 slots. Beside
//! them: sound cards tell one leader for a round, and another for each of n rounds in a row. What a
//! card that comes back is answered is in catch_up.rs, who is marked in marks.rs.
//!
//! The premises are judged from the calls themselves, so a list with calls left out is judged
//! afresh: at most f cards that are not sound, one rotation for the sound ones, no forged frame, and
//! no sound card that blamed a round led by a sound card.

use crate::call::{Call, Head};
use crate::frame::{self, Frame};
use crate::marks::{Marks, MARKED};
use crate::model::{cards, leader, slots, Answer, Rotation, Search, NOBODY};
use crate::rules::Rules;
use crate::runner::{Outcome, Side};
use crate::sound::Sound;

const FORGED: &str = "a frame was forged";
const BLAMED: &str = "a sound card blamed a sound leader's round";

pub struct Claims {
    f: u8,
    term: u32,
    rotation: Rotation,
    /// What every card keeps to; none to leave it out.
    pub rules: Option<Rules>,
    marks: Marks,
    sound: Sound,
    /// Cards that were handed a forged frame.
    misled: u16,
    /// A premise failed: nothing is due any more.
    broken: Option<&'static str>,
    due: bool,
    answered_12: bool,
    /// Blocks that sound cards put out; round r at index r - 1.
    blocks: Vec<Option<Box<Frame>>>,
    /// The longest committed list of all sound cards.
    agreed: Vec<Frame>,
    /// The leader that sound cards told; round r at index r - 1.
    told: Vec<Option<u8>>,
    /// Calls after which the claims were due and held.
    pub checked: u64,
}

/// What was checked after a call.
#[derive(Clone, Copy, Debug, Default)]
pub struct Due {
    pub claims: bool,
    /// The called card's tip is not another card's block of that round.
    pub two_blocks: bool,
    /// Another card waits for the same round on a tip of another round.
    pub two_tips: bool,
    /// The leaders of n rounds in a row were told, the last of them by this call.
    pub leaders: bool,
    /// How the call marked a card, where the claim about marks was due.
    pub marked: [bool; MARKED.len()],
}

impl Claims {
    pub fn new(head: &Head) -> Claims {
        Claims {
            f: head.f,
            term: head.term,
            rotation: head.rotation,
            rules: Some(Rules::new(head)),
            marks: Marks::new(head),
            sound: Sound::new(head),
            misled: 0,
            broken: None,
            due: false,
            answered_12: false,
            blocks: vec![None; head.term as usize],
            agreed: Vec::new(),
            told: vec![None; head.term as usize],
            checked: 0,
        }
    }

    /// The premise that failed, if one did.
    pub fn broken(&self) -> Option<&'static str> {
        self.broken
    }

    /// No premise failed, and at most f cards are not sound or not open.
    fn premises_hold(&self) -> bool {
        let others = cards(self.f) - self.sound.open().count_ones();
        self.broken.is_none() && others <= u32::from(self.f)
    }

    /// Whether the claims about sound cards are due for a card.
    pub fn are_due_for(&self, card: usize) -> bool {
        self.sound.is_open(card) && self.premises_hold()
    }

    /// Whether the claims about every card are due for a card.
    pub fn rules_are_due_for(&self, card: usize) -> bool {
        self.rules
            .as_ref()
            .is_some_and(|rules| rules.are_kept(card))
    }

    /// Whether a card takes part lawfully: its host keeps the rules and opened it under its own number
    /// with what sound cards share. It may count among the f, where sound cards blamed its rounds.
    pub fn is_lawful(&self, card: usize, side: &Side) -> bool {
        let record = &side.record;
        let shared = (record.f, record.term, record.rotation);
        self.rules_are_due_for(card)
            && usize::from(record.own) == card
            && shared == (self.f, self.term, self.rotation)
    }

    /// Whether the claims about one card that comes back to another are due for a card, as either.
    pub fn catching_up_is_due_for(&self, card: usize, side: &Side) -> bool {
        let takes_part = self.sound.is_open(card) || self.is_lawful(card, side);
        takes_part && self.misled >> card & 1 == 0 && self.premises_hold()
    }

    /// The host wrote a card's state by itself.
    pub fn written(&mut self, card: usize) {
        if let Some(rules) = &mut self.rules {
            rules.written(card);
        }
        self.marks.written(card);
        let fault = self.sound.lent_other(card);
        self.broken = self.broken.or(fault);
    }

    /// What the call shows before it is made.
    pub fn before(&mut self, call: &Call) {
        let mut frames = call.frames(self.term).iter();
        let holds = self.broken.is_none();
        let forged = holds && frames.any(|frame| self.sound.is_forged(frame));
        let fault = self.sound.before(call);
        if !holds {
            return;
        }
        self.misled |= u16::from(forged) << call.card;
        self.broken = match forged && self.sound.is_sound(call.card) {
            true => Some(FORGED),
            false => fault,
        };
    }

    /// Checks the claims after a call at a card; the sides, the out buffer and the search of the
    /// card's book up to R - 1 - f are the library's.
    pub fn after(
        &mut self,
        call: &Call,
        outcome: &Outcome,
        sides: &[Side],
        out: &[u8],
        search: Search,
    ) -> Result<Due, String> {
        let (side, answer) = (&sides[call.card], outcome.answer());
        if let Some(rules) = &mut self.rules {
            rules.after(call, outcome, side, search)?;
        }
        let was_sound = self.sound.is_sound(call.card);
        let fault = answer.and_then(|answer| self.sound.after(call, answer, out));
        self.marks.after(call, outcome, side, &self.sound)?;
        let mut due = Due {
            marked: self.marked(call, outcome),
            ..Due::default()
        };
        if self.broken.is_some() || !was_sound {
            return Ok(due);
        }
        self.broken = fault;
        let block = answer.and_then(|answer| self.note(answer, out));
        if let (Some(answer), None) = (answer, self.broken) {
            due.leaders = self.check_leader(answer)?;
        }
        if self.premises_hold() {
            self.check_sound(call.card, block, sides, search)?;
            self.tips(call.card, sides, &mut due);
        }
        Ok(due)
    }

    /// The claims that are due while the premises hold.
    fn check_sound(
        &mut self,
        called: usize,
        block: Option<u32>,
        sides: &[Side],
        search: Search,
    ) -> Result<(), String> {
        if self.answered_12 {
            return Err("claim: a sound card answered 12".into());
        }
        self.check_sides(called, block, sides)?;
        self.check_search(called, search)?;
        self.due = true;
        self.checked += 1;
        Ok(())
    }

    /// How a call marked a card, if it did in a record that calls made.
    fn marked(&self, call: &Call, outcome: &Outcome) -> [bool; MARKED.len()] {
        let (Some(frame), Outcome::Marked(marked)) = (call.frames(self.term).first(), outcome)
        else {
            return Default::default();
        };
        if marked.number != 0 || !self.marks.are_calls(call.card) {
            return Default::default();
        }
        let others = cards(self.f) - self.sound.cards().count_ones();
        [
            self.premises_hold(),
            others > u32::from(self.f),
            self.broken == Some(BLAMED),
            self.broken == Some(FORGED),
            !self.sound.is_open(call.card),
            self.sound.is_sound(frame::signer(frame).into()),
        ]
    }

    /// All claims but the search's, after a call at a card that may have put out a block.
    fn check_sides(
        &mut self,
        called: usize,
        block: Option<u32>,
        sides: &[Side],
    ) -> Result<(), String> {
        let open = |&(card, _): &(usize, &Side)| self.sound.is_open(card);
        let cards: Vec<_> = sides.iter().enumerate().filter(open).collect();
        for &(card, side) in &cards {
            if card == called || !self.due {
                self.check_card(card, side)?;
            } else if let Some(round) = block {
                self.check_block(round, card, side)?;
            }
        }
        for (card, side) in cards {
            self.check_limit(card, side)?;
        }
        Ok(())
    }

    /// How the called card's tip differs from other cards'.
    fn tips(&self, card: usize, sides: &[Side], due: &mut Due) {
        let record = &sides[card].record;
        let tip = record.tip_round;
        let other_block = |other: &Side| {
            let slot = other.slot(tip);
            frame::filled(slot) && slot != sides[card].slot(tip)
        };
        let other_tip = |(index, other): (usize, &Side)| {
            let same_round = other.record.round == record.round;
            self.sound.is_open(index) && same_round && other.record.tip_round != tip
        };
        due.claims = true;
        due.two_blocks = tip > 0 && sides.iter().any(other_block);
        due.two_tips = sides.iter().enumerate().any(other_tip);
    }

    /// Notes what a sound card did; the round of a block that it put out.
    fn note(&mut self, answer: &Answer, out: &[u8]) -> Option<u32> {
        self.answered_12 |= answer.number == 12;
        let mut block = None;
        for frame in &slots(out)[..usize::from(answer.frames)] {
            let round = frame::round(frame);
            if frame::kind(frame) == frame::BLOCK {
                self.blocks[round as usize - 1] = Some(Box::new(*frame));
                block = Some(round);
            } else if self.is_sound_leader(round) {
                self.broken = Some(BLAMED);
            }
        }
        block
    }

    fn is_sound_leader(&self, round: u32) -> bool {
        let leader = leader(round, self.f, &self.rotation);
        self.sound.is_sound(leader.into())
    }

    /// One leader for a round, whichever sound card tells it, and another for each round less than n
    /// away: so f + 1 rounds in a row have different leaders. Whether n rounds up to this one, told
    /// for the first time, have been told.
    fn check_leader(&mut self, answer: &Answer) -> Result<bool, String> {
        if answer.leader == NOBODY {
            return Ok(false);
        }
        let (leader, round) = (answer.leader, answer.record.round as usize);
        match self.told[round - 1].replace(leader) {
            Some(before) if before == leader => return Ok(false),
            Some(before) => {
                return Err(format!(
                    "claim: leaders {before} and {leader} were told of round {round}"
                ));
            }
            None => {}
        }
        let apart = cards(self.f) as usize - 1;
        let first = round.saturating_sub(apart).max(1);
        let last = self.told.len().min(round + apart);
        let same = |&other: &usize| other != round && self.told[other - 1] == Some(leader);
        match (first..=last).find(same) {
            None => Ok(round > apart && self.told[first - 1..round].iter().all(Option::is_some)),
            Some(other) => Err(format!(
                "claim: card {leader} was told as the leader of rounds {round} and {other}"
            )),
        }
    }

    /// The first and third claim for one card.
    fn check_card(&mut self, card: usize, side: &Side) -> Result<(), String> {
        let book = slots(side.log.part(frame::SIZE * self.term as usize));
        let top = book
            .iter()
            .rposition(frame::filled)
            .map_or(0, |top| top + 1);
        let mut listed = 0;
        for (index, slot) in book[..top].iter().enumerate() {
            let round = index as u32 + 1;
            if self.blocks[index].as_ref().is_some_and(|b| **b != *slot) {
                return Err(missing(round, card));
            }
            if frame::filled(slot) && round <= side.record.committed_round {
                match self.agreed.get(listed) {
                    Some(agreed) if agreed != slot => {
                        return Err(format!(
                            "claim: the committed list of card {card} parts from another's \
                             at its frame {listed}, round {round}"
                        ));
                    }
                    Some(_) => {}
                    None => self.agreed.push(*slot),
                }
                listed += 1;
            }
        }
        Ok(())
    }

    /// A card has committed all frames of the longest list that its R allows, and R is at most
    /// 2f + 1 above the last of its own.
    fn check_limit(&self, card: usize, side: &Side) -> Result<(), String> {
        let (round, committed) = (side.record.round, side.record.committed_round);
        let held = self
            .agreed
            .partition_point(|agreed| frame::round(agreed) <= committed);
        match self.agreed.get(held).map(frame::round) {
            Some(next) if next + u32::from(self.f) < round => Err(format!(
                "claim: card {card} waits for round {round} and has not committed round {next}, \
                 as another has"
            )),
            _ if committed + 2 * u32::from(self.f) + 1 < round => Err(format!(
                "claim: card {card} waits for round {round} and has committed up to {committed} only"
            )),
            _ => Ok(()),
        }
    }

    /// One of f + 1 rounds in a row has a sound leader, whose block stands in every line.
    fn check_search(&self, card: usize, search: Search) -> Result<(), String> {
        let read = search.slots_read;
        if read <= u32::from(self.f) + 1 {
            return Ok(());
        }
        Err(format!(
            "claim: the search of card {card} read {read} slots, more than f + 1"
        ))
    }

    /// The third claim for a new block at a card that was checked before.
    fn check_block(&self, round: u32, card: usize, side: &Side) -> Result<(), String> {
        let book = slots(side.log.part(frame::SIZE * self.term as usize));
        let (index, block) = (round as usize - 1, &self.blocks[round as usize - 1]);
        let stands = block.as_ref().is_some_and(|b| **b == book[index]);
        if !stands && book[index..].iter().any(frame::filled) {
            return Err(missing(round, card));
        }
        Ok(())
    }
}

fn missing(round: u32, card: usize) -> String {
    format!("claim: a sound card's block of round {round} is missing in the line of card {card}")
}
