//! Lists in words.

use std::fmt;

use crate::call::{Call, List, State, Step, What};
use crate::frame::{self, Frame, CHECK_AT, SIZE};
use crate::model::{slots, Record, Setup};

impl fmt::Display for List {
    fn fmt(&self, f: &mut fmt::Formatter) -> fmt::Result {
        let head = &self.head;
        let sound: Vec<_> = (0..16).filter(|card| head.sound >> card & 1 == 1).collect();
        let (last, cards) = (head.term, head.cards);
        writeln!(
            f,
            "f = {}, T = {last}, rotation {:?}, books for {cards}, meant to be sound: {sound:?}",
            head.f,
            head.seats()
        )?;
        for (index, step) in self.steps.iter().enumerate() {
            writeln!(f, "{:>4}. {step}", index + 1)?;
        }
        Ok(())
    }
}

impl fmt::Display for Step {
    fn fmt(&self, f: &mut fmt::Formatter) -> fmt::Result {
        match self {
            Step::Call(call) => call.fmt(f),
            Step::Write(card, state) => {
                write!(f, "card {card}: its host writes {state}")
            }
        }
    }
}

impl fmt::Display for State {
    fn fmt(&self, f: &mut fmt::Formatter) -> fmt::Result {
        write!(f, "{}", Fields(&self.record))?;
        write!(f, "\n        masks {:?}", self.masks)?;
        for (index, slot) in slots(&self.log).iter().enumerate() {
            if slot.iter().any(|&byte| byte != 0) {
                write!(f, "\n        slot {}: {}", index + 1, Words(slot))?;
            }
        }
        Ok(())
    }
}

impl fmt::Display for Call {
    fn fmt(&self, f: &mut fmt::Formatter) -> fmt::Result {
        if let What::Digest(bytes) = &self.what {
            return write!(f, "digest of {} bytes {}", bytes.len(), hex(bytes));
        }
        write!(f, "card {}: {}", self.card, self.word())?;
        match &self.what {
            What::Open(setup, rotation) => {
                let Setup {
                    own,
                    f: most,
                    wait,
                    term,
                } = setup;
                write!(f, " own {own} f {most} wait {wait} T {term}")?;
                write!(f, " rotation [{}]", hex(rotation))?;
            }
            What::Read(height) => return write!(f, " height {height}, log {}", self.log_len),
            What::Fetch(height) => write!(f, " above height {height}")?,
            _ => {}
        }
        if !matches!(self.what, What::Equivocation(_)) {
            write!(f, ", log {}, masks {}", self.log_len, self.masks_len)?;
            write!(f, ", out {}, entry [{}]", self.out_len, hex(&self.entry))?;
        }
        if let Some(record) = &self.record {
            write!(f, "\n        with {}", Fields(record))?;
        }
        write!(f, "{}", Handed(self.handed()))?;
        for (group, change) in &self.changes {
            write!(f, "\n        changed: {group}: {change}")?;
        }
        Ok(())
    }
}

/// The frames handed in.
struct Handed<'a>(&'a [u8]);

impl fmt::Display for Handed<'_> {
    fn fmt(&self, f: &mut fmt::Formatter) -> fmt::Result {
        for (index, frame) in slots(self.0).iter().enumerate() {
            write!(f, "\n        frame {index}: {}", Words(frame))?;
        }
        match self.0.len() % SIZE {
            0 => Ok(()),
            rest => write!(f, "\n        and {rest} bytes more"),
        }
    }
}

/// A record's fields.
struct Fields<'a>(&'a Record);

impl fmt::Display for Fields<'_> {
    fn fmt(&self, f: &mut fmt::Formatter) -> fmt::Result {
        let r = self.0;
        write!(
            f,
            "record own {} f {} wait {} T {}",
            r.own, r.f, r.wait, r.term
        )?;
        write!(f, " R {} left {}", r.round, r.left)?;
        write!(f, " tip {}/{}", r.tip_round, r.tip_height)?;
        write!(f, " committed {}/{}", r.committed_round, r.committed_height)?;
        write!(f, " rotation [{}]", hex(&r.rotation))?;
        write!(f, " marks {:#b}", r.equivocators)
    }
}

/// A frame's fields.
struct Words<'a>(&'a Frame);

impl fmt::Display for Words<'_> {
    fn fmt(&self, f: &mut fmt::Formatter) -> fmt::Result {
        let frame = self.0;
        match frame::kind(frame) {
            frame::BLOCK => write!(f, "block")?,
            frame::BLAME => write!(f, "blame")?,
            kind => write!(f, "kind {kind}")?,
        }
        write!(f, " signer {}", frame::signer(frame))?;
        write!(
            f,
            " round {} height {}",
            frame::round(frame),
            frame::height(frame)
        )?;
        write!(f, " parent {}", hex(&frame::parent(frame)[..4]))?;
        write!(f, " entry of {}", frame::length(frame))?;
        write!(f, " name {}", hex(&frame[CHECK_AT..CHECK_AT + 4]))?;
        if !frame::check_is_right(frame) {
            write!(f, " (check wrong)")?;
        }
        Ok(())
    }
}

/// The rounds of the filled slots of a book, those in a row by their ends; many are cut.
pub struct Filled<'a>(pub &'a [u8]);

/// How many runs of rounds are shown.
const RUNS: usize = 24;

impl fmt::Display for Filled<'_> {
    fn fmt(&self, f: &mut fmt::Formatter) -> fmt::Result {
        let mut round = 0;
        let mut runs = Vec::new();
        for run in slots(self.0).chunk_by(|a, b| frame::filled(a) == frame::filled(b)) {
            let (first, last) = (round + 1, round + run.len());
            round = last;
            match frame::filled(&run[0]) {
                false => {}
                true if first == last => runs.push(format!("{first}")),
                true => runs.push(format!("{first} to {last}")),
            }
        }
        match runs.len() {
            0 => write!(f, "none"),
            1..=RUNS => write!(f, "{}", runs.join(", ")),
            _ => write!(f, "{}, ...", runs[..RUNS].join(", ")),
        }
    }
}

/// Bytes in hex, a long run cut.
pub fn hex(bytes: &[u8]) -> String {
    let shown = &bytes[..bytes.len().min(32)];
    let mut text: String = shown.iter().map(|byte| format!("{byte:02x}")).collect();
    if bytes.len() > shown.len() {
        text += &format!("... {} bytes", bytes.len());
    }
    text
}
