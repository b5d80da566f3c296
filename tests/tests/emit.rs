//! A program as small as can be that reads an emitted list: it has to print what was expected.

use std::sync::OnceLock;

use beside::coverage::{Coverage, Row, OTHER_MARKS};
use beside::emit::{emit, Emitted};
use beside::frame::SIZE;
use beside::model::{self, Answer, Lent, Record, Setup};
use beside::sha256;

#[derive(Clone)]
struct Card {
    record: Record,
    log: [u8; 4608],
    masks: [u16; 9],
}

/// The words of a line.
struct Words<'a>(std::str::Split<'a, char>);

impl Words<'_> {
    fn number(&mut self) -> u32 {
        self.0.next().expect("a word").parse().expect("a number")
    }

    fn size(&mut self) -> usize {
        self.number() as usize
    }

    fn bytes(&mut self) -> Vec<u8> {
        let mut word = self.0.next().expect("a word");
        let mut bytes = Vec::new();
        while !word.is_empty() && word != "-" {
            let mut count = 1;
            if let Some(rest) = word.strip_prefix('x') {
                let (number, rest) = rest.split_once('.').expect("a dot");
                count = number.parse().expect("a count");
                word = rest;
            }
            let byte = u8::from_str_radix(&word[..2], 16).expect("hex");
            bytes.resize(bytes.len() + count, byte);
            word = &word[2..];
        }
        bytes
    }

    fn record(&mut self) -> Record {
        Record {
            own: self.number() as u8,
            f: self.number() as u8,
            wait: self.number(),
            term: self.number(),
            round: self.number(),
            left: self.number(),
            tip_round: self.number(),
            tip_height: self.number(),
            committed_round: self.number(),
            committed_height: self.number(),
            rotation: self.bytes().try_into().expect("15 bytes"),
            equivocators: self.number().try_into().expect("16 bits"),
        }
    }
}

struct Program {
    cards: Vec<Card>,
    out: [u8; 6144],
    given: Option<Record>,
    printed: String,
}

impl Program {
    fn new() -> Program {
        let card = Card {
            record: Record::default(),
            log: [0; 4608],
            masks: [0; 9],
        };
        Program {
            cards: vec![card; 5],
            out: [0; 6144],
            given: None,
            printed: String::new(),
        }
    }

    fn line(&mut self, line: &str) {
        let mut words = Words(line.split(' '));
        let letter = words.0.next().expect("a letter");
        match letter {
            "n" => self.cards = Program::new().cards,
            "w" => self.write(&mut words),
            "s" => {
                let (card, round) = (words.size(), words.size());
                let slot = &mut self.cards[card].log[SIZE * (round - 1)..SIZE * round];
                slot.copy_from_slice(&words.bytes());
            }
            "m" => {
                let (card, round) = (words.size(), words.size());
                self.cards[card].masks[round - 1] = words.number() as u16;
            }
            "g" => self.given = Some(words.record()),
            "o" | "b" | "v" | "a" | "t" => self.machine(letter, &mut words),
            "e" => self.equivocation(&mut words),
            "q" => self.read(&mut words),
            "f" => self.fetch(&mut words),
            "h" => self.printed += &(hex(&sha256::digest(&words.bytes())) + "\n"),
            _ => panic!("{line}"),
        }
    }

    fn write(&mut self, words: &mut Words) {
        let card = words.size();
        self.cards[card] = Program::new().cards[0].clone();
        self.cards[card].record = words.record();
    }

    fn machine(&mut self, letter: &str, words: &mut Words) {
        let index = words.size();
        let opening = |words: &mut Words| {
            let setup = Setup {
                own: words.number() as u8,
                f: words.number() as u8,
                wait: words.number(),
                term: words.number(),
            };
            (setup, words.bytes())
        };
        let opening = (letter == "o").then(|| opening(words));
        let (log, masks, out) = (words.size(), words.size(), words.size());
        let entry = words.bytes();
        self.out[..out].fill(165);
        let card = &mut self.cards[index];
        let record = self.given.take().unwrap_or(card.record);
        let lent = Lent {
            log: &mut card.log[..log],
            masks: &mut card.masks[..masks],
            entry: &entry,
            out: &mut self.out[..out],
        };
        let answer = match (opening, letter) {
            (Some((setup, rotation)), _) => model::open(setup, &rotation, lent),
            (_, "b") => model::branch(record, &words.bytes(), lent),
            (_, "v") => model::blame(record, &words.bytes(), lent),
            (_, "a") => model::blames(record, &words.bytes(), lent),
            _ => model::tick(record, lent),
        };
        if answer.number == 0 {
            card.record = answer.record;
        }
        self.print_answer(&answer);
        self.print_digest(index, log, masks, out);
    }

    fn print_answer(&mut self, answer: &Answer) {
        self.print(&[answer.number.into(), answer.place]);
        self.print(&[answer.frames.into(), answer.leader.into()]);
        self.print_record(&answer.record);
        self.printed.push(' ');
    }

    fn print_record(&mut self, r: &Record) {
        self.print(&[r.own.into(), r.f.into(), r.wait, r.term]);
        self.print(&[r.round, r.left, r.tip_round, r.tip_height]);
        self.print(&[r.committed_round, r.committed_height]);
        self.printed += &format!("{} {}", hex(&r.rotation), r.equivocators);
    }

    fn equivocation(&mut self, words: &mut Words) {
        let card = &mut self.cards[words.size()];
        let record = self.given.take().unwrap_or(card.record);
        let marked = model::equivocation(record, &words.bytes());
        if marked.number == 0 {
            card.record = marked.record;
        }
        self.print(&[marked.number.into(), marked.place]);
        self.print_record(&marked.record);
        self.printed.push('\n');
    }

    fn read(&mut self, words: &mut Words) {
        let (index, log, height) = (words.size(), words.size(), words.number());
        let card = &self.cards[index];
        let record = self.given.take().unwrap_or(card.record);
        let part = model::read(record, &card.log[..log], height);
        self.print(&[part.number.into(), part.start as u32, part.length as u32]);
        self.print_digest(index, log, 0, 0);
    }

    fn fetch(&mut self, words: &mut Words) {
        let (index, log, out) = (words.size(), words.size(), words.size());
        let height = words.number();
        self.out[..out].fill(165);
        let card = &self.cards[index];
        let record = self.given.take().unwrap_or(card.record);
        let fetched = model::fetch(record, &card.log[..log], height, &mut self.out[..out]);
        self.print(&[fetched.number.into(), fetched.count as u32]);
        self.print_digest(index, log, 0, out);
    }

    fn print(&mut self, numbers: &[u32]) {
        for number in numbers {
            self.printed += &format!("{number} ");
        }
    }

    fn print_digest(&mut self, card: usize, log: usize, masks: usize, out: usize) {
        let card = &self.cards[card];
        let mut lent = card.log[..log].to_vec();
        for mask in &card.masks[..masks] {
            lent.extend(mask.to_be_bytes());
        }
        lent.extend(&self.out[..out]);
        self.printed += &(hex(&sha256::digest(&lent)) + "\n");
    }
}

fn hex(bytes: &[u8]) -> String {
    bytes.iter().map(|byte| format!("{byte:02x}")).collect()
}

#[test]
fn an_emitted_list_reads_back() {
    let (emitted, _) = list();
    let mut program = Program::new();
    emitted.input.lines().for_each(|line| program.line(line));
    for (number, (got, wanted)) in program
        .printed
        .lines()
        .zip(emitted.output.lines())
        .enumerate()
    {
        assert_eq!(got, wanted, "result {number}");
    }
    assert_eq!(program.printed.lines().count(), 2_000);
    assert_eq!(emitted.output.lines().count(), 2_000);
}

/// The list of 2,000 calls and what it reaches.
fn list() -> &'static (Emitted, Coverage) {
    static LIST: OnceLock<(Emitted, Coverage)> = OnceLock::new();
    LIST.get_or_init(|| {
        let mut coverage = Coverage::new();
        (emit(1, 2_000, &mut coverage), coverage)
    })
}

#[test]
fn an_emitted_list_makes_every_call_often() {
    let (emitted, _) = list();
    for letter in "obvateqf".chars() {
        let made = emitted
            .input
            .lines()
            .filter(|line| line.starts_with(letter));
        assert!(made.count() >= 50, "{letter}");
    }
}

/// Each way of committing without a block is there, and the 2 after a commit above the tip.
#[test]
fn an_emitted_list_commits_in_every_way() {
    let (_, coverage) = list();
    let every = [
        ("commits, no block stored", 5),
        ("commits, block put out", 2),
        ("commits at R = T + 1", 2),
        ("commits above the tip", 1),
        ("R stays, rule gives another slot", 1),
        ("refused  2, committed above tip", 1),
    ];
    for call in ["blame", "blames", "tick"] {
        for (row, least) in every {
            let count = coverage.count(&(call, row));
            assert!(count >= least, "{call}: {row}: {count}");
        }
    }
}

/// Each way of a rotation that is none is there, in open and in the records of all calls.
#[test]
fn an_emitted_list_refuses_rotations_in_every_way() {
    let (_, coverage) = list();
    let of_open = |row: &Row| row.0 == "open" && row.1.contains("rotation");
    let of_a_record = |row: &Row| row.1.contains(" seat") || row.1.contains(" byte n");
    let refused = |row: &&Row| of_open(row) || row.1.starts_with("refused  2") && of_a_record(row);
    let rows: Vec<_> = coverage.rows().iter().filter(refused).collect();
    assert_eq!(rows.len(), 23 + 3 * 7);
    for row in rows {
        assert!(coverage.count(row) > 0, "{row:?}");
    }
}

/// Each way of a fetch is there but trays of more frames than a small card has rounds.
#[test]
fn an_emitted_list_fills_trays_in_every_way() {
    let (_, coverage) = list();
    let fetches = coverage.rows().iter().filter(|row| row.0 == "fetch");
    for row in fetches.filter(|row| !row.1.contains("over 15 frames")) {
        assert!(coverage.count(row) > 0, "{row:?}");
    }
}

/// Each way of equivocation with small n is there, and of marks in the records of all calls.
#[test]
fn an_emitted_list_marks_in_every_way() {
    let (_, coverage) = list();
    let small = |row: &Row| row.1.ends_with(" 3") || row.1.ends_with(" 5");
    let large = |row: &Row| row.1.starts_with("taken, n = ") && !small(row);
    let marks = |row: &Row| row.1.contains("mark") && row.0 != OTHER_MARKS;
    let of = |row: &&Row| (row.0.ends_with("equivocation") || marks(row)) && !large(row);
    let rows = coverage.rows().iter().filter(of);
    let missed: Vec<_> = rows.filter(|row| coverage.count(row) == 0).collect();
    assert!(missed.is_empty(), "{missed:?}");
}

/// The list beside the program that reads it: a change of the rules or of the lists shows here first.
#[test]
fn the_stored_list_is_the_emitted_one() {
    let (emitted, _) = list();
    for (name, text) in [("stdin", &emitted.input), ("stdout", &emitted.output)] {
        let path = format!("{}/../crates/mixed/{name}", env!("CARGO_MANIFEST_DIR"));
        let stored = std::fs::read_to_string(&path).expect(&path);
        assert!(stored == *text, "{path}: emit it anew");
    }
}
