//! The tables of `dead_leaders`.

use crate::dead_leaders::{run, Case, Wait, Waits, TIMEOUT};
use crate::head;

/// n = 3, 5, 7 and 15.
const FS: [u8; 4] = [1, 2, 3, 7];

pub struct Tables {
    /// What this library commits by: the same in every case.
    pub rule: &'static str,
    /// Dead cards right after the entry's leader, from round r + f on, and the mean over all places that they can have.
    pub places: Vec<Vec<String>>,
    /// The term's last round is r + f, and its leader dead.
    pub ends: Vec<Vec<String>>,
}

/// A number with two decimals at most.
fn short(number: f64) -> String {
    let text = format!("{number:.2}");
    text.trim_end_matches('0').trim_end_matches('.').to_string()
}

/// Rounds / timeouts, the mean of some waits.
fn mean(waits: &[Option<Wait>]) -> String {
    let Some(waits) = waits.iter().copied().collect::<Option<Vec<_>>>() else {
        return "never".into();
    };
    let mean = |of: fn(&Wait) -> u32| {
        let all = waits.iter().map(of).sum::<u32>();
        f64::from(all) / waits.len() as f64
    };
    let timeouts = mean(|wait| wait.ticks) / f64::from(TIMEOUT);
    format!("{} / {}", short(mean(|wait| wait.rounds)), short(timeouts))
}

/// Two cells for some cases: what commit waited for before F-2, and until the entry was committed. Their waits join those seen.
fn cells(cases: impl IntoIterator<Item = Case>, seen: &mut Vec<Waits>) -> [String; 2] {
    let from = seen.len();
    seen.extend(cases.into_iter().map(run));
    let cell = |of: fn(&Waits) -> Option<Wait>| {
        let waits: Vec<_> = seen[from..].iter().map(of).collect();
        mean(&waits)
    };
    [cell(|waits| waits.by_tip), cell(|waits| waits.committed)]
}

fn place_rows(f: u8, seen: &mut Vec<Waits>) -> Vec<Vec<String>> {
    let most = u32::from(f);
    let case = |first, dead| Case {
        f,
        first,
        dead,
        ends: false,
    };
    let row = |dead| {
        let n = case(1, dead).cards();
        let mut row = vec![n.to_string(), dead.to_string()];
        row.extend(cells([case(1, dead)], seen));
        row.extend(cells([case(most, dead)], seen));
        row.extend(cells((1..=n - dead).map(|first| case(first, dead)), seen));
        row
    };
    (0..=most).map(row).collect()
}

fn end_row(f: u8, seen: &mut Vec<Waits>) -> Vec<String> {
    let case = Case {
        f,
        first: f.into(),
        dead: 1,
        ends: true,
    };
    let mut row = vec![case.cards().to_string()];
    row.extend(cells([case], seen));
    row
}

/// Runs all cases. Every entry is committed by one and the same rule, or the program ends.
pub fn tables() -> Tables {
    let mut seen = Vec::new();
    let mut places = vec![head(
        "n, dead, from r + 1: before F-2, committed, from r + f: before F-2, committed, mean of all places: before F-2, committed",
    )];
    places.extend(FS.into_iter().flat_map(|f| place_rows(f, &mut seen)));
    let mut ends = vec![head("n, before F-2, committed")];
    ends.extend(FS.into_iter().map(|f| end_row(f, &mut seen)));
    let by_round = seen.iter().all(|waits| waits.committed == waits.by_round);
    let by_tip = seen.iter().all(|waits| waits.committed == waits.by_tip);
    assert!(by_round != by_tip, "every entry is committed by one rule");
    Tables {
        rule: if by_round { "R" } else { "the newest block" },
        places,
        ends,
    }
}
