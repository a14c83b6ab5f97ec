//! Both forms of the oracle against the second reading, over generated cases. An encoding 6 compares as the Rust's none.

use crate::case::{Answer, Case, Sides, readable};
use crate::judge::{NO_TEXT, PlainJudge, SwiftJudge};
use crate::reading;
use crate::wrong::Wrong;
use std::collections::BTreeMap;

pub struct Both {
    pub swift: SwiftJudge,
    plain: PlainJudge,
}

impl Both {
    pub fn new() -> Both {
        Both { swift: SwiftJudge::new(true), plain: PlainJudge::new(true) }
    }

    /// How the two forms and the reading part; `None` where they agree or the Rust cannot be asked.
    pub fn difference(&self, case: &Case) -> Option<String> {
        let rust = self.swift.answer(case);
        let plain = self.plain.answer(case);
        if rust != plain {
            return Some("the two forms of the stream part".to_string());
        }
        match &rust {
            _ if rust == reading::answer(case, Wrong::Nothing).as_rust() => None,
            Answer::Unjudged(why) if why == NO_TEXT => None,
            Answer::Unjudged(why) => Some(why.clone()),
            _ => Some("another answer".to_string()),
        }
    }
}

/// How many cases gave which result, by entry.
#[derive(Default)]
pub struct Tally(BTreeMap<(char, String), u64>);

impl Tally {
    fn add(&mut self, case: &Case, answer: &Answer) {
        let what = match answer {
            Answer::Session(listing) => format!("result {}", listing.result),
            Answer::Direction(side) => format!("answer {side}"),
            Answer::Unjudged(why) => why.clone(),
        };
        *self.0.entry((case.entry as char, what)).or_default() += 1;
    }

    fn print(&self) {
        for ((entry, what), count) in &self.0 {
            println!("  {entry} {what}: {count}");
        }
    }
}

/// Takes pieces out of the case as long as it still differs for the same reason.
fn shrink(both: &Both, case: &Case, why: &str) -> Case {
    let mut best = case.clone();
    let mut size = best.bytes.len() / 2;
    let first = if case.entry == b'D' { 13 } else { 0 };
    while size > 0 {
        let mut at = first;
        while at + size <= best.bytes.len() {
            let mut trial = best.clone();
            trial.bytes.drain(at..at + size);
            let sound = trial.entry != b'D' || Sides::parse(&trial.bytes).is_some();
            if sound && both.difference(&trial).as_deref() == Some(why) {
                best = trial;
            } else {
                at += 1;
            }
        }
        size /= 2;
    }
    best
}

/// Runs the cases, prints where they part, with a small case each; gives whether none does.
pub fn run(cases: impl Iterator<Item = Case>) -> bool {
    let both = Both::new();
    let mut tally = Tally::default();
    let mut kinds: BTreeMap<(char, String), (u64, Case)> = BTreeMap::new();
    let (mut count, mut differences) = (0, 0);
    for case in cases {
        count += 1;
        tally.add(&case, &both.swift.answer(&case));
        if let Some(why) = both.difference(&case) {
            differences += 1;
            let key = (case.entry as char, why);
            let kept = kinds.entry(key).or_insert_with(|| (0, case.clone()));
            kept.0 += 1;
            if case.bytes.len() < kept.1.bytes.len() {
                kept.1 = case;
            }
        }
    }
    tally.print();
    for ((entry, why), (count, case)) in &kinds {
        let small = shrink(&both, case, why);
        println!("{entry} {why}: {count}, for example {}", readable(&small.bytes));
    }
    println!("{count} cases, {differences} differences");
    differences == 0
}
