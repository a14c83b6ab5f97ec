//! A small choice of generated cases that meets every feature several times, small cases first.

use crate::case::{Answer, Case, Event, Listing};
use crate::generate::Generator;
use crate::judge::SwiftJudge;
use crate::reading;
use crate::selftest;
use crate::sharp;
use crate::wrong::Wrong;
use std::collections::HashMap;

/// How many chosen cases tell each wrong reading, and how many show each other feature.
const TELLING: u32 = 8;
const SHOWING: u32 = 1;

/// Something a case shows: the number of the list it is from, and details.
type Feature = [u32; 5];

const TOLD: u32 = 0;

fn features(judge: &SwiftJudge, case: &Case) -> Vec<Feature> {
    let answer = reading::answer(case, Wrong::Nothing);
    let phase = match case.entry {
        b'D' => [0; 4],
        entry => judge.session(entry, &case.bytes, case.slots(), Vec::new()).1,
    };
    let mut all: Vec<Feature> = sharp::told(case, &answer).map(|at| [TOLD, at as u32, 0, 0, 0]).collect();
    match &answer {
        Answer::Session(listing) => session_features(&mut all, case, listing, phase),
        Answer::Direction(side) => {
            let (protocol, marks) = (u32::from(case.bytes[0]), u32::from(case.bytes[8]));
            all.push([1, protocol, *side, marks, 0]);
            all.push([2, protocol, *side, case.bytes.len().min(30) as u32, 0]);
        }
        Answer::Unjudged(_) => {}
    }
    all
}

fn session_features(all: &mut Vec<Feature>, case: &Case, listing: &Listing, phase: [u32; 4]) {
    let entry = u32::from(case.entry);
    let [read, before, in_body, level] = phase;
    let some_levels = if (3..8).contains(&level) { 3 } else { level };
    let last = listing.events.last().map_or(0, |event| event[0]);
    let behind = case.bytes.len() as u32 - listing.place;
    let kinds = |two: &[Event]| [7, entry, two[0][0], two[1][0], u32::from(two[0][1] == two[1][1])];
    all.push([3, entry * 16 + listing.result, read * 4 + before, in_body, some_levels]);
    all.push([4, entry, listing.result, last, behind.min(3)]);
    all.push([5, entry, listing.result, listing.events.len().min(12) as u32, 0]);
    all.extend(listing.events.iter().map(|event| [6, entry, event[0], event[3], event[2].min(3)]));
    all.extend(listing.events.windows(2).map(kinds));
    all.push([8, entry, listing.result, (case.bytes.len() + 1).ilog2().min(9), 0]);
    all.push([9, entry, case.bytes.len().clamp(3_071, 3_073) as u32, 0, 0]);
}

/// Document 01's own sessions first, then the chosen ones.
pub fn choose(generator: Generator, count: u64) -> Vec<Case> {
    let judge = SwiftJudge::new(true);
    let mut candidates: Vec<(usize, u64, Vec<Feature>)> = (0..count)
        .map(|number| {
            let case = generator.case(number);
            (case.bytes.len(), number, features(&judge, &case))
        })
        .collect();
    candidates.sort();
    let mut met: HashMap<Feature, u32> = HashMap::new();
    let mut chosen = selftest::documented_cases();
    for (_, number, features) in candidates {
        let wanted = |feature: &Feature| if feature[0] == TOLD { TELLING } else { SHOWING };
        let new = features.iter().any(|feature| met.get(feature).copied().unwrap_or(0) < wanted(feature));
        let case = generator.case(number);
        if new && !chosen.contains(&case) {
            features.into_iter().for_each(|feature| *met.entry(feature).or_default() += 1);
            chosen.push(case);
        }
    }
    chosen
}
