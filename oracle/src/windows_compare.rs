//! Sessions by windows against one call on the bytes shown so far, over cut cases.

use crate::case::{Answer, Event, Listing, readable};
use crate::cut::{Cut, UNTOUCHED};
use crate::generate::{Generator, Kind};
use crate::judge::SwiftJudge;
use crate::reading::{self, Waits};
use crate::rng::Rng;
use crate::windows::{LONGEST, Shown};
use crate::wrong::Wrong;
use crate::wrong_windows::Bend;
use std::collections::BTreeMap;
use std::ops::Range;

/// What one call on the bytes shown so far says, and how much must be taken in all by then; behind
/// a refusal that is as much as before.
struct Wanted {
    listing: Listing,
    sum: Option<usize>,
}

/// The answers of one case, by the Rust (for bytes above 127 the second reading) and document 02.
pub struct Checker<'a> {
    cut: &'a Cut,
    wanted: Vec<Option<Wanted>>,
}

impl<'a> Checker<'a> {
    pub fn new(cut: &'a Cut, rust: Option<&SwiftJudge>) -> Result<Checker<'a>, String> {
        let wanted = if cut.tables.is_empty() { by_limit(cut, rust)? } else { by_tables(cut, rust)? };
        Ok(Checker { cut, wanted })
    }

    /// How the reading parts from what is wanted.
    pub fn difference(&self, bend: Bend) -> Option<String> {
        let mut found = None;
        let (mut sum, mut before) = (0, Shown { result: 1, ..Shown::default() });
        let ends: Vec<usize> = self.cut.ends().chain([self.cut.case.bytes.len(); 2]).collect();
        let windows = self.cut.lengths.len();
        self.cut.show(bend, |number, shown, table| {
            let room = if number == windows { 0 } else { ends[number].saturating_sub(sum) };
            sum += shown.taken as usize;
            let why = always(before, shown, room, sum).or_else(|| {
                let wanted = self.wanted.get(number.min(windows - 1))?.as_ref()?;
                parts(wanted, shown, sum, table)
            });
            before = shown;
            found = found.take().or(why.map(|why| format!("window {number}: {why}, answered {shown:?}")));
        });
        found
    }

    /// What the last window must be answered.
    fn last(&self) -> &Listing {
        let last = self.wanted.last().and_then(Option::as_ref);
        &last.expect("the last window is asked").listing
    }
}

fn refusal(events: &[Event], result: u32, place: u32) -> Wanted {
    let listing = Listing { events: events.to_vec(), result, place };
    Wanted { listing, sum: None }
}

/// All windows of a small session, some of a larger one. From the first window on that passes the
/// limit it is 2, with the events of the windows before, unless the session has ended there.
fn by_limit(cut: &Cut, rust: Option<&SwiftJudge>) -> Result<Vec<Option<Wanted>>, String> {
    let ends: Vec<usize> = cut.ends().collect();
    let stride = if cut.is_small() { 1 } else { 1 + ends.len() / 8 };
    let first_over = ends.iter().position(|&end| end > cut.limit);
    let mut beyond = None;
    if let Some(at) = first_over {
        let before = one_call(cut, at.checked_sub(1).map_or(0, |at| ends[at]), cut.slots(), rust)?.listing;
        beyond = (before.result == 1).then_some((at, before.events));
    }
    let mut all = Vec::new();
    for (number, &end) in ends.iter().enumerate() {
        let chosen = number % stride == 0 || number + 1 == ends.len() || first_over == Some(number);
        all.push(match &beyond {
            _ if !chosen => None,
            Some((at, events)) if number >= *at => Some(refusal(events, 2, 0)),
            _ => Some(one_call(cut, end, cut.slots(), rust)?),
        });
    }
    Ok(all)
}

/// An event is due in the window in which one call first lists it, and needs a slot of the table
/// lent with that window.
fn by_tables(cut: &Cut, rust: Option<&SwiftJudge>) -> Result<Vec<Option<Wanted>>, String> {
    let mut all = Vec::new();
    let mut full: Option<Listing> = None;
    let mut before = 0;
    for (end, slots) in cut.ends().zip(&cut.tables) {
        let wanted = one_call(cut, end, cut.case.bytes.len(), rust)?;
        let events = &wanted.listing.events;
        let room = before.max(*slots);
        if full.is_none() && events.len() > room {
            full = Some(refusal(&events[..room], 10, events[room][1]).listing);
        }
        before = events.len();
        all.push(Some(match &full {
            Some(listing) => refusal(&listing.events, 10, listing.place),
            None => wanted,
        }));
    }
    Ok(all)
}

/// One call on the session's first bytes, 11 and 12 laid over it; the judge must agree but for these, the Rust but for 6.
fn one_call(cut: &Cut, end: usize, slots: usize, rust: Option<&SwiftJudge>) -> Result<Wanted, String> {
    let (entry, bytes) = (cut.case.entry, &cut.case.bytes[..end]);
    let (listing, waits) = reading::as_by_windows(entry, bytes, slots, cut.strict);
    let judged = match rust {
        Some(judge) => judge.session(entry, bytes, slots, Vec::new()).0,
        None => Answer::Session(reading::session(entry, bytes, slots, Wrong::Nothing)),
    };
    let told = if rust.is_some() { listing.clone().as_rust() } else { listing.clone() };
    let agree = match &judged {
        Answer::Session(judged) if matches!(told.result, 11 | 12) => judged.events.starts_with(&told.events),
        Answer::Session(judged) => *judged == told,
        _ => false,
    };
    if !agree {
        return Err(format!("one call on {end} bytes: the judge says\n{judged}"));
    }
    let place = listing.place as usize;
    let sum = match (listing.result, waits) {
        (1, Waits::Sized) => Some(end),
        (1, Waits::Region) => {
            let lines = bytes[place..].iter().rposition(|&b| b == b'\n');
            Some(place + lines.map_or(0, |feed| feed + 1))
        }
        (0 | 1, _) => Some(place),
        _ => None,
    };
    Ok(Wanted { listing, sum })
}

/// What holds of every window whatever it shows.
fn always(before: Shown, shown: Shown, room: usize, sum: usize) -> Option<String> {
    let again = Shown { taken: 0, ..before };
    let why = match shown.result {
        _ if shown.taken as usize > room => "more is taken than shown",
        _ if before.result != 1 && shown != again => "the answer is not repeated",
        _ if shown.count < before.count => "events are lost",
        0 if before.result == 1 && sum != shown.place as usize => "done takes up to its place",
        1 if sum < shown.place as usize => "the place is behind what is taken",
        2.. if shown.taken > 0 => "a refusal takes",
        _ => return None,
    };
    Some(why.to_string())
}

fn parts(wanted: &Wanted, shown: Shown, sum: usize, table: &[u32]) -> Option<String> {
    let Listing { events, result, place } = &wanted.listing;
    if (*result, *place, events.len() as u32) != (shown.result, shown.place, shown.count) {
        return Some(format!("one call says {result} {place} {}", events.len()));
    }
    let (listed, rest) = table.split_at(events.len() * 4);
    if *listed != *events.as_flattened() {
        return Some("other events than one call's".to_string());
    }
    if rest.iter().any(|&number| number != UNTOUCHED) {
        return Some("the table is written behind its events".to_string());
    }
    let wanted = wanted.sum.filter(|wanted| *wanted != sum)?;
    Some(format!("{sum} bytes are taken, {wanted} should be"))
}

/// A session that ends with 11 or 12 has the same answer and table however it is cut.
fn cut_matters(cut: &Cut, seed: u64, number: u64) -> Option<String> {
    let last = |cut: &Cut| {
        let mut last = Shown::default();
        let table = cut.show(Bend::Nothing, |_, shown, _| last = Shown { taken: 0, ..shown });
        (last, table)
    };
    let cut = cut.filed();
    let another = cut.another(&mut Rng::new(!seed, number));
    (last(&cut) != last(&another)).then(|| format!("another answer if cut by {:?}", another.lengths))
}

pub fn describe(cut: &Cut) -> String {
    let strict = if cut.strict { ", strict" } else { "" };
    let limit = if cut.limit == LONGEST { String::new() } else { format!(", limit {}", cut.limit) };
    let tables = if cut.tables.is_empty() {
        String::new()
    } else {
        format!("\nslots of each: {:?}", cut.tables)
    };
    format!(
        "{} slots {}{strict}{limit} {}\nnew bytes of each window: {:?}{tables}",
        cut.case.entry as char,
        cut.slots(),
        readable(&cut.case.bytes),
        cut.lengths
    )
}

/// The Rust judges ASCII; sessions with any byte go by the second reading.
pub fn judge(kind: Kind) -> Option<SwiftJudge> {
    matches!(kind, Kind::Ascii | Kind::Short).then(|| SwiftJudge::new(true))
}

/// Runs the cases, prints counts by result and the first case that parts; gives whether none does.
pub fn run(generator: Generator, numbers: Range<u64>) -> bool {
    let rust = judge(generator.kind);
    let mut tally: BTreeMap<(char, bool, u32), u64> = BTreeMap::new();
    let (mut count, mut windows, mut differences, mut into_mail) = (0u64, 0, 0u64, 0u64);
    for number in numbers {
        let cut = Cut::made(&generator, number);
        count += 1;
        windows += cut.lengths.len();
        let why = match Checker::new(&cut, rust.as_ref()) {
            Err(why) => Some(why),
            Ok(checker) => {
                let last = checker.last();
                *tally.entry((cut.case.entry as char, cut.strict, last.result)).or_default() += 1;
                into_mail += u64::from(cut.strict && last.events.iter().any(|event| event[0] == 1));
                let alone = matches!(last.result, 11 | 12);
                let parts = checker.difference(Bend::Nothing);
                parts.or_else(|| if alone { cut_matters(&cut, generator.seed, number) } else { None })
            }
        };
        if let Some(why) = why {
            differences += 1;
            if differences == 1 {
                println!("case {number}: {why}\n{}", describe(&cut));
            }
        }
    }
    for ((entry, strict, result), count) in &tally {
        println!("  {entry}{} result {result}: {count}", if *strict { " strict" } else { "" });
    }
    let strict: u64 = tally.iter().filter(|((_, strict, _), _)| *strict).map(|(_, count)| count).sum();
    println!("{strict} strict ones, {into_mail} of them read into a mail");
    println!("{count} cases, {windows} windows, {differences} differences");
    differences == 0
}
