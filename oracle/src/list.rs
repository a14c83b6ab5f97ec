//! Listings on standard output: one session, a batch file, and the time of one session.

use crate::Words;
use crate::case::{Answer, Bytes, Case, ENOUGH};
use crate::cut::{self, Cut};
use crate::judge::{Judge, PlainJudge, SwiftJudge};
use crate::packet::Packet;
use crate::reading;
use crate::windows::Shown;
use crate::wrong::Wrong;
use crate::wrong_windows::Bend;
use std::io::{BufWriter, Error, Read, Write};
use std::time::{Duration, Instant};

const ENTRIES: &[u8] = b"SsPI";
const LONGEST_LISTED: usize = 3_072;

pub fn read_file(path: &str) -> Result<Vec<u8>, String> {
    std::fs::read(path).map_err(|why| format!("{path}: {why}"))
}

pub fn list(words: &Words) -> Result<bool, String> {
    let mut input = Vec::new();
    std::io::stdin().read_to_end(&mut input).map_err(|why| why.to_string())?;
    let Some((&entry, bytes)) = input.split_first().filter(|(first, _)| ENTRIES.contains(first)) else {
        println!("bad");
        return Ok(true);
    };
    if bytes.len() > LONGEST_LISTED && !words.has("--any-length") {
        println!("long");
        return Ok(true);
    }
    let slots = words.number("--slots").map_or(ENOUGH, |slots| slots as u32);
    let case = Case { entry, slots, bytes: bytes.to_vec() };
    let overlays = !words.has("--no-overlays");
    let answer = if words.has("--second") {
        reading::answer(&case, Wrong::Nothing)
    } else if words.has("--plain") {
        PlainJudge::new(overlays).answer(&case)
    } else {
        SwiftJudge::new(overlays).answer(&case)
    };
    print!("{answer}");
    Ok(!matches!(answer, Answer::Unjudged(_)))
}

/// Every case of a batch file.
pub fn cases(path: &str) -> Result<Vec<Case>, String> {
    let bytes = read_file(path)?;
    let mut from = Bytes(&bytes);
    let mut cases = Vec::new();
    while !from.0.is_empty() {
        cases.push(from.case().ok_or(format!("{path}: record {} is broken", cases.len()))?);
    }
    Ok(cases)
}

/// By the Rust, or by the second reading, which answers on any bytes.
pub fn batch(path: &str, second: bool) -> Result<bool, String> {
    let judge = SwiftJudge::new(true);
    let mut out = BufWriter::new(std::io::stdout().lock());
    let mut judged = true;
    for case in cases(path)? {
        let answer = if second { reading::answer(&case, Wrong::Nothing) } else { judge.answer(&case) };
        judged &= !matches!(answer, Answer::Unjudged(_));
        write!(out, "{answer}").map_err(|why| why.to_string())?;
    }
    Ok(judged)
}

/// Every record of a file of cut sessions: each window's answer, then the table and the last answer.
pub fn batch_windows(path: &str) -> Result<bool, String> {
    let bytes = read_file(path)?;
    let mut from = Bytes(&bytes);
    let mut out = BufWriter::new(std::io::stdout().lock());
    let mut number = 0;
    while !from.0.is_empty() {
        let cut = cut::read(&mut from).ok_or(format!("{path}: record {number} is broken"))?;
        number += 1;
        write_windows(&mut out, &cut).map_err(|why| why.to_string())?;
    }
    Ok(true)
}

pub fn write_windows(out: &mut impl Write, cut: &Cut) -> Result<(), Error> {
    let mut answers = Vec::new();
    let table = cut.show(Bend::Nothing, |_, shown, _| answers.push(shown));
    answers.truncate(cut.lengths.len());
    for Shown { result, place, count, taken } in &answers {
        writeln!(out, "{taken} {result} {place} {count}")?;
    }
    let last = answers.last().copied().unwrap_or(Shown { result: 1, ..Shown::default() });
    for event in table.chunks(4).take(last.count as usize) {
        writeln!(out, "{} {} {} {}", event[0], event[1], event[2], event[3])?;
    }
    writeln!(out, "{} {} {}", last.result, last.place, last.count)
}

pub fn bench(entry: &str, path: &str, plain: bool) -> Result<bool, String> {
    let &[entry] = entry.as_bytes() else {
        return Err("the entry is one of S s P I".to_string());
    };
    let bytes = read_file(path)?;
    let (best, answer) = if plain {
        best_of(&PlainJudge::new(true), entry, &bytes)
    } else {
        best_of(&SwiftJudge::new(true), entry, &bytes)
    };
    let Answer::Session(listing) = answer else {
        return Err("the session cannot be judged".to_string());
    };
    let seconds = best.as_secs_f64();
    let speed = bytes.len() as f64 / seconds / 1e6;
    println!("{} bytes, {seconds:.6} s, {speed:.1} MB/s, {} events", bytes.len(), listing.events.len());
    println!("result {} at {}", listing.result, listing.place);
    Ok(true)
}

/// The fastest of at least five runs, as many as fit into two seconds. Like a lent table, the list
/// of events is kept from run to run.
fn best_of<T: Packet + 'static>(judge: &Judge<T>, entry: u8, bytes: &[u8]) -> (Duration, Answer) {
    let begun = Instant::now();
    let mut best = Duration::MAX;
    let mut runs = 0;
    let mut events = Vec::new();
    loop {
        let start = Instant::now();
        let (answer, _) = judge.session(entry, bytes, bytes.len(), events);
        best = best.min(start.elapsed());
        runs += 1;
        if runs >= 5 && begun.elapsed() > Duration::from_secs(2) {
            return (best, answer);
        }
        events = match answer {
            Answer::Session(listing) => listing.events,
            _ => Vec::new(),
        };
        events.clear();
    }
}
