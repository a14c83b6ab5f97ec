//! Files of cases: generated ones, a small choice that meets much, and cases with their answers.

use crate::case::{Answer, Bytes, Case, readable, write_answer, write_case};
use crate::choose;
use crate::compare::Both;
use crate::cut::{self, Cut};
use crate::generate::Generator;
use crate::judge::{NO_TEXT, OFF_BOUNDARY, SwiftJudge};
use crate::list::{cases, read_file};
use crate::reading;
use crate::sharp;
use crate::wrong::{WRONGS, Wrong};
use std::collections::{BTreeMap, HashSet};
use std::fs::File;
use std::io::{BufWriter, Error, Write};
use std::ops::Range;

fn save(path: &str, bytes: &[u8]) -> Result<bool, String> {
    std::fs::write(path, bytes).map_err(|why| format!("{path}: {why}"))?;
    Ok(true)
}

pub fn generate(generator: Generator, numbers: Range<u64>, path: &str) -> Result<bool, String> {
    write_records(numbers, path, |record, number| write_case(record, &generator.case(number)))
}

pub fn generate_cuts(generator: Generator, numbers: Range<u64>, path: &str) -> Result<bool, String> {
    write_records(numbers, path, |record, number| cut::write(record, &Cut::made(&generator, number)))
}

/// Sessions around the limit, some 100 MB.
pub fn generate_long(path: &str) -> Result<bool, String> {
    let mut out = Vec::new();
    cut::around_limit().iter().for_each(|cut| cut::write(&mut out, cut));
    save(path, &out)
}

fn write_records(numbers: Range<u64>, path: &str, write: impl Fn(&mut Vec<u8>, u64)) -> Result<bool, String> {
    let failed = |why: Error| format!("{path}: {why}");
    let mut out = BufWriter::new(File::create(path).map_err(failed)?);
    for number in numbers {
        let mut record = Vec::new();
        write(&mut record, number);
        out.write_all(&record).map_err(failed)?;
    }
    out.flush().map_err(failed)?;
    Ok(true)
}

/// The cases that the Rust answers; says how many it does not, and why. Fails on a reason that docs/DIFFERENCES.md does not know.
pub fn judged(from: &str, path: &str) -> Result<bool, String> {
    let judge = SwiftJudge::new(true);
    let mut out = Vec::new();
    let mut count = 0;
    let mut others: BTreeMap<String, u64> = BTreeMap::new();
    for case in cases(from)? {
        match judge.answer(&case) {
            Answer::Unjudged(why) => *others.entry(why).or_default() += 1,
            _ => {
                count += 1;
                write_case(&mut out, &case);
            }
        }
    }
    let told: Vec<String> = others.iter().map(|(why, count)| format!(", {count} unjudged ({why})")).collect();
    println!("{count} by the Rust{}", told.concat());
    Ok(save(path, &out)? && others.keys().all(|why| [NO_TEXT, OFF_BOUNDARY].contains(&why.as_str())))
}

pub fn answers(from: &str, path: &str) -> Result<bool, String> {
    let judge = SwiftJudge::new(true);
    let mut out = Vec::new();
    for (number, case) in cases(from)?.iter().enumerate() {
        let (rust, answer) = (judge.answer(case), reading::answer(case, Wrong::Nothing));
        if rust != Answer::Unjudged(NO_TEXT.to_string()) && rust != answer.clone().as_rust() {
            return Err(format!("{from}: case {number}: the Rust and the second reading part, the Rust says\n{rust}"));
        }
        write_case(&mut out, case);
        write_answer(&mut out, &answer);
    }
    save(path, &out)
}

fn answered(path: &str) -> Result<Vec<(Case, Answer)>, String> {
    let bytes = read_file(path)?;
    let mut from = Bytes(&bytes);
    let mut all = Vec::new();
    while !from.0.is_empty() {
        let record = from.case().and_then(|case| from.answer(case.entry).map(|answer| (case, answer)));
        all.push(record.ok_or(format!("{path}: record {} is broken", all.len()))?);
    }
    Ok(all)
}

pub fn show(path: &str) -> Result<bool, String> {
    for (number, (case, answer)) in answered(path)?.iter().enumerate() {
        println!("case {number}: {} slots {} {}", case.entry as char, case.slots(), readable(&case.bytes));
        print!("{answer}");
    }
    Ok(true)
}

pub fn check(path: &str) -> Result<bool, String> {
    let both = Both::new();
    let all = answered(path)?;
    let mut wrong = 0;
    for (number, (case, answer)) in all.iter().enumerate() {
        if reading::answer(case, Wrong::Nothing) != *answer || both.difference(case).is_some() {
            println!("case {number} differs: {} {}", case.entry as char, readable(&case.bytes));
            wrong += 1;
        }
    }
    let told: HashSet<usize> = all.iter().flat_map(|(case, answer)| sharp::told(case, answer)).collect();
    println!("{} cases, {wrong} differ; {} of {} wrong readings told", all.len(), told.len(), WRONGS.len());
    Ok(wrong == 0)
}

pub fn choose(generator: Generator, count: u64, path: &str) -> Result<bool, String> {
    let cases = choose::choose(generator, count);
    println!("{} cases chosen of {count}", cases.len());
    let mut out = Vec::new();
    cases.iter().for_each(|case| write_case(&mut out, case));
    save(path, &out)
}
