//! How sharp the cases are: each wrong reading against the right one, which the Rust confirms.

use crate::case::{Answer, Case};
use crate::generate::{Generator, Kind};
use crate::judge::SwiftJudge;
use crate::reading;
use crate::wrong::{FIRST_WIDE, WRONGS, Wrong};
use std::ops::Range;

/// The wrong readings that give another answer to this case.
pub fn told<'a>(case: &'a Case, answer: &'a Answer) -> impl Iterator<Item = usize> + 'a {
    let entry = case.entry as char;
    let tells = move |at: &usize| {
        let (wrong, entries, _) = WRONGS[*at];
        entries.contains(entry) && reading::answer(case, wrong) != *answer
    };
    (0..WRONGS.len()).filter(tells)
}

/// Prints the table; tells whether every wrong reading was told and the right one never.
pub fn run(generator: Generator, count: u64) -> bool {
    let wide = generator.kind == Kind::WideImap;
    let asked = if wide { FIRST_WIDE..WRONGS.len() } else { 0..FIRST_WIDE };
    let of = if wide { "document 02's W8" } else { "document 01 and of document 02's W1" };
    let flag = if wide { " --imap" } else { "" };
    println!("# Sharpness: wrong readings of {of} told by generated cases\n");
    println!("Printed by `oracle sharp{flag} --seed {} --count {count}`. Case numbers count from 0.\n", generator.seed);
    let judge = SwiftJudge::new(true);
    let mut firsts: Vec<Option<u64>> = vec![None; WRONGS.len()];
    let mut counts = vec![0u64; WRONGS.len()];
    let mut right = 0;
    for number in 0..count {
        let case = generator.case(number);
        let answer = reading::answer(&case, Wrong::Nothing);
        let rust = judge.answer(&case);
        let unjudged = wide && matches!(rust, Answer::Unjudged(_));
        right += u64::from(!unjudged && rust != answer.clone().as_rust());
        for at in told(&case, &answer) {
            firsts[at].get_or_insert(number);
            counts[at] += 1;
        }
    }
    print_table(asked.clone(), &firsts, &counts);
    let missed = firsts[asked.clone()].iter().filter(|first| first.is_none()).count();
    println!(
        "\n{} wrong readings, {missed} not told; the right reading differs in {right} of {count} cases.",
        asked.len()
    );
    missed == 0 && right == 0
}

fn print_table(asked: Range<usize>, firsts: &[Option<u64>], counts: &[u64]) {
    println!("| No. | wrong reading | what it takes for right | entries | first case | cases that tell it |");
    println!("|---|---|---|---|---|---|");
    for at in asked {
        let (wrong, entries, text) = WRONGS[at];
        let first = firsts[at].map_or("NOT TOLD".to_string(), |number| number.to_string());
        println!("| {} | {wrong:?} | {text} | {entries} | {first} | {} |", at + 1, counts[at]);
    }
}
