//! How sharp the cut cases are: each wrong reading of W2 and W6 against the right one and against one call.

use crate::cut::{Cut, around_limit};
use crate::generate::Generator;
use crate::judge::SwiftJudge;
use crate::windows::Shown;
use crate::windows_compare::{Checker, judge};
use crate::wrong_windows::{BENDS, Bend};

type Answers = (Vec<Shown>, Vec<u32>);

/// Every answer and the table.
fn answers(cut: &Cut, bend: Bend) -> Answers {
    let mut all = Vec::new();
    let table = cut.show(bend, |_, shown, _| all.push(shown));
    (all, table)
}

/// What `batch --windows` prints: no window behind the last one, nothing behind the events.
fn printed((mut all, mut table): Answers, windows: usize) -> Answers {
    all.truncate(windows);
    table.truncate(all.last().map_or(0, |shown| shown.count as usize * 4));
    (all, table)
}

/// How often a wrong reading was told: by any answer, by what a file of cut sessions shows of it,
/// by one call and the rules of taking.
#[derive(Clone, Copy, Default)]
struct Told {
    first: Option<u64>,
    all: u64,
    in_file: u64,
    one_call: u64,
}

/// One case and the right reading's answers.
struct Straight<'a> {
    cut: &'a Cut,
    checker: Option<Checker<'a>>,
    filed: Cut,
    answers: Answers,
    in_file: Answers,
}

impl<'a> Straight<'a> {
    fn new(cut: &'a Cut, rust: Option<&SwiftJudge>) -> Straight<'a> {
        let filed = cut.filed();
        Straight {
            cut,
            checker: Checker::new(cut, rust).ok(),
            answers: answers(cut, Bend::Nothing),
            in_file: printed(answers(&filed, Bend::Nothing), filed.lengths.len()),
            filed,
        }
    }

    fn parts(&self, bend: Bend) -> bool {
        self.checker.as_ref().is_none_or(|checker| checker.difference(bend).is_some())
    }

    fn tell(&self, bend: Bend, number: u64, told: &mut Told) {
        let bent = answers(self.cut, bend);
        let differs = bent != self.answers;
        if differs {
            told.first.get_or_insert(number);
            told.all += 1;
            told.one_call += u64::from(self.parts(bend));
        }
        if differs || !self.cut.is_plain() {
            let bent = if self.cut.is_plain() { bent } else { answers(&self.filed, bend) };
            told.in_file += u64::from(printed(bent, self.filed.lengths.len()) != self.in_file);
        }
    }
}

/// Prints the table; tells whether every wrong reading was told and the right one never.
pub fn run(generator: Generator, count: u64) -> bool {
    println!("# Sharpness: wrong readings of document 02's W2 and W6 told by cut cases\n");
    println!(
        "Printed by `oracle sharp --windows --seed {} --count {count}`. Case numbers count from 0. Told in a",
        generator.seed
    );
    println!("file: by what `batch --windows` prints of it, where the limit is the real one, the table is the same");
    println!("for every window, and no window is shown behind the last. By one call: by `oracle windows`.\n");
    let rust = judge(generator.kind);
    let mut told = vec![Told::default(); BENDS.len()];
    let mut right = 0;
    for number in 0..count {
        let cut = Cut::made(&generator, number);
        let straight = Straight::new(&cut, rust.as_ref());
        right += u64::from(straight.parts(Bend::Nothing));
        for (told, (bend, entries, _)) in told.iter_mut().zip(BENDS) {
            if entries.contains(cut.case.entry as char) {
                straight.tell(*bend, number, told);
            }
        }
    }
    print_table(&told);
    print_files(&told);
    let missed = told.iter().filter(|told| told.one_call == 0).count();
    println!(
        "\n{} wrong readings, {missed} not told; the right reading differs in {right} of {count} cases.",
        BENDS.len()
    );
    missed == 0 && right == 0
}

/// Which of those that no made file tells the sessions around the limit tell.
fn print_files(told: &[Told]) {
    let cuts = around_limit();
    let all =
        |bend| -> Vec<Answers> { cuts.iter().map(|cut| printed(answers(cut, bend), cut.lengths.len())).collect() };
    let straight = all(Bend::Nothing);
    let untold = told.iter().zip(BENDS).filter(|(told, _)| told.in_file == 0).map(|(_, (bend, ..))| *bend);
    let (limit, none): (Vec<Bend>, Vec<Bend>) = untold.partition(|bend| all(*bend) != straight);
    println!("\nThe file of `generate --cuts --limit` tells, of those no other file tells: {}.", names(&limit));
    println!("No file tells: {}.", names(&none));
}

fn names(bends: &[Bend]) -> String {
    let names: Vec<String> = bends.iter().map(|bend| format!("{bend:?}")).collect();
    if names.is_empty() { "none".to_string() } else { names.join(", ") }
}

fn print_table(told: &[Told]) {
    println!(
        "| No. | wrong reading | what it takes for right | entries | first case | cases that tell it | in a file | by one call |"
    );
    println!("|---|---|---|---|---|---|---|---|");
    for (at, (told, (bend, entries, text))) in told.iter().zip(BENDS).enumerate() {
        let first = told.first.map_or("NOT TOLD".to_string(), |number| number.to_string());
        let Told { all, in_file, one_call, .. } = told;
        println!("| {} | {bend:?} | {text} | {entries} | {first} | {all} | {in_file} | {one_call} |", at + 1);
    }
}
