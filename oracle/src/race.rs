//! The proved library beside the Rust, on the same bytes in one process: the same listing, in one call and by windows, and their speeds.

use crate::case::{Answer, Event};
use crate::judge::SwiftJudge;
use crate::race_inputs::{Input, Windows, inputs};
use crate::race_library::{INCOMPLETE, LONG_BOUNDARY, Library};
use crate::reading;
use crate::wrong::Wrong;
use std::mem::take;
use std::time::{Duration, Instant};

/// A library, and whether its sessions by windows are strict.
#[derive(Clone, Copy)]
struct Way<'a> {
    library: &'a Library,
    strict: bool,
}

/// The last answer by windows over one buffer, each with so many bytes more. Where they grow and nothing was taken, the next one is twice as long.
fn windows(way: Way, input: &Input, size: usize, grow: bool, table: &mut [u32]) -> [u64; 3] {
    let bytes = &input.bytes[..];
    let mut session = way.library.begin(input.entry, way.strict);
    let (mut from, mut to, mut due) = (0, 0, 0);
    loop {
        to = bytes.len().min(due.max(to + size));
        let [result, place, count, taken] = way.library.show(&mut session, &bytes[from..to], table);
        if result != INCOMPLETE || to == bytes.len() {
            return [result, place, count];
        }
        from += taken as usize;
        due = if grow && taken == 0 { to + (to - from) } else { 0 };
    }
}

/// The fastest of five runs: of as many as fit into a second where more do, of fewer where five would take over ten.
fn best(mut run: impl FnMut()) -> Duration {
    let begun = Instant::now();
    let mut best = Duration::MAX;
    let mut runs = 0;
    while begun.elapsed() < Duration::from_secs(if runs < 5 { 10 } else { 1 }) {
        let start = Instant::now();
        run();
        best = best.min(start.elapsed());
        runs += 1;
    }
    best
}

/// A listing, and the time it takes.
struct Timed {
    answer: [u64; 3],
    events: Vec<u32>,
    time: Duration,
}

impl Timed {
    /// What is listed into a table.
    fn table(table: &mut [u32], mut list: impl FnMut(&mut [u32]) -> [u64; 3]) -> Timed {
        table.fill(0);
        let mut answer = [0; 3];
        let time = best(|| answer = list(table));
        Timed {
            answer,
            events: table[..4 * answer[2] as usize].to_vec(),
            time,
        }
    }

    /// By the second reading, which is not timed.
    fn read(input: &Input) -> Timed {
        let told = reading::session(input.entry, &input.bytes, input.bytes.len(), Wrong::Nothing);
        let answer = [told.result as u64, told.place as u64, told.events.len() as u64];
        Timed { answer, events: told.events.concat(), time: Duration::ZERO }
    }

    fn rust(judge: &SwiftJudge, input: &Input) -> Timed {
        let mut kept: Vec<Event> = Vec::new();
        let mut answer = [0; 3];
        let time = best(|| {
            let mut events = take(&mut kept);
            events.clear();
            if let (Answer::Session(told), _) = judge.session(input.entry, &input.bytes, input.bytes.len(), events) {
                answer = [told.result as u64, told.place as u64, told.events.len() as u64];
                kept = told.events;
            }
        });
        Timed { answer, events: kept.concat(), time }
    }

    fn lists_as(&self, other: &Timed) -> bool {
        self.answer == other.answer && self.events == other.events
    }

    fn speed(&self, input: &Input) -> f64 {
        input.bytes.len() as f64 / self.time.as_secs_f64() / 1e6
    }

    /// How often this time goes into the other's.
    fn ratio(&self, other: &Timed) -> f64 {
        other.time.as_secs_f64() / self.time.as_secs_f64()
    }
}

/// An input, listed in one call as by the Rust, or where that cannot be asked as by the second reading, and the table that it is listed into.
struct Raced<'a> {
    library: &'a Library,
    input: &'a Input,
    table: Vec<u32>,
    call: Timed,
    rust: Timed,
}

impl<'a> Raced<'a> {
    fn new(library: &'a Library, judge: &SwiftJudge, input: &'a Input) -> Result<Raced<'a>, String> {
        let mut table = vec![0; 4 * input.bytes.len()];
        let rust = if input.text { Timed::rust(judge, input) } else { Timed::read(input) };
        let call = Timed::table(&mut table, |table| library.dissect(input.entry, &input.bytes, table));
        if !call.lists_as(&rust) {
            return Err(format!("{}: the listings differ", input.name));
        }
        Ok(Raced { library, input, table, call, rust })
    }

    /// By windows, with the same listing; nothing where it is refused.
    fn windows(&mut self, size: usize, grow: bool) -> Result<Option<Timed>, String> {
        let (way, input) = (Way { library: self.library, strict: false }, self.input);
        let timed = Timed::table(&mut self.table, |table| windows(way, input, size, grow, table));
        match input.windows {
            Windows::Refused if timed.answer[0] == LONG_BOUNDARY => Ok(None),
            Windows::Same | Windows::Growing if timed.lists_as(&self.call) => Ok(Some(timed)),
            _ => Err(format!("{}: by windows of {size} bytes the listing is another", input.name)),
        }
    }

    /// Speed by windows, and the cost beside one call.
    fn cells(&mut self, size: usize, grow: bool) -> Result<String, String> {
        Ok(match self.windows(size, grow)? {
            Some(timed) => format!("{:.0} | {:.2}", timed.speed(self.input), self.call.ratio(&timed)),
            None => format!("refused, {LONG_BOUNDARY} | -"),
        })
    }

    fn print(&mut self) -> Result<(), String> {
        let input = self.input;
        let ours = format!("{} | {} | {:.0}", input.bytes.len(), self.call.answer[2], self.call.speed(input));
        let theirs = match input.text {
            true => format!("{:.0} | {:.2}", self.rust.speed(input), self.call.ratio(&self.rust)),
            false => "not asked | -".to_string(),
        };
        let mut row = |name: &str, grow: bool| -> Result<(), String> {
            let (large, small) = (self.cells(LARGE, grow)?, self.cells(SMALL, grow)?);
            println!("| {name} | {ours} | {large} | {small} | {theirs} |");
            Ok(())
        };
        row(input.name, false)?;
        if input.windows == Windows::Growing {
            row(&format!("{}, windows grow", input.name), true)
        } else {
            Ok(())
        }
    }
}

const MB: usize = 1 << 20;
const LARGE: usize = 1 << 16;
const SMALL: usize = 1460;

fn milliseconds(timed: &Timed) -> String {
    format!(" {:.2} |", timed.time.as_secs_f64() * 1e3)
}

/// Time against size: a row for each input in one call, and another by windows, which grow where they have to.
fn sizes(library: &Library, judge: &SwiftJudge, word: &str) -> Result<[String; 2], String> {
    let named = |n: &usize| inputs(n * MB).into_iter().filter(|input| input.name.contains(word)).collect();
    let sizes: Vec<Vec<Input>> = [1, 2, 4, 8, 16].iter().map(named).collect();
    let mut rows = [String::new(), String::new()];
    for kind in 0..sizes[0].len() {
        rows.iter_mut().for_each(|row| *row += &format!("| {} |", sizes[0][kind].name));
        for inputs in &sizes {
            let input = &inputs[kind];
            let mut raced = Raced::new(library, judge, input)?;
            rows[0] += &milliseconds(&raced.call);
            let timed = raced.windows(SMALL, input.windows == Windows::Growing)?;
            rows[1] += &timed.map_or(format!(" refused, {LONG_BOUNDARY} |"), |timed| milliseconds(&timed));
        }
        rows.iter_mut().for_each(|row| row.push('\n'));
    }
    Ok(rows)
}

/// All inputs, or those whose name holds a word.
pub fn run(path: &str, word: &str) -> Result<bool, String> {
    let library = Library::open(path)?;
    let judge = SwiftJudge::for_ascii();
    println!(
        "| input | bytes | events | one call, MB/s | windows of 64 KiB, MB/s | cost | windows of 1,460, MB/s | cost | the Rust, MB/s | ratio |"
    );
    println!("|---|---|---|---|---|---|---|---|---|---|");
    for input in inputs(16 * MB).iter().filter(|input| input.name.contains(word)) {
        Raced::new(&library, &judge, input)?.print()?;
    }
    for (how, rows) in ["one call", "windows of 1,460"].iter().zip(sizes(&library, &judge, word)?) {
        println!(
            "\n| {how}, ms for | 1 MB | 2 MB | 4 MB | 8 MB | 16 MB |\n|---|---|---|---|---|---|\n{}",
            rows.trim_end()
        );
    }
    Ok(true)
}

/// The first input by windows of 64 KiB in two ways by turns, over ten seconds: the fastest and the middle run of each, and the second beside the first.
fn by_turns(names: [&str; 2], ways: [Way; 2]) -> Result<bool, String> {
    let all = inputs(16 * MB);
    let input = &all[0];
    let mut table = vec![0; 4 * input.bytes.len()];
    let listings = ways.map(|way| {
        table.fill(0);
        let answer = windows(way, input, LARGE, false, &mut table);
        (answer, table[..4 * answer[2] as usize].to_vec())
    });
    if listings[0] != listings[1] {
        return Err(format!("{}: {} and {}, the listings differ", input.name, names[0], names[1]));
    }
    let mut times = [Vec::new(), Vec::new()];
    let begun = Instant::now();
    while begun.elapsed() < Duration::from_secs(10) {
        for (way, times) in ways.iter().zip(&mut times) {
            let start = Instant::now();
            windows(*way, input, LARGE, false, &mut table);
            times.push(start.elapsed().as_secs_f64() * 1e3);
        }
    }
    for times in &mut times {
        times.sort_by(f64::total_cmp);
    }
    let runs = times[0].len();
    let [first, second] = names;
    println!(
        "| {}, {} bytes, windows of 64 KiB, ms | {first} | {second} | ratio |",
        input.name,
        input.bytes.len()
    );
    println!("|---|---|---|---|");
    for (which, at) in [("best", 0), ("middle", runs / 2)] {
        let [first, second] = times.each_ref().map(|times| times[at]);
        println!("| {which} of {runs} | {first:.3} | {second:.3} | {:.3} |", second / first);
    }
    Ok(true)
}

/// The strict setting off and on.
pub fn run_strict(path: &str) -> Result<bool, String> {
    let library = &Library::open(path)?;
    by_turns(["off", "strict"], [false, true].map(|strict| Way { library, strict }))
}

/// An older library and this one, the setting off.
pub fn run_beside(old: &str, path: &str) -> Result<bool, String> {
    let libraries = [Library::open(old)?, Library::open(path)?];
    by_turns(["before", "now"], libraries.each_ref().map(|library| Way { library, strict: false }))
}
