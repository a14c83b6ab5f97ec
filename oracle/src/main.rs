//! The judge of mail sessions: the Rust of four parser files over a stream written to document 01.

mod case;
mod choose;
mod compare;
mod cut;
mod differences;
mod direction;
mod dnsudp;
mod fields;
mod generate;
mod grammar;
mod imapprotolens;
mod judge;
mod lens;
mod list;
mod packet;
mod parser;
mod race;
mod race_inputs;
mod race_library;
mod reading;
mod rng;
mod selftest;
mod sharp;
mod sharp_windows;
mod special;
mod stored;
mod stream;
mod strict_selftest;
mod trace;
mod utf8;
mod wide;
mod windows;
mod windows_compare;
mod windows_forgets;
mod windows_mail;
mod windows_selftest;
mod windows_strict;
mod wrong;
mod wrong_windows;

// The parser files look for these names at the root.
use dnsudp::{DnsHeader, OptRR, Qtype, RR};
use lens::{DirConfirmFn, IMAP_PORT, POP3_PORT, Parser, ParserFactory, ParserFuture, Prolens, SMTP_PORT};
use packet::{Direction, Packet};
use parser::common::*;
use stream::{PktStrm, ReadRet};

use generate::{Generator, Kind};
use std::process::ExitCode;

const USAGE: &str = "usage:
  oracle list [--slots N] [--plain | --second] [--no-overlays] [--any-length] a session from standard input
  oracle batch FILE [--second]                                     listings of a batch file; by the second reading
  oracle batch --windows FILE                                      each window's answer of a file of cut sessions
  oracle bench ENTRY FILE [--plain]                                times one large session
  oracle race LIBRARY [WORD]                                       the proved library's speed beside the Rust's; of inputs whose name holds the word
  oracle race --strict LIBRARY                                     its time by windows with the strict setting off and on, by turns
  oracle race --beside OLD LIBRARY                                 its time by windows beside an older library's, the setting off, by turns
  oracle generate CASES OUT                                        a batch file of made cases
  oracle judged FILE OUT                                           the cases of a batch file that the Rust can be asked
  oracle generate --cuts CASES OUT                                 a file of made sessions cut into windows
  oracle generate --cuts --limit OUT                               such a file of six sessions around the limit, 100 MB
  oracle compare CASES                                             the oracle against the second reading
  oracle compare FILE                                              the same over a batch file
  oracle windows CASES                                             cut sessions by windows against one call
  oracle sharp [--windows] CASES                                   wrong readings told by the cases; of document 02's W2 and W6
  oracle choose CASES OUT                                          a small batch file that meets much
  oracle answers FILE OUT                                          a batch file with the oracle's answers
  oracle check FILE                                                replays a file with answers
  oracle show FILE                                                 a file with answers as text
  oracle selftest                                                  document 01's examples, the findings, docs/DIFFERENCES.md, W2 and W6 by hand
CASES: [--seed N] [--count N] [--first N, for generate, compare and windows] [--any-byte | --imap | --short]";

const FLAGS: [&str; 12] = [
    "--plain", "--no-overlays", "--any-length", "--any-byte", "--imap", "--short", "--second", "--windows", "--cuts",
    "--limit", "--strict", "--beside",
];

/// The words of the command line: flags, flags with a number, and the rest.
pub struct Words {
    flags: Vec<String>,
    numbers: Vec<(String, u64)>,
    rest: Vec<String>,
}

impl Words {
    fn parse(mut words: impl Iterator<Item = String>) -> Option<Words> {
        let mut parsed = Words { flags: Vec::new(), numbers: Vec::new(), rest: Vec::new() };
        while let Some(word) = words.next() {
            match word.as_str() {
                "--slots" | "--seed" | "--count" | "--first" => {
                    let number = words.next()?.parse().ok()?;
                    parsed.numbers.push((word, number));
                }
                flag if FLAGS.contains(&flag) => parsed.flags.push(word),
                _ if word.starts_with("--") => return None,
                _ => parsed.rest.push(word),
            }
        }
        Some(parsed)
    }

    pub fn has(&self, flag: &str) -> bool {
        self.flags.iter().any(|given| given == flag)
    }

    pub fn number(&self, name: &str) -> Option<u64> {
        self.numbers.iter().find(|(given, _)| given == name).map(|(_, number)| *number)
    }

    fn generator(&self) -> Generator {
        let kinds = [("--any-byte", Kind::AnyByte), ("--imap", Kind::WideImap), ("--short", Kind::Short)];
        let kind = kinds.iter().find(|(flag, _)| self.has(flag)).map_or(Kind::Ascii, |(_, kind)| *kind);
        Generator { seed: self.number("--seed").unwrap_or(1), kind }
    }

    fn count(&self) -> u64 {
        self.number("--count").unwrap_or(100_000)
    }

    /// The numbers of the cases asked for.
    fn numbers(&self) -> std::ops::Range<u64> {
        let first = self.number("--first").unwrap_or(0);
        first..first + self.count()
    }
}

fn run(words: &Words) -> Result<bool, String> {
    let rest: Vec<&str> = words.rest.iter().map(String::as_str).collect();
    match rest[..] {
        ["list"] => list::list(words),
        ["batch", file] if words.has("--windows") => list::batch_windows(file),
        ["batch", file] => list::batch(file, words.has("--second")),
        ["bench", entry, file] => list::bench(entry, file, words.has("--plain")),
        ["race", library] if words.has("--strict") => race::run_strict(library),
        ["race", old, library] if words.has("--beside") => race::run_beside(old, library),
        ["race", library] => race::run(library, ""),
        ["race", library, word] => race::run(library, word),
        ["generate", out] if words.has("--limit") => stored::generate_long(out),
        ["generate", out] if words.has("--cuts") => stored::generate_cuts(words.generator(), words.numbers(), out),
        ["generate", out] => stored::generate(words.generator(), words.numbers(), out),
        ["judged", file, out] => stored::judged(file, out),
        ["compare"] => {
            let generator = words.generator();
            Ok(compare::run(words.numbers().map(|number| generator.case(number))))
        }
        ["compare", file] => Ok(compare::run(list::cases(file)?.into_iter())),
        ["windows"] => Ok(windows_compare::run(words.generator(), words.numbers())),
        ["sharp"] if words.has("--windows") => Ok(sharp_windows::run(words.generator(), words.count())),
        ["sharp"] => Ok(sharp::run(words.generator(), words.count())),
        ["choose", out] => stored::choose(words.generator(), words.count(), out),
        ["answers", file, out] => stored::answers(file, out),
        ["check", file] => stored::check(file),
        ["show", file] => stored::show(file),
        ["selftest"] => Ok(selftest::run()),
        _ => Err(USAGE.to_string()),
    }
}

fn main() -> ExitCode {
    judge::silence_panics();
    let words = Words::parse(std::env::args().skip(1));
    match words.ok_or(USAGE.to_string()).and_then(|words| run(&words)) {
        Ok(true) => ExitCode::SUCCESS,
        Ok(false) => ExitCode::FAILURE,
        Err(why) => {
            eprintln!("{why}");
            ExitCode::from(2)
        }
    }
}
