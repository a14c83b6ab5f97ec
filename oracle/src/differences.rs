//! The inputs of docs/DIFFERENCES.md with their answers: a line with the entry's letter and the bytes, and a line with an arrow.
//! Behind the bytes may stand how many slots there are, or that the strict setting is on.

use crate::case::{Case, ENOUGH};

pub struct Example {
    pub line: usize,
    pub case: Case,
    pub strict: bool,
    pub listing: String,
}

/// C's escapes, as far as the page has them.
fn bytes(text: &str) -> Option<Vec<u8>> {
    let mut out = Vec::new();
    let mut chars = text.chars();
    while let Some(c) = chars.next() {
        match c {
            '\\' => match chars.next()? {
                'n' => out.push(b'\n'),
                'r' => out.push(b'\r'),
                't' => out.push(b'\t'),
                'x' => out.push(u8::from_str_radix(&[chars.next()?, chars.next()?].iter().collect::<String>(), 16).ok()?),
                _ => return None,
            },
            _ => out.extend(c.to_string().bytes()),
        }
    }
    Some(out)
}

/// How often the next piece stands: `nine times`, `16777217 times`, or once.
fn times(words: &str) -> usize {
    match words.trim().trim_start_matches(',').trim().strip_suffix(" times") {
        Some("nine") => 9,
        Some(number) => number.parse().unwrap_or(0),
        None => 1,
    }
}

/// "`S` `EHLO\n`", "`P` `+OK\n`, nine times `a`", "`s` `\n`, 0 slots", "`s` `\n`, strict"; and whether it is strict.
fn case(line: &str) -> Option<(Case, bool)> {
    let pieces: Vec<&str> = line.trim().split('`').collect();
    let [b'S' | b's' | b'P' | b'I'] = pieces.get(1)?.as_bytes() else { return None };
    if !pieces[0].is_empty() || pieces.len() < 5 {
        return None;
    }
    let mut all = Vec::new();
    for piece in pieces[2..pieces.len() - 1].chunks_exact(2) {
        all.extend(bytes(piece[1])?.repeat(times(piece[0])));
    }
    let said = pieces.last()?.trim_start_matches(", ");
    let slots = said.strip_suffix(" slots").map_or(Some(ENOUGH), |n| n.parse().ok())?;
    Some((Case { entry: pieces[1].as_bytes()[0], slots, bytes: all }, said == "strict"))
}

/// Every input with its answer; Err where a line with an arrow has no input before it.
pub fn examples(page: &str) -> Result<Vec<Example>, String> {
    let lines: Vec<&str> = page.lines().collect();
    let mut all = Vec::new();
    for (at, line) in lines.iter().enumerate() {
        let Some(answer) = line.trim().strip_prefix("→ ") else { continue };
        let (case, strict) = case(lines[at - 1]).ok_or(format!("line {}: no input stands before the arrow", at + 1))?;
        let rest = lines[at + 1..].iter().map_while(|more| more.trim().strip_prefix("· "));
        let listing = std::iter::once(answer).chain(rest).flat_map(|row| row.split(" · ")).map(|row| format!("{row}\n")).collect();
        all.push(Example { line: at + 1, case, strict, listing });
    }
    Ok(all)
}
