//! What a line says, by document 01's sections "Sessions" and "Mail". `wrong` bends one rule.

use crate::utf8::{Character, characters};
use crate::wrong::Wrong;

pub fn white(b: u8) -> bool {
    (9..=13).contains(&b) || b == 32
}

pub fn blank(b: u8) -> bool {
    b == 9 || b == 32
}

pub fn same(a: &[u8], b: &[u8], any_case: bool) -> bool {
    if any_case { a.eq_ignore_ascii_case(b) } else { a == b }
}

pub fn begins(line: &[u8], word: &[u8], any_case: bool) -> bool {
    line.len() >= word.len() && same(&line[..word.len()], word, any_case)
}

/// The first place at which `line` holds `word`.
pub fn find(line: &[u8], word: &[u8], any_case: bool) -> Option<usize> {
    (0..line.len()).find(|&at| begins(&line[at..], word, any_case))
}

fn count(line: &[u8], of: impl Fn(u8) -> bool) -> usize {
    line.iter().take_while(|&&b| of(b)).count()
}

/// What the digits are worth, if that is at most `most`.
fn worth(digits: &[u8], most: u128) -> Option<u128> {
    digits.iter().try_fold(0u128, |sum, &b| {
        let next = sum * 10 + u128::from(b - b'0');
        (next <= most).then_some(next)
    })
}

pub fn hello(line: &[u8], wrong: Wrong) -> bool {
    let any_case = wrong != Wrong::HelloCase;
    let word = begins(line, b"HELO", any_case) || begins(line, b"EHLO", any_case);
    word && (wrong != Wrong::HelloSpace || line.get(4) == Some(&b' '))
}

pub fn starttls(line: &[u8], wrong: Wrong) -> bool {
    match wrong {
        Wrong::StarttlsPrefix => begins(line, b"STARTTLS", true),
        _ => same(line, b"STARTTLS", wrong != Wrong::StarttlsCase),
    }
}

pub fn auth_login(line: &[u8], wrong: Wrong) -> bool {
    match wrong {
        Wrong::LoginPrefix => begins(line, b"AUTH LOGIN", true),
        _ => same(line, b"AUTH LOGIN", wrong != Wrong::LoginCase),
    }
}

fn opened(line: &[u8], word: &[u8], any_case: bool, no_space: bool) -> Option<usize> {
    let short = [&word[..word.len() - 2], b"<"].concat();
    if begins(line, word, any_case) {
        Some(word.len())
    } else {
        (no_space && begins(line, &short, any_case)).then_some(short.len())
    }
}

/// Where the sender begins and ends, if the line tried gives one.
pub fn sender(line: &[u8], wrong: Wrong) -> Option<(usize, usize)> {
    let any_case = wrong == Wrong::TriedAnyCase;
    let from = opened(line, b"MAIL FROM: <", any_case, wrong == Wrong::TriedNoSpace)?;
    let rest = &line[from..];
    let close = match wrong {
        Wrong::SenderLastClose => rest.iter().rposition(|&b| b == b'>'),
        _ => find(rest, b">", false),
    };
    if (close.is_none() && wrong == Wrong::SenderClose) || (close == Some(0) && wrong == Wrong::EmptySender) {
        return None;
    }
    Some((from, from + close.unwrap_or(rest.len())))
}

/// Where the recipient begins and ends; the end is missing if the > is.
pub fn recipient(line: &[u8], wrong: Wrong) -> Option<(usize, Option<usize>)> {
    let any_case = wrong == Wrong::RecipientCase;
    let from = opened(line, b"RCPT TO: <", any_case, wrong == Wrong::RecipientNoSpace)?;
    let open_end = (wrong == Wrong::RecipientOpen).then_some(line.len() - from);
    let close = find(&line[from..], b">", false).or(open_end);
    Some((from, close.map(|at| from + at)))
}

pub fn data(line: &[u8], wrong: Wrong) -> bool {
    let end = match wrong {
        Wrong::DataSpace => line.iter().rposition(|&b| b != b' ').map_or(0, |last| last + 1),
        _ => line.len(),
    };
    same(&line[..end], b"DATA", wrong != Wrong::DataCase)
}

pub fn tls_answer(line: &[u8], wrong: Wrong) -> bool {
    let ok = begins(line, b"+OK", wrong == Wrong::OkCase) || wrong == Wrong::TlsAnyLine;
    let rest = line.get(3..).unwrap_or_default();
    let spaced = wrong != Wrong::TlsSpace || rest.first() == Some(&b' ');
    ok && spaced && find(rest, b"tls", wrong != Wrong::TlsCase).is_some()
}

fn pop_white(b: u8, wrong: Wrong) -> bool {
    match b {
        9 => wrong != Wrong::WhiteNoTab,
        13 => wrong != Wrong::WhiteNoReturn,
        10 | 32 => true,
        11 | 12 => wrong == Wrong::WhiteVertical,
        _ => false,
    }
}

/// The line behind one run of pop white.
fn past_white(line: &[u8], wrong: Wrong, optional: Wrong, one: Wrong) -> Option<&[u8]> {
    let whites = count(line, |b| pop_white(b, wrong));
    let fits = match whites {
        0 => wrong == optional,
        1 => true,
        _ => wrong != one,
    };
    fits.then(|| &line[whites..])
}

pub fn retrieves(line: &[u8], wrong: Wrong) -> bool {
    octets(line, wrong).is_some()
}

fn octets(line: &[u8], wrong: Wrong) -> Option<()> {
    if !begins(line, b"+OK", wrong == Wrong::OkCase) {
        return None;
    }
    let number = past_white(&line[3..], wrong, Wrong::WhiteFirstOptional, Wrong::WhiteOne)?;
    let digits = count(number, |b| b.is_ascii_digit());
    let most = match wrong {
        Wrong::OctetsBelow => 4_294_967_294,
        Wrong::OctetsWide => u128::MAX / 16,
        _ => 4_294_967_295,
    };
    let few = wrong != Wrong::OctetsTenDigits || digits <= 10;
    if (digits == 0 && wrong != Wrong::OctetsNoDigit) || !few {
        return None;
    }
    worth(&number[..digits], most)?;
    let word = match digits {
        0 => number,
        _ => past_white(&number[digits..], wrong, Wrong::WhiteSecondOptional, Wrong::WhiteOneSecond)?,
    };
    let whole = wrong != Wrong::OctetsWord || word.len() == 6;
    (begins(word, b"octets", wrong == Wrong::OctetsCase) && whole).then_some(())
}

pub fn is_append(line: &[u8], wrong: Wrong) -> bool {
    let in_tag = |b| match wrong {
        Wrong::TagVertical => !blank(b),
        _ => !white_byte(b, wrong),
    };
    let text = text(line, wrong);
    let tag = match &text {
        Some(text) if wrong != Wrong::TagNarrow => text.iter().find(|c| c.is_white(wrong)).map_or(line.len(), |c| c.at),
        _ => count(line, in_tag),
    };
    let rest = &line[tag..];
    let blanks = match &text {
        Some(text) if wrong == Wrong::BlanksWide => {
            let mut behind = text.iter().skip_while(|c| c.at < tag);
            behind.find(|c| !blank_character(c, wrong)).map_or(rest.len(), |c| c.at - tag)
        }
        _ => count(rest, |b| blank(b) && (b != 9 || wrong != Wrong::BlankSpace)),
    };
    let rest = &rest[blanks..];
    let tagged = tag > 0 || wrong == Wrong::TagEmpty;
    let spaced = blanks == 1 || (blanks > 1 && wrong != Wrong::BlankOne);
    let behind = wrong != Wrong::AppendBlank || rest.get(6).is_some_and(|&b| blank(b));
    tagged && spaced && begins(rest, b"APPEND", wrong == Wrong::AppendCase) && behind
}

/// Document 02, W8: the line's characters, where it has some above 127 and is UTF-8.
fn text(line: &[u8], wrong: Wrong) -> Option<Vec<Character>> {
    if line.is_ascii() { None } else { characters(line, wrong) }
}

fn white_byte(b: u8, wrong: Wrong) -> bool {
    white(b) || (wrong == Wrong::LatinWhite && matches!(b, 133 | 160))
}

fn blank_character(c: &Character, wrong: Wrong) -> bool {
    if c.number > 127 { c.is_white(wrong) } else { blank(c.number as u8) }
}

fn without_trail(line: &[u8], wrong: Wrong) -> &[u8] {
    let trail = |b: u8| match wrong {
        Wrong::TrailKept => false,
        Wrong::TrailBlank => blank(b),
        _ => white_byte(b, wrong),
    };
    let end = match text(line, wrong) {
        Some(text) if wrong != Wrong::TrailNarrow => text.iter().rfind(|c| !c.is_white(wrong)).map_or(0, |c| c.end),
        _ => line.iter().rposition(|&b| !trail(b)).map_or(0, |last| last + 1),
    };
    &line[..end]
}

/// The size an append line announces; 0 if it announces none.
pub fn literal_size(line: &[u8], wrong: Wrong) -> u64 {
    let line = without_trail(line, wrong);
    if line.last() != Some(&b'}') && wrong != Wrong::BraceNotLast {
        return 0;
    }
    let brace = match wrong {
        Wrong::BraceFirst => find(line, b"{", false),
        _ => line.iter().rposition(|&b| b == b'{'),
    };
    let Some(brace) = brace else { return 0 };
    let text = &line[brace + 1..];
    let digits = count(text, |b| b.is_ascii_digit());
    let plus = usize::from(wrong == Wrong::PlusSize && text.get(digits) == Some(&b'+'));
    let behind = &text[digits + plus..];
    let closed = behind.first() == Some(&b'}') && (wrong != Wrong::BraceEnd || behind.len() == 1);
    if digits == 0 || !closed {
        return 0;
    }
    let most = match wrong {
        Wrong::SizeNarrow => u128::from(u32::MAX),
        Wrong::SizeWraps => u128::MAX / 16,
        _ => u128::from(u64::MAX),
    };
    worth(&text[..digits], most).map_or(0, |size| size as u64)
}

const ENCODING_FIELD: &[u8] = b"Content-Transfer-Encoding:";
const ENCODINGS: [&[u8]; 5] = [b"7bit", b"8bit", b"binary", b"quoted-printable", b"base64"];

/// Document 02, W1: a line that opens with the encoding field's name and is no valid encoding field.
pub const UNRECOGNISED: u32 = 6;

/// What the encoding is behind this line: the first valid one counts, and without one 6 if a line said it.
pub fn encoding(known: u32, line: &[u8], wrong: Wrong) -> u32 {
    let said = match said_encoding(line, wrong) {
        UNRECOGNISED if silent(line, wrong) => 0,
        said => said,
    };
    let stays = match known {
        0 => false,
        UNRECOGNISED => wrong == Wrong::UnrecognisedStays,
        _ if said == UNRECOGNISED => wrong != Wrong::UnrecognisedWins,
        _ => wrong != Wrong::EncodingLast,
    };
    if stays || said == 0 { known } else { said }
}

/// Lines that do not say 6 in a wrong reading.
fn silent(line: &[u8], wrong: Wrong) -> bool {
    match wrong {
        Wrong::UnrecognisedNone => true,
        Wrong::UnrecognisedFieldCase => !line.starts_with(ENCODING_FIELD),
        Wrong::UnrecognisedEmpty => line[ENCODING_FIELD.len()..].iter().all(u8::is_ascii_whitespace),
        Wrong::UnrecognisedFeed => !line.ends_with(b"\r\n"),
        Wrong::UnrecognisedTrailing => line.ends_with(b" \r\n"),
        _ => false,
    }
}

/// The number of the encoding that this line says, 0 where it opens otherwise.
fn said_encoding(line: &[u8], wrong: Wrong) -> u32 {
    if !begins(line, ENCODING_FIELD, wrong != Wrong::EncodingFieldCase) {
        let name = &ENCODING_FIELD[..ENCODING_FIELD.len() - 1];
        let counts = wrong == Wrong::UnrecognisedNoColon && begins(line, name, true);
        return if counts { UNRECOGNISED } else { 0 };
    }
    let rest = &line[ENCODING_FIELD.len()..];
    let spaces = count(rest, |b| b == b' ' || (b == 9 && wrong == Wrong::EncodingTab));
    if spaces == 0 && wrong == Wrong::EncodingSpace {
        return UNRECOGNISED;
    }
    let rest = &rest[spaces..];
    let fits = |name: &[u8]| {
        let behind = rest.get(name.len()..).unwrap_or_default();
        let ends =
            behind == b"\r\n" || wrong == Wrong::EncodingMore || (wrong == Wrong::EncodingFeed && behind == b"\n");
        begins(rest, name, wrong != Wrong::EncodingCase) && ends
    };
    ENCODINGS.iter().position(|name| fits(name)).map_or(UNRECOGNISED, |at| at as u32 + 1)
}

/// What a header line says of a boundary.
#[derive(Clone, Copy, PartialEq, Eq)]
pub enum Said<'a> {
    Nothing,
    /// Content-Type without a boundary.
    Seen,
    Boundary(&'a [u8]),
}

/// A boundary from behind `boundary="` up to the required quote.
fn quoted(text: &[u8], wrong: Wrong) -> Option<&[u8]> {
    let ends = |&b: &u8| b == b'"' || (b == b';' && wrong == Wrong::SemicolonQuoted);
    text.iter().position(ends).map(|end| &text[..end])
}

/// A boundary from behind `boundary=` up to ; space CR or the line's end.
fn unquoted(text: &[u8], wrong: Wrong) -> &[u8] {
    let ends = |&b: &u8| match b {
        b';' => wrong != Wrong::SemicolonStays,
        b' ' => wrong != Wrong::SpaceStays,
        b'\r' => true,
        b'\n' => wrong == Wrong::FeedExcluded,
        b'\t' => wrong == Wrong::TabEnds,
        _ => false,
    };
    let end = text.iter().position(ends).unwrap_or(text.len());
    &text[..end]
}

fn to_line_end(text: &[u8]) -> &[u8] {
    let end = text.iter().position(|&b| b == b'\r' || b == b'\n').unwrap_or(text.len());
    &text[..end]
}

pub fn content_type(line: &[u8], wrong: Wrong) -> Said<'_> {
    let field: &[u8] = if wrong == Wrong::TypeNoSpace { b"Content-Type:" } else { b"Content-Type: " };
    if !begins(line, field, wrong == Wrong::TypeAnyCase) {
        return Said::Nothing;
    }
    let rest = &line[field.len()..];
    let any_case = wrong == Wrong::WordAnyCase;
    let with_quote = find(rest, b"boundary=\"", any_case);
    let plain = find(rest, b"boundary=", any_case);
    match (with_quote, plain) {
        (_, None) => Said::Seen,
        (Some(at), Some(first)) if at == first || wrong != Wrong::UnquotedFirst => {
            let text = &rest[at + 10..];
            match quoted(text, wrong) {
                Some(boundary) => Said::Boundary(boundary),
                None if wrong == Wrong::QuoteSupplies => Said::Boundary(to_line_end(text)),
                None if wrong == Wrong::QuoteCounts => Said::Seen,
                None => Said::Nothing,
            }
        }
        (_, Some(at)) => Said::Boundary(unquoted(&rest[at + 9..], wrong)),
    }
}

/// A boundary from a folded line.
pub fn folded(line: &[u8], wrong: Wrong) -> Option<&[u8]> {
    let opens = line.first() == Some(&9) || (wrong == Wrong::FoldSpace && line.first() == Some(&32));
    let within = line.get(1..).unwrap_or_default();
    let skip = if wrong == Wrong::FoldWithin { find(within, b"boundary=", false)? } else { 0 };
    if !opens || !begins(&within[skip..], b"boundary=", wrong == Wrong::WordAnyCase) {
        return None;
    }
    let text = &within[skip + 9..];
    match text.strip_prefix(b"\"") {
        Some(text) => {
            let open_end = (wrong == Wrong::QuoteFoldSupplies).then(|| to_line_end(text));
            quoted(text, wrong).or(open_end)
        }
        None => Some(unquoted(text, wrong)),
    }
}

/// Whether a skipped line is a dash line of the boundary.
pub fn dash_line(line: &[u8], boundary: &[u8], wrong: Wrong) -> bool {
    let Some(rest) = line.strip_prefix(b"--").and_then(|rest| rest.strip_prefix(boundary)) else {
        return false;
    };
    match wrong {
        Wrong::DashNoCrlf => true,
        Wrong::DashExact => rest == b"\r\n" || rest == b"--\r\n",
        Wrong::DashApart => rest.ends_with(b"\r\n"),
        _ => line.ends_with(b"\r\n"),
    }
}
