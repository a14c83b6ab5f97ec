//! A second reading of document 01, on bytes, plain and slow, from its words and not from the Rust.
//! `Wrong::Nothing` reads it right; any other value bends one rule.

use crate::case::{Answer, Case, Event, Listing, Sides};
use crate::direction;
use crate::fields::{self, Said};
use crate::wrong::Wrong;

const LONGEST: usize = 16_777_216;

/// A result with its place.
type Stop = (u32, usize);
type Step<V> = Result<V, Stop>;

pub fn answer(case: &Case, wrong: Wrong) -> Answer {
    if case.entry == b'D' {
        let sides = Sides::parse(&case.bytes).expect("a direction case");
        return Answer::Direction(direction::guess(&sides, wrong));
    }
    Answer::Session(session(case.entry, &case.bytes, case.slots(), wrong))
}

/// The read that an incomplete session waits in.
#[derive(Clone, Copy, PartialEq, Eq, Debug)]
pub enum Waits {
    Sized,
    /// A preamble or content.
    Region,
    Other,
}

/// What document 02 lays over document 01 for sessions by windows.
#[derive(Clone, Copy, Default)]
struct Laid {
    /// W2: a boundary over 70 bytes refuses with 12.
    long: bool,
    /// W6: a line that ends in a bare LF refuses with 11.
    bare: bool,
}

pub fn session(entry: u8, bytes: &[u8], slots: usize, wrong: Wrong) -> Listing {
    read(entry, bytes, slots, wrong, Laid::default()).0
}

/// One call as a session by windows has it, with or without the strict setting.
pub fn as_by_windows(entry: u8, bytes: &[u8], slots: usize, strict: bool) -> (Listing, Waits) {
    read(entry, bytes, slots, Wrong::Nothing, Laid { long: true, bare: strict })
}

fn read(entry: u8, bytes: &[u8], slots: usize, wrong: Wrong, laid: Laid) -> (Listing, Waits) {
    if bytes.len() > LONGEST {
        return (Listing { result: 2, ..Listing::default() }, Waits::Other);
    }
    let mut reader = Reader::new(entry, bytes, slots, wrong, laid);
    let ended = match entry {
        b'S' => reader.smtp_client(),
        b's' => reader.smtp_server(),
        b'P' => reader.pop3_server(),
        _ => reader.imap_client(),
    };
    let (result, place) = match (ended, reader.late) {
        (Ok(()), _) => (0, reader.at),
        (Err((1, _)), Some(stop)) => stop,
        (Err((1, _)), None) if wrong == Wrong::ShortAtEnd => (1, bytes.len()),
        (Err(stop), _) => stop,
    };
    (Listing { events: reader.events, result, place: place as u32 }, reader.waits)
}

struct Head<'a> {
    boundary: Option<&'a [u8]>,
    encoding: u32,
    /// Ended by a dot line, which only a wrong reading does.
    cut: bool,
}

struct Reader<'a> {
    entry: u8,
    bytes: &'a [u8],
    slots: usize,
    wrong: Wrong,
    laid: Laid,
    at: usize,
    events: Vec<Event>,
    /// The literal's size, where the mail's header began, the mail's own boundary.
    size: u64,
    header_at: usize,
    outermost: &'a [u8],
    waits: Waits,
    // Only wrong readings ask for these: a refusal 10 put off, Content-Type seen in the header
    // before, where the mail's body began, the mail's encoding, the line that ended the skipping.
    late: Option<Stop>,
    seen_before: bool,
    body_at: usize,
    mail_encoding: u32,
    skipped: &'a [u8],
}

impl<'a> Reader<'a> {
    fn new(entry: u8, bytes: &'a [u8], slots: usize, wrong: Wrong, laid: Laid) -> Self {
        Reader {
            entry,
            bytes,
            slots,
            wrong,
            laid,
            at: 0,
            events: Vec::new(),
            size: 0,
            header_at: 0,
            outermost: b"",
            waits: Waits::Other,
            late: None,
            seen_before: false,
            body_at: 0,
            mail_encoding: 0,
            skipped: b"",
        }
    }

    fn is(&self, wrong: Wrong) -> bool {
        self.wrong == wrong
    }

    fn put(&mut self, kind: u32, offset: usize, length: usize, encoding: u32) -> Step<()> {
        let event = [kind, offset as u32, length as u32, encoding];
        if self.events.len() < self.slots {
            self.events.push(event);
            return Ok(());
        }
        match self.wrong {
            Wrong::TenLate => {
                self.late = self.late.or(Some((10, offset)));
                Ok(())
            }
            Wrong::TenPlace => Err((10, self.at)),
            Wrong::TenCount => {
                self.events.push(event);
                Err((10, offset))
            }
            _ => Err((10, offset)),
        }
    }

    // Reading

    fn short<V>(&self) -> Step<V> {
        Err((1, self.at))
    }

    fn peek(&self) -> Step<&'a [u8]> {
        let rest = &self.bytes[self.at..];
        match rest.iter().position(|&b| b == b'\n') {
            Some(feed) if self.laid.bare && !rest[..feed].ends_with(b"\r") => Err((11, self.at)),
            Some(feed) => Ok(&rest[..feed + 1]),
            None if self.is(Wrong::LastLine) && !rest.is_empty() => Ok(rest),
            None => self.short(),
        }
    }

    fn line(&mut self) -> Step<&'a [u8]> {
        let line = self.peek()?;
        self.at += line.len();
        Ok(line)
    }

    fn clean_line(&mut self) -> Step<&'a [u8]> {
        let line = self.line()?;
        let mut line = line.strip_suffix(b"\n").unwrap_or(line);
        if self.is(Wrong::ReturnKept) {
            return Ok(line);
        }
        while let Some(shorter) = line.strip_suffix(b"\r") {
            line = shorter;
            if !self.is(Wrong::TwoReturns) {
                break;
            }
        }
        Ok(line)
    }

    fn take(&mut self, size: u64) -> Step<&'a [u8]> {
        let rest = &self.bytes[self.at..];
        if size > rest.len() as u64 {
            return self.short();
        }
        self.at += size as usize;
        Ok(&rest[..size as usize])
    }

    fn two(&mut self, refusal: u32) -> Step<&'a [u8]> {
        let left = self.bytes.len() - self.at;
        if left == 1 && self.is(Wrong::TwoRefuses) {
            return Err((refusal, self.at));
        }
        self.take(2)
    }

    fn holds_delimiter(&self, place: usize, boundary: &[u8]) -> bool {
        let region = self.at;
        let before = &self.bytes[region..place];
        let opens = match self.wrong {
            Wrong::Anywhere => true,
            Wrong::BareFeed => before.is_empty() || before.ends_with(b"\n"),
            Wrong::NoStartPlace => before.ends_with(b"\r\n"),
            _ => before.is_empty() || before.ends_with(b"\r\n"),
        };
        let shorter = boundary.len().saturating_sub(usize::from(self.is(Wrong::BoundaryShort)));
        let Some(text) = self.bytes[place..].strip_prefix(b"--") else {
            return false;
        };
        let any_case = self.is(Wrong::BoundaryAnyCase);
        if !opens || text.len() < boundary.len() || !fields::begins(text, &boundary[..shorter], any_case) {
            return false;
        }
        let behind = &text[boundary.len()..];
        let more = behind.len() >= 2 && !behind.starts_with(b"\r\n") && !behind.starts_with(b"--");
        !(more && self.is(Wrong::LongerIsContent))
    }

    /// Reads up to and over the delimiter; gives where the content ends.
    fn delimiter(&mut self, boundary: &[u8]) -> Step<usize> {
        let region = self.at;
        let mut places = region..self.bytes.len();
        let Some(place) = places.find(|&place| self.holds_delimiter(place, boundary)) else {
            self.waits = Waits::Region;
            let at_end = self.is(Wrong::ShortDelimiterAtEnd);
            return Err((1, if at_end { self.bytes.len() } else { region }));
        };
        self.at = place + 2 + boundary.len();
        let end = match self.wrong {
            Wrong::CrlfInContent => place,
            Wrong::EndBeforeStart => place - 2,
            _ if self.bytes[region..place].ends_with(b"\r\n") => place - 2,
            _ => place,
        };
        Ok(end)
    }

    // SMTP

    fn smtp_client(&mut self) -> Step<()> {
        let line = self.line()?;
        if !fields::hello(line, self.wrong) {
            return Err((3, if self.is(Wrong::ThreePlace) { self.at } else { 0 }));
        }
        self.envelope()?;
        while self.recipient()? {}
        self.mail()?;
        while self.is(Wrong::GoesOn) {
            self.line()?;
        }
        Ok(())
    }

    fn envelope(&mut self) -> Step<()> {
        let from = self.at;
        let line = self.clean_line()?;
        if fields::starttls(line, self.wrong) {
            return Err((4, if self.is(Wrong::FourPlace) { self.at } else { from }));
        }
        if fields::auth_login(line, self.wrong) {
            self.secret(9)?;
            self.secret(10)?;
            let from = self.at;
            let line = self.clean_line()?;
            let begins = fields::begins(line, b"MAIL FROM:", true);
            if self.is(Wrong::LoginSkips) && !begins {
                return self.seek_sender();
            }
            let told = self.tried(from, line)?;
            return if told || !self.is(Wrong::LoginSender) { Ok(()) } else { Err((5, from)) };
        }
        if fields::begins(line, b"MAIL FROM:", !self.is(Wrong::FromSecondCase)) {
            let told = self.tried(from, line)?;
            if told || !self.is(Wrong::TriedGoesOn) {
                return Ok(());
            }
        }
        self.seek_sender()
    }

    fn secret(&mut self, kind: u32) -> Step<()> {
        let from = self.at;
        let line = self.clean_line()?;
        let length = if self.is(Wrong::LoginLines) { self.at - from } else { line.len() };
        self.put(kind, from, length, 0)
    }

    fn seek_sender(&mut self) -> Step<()> {
        loop {
            let from = self.at;
            let line = self.clean_line()?;
            if self.is(Wrong::StarttlsLater) && fields::starttls(line, self.wrong) {
                return Err((4, from));
            }
            if fields::begins(line, b"MAIL FROM:", !self.is(Wrong::FromCase)) {
                let told = self.tried(from, line)?;
                if told || !self.is(Wrong::TriedGoesOn) {
                    return Ok(());
                }
            }
        }
    }

    /// Lists the sender if the line gives one; tells whether it did.
    fn tried(&mut self, from: usize, line: &[u8]) -> Step<bool> {
        let Some((start, end)) = fields::sender(line, self.wrong) else {
            return Ok(false);
        };
        self.put(11, from + start, end - start, 0)?;
        Ok(true)
    }

    /// One line before DATA; tells whether another follows.
    fn recipient(&mut self) -> Step<bool> {
        let from = self.at;
        let line = self.clean_line()?;
        if fields::data(line, self.wrong) {
            return Ok(false);
        }
        let refusal = Err((5, if self.is(Wrong::FivePlace) { self.at } else { from }));
        let Some((start, end)) = fields::recipient(line, self.wrong) else {
            return refusal;
        };
        if end.is_some() || self.is(Wrong::RecipientEarly) {
            let length = end.unwrap_or(line.len()) - start;
            self.put(12, from + start, length, 0)?;
        }
        if end.is_some() { Ok(true) } else { refusal }
    }

    /// Reads a clean line and lists it.
    fn listed(&mut self, kind: u32, whole: bool) -> Step<&'a [u8]> {
        let from = self.at;
        let line = self.clean_line()?;
        if self.is(Wrong::TlsUnlisted) && fields::tls_answer(line, self.wrong) {
            return Ok(line);
        }
        let length = if whole { self.at - from } else { line.len() };
        let put = self.put(kind, from, length, 0);
        let bye_first = self.is(Wrong::ByeFirst) && line.starts_with(b"221");
        if bye_first { Ok(line) } else { put.map(|()| line) }
    }

    fn smtp_server(&mut self) -> Step<()> {
        loop {
            let from = self.at;
            let line = self.listed(8, self.is(Wrong::ServerLines))?;
            let word: &[u8] = if self.is(Wrong::ByeSpace) { b"221 " } else { b"221" };
            if line.starts_with(word) {
                if self.is(Wrong::ByePlace) {
                    self.at = from;
                }
                return Ok(());
            }
        }
    }

    // POP3

    fn pop3_server(&mut self) -> Step<()> {
        loop {
            let line = self.listed(8, self.is(Wrong::ServerLines))?;
            let retrieves = fields::retrieves(line, self.wrong);
            let first = retrieves && self.is(Wrong::RetrieveFirst);
            if fields::tls_answer(line, self.wrong) && !first {
                return Ok(());
            }
            if retrieves {
                self.mail()?;
                if self.is(Wrong::OneMailPop) {
                    return Ok(());
                }
            }
        }
    }

    // IMAP

    fn imap_client(&mut self) -> Step<()> {
        loop {
            let line = self.listed(7, self.is(Wrong::ClientLines))?;
            if fields::is_append(line, self.wrong) && self.mail_follows(line)? {
                self.size = fields::literal_size(line, self.wrong);
                self.mail()?;
                self.after_literal()?;
                if self.is(Wrong::OneMailImap) {
                    return Ok(());
                }
            }
        }
    }

    fn mail_follows(&mut self, command: &[u8]) -> Step<bool> {
        let next = self.peek()?;
        if self.is(Wrong::ColonTaken) && !next.contains(&b':') {
            self.at += next.len();
        }
        Ok(match self.wrong {
            Wrong::ColonAny => true,
            Wrong::ColonHere => command.contains(&b':'),
            Wrong::ColonStart => next[1..].contains(&b':'),
            _ => next.contains(&b':'),
        })
    }

    fn after_literal(&mut self) -> Step<()> {
        let from = self.at;
        let number = if self.is(Wrong::EightSix) && !self.outermost.is_empty() { 6 } else { 8 };
        if self.two(number)? == b"\r\n" {
            return Ok(());
        }
        match self.wrong {
            Wrong::NoCrlfAfter => self.at = from,
            Wrong::EightPlace => return Err((number, self.at)),
            _ => return Err((number, from)),
        }
        Ok(())
    }

    fn sized(&mut self, encoding: u32) -> Step<()> {
        let from = self.at;
        let header = (from - self.header_at) as u64;
        let too_small = self.size < header || (self.size == header && self.is(Wrong::SevenEqual));
        let length = if self.is(Wrong::SizeBody) { self.size } else { self.size.wrapping_sub(header) };
        if too_small && !self.is(Wrong::SizeBody) {
            if self.is(Wrong::SevenAfterStart) {
                self.put(2, from, 0, 0)?;
            }
            return Err((7, if self.is(Wrong::SevenPlace) { self.header_at } else { from }));
        }
        self.put(2, from, 0, 0)?;
        let taken = self.take(length);
        if taken.is_err() {
            self.waits = Waits::Sized;
        }
        if taken.is_err() && self.is(Wrong::StartDropped) {
            self.events.pop();
        }
        if taken.is_err() && self.is(Wrong::SizedPiece) {
            self.put(4, from, self.bytes.len() - from, encoding)?;
        }
        taken?;
        if length > 0 || self.is(Wrong::EmptySized) {
            self.put(4, from, length as usize, encoding)?;
        }
        self.put(6, self.at, 0, 0)
    }

    // Mail

    fn mail(&mut self) -> Step<()> {
        self.header_at = self.at;
        self.outermost = b"";
        self.mail_encoding = 0;
        let head = self.header(1)?;
        self.body_at = self.at;
        self.mail_encoding = head.encoding;
        match head.boundary {
            _ if head.cut => Ok(()),
            Some(boundary) => {
                self.outermost = boundary;
                let header = (self.at - self.header_at) as u64;
                if self.is(Wrong::SevenMultipart) && self.entry == b'I' && self.size < header {
                    return Err((7, self.at));
                }
                self.multipart(&[boundary]).map(|_| ())
            }
            None if self.entry == b'I' => self.sized(head.encoding),
            None => self.text(head.encoding),
        }
    }

    fn ends_header(&self, line: &[u8]) -> bool {
        line == b"\r\n" || (self.is(Wrong::BlankFeed) && line == b"\n")
    }

    /// `level` is the one a boundary of this header would open.
    fn header(&mut self, level: usize) -> Step<Head<'a>> {
        let mut head = Head { boundary: None, encoding: 0, cut: false };
        let carried = self.seen_before && self.is(Wrong::SeenStays);
        let mut seen = carried.then_some(0);
        for number in 0.. {
            let from = self.at;
            let line = self.line()?;
            let ends = self.ends_header(line);
            if ends && level > 8 && head.boundary.is_some() && self.is(Wrong::NineEarly) {
                return Err((9, self.at));
            }
            self.put(1, from, self.header_length(line), 0)?;
            head.cut = self.is(Wrong::DotInHeader) && line == b".\r\n" && self.entry != b'I';
            if ends || head.cut {
                break;
            }
            self.scan(&mut head, &mut seen, number, line);
        }
        self.seen_before = seen.is_some();
        Ok(head)
    }

    fn header_length(&self, line: &[u8]) -> usize {
        if !self.is(Wrong::HeaderClean) {
            return line.len();
        }
        let line = line.strip_suffix(b"\n").unwrap_or(line);
        line.strip_suffix(b"\r").unwrap_or(line).len()
    }

    /// One header line's share; `seen` is the number of the line that was Content-Type.
    fn scan(&self, head: &mut Head<'a>, seen: &mut Option<usize>, number: usize, line: &'a [u8]) {
        head.encoding = fields::encoding(head.encoding, line, self.wrong);
        let may_fold = match self.wrong {
            Wrong::FoldUnseen => true,
            Wrong::FoldNext => seen.is_some_and(|before| before + 1 == number),
            _ => seen.is_some(),
        };
        if head.boundary.is_none() && may_fold {
            head.boundary = self.counted(fields::folded(line, self.wrong));
        }
        if head.boundary.is_none() || self.is(Wrong::LaterWins) {
            match fields::content_type(line, self.wrong) {
                Said::Nothing => {}
                Said::Seen => *seen = Some(number),
                Said::Boundary(boundary) => head.boundary = self.counted(Some(boundary)),
            }
        }
    }

    fn counted(&self, boundary: Option<&'a [u8]>) -> Option<&'a [u8]> {
        boundary.filter(|text| !(text.is_empty() && self.is(Wrong::EmptyIgnored)))
    }

    fn text(&mut self, encoding: u32) -> Step<()> {
        self.put(2, self.at, 0, 0)?;
        loop {
            let from = self.at;
            let line = self.line()?;
            let ends = line == b".\r\n" || (self.is(Wrong::DotFeed) && line == b".\n");
            if !ends || self.is(Wrong::DotListed) {
                self.body_line(from, line, encoding)?;
            }
            if ends {
                return self.put(6, if self.is(Wrong::StopAfterDot) { self.at } else { from }, 0, 0);
            }
        }
    }

    fn body_line(&mut self, from: usize, line: &[u8], encoding: u32) -> Step<()> {
        let dot = usize::from(self.is(Wrong::Undoubled) && line.starts_with(b".."));
        let clean = line.strip_suffix(b"\r\n").or(line.strip_suffix(b"\n")).unwrap_or(line);
        let length = if self.is(Wrong::BodyClean) { clean.len() } else { line.len() };
        self.put(3, from + dot, length - dot, encoding)
    }

    // Multipart

    fn levels(&self) -> usize {
        match self.wrong {
            Wrong::LevelsSeven => 7,
            Wrong::LevelsNine => 9,
            _ => 8,
        }
    }

    /// `open` holds the open boundaries, the outermost first. Tells whether the line that ended
    /// the skipping closes the level above too, which only a wrong reading asks.
    fn multipart(&mut self, open: &[&'a [u8]]) -> Step<bool> {
        if open.len() > self.levels() {
            return Err((9, if self.is(Wrong::NinePlace) { self.at - 2 } else { self.at }));
        }
        let boundary = open[open.len() - 1];
        if boundary.len() > 70 && self.laid.long {
            return Err((12, self.at));
        }
        let outer = open[open.len().saturating_sub(2)];
        self.delimiter(if self.is(Wrong::PreambleOuter) { outer } else { boundary })?;
        let mut more = self.first_part(boundary)?;
        while more {
            let head = self.header(open.len() + 1)?;
            more = match head.boundary {
                _ if head.cut => false,
                Some(inner) => {
                    let all_closed = self.multipart(&[open, &[inner]].concat())?;
                    if all_closed {
                        return Ok(true);
                    }
                    self.after_inner(boundary)?
                }
                None => self.content(boundary, head.encoding)?,
            };
        }
        self.skip(open)
    }

    fn first_part(&mut self, boundary: &[u8]) -> Step<bool> {
        if self.is(Wrong::FirstClose) {
            return self.another(boundary);
        }
        let from = self.at;
        if self.two(6)? == b"\r\n" { Ok(true) } else { Err(self.six(from, boundary)) }
    }

    fn six(&self, from: usize, boundary: &[u8]) -> Stop {
        (6, if self.is(Wrong::SixPlace) { from - boundary.len() - 2 } else { from })
    }

    fn after_inner(&mut self, boundary: &[u8]) -> Step<bool> {
        if self.is(Wrong::InnerDelimiter) {
            self.delimiter(boundary)?;
            return self.another(boundary);
        }
        let close = [b"--", boundary, b"--"].concat();
        Ok(!(self.is(Wrong::OuterCloses) && self.skipped.starts_with(&close)))
    }

    fn content(&mut self, boundary: &[u8], encoding: u32) -> Step<bool> {
        let from = self.at;
        let passed_on = match encoding {
            0 => self.is(Wrong::EncodingPassedOn),
            fields::UNRECOGNISED => self.is(Wrong::UnrecognisedPassedOn),
            _ => false,
        };
        let encoding = if passed_on { self.mail_encoding } else { encoding };
        let mark = if self.is(Wrong::EncodingOnMarks) { encoding } else { 0 };
        self.put(2, if self.is(Wrong::StartEarly) { from - 2 } else { from }, 0, mark)?;
        let boundary = if self.is(Wrong::ContentOutermost) { self.outermost } else { boundary };
        let end = self.delimiter(boundary);
        if end.is_err() && self.is(Wrong::PartPiece) && from < self.bytes.len() {
            self.put(5, from, self.bytes.len() - from, encoding)?;
        }
        let end = end?;
        if end > from || self.is(Wrong::EmptyPart) {
            self.put(5, from, end.saturating_sub(from), encoding)?;
        }
        let crlf = if self.is(Wrong::StopAfterCrlf) && end < self.at - boundary.len() - 2 { 2 } else { 0 };
        self.put(6, end + crlf, 0, mark)?;
        self.another(boundary)
    }

    /// The two bytes behind a delimiter: another part, or the close.
    fn another(&mut self, boundary: &[u8]) -> Step<bool> {
        let from = self.at;
        match self.two(6)? {
            b"\r\n" => Ok(true),
            b"--" if !self.is(Wrong::CloseCrlf) => Ok(false),
            b"--" => {
                let from = self.at;
                let crlf = self.take(2)? == b"\r\n";
                self.at = from;
                if crlf { Ok(false) } else { Err((6, from)) }
            }
            _ => Err(self.six(from, boundary)),
        }
    }

    /// The literal's bytes that are left, 0 once passed.
    fn rest(&self) -> u64 {
        let begun = if self.is(Wrong::RestFromBody) { self.body_at } else { self.header_at };
        self.size.saturating_sub((self.at - begun) as u64)
    }

    fn rest_is_skipped(&self, open: &[&[u8]], first: bool) -> bool {
        let (rest, outermost) = (self.rest(), open[0].len() as u64);
        match self.wrong {
            Wrong::RestZeroEnds => rest < outermost,
            Wrong::RestAtMost => rest != 0 && rest <= outermost,
            Wrong::RestHyphens => rest != 0 && rest < outermost + 2,
            Wrong::RestOnce => first && rest != 0 && rest < outermost,
            Wrong::RestNever => false,
            Wrong::RestOutermost => open.len() == 1 && rest != 0 && rest < outermost,
            Wrong::RestInner => rest != 0 && rest < open[open.len() - 1].len() as u64,
            _ => rest != 0 && rest < outermost,
        }
    }

    fn skip(&mut self, open: &[&'a [u8]]) -> Step<bool> {
        let mut first = true;
        loop {
            if self.entry == b'I' && self.rest_is_skipped(open, first) {
                self.skipped = self.take(self.rest())?;
                if !self.is(Wrong::RestThenLine) {
                    return Ok(false);
                }
            }
            first = false;
            self.skipped = self.line()?;
            if self.is_dot(self.skipped) {
                return Ok(self.is(Wrong::DotEndsAll));
            }
            if self.ends_skipping(self.skipped, open) {
                return Ok(false);
            }
        }
    }

    fn is_dot(&self, line: &[u8]) -> bool {
        let counts = match self.wrong {
            Wrong::DotImap => true,
            Wrong::DotPassed => false,
            _ => self.entry != b'I',
        };
        counts && line == b".\r\n"
    }

    fn ends_skipping(&self, line: &[u8], open: &[&[u8]]) -> bool {
        let innermost = open.len() - 1;
        let is = |at: usize| fields::dash_line(line, open[at], self.wrong);
        match self.wrong {
            Wrong::SkipToInner => is(innermost),
            Wrong::SkipToEither => is(innermost) || is(0),
            Wrong::SkipToOuter => is(innermost.saturating_sub(1)),
            _ => is(0),
        }
    }
}
