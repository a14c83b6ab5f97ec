//! Mails by windows: headers, bodies and multiparts.

use crate::fields::{self, Said};
use crate::windows::{Phase, Step, Walk};
use crate::wrong::Wrong::Nothing;
use crate::wrong_windows::Bend;

const LEVELS: usize = 8;
const LONGEST_BOUNDARY: usize = 70;

/// What the lines of a header have said so far.
#[derive(Clone, Default)]
pub struct Head {
    pub encoding: u32,
    /// Content-Type was seen without a boundary.
    pub seen: bool,
    pub boundary: Option<Vec<u8>>,
}

/// How a region's read stood at some place.
#[derive(Clone, Copy)]
struct Mark {
    pos: usize,
    may: bool,
    rest: Option<u64>,
}

/// Where bent readings go back to: the read's start in this window, behind the last CRLF, before
/// the last finished line, before the line under way.
struct Marks {
    first: Mark,
    firm: Mark,
    before: Mark,
    last: Mark,
}

impl Marks {
    fn new(first: Mark) -> Marks {
        Marks { first, firm: first, before: first, last: first }
    }

    fn passed(&mut self, mark: Mark, crlf: bool) {
        self.before = self.last;
        if crlf {
            self.firm = mark;
        }
    }
}

impl<'a> Walk<'a> {
    pub(crate) fn begin_header(&mut self) -> Step<()> {
        self.session.head = Head::default();
        self.go(Phase::Head)
    }

    fn after_mail(&mut self) -> Step<()> {
        self.session.open.clear();
        match self.session.entry {
            b'S' => Err((0, self.at())),
            b'P' => self.go(Phase::Status),
            _ => self.go(Phase::Closing),
        }
    }

    // Header

    pub(crate) fn head_line(&mut self) -> Step<()> {
        let from = self.at();
        let line = self.line()?;
        let blank = line == b"\r\n";
        if blank && self.is(Bend::TwelveUnlisted) && self.too_long() && self.session.open.len() < LEVELS {
            return Err((12, self.at()));
        }
        self.put(1, from, line.len(), 0)?;
        if blank {
            return self.begin_body();
        }
        self.scan(line);
        let early = self.is(Bend::TwelveAtLine) && self.too_long();
        if early { Err((12, self.at())) } else { Ok(()) }
    }

    fn scan(&mut self, line: &[u8]) {
        let replaces = self.is(Bend::LaterShort) && self.too_long();
        let head = &mut self.session.head;
        head.encoding = fields::encoding(head.encoding, line, Nothing);
        if head.boundary.is_some() && !replaces {
            return;
        }
        let fold = if head.seen { fields::folded(line, Nothing) } else { None };
        match fields::content_type(line, Nothing) {
            Said::Nothing => {}
            Said::Seen => head.seen = true,
            Said::Boundary(boundary) => head.boundary = Some(boundary.to_vec()),
        }
        if let Some(boundary) = fold {
            head.boundary = Some(boundary.to_vec());
        }
    }

    /// The header's boundary is over 70 bytes.
    fn too_long(&self) -> bool {
        let Some(boundary) = &self.session.head.boundary else {
            return false;
        };
        let feed = usize::from(boundary.ends_with(b"\n"));
        let outermost = self.session.open.is_empty();
        match self.session.bend {
            Bend::TwelveSeventy => boundary.len() >= LONGEST_BOUNDARY,
            Bend::TwelveMore => boundary.len() > LONGEST_BOUNDARY + 1,
            Bend::TwelveHyphens => boundary.len() + 2 > LONGEST_BOUNDARY,
            Bend::TwelveFeed => boundary.len() - feed > LONGEST_BOUNDARY,
            Bend::TwelveOuter => outermost && boundary.len() > LONGEST_BOUNDARY,
            Bend::TwelveInner => !outermost && boundary.len() > LONGEST_BOUNDARY,
            Bend::TwelveNever | Bend::LongIsNone | Bend::LongIsCut => false,
            _ => boundary.len() > LONGEST_BOUNDARY,
        }
    }

    /// Behind the blank line.
    fn begin_body(&mut self) -> Step<()> {
        let too_long = self.too_long();
        match self.session.head.boundary.take() {
            Some(boundary) if self.is(Bend::LongIsNone) && boundary.len() > LONGEST_BOUNDARY => self.begin_content(),
            Some(boundary) => self.begin_multipart(boundary, too_long),
            None => self.begin_content(),
        }
    }

    fn begin_multipart(&mut self, mut boundary: Vec<u8>, too_long: bool) -> Step<()> {
        let deep = self.session.open.len() == LEVELS;
        if deep && !(too_long && self.is(Bend::TwelveFirst)) {
            return Err((9, self.at()));
        }
        if too_long {
            return Err((12, if self.is(Bend::TwelvePlace) { self.at() - 2 } else { self.at() }));
        }
        if self.is(Bend::LongIsCut) {
            boundary.truncate(LONGEST_BOUNDARY);
        }
        self.session.open.push(boundary);
        self.session.may = !self.is(Bend::NoStart);
        self.go(Phase::Preamble { began: self.at() })
    }

    fn begin_content(&mut self) -> Step<()> {
        let began = self.at();
        if !self.session.open.is_empty() {
            self.put(2, began, 0, 0)?;
            self.session.may = !self.is(Bend::NoStart);
            return self.go(Phase::Content { began });
        }
        if self.session.entry != b'I' {
            self.put(2, began, 0, 0)?;
            return self.go(Phase::Text);
        }
        let passed = self.is(Bend::PassedZero).then_some(0);
        let left = self.session.rest.or(passed).ok_or((7, began))?;
        self.put(2, began, 0, 0)?;
        self.session.past.size = left;
        self.go(Phase::Sized { began, left })
    }

    // Bodies

    pub(crate) fn text_line(&mut self) -> Step<()> {
        let from = self.at();
        let line = self.line()?;
        if line == b".\r\n" {
            self.put(6, from, 0, 0)?;
            return self.after_mail();
        }
        self.put(3, from, line.len(), self.session.head.encoding)
    }

    pub(crate) fn sized(&mut self, began: usize, left: u64) -> Step<()> {
        let here = (self.left().len() as u64).min(left);
        let whole = here == left;
        self.spared(&self.left()[..here as usize])?;
        if whole || !self.is(Bend::SizedKept) {
            self.advance(here as usize);
            self.session.phase = Phase::Sized { began, left: left - here };
        }
        if !whole {
            if self.is(Bend::SizedPieces) {
                self.put_piece(4, began)?;
            }
            return Err((1, if self.is(Bend::PlaceSized) { self.at() } else { began }));
        }
        self.put_body(4, began, self.at())?;
        self.put(6, self.at(), 0, 0)?;
        self.after_mail()
    }

    /// A body's event, unless it is empty.
    fn put_body(&mut self, kind: u32, began: usize, end: usize) -> Step<()> {
        let from = began.max(self.session.past.listed);
        if end > from {
            self.put(kind, from, end - from, self.session.head.encoding)
        } else {
            Ok(())
        }
    }

    fn put_piece(&mut self, kind: u32, began: usize) -> Step<()> {
        self.put_body(kind, began, self.at())?;
        self.session.past.listed = self.at();
        Ok(())
    }

    // Multipart

    pub(crate) fn preamble(&mut self, began: usize) -> Step<()> {
        self.region(began)?;
        self.go(Phase::Opened)
    }

    pub(crate) fn opened(&mut self) -> Step<()> {
        match self.two()? {
            ([b'\r', b'\n'], _) => self.begin_header(),
            (_, from) => Err((6, from)),
        }
    }

    pub(crate) fn content(&mut self, began: usize) -> Step<()> {
        let end = self.region(began);
        if end.is_err() && self.is(Bend::PartPieces) {
            self.put_piece(5, began)?;
        }
        let end = end?;
        self.put_body(5, began, end)?;
        self.put(6, end, 0, 0)?;
        self.go(Phase::Between)
    }

    pub(crate) fn between(&mut self) -> Step<()> {
        match self.two()? {
            ([b'\r', b'\n'], _) => self.begin_header(),
            ([b'-', b'-'], _) => self.go(Phase::Skipping),
            (_, from) => Err((6, from)),
        }
    }

    /// Reads finished lines up to and over the delimiter; gives where the content ends.
    fn region(&mut self, began: usize) -> Step<usize> {
        let innermost = self.session.open.last().expect("a level is open");
        let word = [b"--", &innermost[..]].concat();
        let mut marks = Marks::new(self.mark());
        loop {
            if self.session.may && self.delimited(&word) {
                return Ok(self.pass(began, &word));
            }
            marks.last = self.mark();
            let Ok(line) = self.next_line() else {
                return self.unfinished(began, &word, &marks);
            };
            self.spared(line)?;
            self.advance(line.len());
            let crlf = line.ends_with(b"\r\n");
            self.session.may = match self.session.bend {
                Bend::BareFeed => true,
                Bend::FlagNever => false,
                _ => crlf,
            };
            marks.passed(self.mark(), crlf);
        }
    }

    fn mark(&self) -> Mark {
        Mark {
            pos: self.pos,
            may: self.session.may,
            rest: self.session.rest,
        }
    }

    fn back_to(&mut self, mark: Mark) {
        self.pos = mark.pos;
        self.session.may = mark.may;
        self.session.rest = mark.rest;
    }

    fn delimited(&self, word: &[u8]) -> bool {
        let left = self.left();
        let waits = match self.session.bend {
            Bend::DelimiterLine => !left.contains(&b'\n'),
            Bend::DelimiterTwo => left.len() < word.len() + 2,
            _ => false,
        };
        left.starts_with(word) && !waits
    }

    fn pass(&mut self, began: usize, word: &[u8]) -> usize {
        let place = self.at();
        let stays = self.is(Bend::CrlfStays) && self.pos == 0;
        self.advance(word.len());
        if place == began || stays { place } else { place - 2 }
    }

    /// A region whose delimiter is not there yet.
    fn unfinished(&mut self, began: usize, word: &[u8], marks: &Marks) -> Step<usize> {
        let preamble = matches!(self.session.phase, Phase::Preamble { .. });
        let kept = if preamble { Bend::PreambleKept } else { Bend::ContentKept };
        let taken = if preamble { Bend::UnfinishedPreamble } else { Bend::UnfinishedContent };
        let moves = if preamble { Bend::PlacePreamble } else { Bend::PlaceContent };
        let left = self.left();
        if self.is(kept) {
            self.back_to(marks.first);
        } else if self.is(Bend::FeedKept) {
            self.back_to(marks.firm);
        } else if self.is(Bend::CrlfKept) && self.session.may && self.pos > marks.first.pos {
            let length = self.pos - marks.before.pos;
            self.back_to(marks.before);
            self.advance(length - 2);
            self.session.may = false;
        } else if self.is(taken) && !(self.session.may && word.starts_with(left)) {
            self.advance(left.len());
            self.session.may = false;
        }
        Err((1, if self.is(moves) { self.at() } else { began }))
    }

    /// Behind a close: the literal's rest if it is short, else a line.
    pub(crate) fn skipping(&mut self) -> Step<()> {
        let imap = self.session.entry == b'I';
        let outermost = &self.session.open[0];
        let rest = self.session.rest.unwrap_or(0);
        if imap && rest != 0 && rest < outermost.len() as u64 {
            return self.skip_rest(rest as usize);
        }
        let line = self.line()?;
        let dot = !imap && line == b".\r\n";
        if dot || fields::dash_line(line, &self.session.open[0], Nothing) {
            self.leave_level()
        } else {
            Ok(())
        }
    }

    fn skip_rest(&mut self, rest: usize) -> Step<()> {
        let began = self.session.past.skipped.unwrap_or(self.at());
        let here = self.left().len();
        if here < rest {
            if self.is(Bend::RestPieces) {
                self.advance(here);
                self.session.past.skipped = Some(began);
            }
            return Err((1, began));
        }
        self.spared(&self.left()[..rest])?;
        self.session.past.skipped = None;
        self.advance(rest);
        self.leave_level()
    }

    fn leave_level(&mut self) -> Step<()> {
        self.session.open.pop();
        if self.session.open.is_empty() { self.after_mail() } else { self.begin_header() }
    }
}
