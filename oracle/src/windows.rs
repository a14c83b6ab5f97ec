//! Document 02's W2 and W6 by their words: a session shown by windows, on bytes, plain and slow.
//! Between two windows only what `Session` holds is known. `Bend::Nothing` reads it right; any other
//! value bends one rule.

use crate::fields;
use crate::windows_forgets::Past;
use crate::windows_mail::Head;
use crate::windows_strict::Late;
use crate::wrong::Wrong::Nothing;
use crate::wrong_windows::Bend;

pub const LONGEST: usize = 16_777_216;

/// The answer to one window.
#[derive(Clone, Copy, PartialEq, Eq, Debug, Default)]
pub struct Shown {
    pub result: u32,
    pub place: u32,
    pub count: u32,
    pub taken: u32,
}

/// The read that comes next. A sized body, a preamble and a content may be half taken.
#[derive(Clone, Copy, PartialEq, Eq, Debug)]
pub enum Phase {
    Hello,
    Second,
    User,
    Password,
    Sender,
    Seeking,
    Recipient,
    Reply,
    Status,
    Command,
    /// The line behind an append of this size is only looked at.
    Offered {
        size: u64,
    },
    Head,
    Text,
    Sized {
        began: usize,
        left: u64,
    },
    Preamble {
        began: usize,
    },
    Opened,
    Content {
        began: usize,
    },
    Between,
    Skipping,
    Closing,
}

#[derive(Clone)]
pub struct Session {
    pub(crate) entry: u8,
    limit: usize,
    /// Lines that end in a bare LF refuse.
    pub(crate) strict: bool,
    pub(crate) bend: Bend,
    pub(crate) taken: usize,
    pub(crate) count: usize,
    pub(crate) phase: Phase,
    pub(crate) head: Head,
    /// Copies of the open boundaries, the outermost first.
    pub(crate) open: Vec<Vec<u8>>,
    /// In a preamble or content: a delimiter may stand at the next byte.
    pub(crate) may: bool,
    /// What is left of the literal; nothing once it is passed.
    pub(crate) rest: Option<u64>,
    ended: Option<Shown>,
    pub(crate) past: Past,
}

impl Session {
    pub fn begin(entry: u8, limit: usize, strict: bool, bend: Bend) -> Session {
        let phase = match entry {
            b'S' => Phase::Hello,
            b's' => Phase::Reply,
            b'P' => Phase::Status,
            _ => Phase::Command,
        };
        let strict = match bend {
            Bend::StrictAlways => true,
            Bend::StrictNever => false,
            _ => strict,
        };
        Session {
            entry,
            limit,
            strict,
            bend,
            taken: 0,
            count: 0,
            phase,
            head: Head::default(),
            open: Vec::new(),
            may: false,
            rest: None,
            ended: None,
            past: Past::default(),
        }
    }

    pub(crate) fn is(&self, bend: Bend) -> bool {
        self.bend == bend
    }

    /// Begun again, with the bytes and events it has.
    pub(crate) fn anew(&self) -> Session {
        Session {
            taken: self.taken,
            count: self.count,
            ..Session::begin(self.entry, self.limit, self.strict, self.bend)
        }
    }

    /// One window: what was not taken before, then new bytes. The table has floor(length/4) slots.
    pub fn show(&mut self, window: &[u8], table: &mut [u32]) -> Shown {
        let over = self.over(window);
        if let Some(answer) = self.ended {
            return if over && self.is(Bend::LimitEnded) {
                self.beyond()
            } else {
                self.repeated(answer, window)
            };
        }
        if over && !self.is(Bend::LimitLate) && !self.eleven_first(window, table) {
            return self.beyond();
        }
        self.forget(window, table);
        let before = matches!(self.bend, Bend::RefusalOpen | Bend::TenAgain).then(|| self.clone());
        let mut walk = Walk { session: self, window, pos: 0, table, late: None };
        let stop = walk.run();
        let pos = walk.pos;
        if over && self.is(Bend::LimitLate) {
            return self.beyond();
        }
        let shown = self.settled(stop, pos, window);
        self.remember(before, shown, window);
        shown
    }

    fn over(&mut self, window: &[u8]) -> bool {
        self.past.shown += window.len();
        let shown = match self.bend {
            Bend::LimitTwice => self.past.shown,
            Bend::LimitWindow => window.len(),
            Bend::LimitTaken => self.taken,
            Bend::LimitEqual => self.taken + window.len() + 1,
            _ => self.taken + window.len(),
        };
        shown > self.limit
    }

    /// Refusal 2.
    fn beyond(&mut self) -> Shown {
        let place = if self.is(Bend::TwoPlace) { self.taken } else { 0 };
        let count = if self.is(Bend::TwoForgets) { 0 } else { self.count };
        let answer = Shown {
            result: 2,
            place: place as u32,
            count: count as u32,
            taken: 0,
        };
        self.ended = (!self.is(Bend::TwoOpen)).then_some(answer);
        answer
    }

    /// A bent reading looks for 11 in a window past the limit.
    fn eleven_first(&self, window: &[u8], table: &[u32]) -> bool {
        let unlimited = || Session { limit: usize::MAX, ..self.clone() };
        self.is(Bend::ElevenFirst) && unlimited().show(window, &mut table.to_vec()).result == 11
    }

    fn repeated(&self, answer: Shown, window: &[u8]) -> Shown {
        let again = Shown { taken: 0, ..answer };
        match self.bend {
            Bend::RepeatCount => Shown { count: 0, ..again },
            Bend::RepeatPlace => Shown { place: 0, ..again },
            Bend::RepeatTakes => Shown { taken: window.len() as u32, ..again },
            Bend::RepeatEmpty if window.is_empty() => Shown { result: 1, ..again },
            _ => again,
        }
    }

    /// What the window is answered, and what of it is taken.
    fn settled(&mut self, (result, place): Stop, pos: usize, window: &[u8]) -> Shown {
        let to_place = place.saturating_sub(self.taken);
        let taken = match (result, self.bend) {
            (0, Bend::DoneAll) => window.len(),
            (0, Bend::DoneNothing) => 0,
            (0, _) => to_place,
            (1, _) => pos,
            (_, Bend::RefusalTakesPlace) | (11, Bend::ElevenTakes) => to_place,
            (_, Bend::RefusalTakesAll) => window.len(),
            _ => 0,
        };
        let place = if result == 1 && self.is(Bend::PlaceWindow) { to_place } else { place };
        self.taken += taken;
        let shown = Shown {
            result,
            place: place as u32,
            count: self.count as u32,
            taken: taken as u32,
        };
        self.ended = (result != 1).then_some(shown);
        shown
    }

    /// Bends undo an end here.
    fn remember(&mut self, before: Option<Session>, shown: Shown, window: &[u8]) {
        self.past.again = (window.len() as u64).saturating_sub(u64::from(shown.taken));
        self.past.last = window[..shown.taken as usize].last().copied().or(self.past.last);
        let undone = shown.result == 10 || (shown.result > 1 && self.is(Bend::RefusalOpen));
        if let Some(before) = before.filter(|_| undone) {
            *self = before;
        }
        if self.is(Bend::DoneOpen) && shown.result == 0 {
            self.ended = None;
            self.phase = Phase::Reply;
        }
    }
}

/// A result with its place; 1 is a read that is not finished.
pub type Stop = (u32, usize);
pub type Step<V> = Result<V, Stop>;

/// One window on its way through a session.
pub struct Walk<'a> {
    pub(crate) session: &'a mut Session,
    pub(crate) window: &'a [u8],
    /// How much of the window is read.
    pub(crate) pos: usize,
    pub(crate) table: &'a mut [u32],
    /// Only bent readings put something before 11.
    pub(crate) late: Option<Late>,
}

impl<'a> Walk<'a> {
    fn run(&mut self) -> Stop {
        let count = self.session.count;
        if count > self.slots() && self.is(Bend::TableShort) {
            return (10, self.at());
        }
        let stop = loop {
            let went = self.step();
            if let Err(stop) = self.overdue(went) {
                break stop;
            }
        };
        if stop.0 > 1 && self.is(Bend::RefusalWithdraws) {
            self.session.count = count;
        }
        stop
    }

    pub(crate) fn is(&self, bend: Bend) -> bool {
        self.session.is(bend)
    }

    fn step(&mut self) -> Step<()> {
        match self.session.phase {
            Phase::Hello => self.hello(),
            Phase::Second => self.second(),
            Phase::User => self.secret(9, Phase::Password),
            Phase::Password => self.secret(10, Phase::Sender),
            Phase::Sender => self.sender(true),
            Phase::Seeking => self.sender(false),
            Phase::Recipient => self.recipient(),
            Phase::Reply => self.reply(),
            Phase::Status => self.status(),
            Phase::Command => self.command(),
            Phase::Offered { size } => self.offered(size),
            Phase::Closing => self.closing(),
            Phase::Head => self.head_line(),
            Phase::Text => self.text_line(),
            Phase::Sized { began, left } => self.sized(began, left),
            Phase::Preamble { began } => self.preamble(began),
            Phase::Opened => self.opened(),
            Phase::Content { began } => self.content(began),
            Phase::Between => self.between(),
            Phase::Skipping => self.skipping(),
        }
    }

    pub(crate) fn go(&mut self, phase: Phase) -> Step<()> {
        self.session.phase = phase;
        Ok(())
    }

    /// The session's offset of the next byte.
    pub(crate) fn at(&self) -> usize {
        self.session.taken + self.pos
    }

    pub(crate) fn left(&self) -> &'a [u8] {
        &self.window[self.pos..]
    }

    pub(crate) fn put(&mut self, kind: u32, offset: usize, length: usize, encoding: u32) -> Step<()> {
        let front = if self.is(Bend::OffsetWindow) { self.session.taken } else { 0 };
        let event = [kind, offset.saturating_sub(front) as u32, length as u32, encoding];
        if self.session.count >= self.slots() {
            return Err((10, offset));
        }
        let slot = self.table.iter_mut().skip(self.session.count * 4);
        slot.zip(event).for_each(|(number, value)| *number = value);
        self.session.count += 1;
        Ok(())
    }

    fn slots(&mut self) -> usize {
        let slots = self.table.len() / 4;
        match self.session.bend {
            Bend::TableFirst => *self.session.past.slots.get_or_insert(slots),
            Bend::TableOdd => self.table.len().div_ceil(4),
            _ => slots,
        }
    }

    // Reading

    pub(crate) fn short<V>(&self) -> Step<V> {
        Err((1, self.at()))
    }

    pub(crate) fn advance(&mut self, size: usize) {
        self.pos += size;
        let rest = self.session.rest;
        self.session.rest = rest.and_then(|rest| rest.checked_sub(size as u64));
    }

    /// The next line, whatever it ends in.
    pub(crate) fn next_line(&self) -> Step<&'a [u8]> {
        let left = self.left();
        let feed = left.iter().position(|&b| b == b'\n');
        feed.map_or_else(|| self.short(), |feed| Ok(&left[..feed + 1]))
    }

    pub(crate) fn line(&mut self) -> Step<&'a [u8]> {
        let line = self.peek()?;
        self.advance(line.len());
        Ok(line)
    }

    fn clean_line(&mut self) -> Step<&'a [u8]> {
        let line = self.line()?;
        let line = &line[..line.len() - 1];
        Ok(line.strip_suffix(b"\r").unwrap_or(line))
    }

    /// Two bytes and where they stand.
    pub(crate) fn two(&mut self) -> Step<([u8; 2], usize)> {
        let held = self.session.past.held;
        let from = self.at() - usize::from(held.is_some());
        let (two, size) = match (held, self.left()) {
            (Some(first), &[second, ..]) => ([first, second], 1),
            (None, &[first, second, ..]) => ([first, second], 2),
            (None, &[first]) if self.is(Bend::TwoPieces) => {
                self.session.past.held = Some(first);
                self.advance(1);
                return Err((1, from));
            }
            _ => return Err((1, from)),
        };
        self.spared(&two)?;
        self.session.past.held = None;
        self.advance(size);
        Ok((two, from))
    }

    // SMTP

    fn hello(&mut self) -> Step<()> {
        if !fields::hello(self.line()?, Nothing) {
            return Err((3, 0));
        }
        self.go(Phase::Second)
    }

    fn second(&mut self) -> Step<()> {
        let from = self.at();
        let line = self.clean_line()?;
        if fields::starttls(line, Nothing) {
            return Err((4, from));
        }
        if fields::auth_login(line, Nothing) {
            return self.go(Phase::User);
        }
        if fields::begins(line, b"MAIL FROM:", true) {
            return self.tried(from, line);
        }
        self.go(Phase::Seeking)
    }

    fn secret(&mut self, kind: u32, next: Phase) -> Step<()> {
        let from = self.at();
        let line = self.clean_line()?;
        self.put(kind, from, line.len(), 0)?;
        self.go(next)
    }

    fn sender(&mut self, any_line: bool) -> Step<()> {
        let from = self.at();
        let line = self.clean_line()?;
        if any_line || fields::begins(line, b"MAIL FROM:", true) {
            return self.tried(from, line);
        }
        Ok(())
    }

    fn tried(&mut self, from: usize, line: &[u8]) -> Step<()> {
        if let Some((start, end)) = fields::sender(line, Nothing) {
            self.put(11, from + start, end - start, 0)?;
        }
        self.go(Phase::Recipient)
    }

    fn recipient(&mut self) -> Step<()> {
        let from = self.at();
        let line = self.clean_line()?;
        if fields::data(line, Nothing) {
            return self.begin_header();
        }
        match fields::recipient(line, Nothing) {
            Some((start, Some(end))) => self.put(12, from + start, end - start, 0),
            _ => Err((5, from)),
        }
    }

    fn listed(&mut self, kind: u32) -> Step<&'a [u8]> {
        let from = self.at();
        let line = self.clean_line()?;
        self.put(kind, from, line.len(), 0)?;
        Ok(line)
    }

    fn reply(&mut self) -> Step<()> {
        if self.listed(8)?.starts_with(b"221") { Err((0, self.at())) } else { Ok(()) }
    }

    // POP3

    fn status(&mut self) -> Step<()> {
        let line = self.listed(8)?;
        if fields::tls_answer(line, Nothing) {
            return Err((0, self.at()));
        }
        if fields::retrieves(line, Nothing) { self.begin_header() } else { Ok(()) }
    }

    // IMAP

    fn command(&mut self) -> Step<()> {
        let line = self.listed(7)?;
        if fields::is_append(line, Nothing) {
            let size = fields::literal_size(line, Nothing);
            return self.go(Phase::Offered { size });
        }
        Ok(())
    }

    fn offered(&mut self, size: u64) -> Step<()> {
        let next = self.peek();
        if matches!(next, Err((1, _))) && self.is(Bend::PeekTaken) {
            self.advance(self.left().len());
        }
        let next = next?;
        self.session.past.peeked = Some(self.at());
        if next.contains(&b':') {
            self.session.rest = Some(size);
            self.session.past.size = size;
            return self.begin_header();
        }
        self.go(Phase::Command)
    }

    fn closing(&mut self) -> Step<()> {
        match self.two()? {
            ([b'\r', b'\n'], _) => self.go(Phase::Command),
            (_, from) => Err((8, from)),
        }
    }
}
