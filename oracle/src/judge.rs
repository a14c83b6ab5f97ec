//! The oracle: one case through the Rust, both forms of the stream.

use crate::case::{Answer, Case, Event, Listing, Sides};
use crate::lens::{Parser, ParserFuture, Parsers};
use crate::packet::{Packet, Plain, Swift};
use crate::stream::PktStrm;
use crate::trace::{LEVELS, Trace};
use std::cell::RefCell;
use std::ffi::c_void;
use std::panic::{AssertUnwindSafe, catch_unwind};
use std::task::{Context, Poll, Waker};

pub const LONGEST: usize = 16_777_216;

thread_local! {
    static PANIC: RefCell<String> = const { RefCell::new(String::new()) };
}

/// Keeps the message and file of a panic instead of printing them.
pub fn silence_panics() {
    std::panic::set_hook(Box::new(|info| {
        let file = info.location().map_or("", |place| place.file().rsplit('/').next().unwrap_or(""));
        let told = info.to_string();
        let message = told.split_once('\n').map_or("", |(_, message)| message);
        let message = if message.contains("char boundary") { "off a character boundary" } else { message };
        PANIC.with(|kept| *kept.borrow_mut() = format!("panic in {file}: {message}"));
    }));
}

fn last_panic() -> String {
    PANIC.with(|kept| kept.borrow().clone())
}

/// Why a session with bytes above 127 may go unjudged.
pub const NO_TEXT: &str = "no UTF-8";

/// The panic that a skipped line above 127 brings about.
pub const OFF_BOUNDARY: &str = "panic in common.rs: off a character boundary";

/// The one panic document 01 knows: the literal is below its header's length.
const KNOWN_PANIC: &str = "panic in imap.rs: attempt to subtract with overflow";

pub struct Judge<T> {
    parsers: Parsers<T>,
    overlays: bool,
    /// Sessions are known to be ASCII, so that nobody has to look.
    ascii: bool,
}

pub type PlainJudge = Judge<Plain>;
pub type SwiftJudge = Judge<Swift>;

impl<T: Packet + 'static> Judge<T> {
    pub fn new(overlays: bool) -> Self {
        Judge { parsers: Parsers::new(), overlays, ascii: false }
    }

    pub fn for_ascii() -> Self {
        Judge { parsers: Parsers::new(), overlays: true, ascii: true }
    }

    pub fn answer(&self, case: &Case) -> Answer {
        if case.entry == b'D' {
            let sides = Sides::parse(&case.bytes).expect("a direction case");
            return self.direction(&sides);
        }
        self.session(case.entry, &case.bytes, case.slots(), Vec::new()).0
    }

    /// The answer, and where reading stood at the end. `events` is an empty list to fill.
    pub fn session(&self, entry: u8, bytes: &[u8], slots: usize, events: Vec<Event>) -> (Answer, [u32; 4]) {
        if self.overlays && bytes.len() > LONGEST {
            return (Answer::Session(Listing { result: 2, ..Listing::default() }), [0; 4]);
        }
        let (slots, levels) = if self.overlays { (slots, LEVELS) } else { (usize::MAX, usize::MAX) };
        let trace = Trace::new(bytes, slots, levels, events);
        let mut stream = unsafe { PktStrm::<T>::new(bytes, self.ascii || bytes.is_ascii(), &trace) };
        let future = self.future(entry, &mut stream, &trace);
        let unjudged = poll(future, &trace);
        let phase = trace.phase();
        match unjudged {
            Some(why) => (Answer::Unjudged(why), phase),
            None => (Answer::Session(trace.listing()), phase),
        }
    }

    fn future(&self, entry: u8, stream: *mut PktStrm<T>, trace: &Trace) -> ParserFuture {
        let context = trace as *const Trace as *mut c_void;
        let future = match entry {
            b'S' => self.parsers.smtp.c2s_parser(stream, context),
            b's' => self.parsers.smtp.s2c_parser(stream, context),
            b'P' => self.parsers.pop3.s2c_parser(stream, context),
            _ => self.parsers.imap.c2s_parser(stream, context),
        };
        future.expect("every entry has a parser")
    }

    fn direction(&self, sides: &Sides) -> Answer {
        let parser: &dyn Parser<T = T> = match sides.protocol {
            1 => &*self.parsers.smtp,
            2 => &*self.parsers.pop3,
            3 => &*self.parsers.imap,
            _ => return Answer::Direction(3),
        };
        let server = sides.server.unwrap_or_default();
        if sides.protocol == 3 && std::str::from_utf8(server).is_err() {
            return Answer::Unjudged(NO_TEXT.to_string());
        }
        let trace = Trace::new(server, 0, 0, Vec::new());
        let client = sides.client.unwrap_or_default();
        let mut c2s = unsafe { PktStrm::<T>::payload(client, sides.client.is_some(), &trace) };
        let mut s2c = unsafe { PktStrm::<T>::payload(server, sides.server.is_some(), &trace) };
        let confirm = parser.dir_confirm();
        let ask = || confirm(&mut c2s, &mut s2c, sides.client_port, sides.server_port);
        match catch_unwind(AssertUnwindSafe(ask)) {
            Ok(Some(true)) => Answer::Direction(0),
            Ok(Some(false)) => Answer::Direction(1),
            Ok(None) => Answer::Direction(2),
            Err(_) => Answer::Unjudged(last_panic()),
        }
    }
}

/// Polls once; says why the session cannot be judged, if it cannot.
fn poll(mut future: ParserFuture, trace: &Trace) -> Option<String> {
    let mut context = Context::from_waker(Waker::noop());
    match catch_unwind(AssertUnwindSafe(|| future.as_mut().poll(&mut context))) {
        Ok(Poll::Pending) if trace.garbled.get() => return Some(NO_TEXT.to_string()),
        Ok(Poll::Pending) => {}
        Ok(Poll::Ready(Ok(()))) => trace.done(),
        Ok(Poll::Ready(Err(()))) => trace.refused(),
        Err(_) if trace.stopped() => {}
        Err(_) if last_panic() == KNOWN_PANIC => trace.overflowed(),
        Err(_) => return Some(last_panic()),
    }
    None
}
