//! What one session has read and listed so far. The stream writes it at each read, the callbacks at
//! each event, and the result is told from it when the parser ends or waits.

use crate::TransferEncoding;
use crate::case::{Event, Listing};
use std::cell::{Cell, RefCell};

pub const LEVELS: usize = 8;

#[derive(Clone, Copy, PartialEq, Eq)]
pub enum Read {
    Nothing,
    Line,
    Sized,
    Delimiter,
}

pub struct Trace {
    base: *const u8,
    slots: usize,
    levels: usize,
    pub at: Cell<usize>,
    pub began: Cell<usize>,
    read: Cell<Read>,
    before: Cell<Read>,
    content_end: Cell<usize>,
    lines: Cell<usize>,
    in_content: Cell<bool>,
    level: Cell<usize>,
    stop: Cell<Option<(u32, usize)>>,
    pub garbled: Cell<bool>,
    events: RefCell<Vec<Event>>,
}

impl Trace {
    /// `levels` and `slots` are the limits laid over the Rust (refusals 9 and 10); `events` is empty.
    pub fn new(bytes: &[u8], slots: usize, levels: usize, events: Vec<Event>) -> Trace {
        Trace {
            base: bytes.as_ptr(),
            slots,
            levels,
            at: Cell::new(0),
            began: Cell::new(0),
            read: Cell::new(Read::Nothing),
            before: Cell::new(Read::Nothing),
            content_end: Cell::new(0),
            lines: Cell::new(0),
            in_content: Cell::new(false),
            level: Cell::new(0),
            stop: Cell::new(None),
            garbled: Cell::new(false),
            events: RefCell::new(events),
        }
    }

    pub fn stopped(&self) -> bool {
        self.stop.get().is_some()
    }

    fn halt(&self, result: u32, place: usize) {
        if !self.stopped() {
            self.stop.set(Some((result, place)));
        }
    }

    /// A read needs bytes beyond the end.
    pub fn short(&self) {
        self.halt(1, self.at.get());
    }

    /// A read from `at` to `next`, whose content ends at `content_end`.
    pub fn moved(&self, read: Read, content_end: usize, next: usize) {
        self.before.set(self.read.replace(read));
        self.began.set(self.at.replace(next));
        self.content_end.set(content_end);
        if read == Read::Line {
            self.lines.set(self.lines.get() + 1);
        }
    }

    /// A delimiter is looked for. Outside a part's content that is a preamble: a level opens.
    pub fn seek_delimiter(&self) {
        if !self.in_content.get() {
            self.level.set(self.level.get() + 1);
            if self.level.get() > self.levels {
                self.halt(9, self.at.get());
            }
        }
    }

    /// Two bytes were read; right behind a delimiter two hyphens close a level.
    pub fn two(&self, bytes: &[u8]) {
        if self.before.get() == Read::Delimiter && bytes == b"--" {
            self.level.set(self.level.get().saturating_sub(1));
        }
    }

    fn put(&self, kind: u32, offset: usize, length: usize, encoding: u32) {
        if self.stopped() {
            return;
        }
        let mut events = self.events.borrow_mut();
        if events.len() >= self.slots {
            self.halt(10, offset);
        } else {
            events.push([kind, offset as u32, length as u32, encoding]);
        }
    }

    /// The sequence number handed over must be the slice's own offset: the stream starts at 0.
    fn place_of(&self, bytes: &[u8], seq: u32) -> usize {
        let offset = (bytes.as_ptr() as usize).wrapping_sub(self.base as usize);
        if offset != seq as usize {
            eprintln!("oracle: a callback got offset {seq} for bytes at {offset}");
            std::process::abort();
        }
        offset
    }

    pub fn text(&self, kind: u32, bytes: &[u8], seq: u32) {
        self.put(kind, self.place_of(bytes, seq), bytes.len(), 0);
    }

    pub fn start(&self) {
        self.in_content.set(true);
        self.content_end.set(self.at.get());
        self.put(2, self.at.get(), 0, 0);
    }

    /// The stream hands a sized or a part body over whole, so there are no calls to join; an empty
    /// one is dropped here.
    pub fn body(&self, bytes: &[u8], seq: u32, encoding: Option<TransferEncoding>) {
        let offset = self.place_of(bytes, seq);
        let kind = match self.read.get() {
            Read::Sized => 4,
            Read::Delimiter => 5,
            _ => 3,
        };
        if kind == 3 || !bytes.is_empty() {
            self.put(kind, offset, bytes.len(), encoding_number(encoding));
        }
    }

    pub fn stop(&self) {
        self.in_content.set(false);
        self.put(6, self.content_end.get(), 0, 0);
    }

    /// `Err(())` numbered by the last reads.
    fn refusal(&self) -> (u32, usize) {
        let number = match (self.read.get(), self.before.get(), self.lines.get()) {
            (Read::Line, _, 1) => 3,
            (Read::Line, _, 2) => 4,
            (Read::Line, _, _) => 5,
            (_, Read::Delimiter, _) => 6,
            _ => 8,
        };
        (number, self.began.get())
    }

    pub fn done(&self) {
        self.halt(0, self.at.get());
    }

    pub fn refused(&self) {
        let (number, place) = self.refusal();
        self.halt(number, place);
    }

    pub fn overflowed(&self) {
        self.halt(7, self.at.get());
    }

    /// Where reading stood: the last two reads, whether in a body, the level.
    pub fn phase(&self) -> [u32; 4] {
        let in_content = u32::from(self.in_content.get());
        [self.read.get() as u32, self.before.get() as u32, in_content, self.level.get() as u32]
    }

    pub fn listing(self) -> Listing {
        let (result, place) = self.stop.get().unwrap_or((1, self.at.get()));
        Listing {
            events: self.events.into_inner(),
            result,
            place: place as u32,
        }
    }
}

fn encoding_number(encoding: Option<TransferEncoding>) -> u32 {
    match encoding {
        None => 0,
        Some(TransferEncoding::Bit7) => 1,
        Some(TransferEncoding::Bit8) => 2,
        Some(TransferEncoding::Binary) => 3,
        Some(TransferEncoding::QuotedPrintable) => 4,
        Some(TransferEncoding::Base64) => 5,
    }
}
