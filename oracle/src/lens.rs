//! The parsers' surroundings: their traits, the ports, and callbacks that write to the trace.

use crate::packet::Packet;
use crate::parser::imap::ImapFactory;
use crate::parser::pop3::Pop3Factory;
use crate::parser::smtp::SmtpFactory;
use crate::stream::PktStrm;
use crate::trace::Trace;
use crate::*;
use std::cell::RefCell;
use std::ffi::c_void;
use std::marker::PhantomData;
use std::pin::Pin;
use std::rc::Rc;

pub const SMTP_PORT: u16 = 25;
pub const POP3_PORT: u16 = 110;
pub const IMAP_PORT: u16 = 143;

pub type ParserFuture = Pin<Box<dyn Future<Output = Result<(), ()>>>>;
pub type DirConfirmFn<T> = fn(*mut PktStrm<T>, *mut PktStrm<T>, u16, u16) -> Option<bool>;

pub trait Parser {
    type T: Packet;
    fn dir_confirm(&self) -> DirConfirmFn<Self::T>;
    fn c2s_parser(&self, stream: *mut PktStrm<Self::T>, context: *mut c_void) -> Option<ParserFuture>;
    fn s2c_parser(&self, stream: *mut PktStrm<Self::T>, context: *mut c_void) -> Option<ParserFuture>;
}

pub trait ParserFactory<T: Packet> {
    fn new() -> Self
    where
        Self: Sized;
    fn create(&self, prolens: &Prolens<T>) -> Box<dyn Parser<T = T>>;
}

/// The callback fields that the three factories copy.
pub struct Prolens<T> {
    pub cb_smtp_user: Option<CbUser>,
    pub cb_smtp_pass: Option<CbPass>,
    pub cb_smtp_mailfrom: Option<CbMailFrom>,
    pub cb_smtp_rcpt: Option<CbRcpt>,
    pub cb_smtp_header: Option<CbHeader>,
    pub cb_smtp_body_start: Option<CbBodyEvt>,
    pub cb_smtp_body: Option<CbBody>,
    pub cb_smtp_body_stop: Option<CbBodyEvt>,
    pub cb_smtp_srv: Option<CbSrv>,
    pub cb_pop3_header: Option<CbHeader>,
    pub cb_pop3_body_start: Option<CbBodyEvt>,
    pub cb_pop3_body: Option<CbBody>,
    pub cb_pop3_body_stop: Option<CbBodyEvt>,
    pub cb_pop3_clt: Option<CbClt>,
    pub cb_pop3_srv: Option<CbSrv>,
    pub cb_imap_header: Option<CbHeader>,
    pub cb_imap_body_start: Option<CbBodyEvt>,
    pub cb_imap_body: Option<CbBody>,
    pub cb_imap_body_stop: Option<CbBodyEvt>,
    pub cb_imap_clt: Option<CbClt>,
    pub cb_imap_srv: Option<CbSrv>,
    form: PhantomData<T>,
}

fn trace<'a>(context: *mut c_void) -> &'a Trace {
    unsafe { &*(context as *const Trace) }
}

fn text(kind: u32) -> Option<CbClt> {
    Some(Rc::new(RefCell::new(move |bytes: &[u8], seq: u32, context: *mut c_void| {
        trace(context).text(kind, bytes, seq)
    })))
}

fn mark(write: fn(&Trace)) -> Option<CbBodyEvt> {
    Some(Rc::new(RefCell::new(move |context: *mut c_void, _: Direction| write(trace(context)))))
}

fn header_line() -> Option<CbHeader> {
    Some(Rc::new(RefCell::new(|bytes: &[u8], seq: u32, context: *mut c_void, _: Direction| {
        trace(context).text(1, bytes, seq)
    })))
}

fn content() -> Option<CbBody> {
    Some(Rc::new(RefCell::new(
        |bytes: &[u8], seq: u32, context: *mut c_void, _: Direction, encoding: Option<TransferEncoding>| {
            trace(context).body(bytes, seq, encoding)
        },
    )))
}

impl<T> Prolens<T> {
    fn new() -> Self {
        let (start, stop) = (mark(Trace::start), mark(Trace::stop));
        Prolens {
            cb_smtp_user: text(9),
            cb_smtp_pass: text(10),
            cb_smtp_mailfrom: text(11),
            cb_smtp_rcpt: text(12),
            cb_smtp_header: header_line(),
            cb_smtp_body_start: start.clone(),
            cb_smtp_body: content(),
            cb_smtp_body_stop: stop.clone(),
            cb_smtp_srv: text(8),
            cb_pop3_header: header_line(),
            cb_pop3_body_start: start.clone(),
            cb_pop3_body: content(),
            cb_pop3_body_stop: stop.clone(),
            cb_pop3_clt: text(7),
            cb_pop3_srv: text(8),
            cb_imap_header: header_line(),
            cb_imap_body_start: start,
            cb_imap_body: content(),
            cb_imap_body_stop: stop,
            cb_imap_clt: text(7),
            cb_imap_srv: text(8),
            form: PhantomData,
        }
    }
}

pub struct Parsers<T> {
    pub smtp: Box<dyn Parser<T = T>>,
    pub pop3: Box<dyn Parser<T = T>>,
    pub imap: Box<dyn Parser<T = T>>,
}

impl<T: Packet + 'static> Parsers<T> {
    pub fn new() -> Self {
        let lens = Prolens::new();
        Parsers {
            smtp: SmtpFactory::new().create(&lens),
            pop3: Pop3Factory::new().create(&lens),
            imap: ImapFactory::new().create(&lens),
        }
    }
}
