//! The stream the parsers read from: document 01's section "Reading", word for word. A read past
//! the end is a future that stays pending.

use crate::packet::Packet;
use crate::trace::{Read, Trace};
use memchr::memmem::Finder;
use std::future::pending;
use std::marker::PhantomData;

#[derive(PartialEq, Eq)]
#[allow(dead_code)]
pub enum ReadRet {
    Data,
    DashBdry,
}

pub struct PktStrm<T> {
    bytes: &'static [u8],
    trace: *const Trace,
    ascii: bool,
    held: bool,
    form: PhantomData<T>,
}

impl<T: Packet> PktStrm<T> {
    /// The caller keeps `bytes` and `trace` alive as long as the stream and every future made from it.
    pub unsafe fn new(bytes: &[u8], ascii: bool, trace: &Trace) -> Self {
        let bytes = unsafe { std::slice::from_raw_parts(bytes.as_ptr(), bytes.len()) };
        PktStrm {
            bytes,
            trace,
            ascii,
            held: true,
            form: PhantomData,
        }
    }

    /// A stream of which only the first payload is looked at, if it is held.
    pub unsafe fn payload(bytes: &[u8], held: bool, trace: &Trace) -> Self {
        let mut stream = unsafe { Self::new(bytes, bytes.is_ascii(), trace) };
        stream.held = held;
        stream
    }

    fn trace(&self) -> &Trace {
        unsafe { &*self.trace }
    }

    fn rest(&self) -> &'static [u8] {
        &self.bytes[self.trace().at.get()..]
    }

    async fn wait<V>(&self, found: Option<V>) -> V {
        match found {
            Some(value) if !self.trace().stopped() => value,
            _ => {
                self.trace().short();
                pending().await
            }
        }
    }

    /// Bytes that are no UTF-8 must not become a `str`: such a session is left unjudged.
    async fn text(&self, bytes: &'static [u8]) -> &'static str {
        if !self.ascii && std::str::from_utf8(bytes).is_err() {
            self.trace().garbled.set(true);
            return pending().await;
        }
        unsafe { std::str::from_utf8_unchecked(bytes) }
    }

    async fn next_line(&self) -> &'static [u8] {
        let rest = self.rest();
        let end = self.wait(T::line_feed(rest)).await + 1;
        &rest[..end]
    }

    async fn line(&self) -> (&'static [u8], u32) {
        let line = self.next_line().await;
        let at = self.trace().at.get();
        self.trace().moved(Read::Line, at, at + line.len());
        (line, at as u32)
    }

    async fn clean_line(&self) -> (&'static [u8], u32) {
        let (line, seq) = self.line().await;
        let line = &line[..line.len() - 1];
        (line.strip_suffix(b"\r").unwrap_or(line), seq)
    }

    pub async fn readline(&mut self) -> Result<(&[u8], u32), ()> {
        Ok(self.line().await)
    }

    pub async fn readline_str(&mut self) -> Result<(&str, u32), ()> {
        let (line, seq) = self.line().await;
        Ok((self.text(line).await, seq))
    }

    pub async fn read_clean_line(&mut self) -> Result<(&[u8], u32), ()> {
        Ok(self.clean_line().await)
    }

    pub async fn read_clean_line_str(&mut self) -> Result<(&str, u32), ()> {
        let (line, seq) = self.clean_line().await;
        Ok((self.text(line).await, seq))
    }

    pub async fn peekline_str(&mut self) -> Result<&str, ()> {
        let line = self.next_line().await;
        Ok(self.text(line).await)
    }

    pub async fn readn(&mut self, size: usize) -> Result<(&[u8], u32), ()> {
        let bytes = self.wait(self.rest().get(..size)).await;
        let at = self.trace().at.get();
        self.trace().moved(Read::Sized, at + size, at + size);
        self.trace().two(bytes);
        Ok((bytes, at as u32))
    }

    pub async fn read(&mut self, size: usize) -> Result<(&[u8], u32), ()> {
        self.readn(size).await
    }

    pub async fn read_mime_octet(&mut self, finder: &Finder<'_>, boundary: &str) -> Result<(ReadRet, &[u8], u32), ()> {
        self.trace().seek_delimiter();
        let region = self.rest();
        let place = self.wait(T::delimiter(region, finder, boundary.as_bytes())).await;
        let at = self.trace().at.get();
        let length = place.saturating_sub(2);
        self.trace().moved(Read::Delimiter, at + length, at + place + 2 + boundary.len());
        Ok((ReadRet::DashBdry, &region[..length], at as u32))
    }

    pub fn get_read_size(&self) -> usize {
        self.trace().at.get()
    }

    pub fn peek_payload(&self) -> Result<&[u8], ()> {
        if self.held { Ok(self.bytes) } else { Err(()) }
    }
}
