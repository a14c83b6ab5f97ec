//! What is raced: document 01's kinds of mail and hostile ones, made to a size.

/// How an input is met by windows.
#[derive(Clone, Copy, PartialEq, Eq)]
pub enum Windows {
    Same,
    /// Its lines are long: also by windows that grow.
    Growing,
    /// Its boundary is too long for them.
    Refused,
}

pub struct Input {
    pub name: &'static str,
    pub entry: u8,
    pub bytes: Vec<u8>,
    pub windows: Windows,
    /// Every line is UTF-8, so that the Rust can be asked.
    pub text: bool,
}

const ENVELOPE: &str = "EHLO a\r\nMAIL FROM: <b@c>\r\nRCPT TO: <d@e>\r\nDATA\r\n";

const TEXT: &[u8] = b"The gradient profile of section four is attached; please confirm before Friday. ";

const BASE64: &[u8] = b"ABCDEFGHIJKLMNOPQRSTUVWXYZabcdefghijklmnopqrstuvwxyz0123456789+/";

/// So many bytes of a pattern.
fn cycle(pattern: &[u8], length: usize) -> Vec<u8> {
    pattern.iter().copied().cycle().take(length).collect()
}

/// Head, a unit repeated as often as fits into `size`, tail.
fn filled(head: &str, unit: &[u8], tail: &str, size: usize) -> Vec<u8> {
    let mut bytes = head.as_bytes().to_vec();
    while bytes.len() + unit.len() + tail.len() <= size {
        bytes.extend_from_slice(unit);
    }
    bytes.extend_from_slice(tail.as_bytes());
    bytes
}

fn line(pattern: &[u8], columns: usize) -> Vec<u8> {
    [cycle(pattern, columns), b"\r\n".to_vec()].concat()
}

fn body(unit: &[u8], size: usize) -> Vec<u8> {
    filled(&format!("{ENVELOPE}To: d\r\n\r\n"), unit, ".\r\n", size)
}

/// A mail with one part, its content made of the unit.
fn part(boundary: &str, encoding: &str, unit: &[u8], size: usize) -> Vec<u8> {
    let head =
        format!("{ENVELOPE}Content-Type: multipart/mixed; boundary={boundary}\r\n\r\n--{boundary}\r\n{encoding}\r\n");
    filled(&head, unit, &format!("\r\n--{boundary}--\r\n.\r\n"), size)
}

fn nested() -> Vec<u8> {
    let mut mail = String::from("+OK 900 octets\r\n");
    for level in 1..=4 {
        mail += &format!("Content-Type: multipart/mixed; boundary=level{level}\r\n\r\n--level{level}\r\n");
    }
    mail += "Content-Transfer-Encoding: 7bit\r\n\r\nthe innermost part\r\n--level4--\r\n--level1\r\n";
    mail += "Content-Type: text/plain\r\n\r\na part behind it\r\n--level3--\r\n--level1\r\n";
    mail += "Content-Type: text/plain\r\n\r\nanother\r\n--level2--\r\n--level1\r\n";
    mail += "Content-Type: text/plain\r\n\r\nthe last one\r\n--level1--\r\n.\r\n";
    mail.into_bytes()
}

fn literal(size: usize) -> Vec<u8> {
    let length = size - 40;
    let mut bytes = format!("a APPEND x {{{length:08}}}\r\nTo: d\r\n\r\n").into_bytes();
    bytes.extend(cycle(TEXT, length - 9));
    bytes.extend_from_slice(b"\r\n");
    bytes
}

/// One append line, filled up behind its size; what follows is no mail.
fn append_line(unit: &[u8], size: usize) -> Vec<u8> {
    filled("a APPEND x {9}", unit, "\r\nb NOOP\r\n", size)
}

/// What a client says on its way to a folder and out of it.
const COMMANDS: &[u8] = b"a1 CAPABILITY\r\na2 SELECT INBOX\r\na3 FETCH 1:* (UID FLAGS)\r\na4 UID FETCH 7 BODY.PEEK[]\r\n\
    a5 STORE 3 +FLAGS (\\Deleted)\r\na6 EXPUNGE\r\na7 NOOP\r\na8 CLOSE\r\n";

const APPENDED: &[u8] = b"a1 NOOP\r\na2 APPEND Sent (\\Seen) {32}\r\nTo: c@d\r\nSubject: g\r\n\r\nRegards\r\n\r\n";

/// Document 01's kinds of mail and IMAP's commands, then hostile ones, of about this size each.
pub fn inputs(size: usize) -> Vec<Input> {
    let long = "q".repeat(1000);
    let near = |length: usize| [b"\r\n--".to_vec(), vec![b'q'; length], b"x".to_vec()].concat();
    let named = |name, entry, bytes| Input { name, entry, bytes, windows: Windows::Same, text: true };
    let met = |windows, input| Input { windows, ..input };
    vec![
        named("SMTP body, 76 columns", b'S', body(&line(TEXT, 76), size)),
        named("one base64 part", b'S', part("frontier", "Content-Transfer-Encoding: base64\r\n", &line(BASE64, 76), size)),
        named("many small POP3 mails", b'P', filled("", b"+OK 120 octets\r\nFrom: a@b\r\nTo: c@d\r\nSubject: gradients\r\n\r\nSee the office.\r\nRegards\r\n.\r\n", "", size)),
        named("an IMAP literal", b'I', literal(size)),
        named("multiparts four deep", b'P', filled("", &nested(), "", size)),
        named("short IMAP commands", b'I', filled("", COMMANDS, "", size)),
        named("small IMAP mails", b'I', filled("", APPENDED, "", size)),
        named("short lines", b'S', body(b"a\r\n", size)),
        named("long lines", b'S', body(&line(TEXT, 10_000), size)),
        named("near delimiters", b'S', part("qqqqqqqqqqqqqqqqqqqq", "", &near(19), size)),
        met(Windows::Refused, named("a long boundary", b'S', part(&long, "", &near(999), size))),
        met(Windows::Growing, named("lines of a megabyte", b'S', body(&line(TEXT, 1_000_000), size))),
        met(Windows::Growing, named("hyphens only", b'S', part("q", "", &[b'-'; 64], size))),
        met(Windows::Growing, named("an append line of U+2003", b'I', append_line("\u{2003}".as_bytes(), size))),
        Input { text: false, ..met(Windows::Growing, named("an append line of lone octets", b'I', append_line(b"\x80", size))) },
    ]
}
