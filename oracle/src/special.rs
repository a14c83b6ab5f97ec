//! Sessions made for windows: boundaries around 70 bytes, near delimiters, bare LFs, levels,
//! literals and their rests; and for the strict setting.

use crate::case::{Case, ENOUGH};
use crate::rng::Rng;

pub fn case(rng: &mut Rng) -> Case {
    let entry = rng.pick(&[&b'S', &b'P', &b'I', &b'I']).to_owned();
    let mut maker = Maker { rng, out: Vec::new(), closes: Vec::new(), entry };
    maker.session();
    let mut bytes = maker.out;
    if rng.chance(25) {
        let end = rng.below(bytes.len() + 1);
        bytes.truncate(end);
    }
    let few = rng.chance(10);
    let slots = if few { rng.below(24) as u32 } else { ENOUGH };
    Case { entry, slots, bytes }
}

/// Sessions whose lines end in CRLF: what refuses or ends a session, what is listed, what is no line,
/// and mails with another envelope or answer behind a dot line.
const LINES: [(u8, &[&str]); 16] = [
    (b'S', &["NOOP", "EHLO a"]),
    (b'S', &["EHLO a", "STARTTLS", "x"]),
    (b'S', &["EHLO a", "MAIL FROM: <b@c>", "RCPT TO: <d@e>", "RSET", "DATA"]),
    (b'S', &["EHLO a", "AUTH LOGIN", "dXNlcg==", "cGFzcw==", "MAIL FROM: <b@c>", "RCPT TO:<d@e>"]),
    (b'S', &["HELO b", "NOOP", "NOOP", "MAIL FROM: <b@c>", "data", "To: d", "", "hi", "..", "."]),
    (
        b'S',
        &[
            "EHLO a", "MAIL FROM: <b@c>", "RCPT TO: <d@e>", "DATA", "To: d", "", "hi", ".", "MAIL FROM: <x@y>",
            "RCPT TO: <d@e>", "DATA", "To: d", "", "forged", ".",
        ],
    ),
    (
        b'S',
        &[
            "EHLO a", "MAIL FROM: <b@c>", "DATA", "Content-Type: m; boundary=q", "", "before", "--q", "To: d", "",
            "in", "--q--", "behind", ".", "QUIT",
        ],
    ),
    (b's', &["221 bye"]),
    (b's', &["220 a", "250 b", "221 bye", "250 c"]),
    (b'P', &["+OK begin TLS", "x"]),
    (b'P', &["+OK ready", "+OK 1 octets", "To: d", "", "hi", ".", "+OK tls", "x"]),
    (b'P', &["+OK 1 octets", "To: d", "", "hi", ".", "+OK 2 octets", "To: x", "", "forged", ".", "+OK"]),
    (b'I', &["a APPEND x {9}", "no mail", "a NOOP"]),
    (b'I', &["a APPEND x {9}", "To: d", "", "", "a NOOP"]),
    (b'I', &["a NOOP", "a APPEND x {17}", "To: d", "", "hi", "me", "", "a LOGOUT"]),
    (
        b'I',
        &[
            "a APPEND x {0}", "Content-Type: m; boundary=q", "", "before", "--q", "To: d", "", "in", "--q--", "behind",
            "--q--", "", "a NOOP",
        ],
    ),
];

/// One of these with a bare LF at one line, at two together or at none.
pub fn bare(rng: &mut Rng) -> Case {
    if rng.chance(10) {
        return behind_rest(rng);
    }
    let (entry, lines) = LINES[rng.below(LINES.len())];
    let first = rng.below(lines.len() + 1);
    let last = first + usize::from(rng.chance(20));
    let mut bytes = Vec::new();
    for (at, line) in lines.iter().enumerate() {
        let end = if (first..=last).contains(&at) {
            rng.pick_odd(30, &["\n"], &["x\n", "\rx\n"])
        } else {
            rng.pick_odd(4, &["\r\n"], &["\r\r\n"])
        };
        bytes.extend(line.bytes().chain(end.bytes()));
    }
    let few = rng.chance(30);
    let slots = if few { rng.below(10) as u32 } else { ENOUGH };
    Case { entry, slots, bytes }
}

/// Behind an inner close the literal's rest, which may end in CR, and a line.
fn behind_rest(rng: &mut Rng) -> Case {
    let rest = rng.pick(&["\r", "x\r", "\n", "x\n", "\r\n", "xy"]);
    let line = rng.pick(&["\n", "\n", "\r\n", "T: u\n", "T: u\r\n"]);
    let outer = "Content-Type: boundary=qqqq\r\n\r\n--qqqq\r\n";
    let mail = format!("{outer}Content-Type: boundary=b\r\n\r\n--b\r\n\r\n--b--{rest}");
    Case::session(b'I', format!("a APPEND {{{}}}\r\n{mail}{line}", mail.len()).as_bytes())
}

struct Maker<'a> {
    rng: &'a mut Rng,
    out: Vec<u8>,
    /// Places right behind a close or a header.
    closes: Vec<usize>,
    entry: u8,
}

impl Maker<'_> {
    fn add(&mut self, text: &str) {
        self.out.extend(text.as_bytes());
    }

    fn session(&mut self) {
        match self.entry {
            b'S' => {
                let head = self.rng.pick(&["HELO\nMAIL FROM:\nDATA\n", "EHLO a\r\nMAIL FROM: <b@c>\r\ndata\r\n"]);
                self.add(head);
                self.mail();
                let after = self.rng.pick(&["", "QUIT\r\n", "."]);
                self.add(after);
            }
            b'P' => {
                for _ in 0..1 + self.rng.below(2) {
                    self.add("+OK 1 octets\r\n");
                    self.mail();
                }
                let after = self.rng.pick(&["", "+OK begin TLS\r\n", "+OK tls\r\n+OK\r\n", "+OK\r\n"]);
                self.add(after);
            }
            _ => {
                for _ in 0..1 + self.rng.below(2) {
                    self.append();
                }
            }
        }
    }

    fn append(&mut self) {
        let before = std::mem::take(&mut self.out);
        self.closes.clear();
        self.mail();
        let mail = std::mem::replace(&mut self.out, before);
        let base = match self.rng.below(4) {
            0 => mail.len(),
            _ => self.closes[self.rng.below(self.closes.len())],
        };
        let size = match self.rng.below(8) {
            0 => base + self.rng.below(70),
            1 => base.saturating_sub(self.rng.below(4)),
            2 => base + mail.len() / 2,
            3 => base,
            _ => base + self.rng.below(12),
        };
        self.add(&format!("a APPEND x {{{size}}}\r\n"));
        self.out.extend(mail);
        let after = self.rng.pick(&["\r\n", "\r\n", "\r\na NOOP\r\n", "\r", "x\r\n", ""]);
        self.add(after);
    }

    fn mail(&mut self) {
        match self.rng.below(10) {
            0..=1 => {
                self.header(None);
                self.text();
            }
            2..=3 => {
                let depth = 6 + self.rng.below(5);
                self.nested(depth);
            }
            4..=5 => self.nested(1),
            _ => {
                let depth = 1 + self.rng.below(3);
                self.nested(depth);
            }
        }
    }

    fn text(&mut self) {
        for _ in 0..self.rng.below(5) {
            let line = self.rng.pick(&["hi\r\n", "a longer line of text\r\n", "..\r\n", "x\n", "\r\n", "--\r\n"]);
            self.add(line);
        }
        if self.entry != b'I' {
            self.add(".\r\n");
        }
    }

    /// Lines, an encoding before or behind the field, the blank line.
    fn header(&mut self, boundary: Option<Vec<u8>>) -> Option<Vec<u8>> {
        let early = self.rng.chance(30);
        self.small_line();
        if early {
            self.encoding();
        }
        let boundary = boundary.map(|text| self.field(text));
        if !early && self.rng.chance(40) {
            self.encoding();
        }
        if boundary.is_none() && self.rng.chance(30) {
            self.add("Content-Type: text/plain\r\n");
        }
        self.small_line();
        self.add("\r\n");
        self.closes.push(self.out.len());
        boundary
    }

    fn small_line(&mut self) {
        let line = self.rng.pick(&["To: d\r\n", "To: d\r\n", "Subject: s\n", "T: u\r\nFrom: b@c\r\n"]);
        self.add(line);
    }

    fn encoding(&mut self) {
        let name = self.rng.pick(&["7bit", "8bit", "binary", "quoted-printable", "base64"]);
        self.add(&format!("Content-Transfer-Encoding: {name}\r\n"));
    }

    fn boundary(&mut self, long: bool) -> Vec<u8> {
        let length = match self.rng.below(10) {
            _ if long => *self.rng.pick(&[&69, &70, &71, &71, &72, &73, &200]),
            0..=1 => *self.rng.pick(&[&67, &68, &69, &70]),
            2..=5 => 4 + self.rng.below(12),
            _ => 1 + self.rng.below(3),
        };
        let letters = b"bq-=";
        let plain = self.rng.chance(40);
        let mut letter = || if plain { b'b' } else { letters[self.rng.below(letters.len())] };
        (0..length).map(|_| letter()).collect()
    }

    /// Supplies the boundary; gives it back with the LF that some forms take in, then in place of
    /// its last byte, so that its length stays.
    fn field(&mut self, boundary: Vec<u8>) -> Vec<u8> {
        let text = String::from_utf8_lossy(&boundary).into_owned();
        let less = &text[..text.len() - 1];
        let (field, feed) = match self.rng.below(8) {
            0..=1 => (format!("Content-Type: m; boundary=\"{text}\"\r\n"), false),
            2 => (format!("Content-Type: m; boundary={text}\r\n"), false),
            3 => (format!("Content-Type: m;\r\n\tboundary=\"{text}\"\r\n"), false),
            4 => (format!("Content-Type: m;\r\nX: y\r\n\tboundary={text}\r\n"), false),
            5 => (format!("Content-Type: m; boundary={text}; c=d\n"), false),
            6 => (format!("Content-Type: m; boundary={less}\n"), true),
            _ => (format!("Content-Type: m;\n\tboundary={less}\n"), true),
        };
        self.add(&field);
        if self.rng.chance(20) {
            let later = self.rng.pick(&[
                "Content-Type: m; boundary=\"q\"\r\n", "\tboundary=b\r\n", "Content-Type: m;\r\n\tboundary=q\r\n",
            ]);
            self.add(later);
        }
        if feed { [less.as_bytes(), b"\n"].concat() } else { boundary }
    }

    /// `depth` multiparts one in another; now and then one boundary is long.
    fn nested(&mut self, depth: usize) {
        let long = if self.rng.chance(35) { 1 + self.rng.below(depth) } else { 0 };
        let deepest_long = depth >= 9 && self.rng.chance(40);
        let mut open: Vec<Vec<u8>> = Vec::new();
        for level in 1..=depth {
            let boundary = self.boundary(level == long || (level == 9 && deepest_long));
            let boundary = self.header(Some(boundary)).expect("a boundary was given");
            if self.rng.chance(if depth > 4 { 15 } else { 60 }) {
                self.region(&boundary);
            }
            self.delimiter(&boundary);
            self.add("\r\n");
            open.push(boundary);
        }
        while let Some(boundary) = open.last().cloned() {
            self.parts(&boundary, open.len() == depth);
            self.close(&boundary, &open[0].clone());
            open.pop();
        }
    }

    fn parts(&mut self, boundary: &[u8], first: bool) {
        if !first && self.rng.chance(15) {
            return;
        }
        for part in 0..1 + self.rng.below(2) {
            if part > 0 {
                self.delimiter(boundary);
                let behind = self.rng.pick(&["\r\n", "\r\n", "\r\n", "\r\n", "\rx", "-\r\n", "\n"]);
                self.add(behind);
            }
            self.header(None);
            self.region(boundary);
        }
    }

    /// Lines with no delimiter in them, then one that lets a delimiter follow, or nothing.
    fn region(&mut self, boundary: &[u8]) {
        let lines = if self.rng.chance(1) { 200 } else { 5 };
        for _ in 0..self.rng.below(lines) {
            self.tricky(boundary);
        }
        let last = self.rng.pick(&["", "x\r\n", "\r\n", "more text\r\n", "y\n\r\n", "y\r\n"]);
        self.add(last);
    }

    fn tricky(&mut self, boundary: &[u8]) {
        let near = self.rng.below(boundary.len());
        match self.rng.below(12) {
            0 => self.near(&boundary[..near], "\r\n"),
            1 => self.near(&boundary[..near], "\n"),
            2 => self.near(&boundary[..near], "x\r\n"),
            3 => {
                self.add("bare\n");
                self.near(boundary, "\r\n");
            }
            4 => {
                self.add("bare\n");
                self.near(boundary, "\n");
            }
            5 => {
                self.add("x");
                self.near(boundary, "--\r\n");
            }
            6 => self.near(&boundary.to_ascii_uppercase(), "\r\n"),
            7 => {
                self.add("\r");
                self.near(boundary, "\r\n");
            }
            _ => {
                let line = self
                    .rng
                    .pick(&["text\r\n", "text\n", "\r\n", "\n", "-\r\n", "--\r\n", "\r\r\n", "a long line\r\n"]);
                self.add(line);
            }
        }
    }

    fn delimiter(&mut self, boundary: &[u8]) {
        self.add("--");
        self.out.extend(boundary);
    }

    fn near(&mut self, boundary: &[u8], end: &str) {
        self.delimiter(boundary);
        self.add(end);
    }

    /// The close, lines that are skipped, and one that ends the skipping.
    fn close(&mut self, boundary: &[u8], outermost: &[u8]) {
        self.near(boundary, "--");
        self.closes.push(self.out.len());
        let behind = self.rng.pick(&["\r\n", "\r\n", "\r\n", "", "x\n", "--\r\n"]);
        self.add(behind);
        for _ in 0..self.rng.below(3) {
            match self.rng.below(4) {
                0 => self.near(boundary, "\n"),
                1 => self.near(&outermost[..outermost.len() / 2], "\r\n"),
                _ => self.add("epilogue\r\n"),
            }
            self.closes.push(self.out.len());
        }
        match self.rng.below(5) {
            0 if self.entry != b'I' => self.add(".\r\n"),
            1 => self.near(outermost, "--\r\n"),
            2 if self.entry == b'I' => {
                let rest = self.rng.below(12);
                self.out.extend(&b"rest of it: bytes"[..rest]);
            }
            _ => self.near(outermost, "\r\n"),
        }
        self.closes.push(self.out.len());
    }
}
