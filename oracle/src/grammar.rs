//! Sessions made by grammar, each choice now and then an odd one.

use crate::rng::Rng;

/// Deeper than document 01 allows, so that refusal 9 and what lies behind it are met.
const DEEPEST: usize = 10;

const BOUNDARIES: [&str; 22] = [
    "q",
    "qq",
    "q1",
    "Q",
    "b",
    "bb",
    "ab",
    "",
    "-",
    "--",
    "--q",
    "=_x.1",
    "a\tb",
    "a\rb",
    "b\r",
    "b;c",
    "a b",
    "abcdefgh",
    "x'y",
    "qqqqqqqqqq",
    "----=_Part_0123456789_abcdefghijklmnopqrstuvwxyz_0123456789_abcdefghij",
    "----=_Part_0123456789_abcdefghijklmnopqrstuvwxyz_0123456789_abcdefghijk",
];

/// Header lines that supply the boundary %; the usual ones stand more than once.
const SUPPLYING: [&[&str]; 16] = [
    &["Content-Type: multipart/mixed; boundary=\"%\""],
    &["Content-Type: multipart/mixed; boundary=\"%\""],
    &["Content-Type: multipart/mixed; boundary=\"%\""],
    &["Content-Type: multipart/mixed; boundary=\"%\""],
    &["Content-Type: multipart/mixed; boundary=\"%\"; charset=x"],
    &["Content-Type: boundary=\"%\""],
    &["Content-Type: multipart/mixed;", "\tboundary=\"%\""],
    &["Content-Type: multipart/mixed;", "\tboundary=\"%\""],
    &["Content-Type: multipart/mixed;", "\tboundary=\"%\""],
    &["Content-Type: multipart/mixed;", "\tcharset=x;", "\tboundary=\"%\""],
    &["Content-Type: text/plain", "To: between", "\tboundary=\"%\"; more"],
    &["Content-Type: m; boundary=other; boundary=\"%\""],
    &["Content-Type: m; boundary=\"%\"", "Content-Type: m; boundary=\"qq\""],
    &["Content-Type: m; boundary=\"open", "Content-Type: m; boundary=\"%\""],
    &["Content-Type: m;", "\tboundary=\"open", "\tboundary=\"%\""],
    &["Content-Type: m;", "Content-Type: m; boundary=\"open", "\tboundary=\"%\"", "\tboundary=zz"],
];

/// Text that supplies % without quotes. At a bare LF the boundary takes the LF in, if % is last.
const UNQUOTED: [&str; 9] = [
    "Content-Type: multipart/mixed; boundary=%", "Content-Type: m; boundary=%",
    "Content-Type: m; boundary=%; charset=x", "Content-Type: m; boundary=% x", "Content-Type: m; boundary=%\r",
    "Content-Type: m;\r\n\tboundary=%", "Content-Type: m;\r\n\tboundary=%;", "Content-Type: m;\n\tboundary=% x",
    "Content-Type: m; boundary=%; boundary=zz",
];

/// Header lines about a boundary that supply none.
const SILENT: [&[&str]; 13] = [
    &["Content-Type: text/plain; charset=x"],
    &["Content-Type: text/plain; charset=x"],
    &["Content-Type: text/plain; charset=x"],
    &["content-type: m; boundary=\"%\""],
    &["Content-Type:m; boundary=\"%\""],
    &["Content-Type: m; Boundary=\"%\""],
    &["Content-Type: m;", " boundary=\"%\""],
    &["\tboundary=\"%\""],
    &["Content-Type: m; boundary=\"%"],
    &["Content-Type: m; boundary=\"%", "\tboundary=zz"],
    &["Content-Type: m;", "\tcharset=x; boundary=\"%\""],
    &["Content-Type: m;", "\tboundary=\"%"],
    &["Content-Type: m;", "\tBoundary=%"],
];

pub struct Builder<'a> {
    pub rng: &'a mut Rng,
    pub out: Vec<u8>,
    entry: u8,
    /// No odd choices in this session.
    calm: bool,
    /// How deep this mail goes if its parts go on nesting.
    depth: usize,
    /// Places right behind a close, for literals that end near one.
    closes: Vec<usize>,
}

impl<'a> Builder<'a> {
    pub fn new(rng: &'a mut Rng, entry: u8) -> Self {
        let calm = rng.chance(30);
        Builder {
            rng,
            out: Vec::new(),
            entry,
            calm,
            depth: 0,
            closes: Vec::new(),
        }
    }

    fn choice<'t>(&mut self, percent: usize, usual: &[&'t str], odd: &[&'t str]) -> &'t str {
        self.rng.pick_odd(if self.calm { 0 } else { percent }, usual, odd)
    }

    fn add(&mut self, text: &str) {
        self.out.extend(text.as_bytes());
    }

    fn line_end(&mut self) {
        let end = self.choice(3, &["\r\n"], &["\n", "\r\r\n", "\r", "", " \r\n", "\n\r\n"]);
        self.add(end);
    }

    fn line(&mut self, text: &str) {
        self.add(text);
        self.line_end();
    }

    fn odd_line(&mut self, percent: usize, usual: &[&str], odd: &[&str]) {
        let text = self.choice(percent, usual, odd);
        self.line(text);
    }

    pub fn session(mut self) -> Vec<u8> {
        match self.entry {
            b'S' => self.smtp_client(),
            b's' => self.smtp_server(),
            b'P' => self.pop3_server(),
            _ => self.imap_client(),
        }
        self.out
    }

    // SMTP

    fn smtp_client(&mut self) {
        let odd = ["EHL", "EHLO", "HELOX", "eHlO x", "", "NOOP", "MAIL FROM: <b@c>", "XHELO a", "LHLO a"];
        self.odd_line(10, &["EHLO a", "HELO b", "ehlo c", "Helo d"], &odd);
        match self.rng.below(10) {
            0..=3 => self.sender(),
            4..=6 => self.login(),
            7..=8 => self.seeking(),
            _ => {
                let odd = ["STARTTLS ", "STARTTLSX", "xSTARTTLS", "AUTH", "AUTH LOGIN x", "auth logi"];
                self.odd_line(40, &["STARTTLS", "starttls", "StartTls"], &odd);
                self.sender();
            }
        }
        for _ in 0..self.rng.below(4) {
            let odd = [
                "RCPT TO: <d@e", "RCPT TO:<d@e>", "rcpt to: <d@e>", "RCPT TO: d@e", "RCPT TO: <>", "RSET", "",
                "RCPT TO: <d>e>", "RCPT TO: <d@e> NOTIFY=NEVER", "RCPT TO:", "DATA x", "RCPT TO: <",
            ];
            self.odd_line(12, &["RCPT TO: <d@e>", "RCPT TO: <longer.name@host.example>"], &odd);
        }
        self.odd_line(6, &["DATA", "data", "Data"], &["DATA ", " DATA", "DATAX", "DAT"]);
        self.mail();
        if self.rng.chance(20) {
            self.odd_line(50, &["QUIT"], &["RSET", "MAIL FROM: <b@c>"]);
        }
    }

    fn sender(&mut self) {
        let odd = [
            "MAIL FROM:<b@c>", "Mail From: <b@c>", "mail from: <b@c>", "MAIL FROM: <b@c", "MAIL FROM: <>",
            "MAIL FROM: <b>c>", "MAIL FROM:", "MAIL FROM: b@c", "MAIL FROM : <b@c>", "MAIL FROM: <", "MAIL FROM",
            "X MAIL FROM: <b@c>", "mail from:<b@c>", "MAIL FROM:  <b@c>",
        ];
        self.odd_line(40, &["MAIL FROM: <b@c>", "MAIL FROM: <b@c> SIZE=10557"], &odd);
    }

    fn login(&mut self) {
        let odd = ["AUTH LOGIN ", "AUTH LOGIN dXNlcg==", "AUTH  LOGIN", "AUTH LOGINX", "AUTH PLAIN AGEAYg=="];
        self.odd_line(20, &["AUTH LOGIN", "auth login", "Auth Login"], &odd);
        for _ in 0..2 {
            self.odd_line(20, &["dXNlcg==", "cGFzcw=="], &["", "MAIL FROM: <b@c>", "STARTTLS", "x\r"]);
        }
        if self.rng.chance(10) {
            self.odd_line(50, &["NOOP"], &["RSET", ""]);
        }
        self.sender();
    }

    fn seeking(&mut self) {
        for _ in 0..1 + self.rng.below(3) {
            let odd = ["", "STARTTLS", "starttls", "RCPT TO: <d@e>", "DATA", "AUTH LOGIN", "*"];
            self.odd_line(40, &["AUTH PLAIN AGEAYg==", "NOOP", "AUTH CRAM-MD5"], &odd);
        }
        self.sender();
        if self.rng.chance(20) {
            self.sender();
        }
    }

    fn smtp_server(&mut self) {
        for _ in 0..self.rng.below(6) {
            let odd = ["", "22", " 221", "2210", "221-a", "x221", "\r", "250\r", "22 1"];
            self.odd_line(20, &["220 host", "250-SIZE", "250 OK", "354 go", "235 in", "421 no"], &odd);
        }
        self.odd_line(40, &["221 bye", "221 2.0.0 x"], &["221", "221-x", "2211", "250 ok"]);
        if self.rng.chance(20) {
            self.line("250 after");
        }
    }

    // POP3

    /// How many answers or commands; now and then many.
    fn rounds(&mut self, most: usize) -> usize {
        if self.rng.chance(1) { 40 } else { 1 + self.rng.below(most) }
    }

    fn pop3_server(&mut self) {
        for _ in 0..self.rounds(4) {
            if self.rng.chance(60) {
                self.retrieval();
                if self.rng.chance(85) {
                    self.mail();
                }
            } else {
                let odd = [
                    "+OK Begin TLS", "+OK tls", "+OKtls", "-ERR tls", "+OK begin T LS", "+ok TLS", "+OK tLs now",
                    "+OKTls", "tls", "-ERR no TLS", "", "+O", "x+OK tls", "+OK 3 tls octets",
                ];
                let usual = ["+OK ready", "-ERR no", "+OK", "+OK 2 320", "+OK 2 messages (320 octets)", "1 120"];
                self.odd_line(25, &usual, &odd);
            }
        }
    }

    fn pop_white(&mut self) -> &'static str {
        self.choice(20, &[" ", " ", " ", "\t", "  "], &["", "\r", " \t", "\u{b}", "\u{c}", " \r ", "\u{b} "])
    }

    fn retrieval(&mut self) {
        let usual = ["12", "0", "007", "4294967295", "0000000000007"];
        let odd = [
            "4294967296", "4294967294", "42949672950", "", "99999999999999999999", "18446744073709551628", "1x", "-1",
            "00000000004294967295", "00000000004294967296", "4294967300", "+1", "5000000000",
        ];
        let ok = self.choice(4, &["+OK"], &["+ok", "+OKX", "OK", " +OK", "+Ok"]);
        let first = self.pop_white();
        let number = self.choice(20, &usual, &odd);
        let second = self.pop_white();
        let word = self.choice(8, &["octets"], &["octet", "OCTETS", "Octets", "octets tls", "octetstls", "xoctets"]);
        let tail = self.choice(20, &[""], &["X", " follow", " TLS", ".", "\r"]);
        for part in [ok, first, number, second, word, tail] {
            self.add(part);
        }
        self.line_end();
    }

    // IMAP

    fn imap_client(&mut self) {
        for _ in 0..self.rounds(3) {
            if self.rng.chance(75) {
                self.append();
            } else {
                let odd = ["", "a APPEND", "a APPENDX", "APPEND x", "a: b", "\u{b} APPEND x {3}", "a APPEND x {0}"];
                self.odd_line(30, &["a1 LOGIN u p", "a2 SELECT INBOX", "a3 NOOP", "a4 LOGOUT"], &odd);
            }
        }
    }

    fn append(&mut self) {
        let before = std::mem::take(&mut self.out);
        self.closes.clear();
        self.mail();
        let mail = std::mem::replace(&mut self.out, before);
        let size = self.size_near(&mail);
        self.append_line(size);
        if self.rng.chance(5) {
            self.odd_line(50, &["hello", "a5 NOOP"], &[":", ":x", "x:", "no colon"]);
        }
        self.out.extend(mail);
        let end = self.choice(8, &["\r\n"], &["", "\r", "\n", "xx", "--", "\r\r\n", " \r\n"]);
        self.add(end);
    }

    /// The mail's length, or a place near its header's end or near a close, or something far off.
    fn size_near(&mut self, mail: &[u8]) -> u64 {
        let header = mail.windows(4).position(|four| four == b"\r\n\r\n").map_or(2, |at| at + 4);
        let close = if self.closes.is_empty() {
            mail.len()
        } else {
            self.closes[self.rng.below(self.closes.len())]
        };
        let (base, reach) = match self.rng.below(20) {
            0..=7 => (mail.len(), 1),
            8..=9 => (header, 4),
            10..=16 => (close, 14),
            17 => (mail.len(), 20),
            _ => (0, 40),
        };
        let delta = self.rng.below(reach) as u64;
        let forward = self.rng.chance(75);
        if forward { base as u64 + delta } else { (base as u64).saturating_sub(delta) }
    }

    fn append_line(&mut self, size: u64) {
        let odd_tags = ["", "a\u{b}", "a\u{b}b", "a\u{c}", "\u{c}", "a b", "a\r", "{a}", "a{5}"];
        let tag = self.choice(8, &["a", "A001", "12.3"], &odd_tags);
        let gap = self.choice(15, &[" "], &["  ", "\t", " \t", "", "\u{b}", " \u{c}", "\u{b} "]);
        let word = self.choice(5, &["APPEND"], &["append", "APPENDX", "APPEND:", "XAPPEND", "Append", "APPEN"]);
        let name = self.choice(15, &[" x ", " \"Sent\" (\\Seen) "], &["", " ", " {3} ", " { ", " } ", " {", "{7}"]);
        for part in [tag, gap, word, name] {
            self.add(part);
        }
        let braces = self.braces(size);
        self.add(&braces);
        let trail = self.choice(12, &[""], &[" ", "\t", "\u{b}", "\u{c}", "\r", " \u{b} ", "x", "}", "+"]);
        self.add(trail);
        self.line_end();
    }

    fn braces(&mut self, size: u64) -> String {
        if self.rng.chance(80) {
            return format!("{{{size}}}");
        }
        match self.rng.below(14) {
            0 => format!("{{0{size}}}"),
            1 => format!("{{{size}+}}"),
            2 => format!("{{{size}}}}}"),
            3 => format!("{{{{{size}}}"),
            4 => "{}".to_string(),
            5 => format!("{{{}}}", u64::MAX),
            6 => format!("{{{}}}", u128::from(u64::MAX) + 1 + u128::from(size)),
            7 => format!("{{{}}}", u128::from(u32::MAX) + 1 + u128::from(size)),
            8 => format!("{{-{size}}}"),
            9 => format!("{{ {size}}}"),
            10 => format!("{size}"),
            11 => format!("{{{size}"),
            12 => format!("{size}}}"),
            _ => format!("{{{size}}} {{{size}x}}"),
        }
    }

    // Mail

    pub fn mail(&mut self) {
        self.depth = match self.rng.below(20) {
            0..=6 => 0,
            7..=11 => 1,
            12..=14 => 2,
            15..=16 => 3,
            17 => 4,
            _ => 7 + self.rng.below(DEEPEST - 6),
        };
        let boundary = self.header(self.depth > 0);
        match boundary {
            Some(boundary) => self.multipart(&[boundary]),
            None => self.text(),
        }
    }

    fn text(&mut self) {
        for _ in 0..self.rng.below(4) {
            let odd = ["", ".", "..", ".x", ". ", "..\r", "--q", ":", " ."];
            self.odd_line(30, &["hi", "some text", "x: y"], &odd);
        }
        if self.entry != b'I' {
            let end = self.choice(8, &[".\r\n"], &[".\n", "..\r\n", ".\r", "\r\n.\r\n", ".\r\r\n", ""]);
            self.add(end);
        }
    }

    fn small_lines(&mut self) {
        for _ in 0..self.rng.below(3) {
            let odd = ["x", ":", "", "Content-Length: 3", " folded", "\tfolded", ".", "MIME-Version: 1.0", "\r"];
            self.odd_line(15, &["To: d", "Subject: s", "From: b@c"], &odd);
        }
    }

    fn encoding_line(&mut self) {
        let field = self.choice(
            12,
            &["Content-Transfer-Encoding:"],
            &[
                "content-transfer-encoding:", "CONTENT-TRANSFER-ENCODING:", "Content-Transfer-Encoding",
                " Content-Transfer-Encoding:",
            ],
        );
        let gap = self.choice(15, &[" "], &["", "  ", "\t", " \t", "   "]);
        let name = self.choice(
            20,
            &["7bit", "8bit", "binary", "quoted-printable", "base64"],
            &["BASE64", "Quoted-Printable", "7BIT", "x-uuencode", "", "base6", "8bit;", "base64 ", "base64x", "7bi"],
        );
        for part in [field, gap, name] {
            self.add(part);
        }
        self.line_end();
    }

    /// Writes a header; gives the boundary it supplies, if one was meant to.
    fn header(&mut self, parted: bool) -> Option<Vec<u8>> {
        self.small_lines();
        if self.rng.chance(35) {
            self.encoding_line();
        }
        let boundary = if parted { self.boundary_field() } else { self.no_boundary_field() };
        self.small_lines();
        if self.rng.chance(15) {
            self.encoding_line();
        }
        if self.rng.chance(3) {
            self.no_boundary_field();
        }
        let end = self.choice(3, &["\r\n"], &["\n\r\n", "\n", "", " \r\n\r\n", ".\r\n\r\n", "\r\r\n\r\n"]);
        self.add(end);
        boundary
    }

    /// In IMAP often a longer one, so that a literal's rest can be below its length.
    fn boundary(&mut self) -> &'static str {
        match self.rng.below(4) {
            0 if self.entry == b'I' => self.rng.pick(&["abcdefgh", "qqqqqqqqqq", "=_x.1"]),
            0 | 1 => self.rng.pick(&["q", "b", "zz"]),
            _ => self.rng.pick(&BOUNDARIES),
        }
    }

    /// Writes a form's lines with the boundary for each %.
    fn form(&mut self, form: &[&str], boundary: &str) {
        for line in form {
            self.line(&line.replace('%', boundary));
        }
    }

    fn boundary_field(&mut self) -> Option<Vec<u8>> {
        let b = self.boundary();
        if b.contains(['\r', ' ', ';']) || self.rng.chance(65) {
            let form = self.rng.pick(&SUPPLYING);
            self.form(form, b);
            return Some(b.into());
        }
        let line = self.rng.pick(&UNQUOTED);
        let bare = self.rng.chance(20);
        self.add(&line.replace('%', b));
        self.add(if bare { "\n" } else { "\r\n" });
        let with_feed = bare && line.ends_with('%');
        Some([b.as_bytes(), if with_feed { b"\n" } else { b"" }].concat())
    }

    /// A Content-Type of some kind that supplies nothing.
    fn no_boundary_field(&mut self) -> Option<Vec<u8>> {
        if self.rng.chance(40) {
            let b = self.boundary();
            let form = self.rng.pick(&SILENT);
            self.form(form, b);
        }
        None
    }

    // Multipart

    fn delimiter(&mut self, boundary: &[u8]) {
        self.add("--");
        self.out.extend(boundary);
    }

    /// A line that only looks like a delimiter, or does not.
    fn lookalike(&mut self, boundary: &[u8]) {
        let cut = boundary.len() / 2;
        match self.rng.below(9) {
            0 => self.add("x--"),
            1 => self.add("\n--"),
            2 => self.add(" --"),
            3 => self.add("-"),
            4 => {
                self.delimiter(&boundary.to_ascii_uppercase());
                return self.line_end();
            }
            5 => {
                self.delimiter(&boundary[..cut]);
                return self.line_end();
            }
            _ => return self.odd_line(30, &["text", "more text"], &["", ".", "--", "\r", "-"]),
        }
        self.out.extend(boundary);
        self.line_end();
    }

    fn behind_delimiter(&mut self) {
        let end = self.choice(3, &["\r\n"], &["--", "x", "q\r\n", "\n", " \r\n", "-", "", "\r"]);
        self.add(end);
    }

    /// `open` holds the open boundaries, the outermost first.
    fn multipart(&mut self, open: &[Vec<u8>]) {
        let boundary = &open[open.len() - 1];
        if self.rng.chance(40) {
            for _ in 0..1 + self.rng.below(2) {
                self.lookalike(boundary);
            }
        }
        self.delimiter(boundary);
        self.behind_delimiter();
        let parts = 1 + self.rng.below(if self.depth > 4 { 1 } else { 3 });
        for part in 0..parts {
            let nests = open.len() < self.depth && (part == 0 || self.rng.chance(30));
            match self.header(nests) {
                Some(inner) if nests => {
                    self.multipart(&[open, &[inner]].concat());
                    if part + 1 == parts && self.rng.chance(85) {
                        self.header(false);
                        self.content(boundary);
                    }
                }
                _ => self.content(boundary),
            }
            if part + 1 < parts && !nests {
                self.delimiter(boundary);
                self.behind_delimiter();
            }
        }
        self.close(open);
    }

    fn content(&mut self, boundary: &[u8]) {
        for _ in 0..self.rng.below(3) {
            self.lookalike(boundary);
        }
        if self.rng.chance(15) {
            self.add("last");
            self.add("\r\n");
        }
    }

    /// The close, some lines, and one that ends the skipping.
    fn close(&mut self, open: &[Vec<u8>]) {
        let boundary = &open[open.len() - 1];
        let outer = &open[open.len().saturating_sub(2)];
        self.delimiter(boundary);
        let end = self.choice(3, &["--"], &["-", "\r\n", "x-", ""]);
        self.add(end);
        self.closes.push(self.out.len());
        let end = self.choice(20, &["\r\n"], &["", "\n", "x\r\n", "--\r\n", " "]);
        self.add(end);
        for _ in 0..self.rng.below(3) {
            self.skipped_line(open);
        }
        let ending = match self.rng.below(10) {
            0..=5 => &open[0],
            6..=7 => outer,
            8 if self.entry != b'I' => return self.add(".\r\n"),
            _ if open.len() == 1 && self.entry == b'I' => return,
            _ => boundary,
        };
        self.delimiter(ending);
        let end = self.choice(40, &["\r\n"], &["--\r\n", "x\r\n", "\n", "--\n", "", "--x\r\n"]);
        self.add(end);
        self.closes.push(self.out.len());
    }

    fn skipped_line(&mut self, open: &[Vec<u8>]) {
        let which = self.rng.below(open.len());
        match self.rng.below(8) {
            0 => self.delimiter(&open[which]),
            1 => self.delimiter(&open[0][..open[0].len() / 2]),
            2 => {
                self.delimiter(&open[0]);
                return self.add("\n");
            }
            3 => return self.odd_line(50, &["--"], &[".", ". ", "x--q", "..", "-"]),
            _ => return self.odd_line(20, &["", "epilogue"], &["To: d", "--x", "\r"]),
        }
        self.line_end();
    }
}
