//! Lists a session from standard input: a letter (S SMTP client, s SMTP server, P POP3 server, I IMAP client), then the session.
//! - `list`: as its bytes come, in pieces of at most 1,460; what a piece adds is printed at once.
//! - `list pieces FIRST THEN`: a first piece of FIRST bytes, then pieces of THEN, each shown at once.
//! - `list strict`, `list strict pieces FIRST THEN`: likewise, and a line that ends in LF alone is refused.
//! - `list whole`: in one call, when all of it has been read.
//! - `list direction PROTOCOL CLIENT_PORT SERVER_PORT CLIENT SERVER`: guesses the direction, where CLIENT and SERVER are a side's first bytes,
//!   or - where they are not held.
//!
//! Exits with 0; 1 where something cannot be read or written; 2 on bad usage.

/// A safe wrapper of include/mailindex.h: slices carry their lengths, are never null, and a shared and an exclusive one never overlap.
mod mailindex {
    mod c {
        type Dissect = unsafe extern "C" fn(*const u8, usize, *mut u32, usize, *mut u64);
        unsafe extern "C" {
            fn mailindex_smtp_client(bytes: *const u8, length: usize, table: *mut u32, numbers: usize, answer: *mut u64);
            fn mailindex_smtp_server(bytes: *const u8, length: usize, table: *mut u32, numbers: usize, answer: *mut u64);
            fn mailindex_pop3_server(bytes: *const u8, length: usize, table: *mut u32, numbers: usize, answer: *mut u64);
            fn mailindex_imap_client(bytes: *const u8, length: usize, table: *mut u32, numbers: usize, answer: *mut u64);
            pub fn mailindex_begin(choices: *const u64, numbers: *mut u64, boundaries: *mut u8) -> u32;
            pub fn mailindex_show(
                session_numbers: *mut u64, boundaries: *mut u8, bytes: *const u8, length: usize, table: *mut u32, numbers: usize, answer: *mut u64,
            );
            pub fn mailindex_direction(
                protocol: u32, client_port: u32, server_port: u32, client_held: u32, client: *const u8, client_length: usize, server_held: u32, server: *const u8,
                server_length: usize,
            ) -> u32;
            pub fn mailindex_version() -> u32;
        }
        /// By `Entry`.
        pub const DISSECT: [Dissect; 4] = [mailindex_smtp_client, mailindex_smtp_server, mailindex_pop3_server, mailindex_imap_client];
    }

    pub const VERSION: u32 = 4;
    pub const LIMIT: usize = 16_777_216;
    pub const WIDTH: usize = 4;
    /// The result of a session that goes on where there is more of it.
    pub const INCOMPLETE: u64 = 1;
    const SESSION_NUMBERS: usize = 24;
    const SESSION_BOUNDARIES: usize = 648;
    const CHOICES: usize = 8;
    const ENTRY: usize = 0;
    const STRICT: usize = 1;

    #[derive(Clone, Copy)]
    pub enum Entry {
        SmtpClient,
        SmtpServer,
        Pop3Server,
        ImapClient,
    }

    #[derive(Clone, Copy, Debug, PartialEq, Eq)]
    pub enum Kind {
        HeaderLine = 1,
        BodyStart,
        BodyLine,
        SizedBody,
        PartBody,
        BodyStop,
        ClientLine,
        ServerLine,
        User,
        Password,
        Sender,
        Recipient,
    }

    pub const KINDS: [Kind; 12] = [
        Kind::HeaderLine, Kind::BodyStart, Kind::BodyLine, Kind::SizedBody, Kind::PartBody, Kind::BodyStop, Kind::ClientLine, Kind::ServerLine, Kind::User,
        Kind::Password, Kind::Sender, Kind::Recipient,
    ];

    #[derive(Clone, Copy, Debug, PartialEq, Eq)]
    pub enum Encoding {
        Unsaid,
        Bit7,
        Bit8,
        Binary,
        QuotedPrintable,
        Base64,
        Unrecognised,
    }

    const ENCODINGS: [Encoding; 7] = [
        Encoding::Unsaid, Encoding::Bit7, Encoding::Bit8, Encoding::Binary, Encoding::QuotedPrintable, Encoding::Base64, Encoding::Unrecognised,
    ];

    /// Offset and length are bytes of the session.
    #[derive(Clone, Copy, Debug, PartialEq, Eq)]
    pub struct Event {
        pub kind: Kind,
        pub offset: u32,
        pub length: u32,
        pub encoding: Encoding,
    }

    #[derive(Clone, Copy)]
    pub struct Answer {
        pub result: u64,
        pub place: u64,
        pub count: u64,
    }

    /// The session's events into the table, four numbers each.
    pub fn dissect(entry: Entry, bytes: &[u8], table: &mut [u32]) -> Answer {
        let mut answer = [0; 3];
        // SAFETY: both slices are valid for their lengths and do not overlap, and the answer has three numbers.
        unsafe { c::DISSECT[entry as usize](bytes.as_ptr(), bytes.len(), table.as_mut_ptr(), table.len(), answer.as_mut_ptr()) };
        let [result, place, count] = answer;
        Answer { result, place, count }
    }

    /// A session between windows.
    #[derive(Clone)]
    pub struct Session {
        numbers: [u64; SESSION_NUMBERS],
        boundaries: [u8; SESSION_BOUNDARIES],
    }

    /// The answer to a window, and how many of its bytes were taken: the next window begins with the others.
    #[derive(Clone, Copy)]
    pub struct Shown {
        pub answer: Answer,
        pub taken: usize,
    }

    impl Session {
        /// None where the library has no such entry. A strict session refuses a line that ends in LF alone.
        pub fn begin(entry: Entry, strict: bool) -> Option<Session> {
            let mut session = Session { numbers: [0; SESSION_NUMBERS], boundaries: [0; SESSION_BOUNDARIES] };
            let mut choices = [0; CHOICES];
            choices[ENTRY] = entry as u64 + 1;
            choices[STRICT] = u64::from(strict);
            // SAFETY: the three arrays have the lengths that the header asks for, and are apart.
            let result = unsafe { c::mailindex_begin(choices.as_ptr(), session.numbers.as_mut_ptr(), session.boundaries.as_mut_ptr()) };
            (u64::from(result) == INCOMPLETE).then_some(session)
        }

        /// A window's events into the table, behind those of earlier windows.
        pub fn show(&mut self, bytes: &[u8], table: &mut [u32]) -> Shown {
            let (numbers, boundaries) = (self.numbers.as_mut_ptr(), self.boundaries.as_mut_ptr());
            let mut answer = [0; 4];
            // SAFETY: the session's arrays have their lengths, both slices are valid for theirs, none overlap, and the answer has four numbers.
            unsafe { c::mailindex_show(numbers, boundaries, bytes.as_ptr(), bytes.len(), table.as_mut_ptr(), table.len(), answer.as_mut_ptr()) };
            let [result, place, count, taken] = answer;
            Shown { answer: Answer { result, place, count }, taken: taken as usize }
        }
    }

    /// The events that an answer counts, without the first ones, from the table that it came with; none where the table is another.
    pub fn events(table: &[u32], first: u64, answer: Answer) -> impl Iterator<Item = Event> + '_ {
        table.chunks_exact(WIDTH).take(answer.count as usize).skip(first as usize).map_while(|e| {
            let kind = *KINDS.get((e[0] as usize).checked_sub(1)?)?;
            Some(Event { kind, offset: e[1], length: e[2], encoding: *ENCODINGS.get(e[3] as usize)? })
        })
    }

    #[derive(Clone, Copy, Debug, PartialEq, Eq)]
    pub enum Guess {
        AsGiven,
        Swapped,
        Unknown,
        OtherProtocol,
    }

    /// A side's port and, where it is held, its first payload.
    #[derive(Clone, Copy)]
    pub struct Side<'a> {
        pub port: u32,
        pub payload: Option<&'a [u8]>,
    }

    /// Whether the side that is called the client is the client. Protocol 1 is SMTP, 2 POP3, 3 IMAP.
    pub fn direction(protocol: u32, client: Side, server: Side) -> Guess {
        let held = |side: Side| u32::from(side.payload.is_some());
        let (c, s) = (client.payload.unwrap_or_default(), server.payload.unwrap_or_default());
        // SAFETY: both slices are valid for their lengths and only read.
        match unsafe { c::mailindex_direction(protocol, client.port, server.port, held(client), c.as_ptr(), c.len(), held(server), s.as_ptr(), s.len()) } {
            0 => Guess::AsGiven,
            1 => Guess::Swapped,
            2 => Guess::Unknown,
            _ => Guess::OtherProtocol,
        }
    }

    pub fn version() -> u32 {
        // SAFETY: it takes and reads nothing.
        unsafe { c::mailindex_version() }
    }
}

use mailindex::{Answer, Entry, Session, Side};
use std::ffi::OsString;
use std::fs::File;
use std::io::{self, BufWriter, Read, Write};
use std::os::fd::AsFd;
use std::os::unix::ffi::OsStrExt;
use std::process::ExitCode;

/// What went wrong, and the exit status that says so.
type Failure = (u8, String);

/// The most bytes of the first piece and of the others; whether each is shown at once, also after a window of which nothing was taken; whether the session
/// is strict.
struct Pieces {
    first: usize,
    then: usize,
    at_once: bool,
    strict: bool,
}

fn unread(why: io::Error) -> Failure {
    (1, format!("the session cannot be read: {why}"))
}

fn unwritten(why: io::Error) -> Failure {
    (1, format!("the listing cannot be written: {why}"))
}

/// The session's letter, and all behind it, without a buffer between.
fn open() -> Result<(Entry, File), Failure> {
    let mut input = File::from(io::stdin().as_fd().try_clone_to_owned().map_err(unread)?);
    let mut letter = [0];
    let got = input.read(&mut letter).map_err(unread)?;
    let entry = match &letter[..got] {
        b"S" => Entry::SmtpClient,
        b"s" => Entry::SmtpServer,
        b"P" => Entry::Pop3Server,
        b"I" => Entry::ImapClient,
        _ => return Err((2, "the first byte is one of S s P I".into())),
    };
    Ok((entry, input))
}

fn print_events(table: &[u32], printed: u64, answer: Answer, out: &mut impl Write) -> Result<(), Failure> {
    for e in mailindex::events(table, printed, answer) {
        writeln!(out, "{} {} {} {}", e.kind as u32, e.offset, e.length, e.encoding as u32).map_err(unwritten)?;
    }
    out.flush().map_err(unwritten)
}

fn print_answer(answer: Answer, out: &mut impl Write) -> Result<(), Failure> {
    writeln!(out, "{} {} {}", answer.result, answer.place, answer.count).and_then(|()| out.flush()).map_err(unwritten)
}

fn list_whole(out: &mut impl Write) -> Result<(), Failure> {
    let (entry, mut input) = open()?;
    let mut bytes = Vec::new();
    input.read_to_end(&mut bytes).map_err(unread)?;
    // A session over the limit is refused before it is read, and needs no table.
    let slots = if bytes.len() > mailindex::LIMIT { 0 } else { bytes.len() };
    let mut table = vec![0; mailindex::WIDTH * slots];
    let answer = mailindex::dissect(entry, &bytes, &mut table);
    print_events(&table, 0, answer, out)?;
    print_answer(answer, out)
}

/// Sees to it that there is a slot for each of so many bytes, which always suffices. What is over the limit is refused and needs none.
fn lend(table: &mut Vec<u32>, bytes: usize, events: u64) {
    if table.len() < mailindex::WIDTH * bytes.min(mailindex::LIMIT) {
        let mut larger = vec![0; mailindex::WIDTH * (2 * bytes).min(mailindex::LIMIT)];
        let kept = mailindex::WIDTH * events as usize;
        larger[..kept].copy_from_slice(&table[..kept]);
        *table = larger;
    }
}

fn list_pieces(pieces: Pieces, out: &mut impl Write) -> Result<(), Failure> {
    let (entry, mut input) = open()?;
    let mut session = Session::begin(entry, pieces.strict).ok_or((1, "the library has no such entry".into()))?;
    let (mut held, mut table) = (Vec::new(), Vec::new());
    let mut piece = vec![0; pieces.first.max(pieces.then)];
    let (mut most, mut all, mut due, mut printed) = (pieces.first, 0, 0, 0);
    loop {
        let got = input.read(&mut piece[..most]).map_err(unread)?;
        let ended = got == 0 && most > 0;
        held.extend_from_slice(&piece[..got]);
        most = pieces.then;
        if held.len() < due && !ended && !piece[..got].contains(&b'\n') {
            continue;
        }
        lend(&mut table, all + held.len(), printed);
        let shown = session.show(&held, &mut table);
        held.drain(..shown.taken);
        all += shown.taken;
        print_events(&table, printed, shown.answer, out)?;
        printed = shown.answer.count;
        if ended || shown.answer.result != mailindex::INCOMPLETE {
            return print_answer(shown.answer, out);
        }
        // An unfinished line is read again from its first byte: so that a long one is not read too often, its end is awaited, or twice as much.
        due = if shown.taken > 0 || pieces.at_once { 0 } else { 2 * held.len() };
    }
}

fn number(word: &OsString) -> Result<u32, Failure> {
    word.to_str().and_then(|w| w.parse().ok()).ok_or_else(|| (2, format!("{} is no number", word.display())))
}

fn side<'a>(port: &OsString, payload: &'a OsString) -> Result<Side<'a>, Failure> {
    Ok(Side { port: number(port)?, payload: (payload != "-").then(|| payload.as_bytes()) })
}

fn direction(words: &[OsString], out: &mut impl Write) -> Result<(), Failure> {
    let (client, server) = (side(&words[1], &words[3])?, side(&words[2], &words[4])?);
    let guess = mailindex::direction(number(&words[0])?, client, server);
    writeln!(out, "{}", guess as u32).and_then(|()| out.flush()).map_err(|why| (1, format!("the guess cannot be written: {why}")))
}

const USAGE: &str = "usage: list [whole | [strict] [pieces FIRST THEN]] < SESSION, or list direction PROTOCOL CLIENT_PORT SERVER_PORT CLIENT SERVER";

fn run(words: &[OsString]) -> Result<(), Failure> {
    let mut out = BufWriter::new(io::stdout().lock());
    if mailindex::version() != mailindex::VERSION {
        return Err((1, "this program was built for another library".into()));
    }
    // One call is never strict.
    let (strict, by) = match words {
        [verb] if verb == "whole" => return list_whole(&mut out),
        [verb, words @ ..] if verb == "direction" && words.len() == 5 => return direction(words, &mut out),
        [verb, by @ ..] if verb == "strict" => (true, by),
        by => (false, by),
    };
    match by {
        [] => list_pieces(Pieces { first: 1460, then: 1460, at_once: false, strict }, &mut out),
        [verb, first, then] if verb == "pieces" => match (number(first)? as usize, number(then)? as usize) {
            (_, 0) => Err((2, USAGE.into())),
            (first, then) => list_pieces(Pieces { first, then, at_once: true, strict }, &mut out),
        },
        _ => Err((2, USAGE.into())),
    }
}

fn main() -> ExitCode {
    let words: Vec<OsString> = std::env::args_os().skip(1).collect();
    match run(&words) {
        Ok(()) => ExitCode::SUCCESS,
        Err((status, why)) => {
            eprintln!("{why}");
            ExitCode::from(status)
        }
    }
}
