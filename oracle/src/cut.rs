//! Sessions cut into windows: by seed and number, as records of a file, and shown piece by piece.

use crate::case::{Bytes, Case, write_case};
use crate::generate::{Generator, Kind, high_bytes};
use crate::reading;
use crate::rng::Rng;
use crate::special;
use crate::windows::{LONGEST, Session, Shown};
use crate::wrong_windows::Bend;

/// Where no window has written.
pub const UNTOUCHED: u32 = 0xAAAA_AAAA;

/// Keeps the numbers of the cuts apart from those of the cases.
const OWN: u64 = 0x5749_4E44_4F57_5321;

/// Byte by byte only up to this length.
const SHORT: usize = 600;

/// The most windows of a case: `cuts` has room for twice as many.
const WINDOWS: usize = 8_192;

/// Sessions up to this length are held against one call at every window.
const SMALL: usize = 200;

#[derive(Clone)]
pub struct Cut {
    pub case: Case,
    /// The new bytes of each window, all bytes of the session together.
    pub lengths: Vec<usize>,
    /// The session is begun with the strict setting on.
    pub strict: bool,
    /// The session's limit; the real one but in some cases, and always in files.
    pub limit: usize,
    /// The slots lent with each window, where they change; in files they never do.
    pub tables: Vec<usize>,
}

impl Cut {
    /// Case `number` cut up. Every fourth case, and what was a direction case, is made for windows,
    /// every sixteenth for bare LFs. Half of them are strict.
    pub fn made(generator: &Generator, number: u64) -> Cut {
        let mut rng = Rng::new(generator.seed ^ OWN, number);
        let mut case = generator.case(number);
        let for_bare = number % 16 == 5;
        if for_bare || number % 4 == 3 || case.entry == b'D' {
            case = if for_bare { special::bare(&mut rng) } else { special::case(&mut rng) };
            if matches!(generator.kind, Kind::AnyByte | Kind::WideImap) {
                high_bytes(&mut rng, &mut case.bytes);
            }
        }
        let lengths = lengths(&mut rng, &case.bytes);
        let mut cut = Cut::plain(case, lengths);
        match rng.below(20) {
            0 | 1 => cut.limit = some_limit(&mut rng, &cut.lengths),
            2 if cut.is_small() => cut.tables = some_tables(&mut rng, cut.lengths.len()),
            _ => {}
        }
        cut.strict = rng.chance(50);
        if cut.strict && !for_bare {
            cut.mend(&mut rng);
        }
        cut
    }

    /// With the real limit and one table, not strict.
    pub fn plain(case: Case, lengths: Vec<usize>) -> Cut {
        Cut {
            case,
            lengths,
            strict: false,
            limit: LONGEST,
            tables: Vec::new(),
        }
    }

    /// As a file has it: with the real limit and one table.
    pub fn filed(&self) -> Cut {
        Cut { limit: LONGEST, tables: Vec::new(), ..self.clone() }
    }

    /// Puts a CR before each bare LF that refuses, or up to one that stays, so that strict sessions
    /// go on. Of those without one, half get one anywhere.
    fn mend(&mut self, rng: &mut Rng) {
        while let Some(feed) = self.refused_feed() {
            if rng.chance(15) {
                return;
            }
            self.insert(feed, b'\r');
        }
        if rng.chance(50) {
            self.strip_one(rng);
        }
    }

    /// The LF of the line that one call refuses with 11.
    fn refused_feed(&self) -> Option<usize> {
        let bytes = &self.case.bytes;
        let (listing, _) = reading::as_by_windows(self.case.entry, bytes, bytes.len(), true);
        let place = listing.place as usize;
        let feed = bytes[place..].iter().position(|&b| b == b'\n').filter(|_| listing.result == 11);
        feed.map(|feed| place + feed)
    }

    /// Makes one CRLF a bare LF: without its CR, with another byte in its place, or with one behind it.
    fn strip_one(&mut self, rng: &mut Rng) {
        let bytes = &self.case.bytes;
        let feeds: Vec<usize> = (1..bytes.len()).filter(|&at| bytes[at - 1..].starts_with(b"\r\n")).collect();
        if feeds.is_empty() {
            return;
        }
        let feed = feeds[rng.below(feeds.len())];
        match rng.below(4) {
            0 => self.case.bytes[feed - 1] = b'x',
            1 => self.insert(feed, b'x'),
            _ => {
                let window = self.window_of(feed - 1);
                self.case.bytes.remove(feed - 1);
                self.lengths[window] -= 1;
            }
        }
    }

    /// The byte stands in the window that the one behind it stands in.
    fn insert(&mut self, at: usize, byte: u8) {
        let window = self.window_of(at);
        self.case.bytes.insert(at, byte);
        self.lengths[window] += 1;
    }

    fn window_of(&self, at: usize) -> usize {
        self.ends().position(|end| at < end).expect("a byte of the session")
    }

    pub fn is_plain(&self) -> bool {
        self.limit == LONGEST && self.tables.is_empty()
    }

    pub fn is_small(&self) -> bool {
        self.case.bytes.len() <= SMALL
    }

    /// The same session cut another way.
    pub fn another(&self, rng: &mut Rng) -> Cut {
        Cut { lengths: lengths(rng, &self.case.bytes), ..self.clone() }
    }

    /// Where each window ends.
    pub fn ends(&self) -> impl Iterator<Item = usize> + '_ {
        self.lengths.iter().scan(0, |end, length| {
            *end += length;
            Some(*end)
        })
    }

    /// Slots that can matter: an event takes a byte at least.
    pub fn slots(&self) -> usize {
        self.case.slots().min(self.case.bytes.len())
    }

    /// How many numbers are lent with a window.
    fn lent(&self, window: usize) -> usize {
        self.tables.get(window).map_or(self.slots() * 4, |slots| slots * 4 + window % 4)
    }

    /// Shows every window; `seen` is told its number, its answer and the table. Gives the table.
    pub fn show(&self, bend: Bend, mut seen: impl FnMut(usize, Shown, &[u32])) -> Vec<u32> {
        let most = (0..self.lengths.len()).map(|window| self.lent(window)).max().unwrap_or(0);
        let mut table = vec![UNTOUCHED; most];
        let mut session = Session::begin(self.case.entry, self.limit, self.strict, bend);
        let mut from = 0;
        let mut ended = false;
        for (number, end) in self.ends().enumerate() {
            let shown = session.show(&self.case.bytes[from..end], &mut table[..self.lent(number)]);
            from += shown.taken as usize;
            ended = shown.result != 1;
            seen(number, shown, &table);
        }
        if ended {
            self.show_more(session, from, &mut table, seen);
        }
        table
    }

    /// Two windows behind the end, the second with a larger table.
    fn show_more(
        &self,
        mut session: Session,
        from: usize,
        table: &mut Vec<u32>,
        mut seen: impl FnMut(usize, Shown, &[u32]),
    ) {
        let number = self.lengths.len();
        seen(number, session.show(b"", table), table);
        table.extend([UNTOUCHED; 35]);
        seen(number + 1, session.show(&self.case.bytes[from..], table), table);
    }
}

fn some_tables(rng: &mut Rng, windows: usize) -> Vec<usize> {
    (0..windows).map(|_| if rng.chance(60) { SMALL } else { rng.below(16) }).collect()
}

fn some_limit(rng: &mut Rng, lengths: &[usize]) -> usize {
    let windows = rng.below(lengths.len() + 1);
    let end: usize = lengths[..windows].iter().sum();
    (end + rng.below(4)).saturating_sub(1)
}

fn lengths(rng: &mut Rng, bytes: &[u8]) -> Vec<usize> {
    let all = bytes.len();
    let mut lengths = match rng.below(16) {
        0 => vec![all],
        1 | 2 if all <= SHORT => vec![1; all],
        1..=3 => pieces(all, || 7),
        4 => pieces(all, || 100),
        5 => pieces(all, || 1460),
        6 | 7 => pieces(all, || 1 + rng.below(all)),
        8 => pieces(all, || 1 + rng.below(4)),
        9 | 10 => pieces(all, || 1 + rng.below(40)),
        11 => behind(bytes, b"\n"),
        12 => behind(bytes, b"\r"),
        13 => behind(bytes, b"-"),
        14 => behind(bytes, b"\r\n-.:q"),
        _ => pieces(all, || 1 + rng.below(all / 3 + 1)),
    };
    if rng.chance(30) {
        empty_between(rng, &mut lengths);
    }
    if lengths.len() > WINDOWS {
        let rest = lengths.drain(WINDOWS - 1..).sum();
        lengths.push(rest);
    }
    if lengths.is_empty() {
        lengths.push(0);
    }
    lengths
}

fn pieces(all: usize, mut length: impl FnMut() -> usize) -> Vec<usize> {
    let mut lengths = Vec::new();
    let mut left = all;
    while left > 0 {
        let piece = length().min(left);
        lengths.push(piece);
        left -= piece;
    }
    lengths
}

/// Cuts behind every byte of these.
fn behind(bytes: &[u8], these: &[u8]) -> Vec<usize> {
    bytes.split_inclusive(|b| these.contains(b)).map(<[u8]>::len).collect()
}

fn empty_between(rng: &mut Rng, lengths: &mut Vec<usize>) {
    for at in (0..=lengths.len()).rev() {
        if rng.chance(20) {
            lengths.insert(at, 0);
        }
    }
}

fn long(entry: u8, front: &[u8], filler: &[u8], lengths: &[usize]) -> Cut {
    let all = lengths.iter().sum();
    let bytes = front.iter().chain(filler.iter().cycle()).copied().take(all).collect();
    Cut::plain(Case { entry, slots: 8, bytes }, lengths.to_vec())
}

/// Sessions around the limit: met exactly and passed by a line never finished, passed at once (strict,
/// with a bare line), met by a sized body, by lines, and passed behind done and behind a refusal.
pub fn around_limit() -> Vec<Cut> {
    let quarter = LONGEST / 4;
    let literal = b"a APPEND {20000000}\r\nT: u\r\n\r\n";
    vec![
        long(b's', b"a\n", b"x", &[2, LONGEST - 2, 0, 1, 0]),
        Cut {
            strict: true,
            ..long(b's', b"a\r\nb\n", b"x", &[LONGEST + 1])
        },
        long(b'I', literal, b"x", &[10, 19, 8_000_000, LONGEST - 8_000_029, 1, 0]),
        long(b'S', b"HELO\nxxxxxxxxxx\n", b"fifteen bytes..\n", &[quarter, quarter, quarter, quarter, 0, 1, 1]),
        long(b's', b"221 bye\n", b"x", &[8, LONGEST, 5]),
        long(b'S', b"NOOP\n", b"x", &[5, LONGEST]),
    ]
}

pub fn write(out: &mut Vec<u8>, cut: &Cut) {
    write_case(out, &cut.case);
    out.extend(u32::from(cut.strict).to_le_bytes());
    out.extend((cut.lengths.len() as u32).to_le_bytes());
    cut.lengths.iter().for_each(|length| out.extend((*length as u32).to_le_bytes()));
}

pub fn read(from: &mut Bytes) -> Option<Cut> {
    let case = from.case().filter(|case| case.entry != b'D')?;
    let strict = match from.number()? {
        0 => false,
        1 => true,
        _ => return None,
    };
    let count = from.number()?;
    let lengths: Option<Vec<usize>> = (0..count).map(|_| from.number().map(|length| length as usize)).collect();
    let cut = Cut { strict, ..Cut::plain(case, lengths?) };
    let whole = cut.lengths.iter().sum::<usize>() == cut.case.bytes.len();
    whole.then_some(cut)
}
