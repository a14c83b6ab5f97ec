//! Document 02's W2 by hand: windows and the answers they must get; W6 stands beside.

use crate::case::{Case, ENOUGH, readable};
use crate::cut::{Cut, around_limit};
use crate::list::write_windows;
use crate::strict_selftest;
use crate::windows::{LONGEST, Session, Shown};
use crate::wrong_windows::Bend;

/// A cut session with what `batch --windows` must print of it.
#[derive(Clone)]
pub struct Known {
    pub cut: Cut,
    pub printed: String,
}

pub fn known(entry: u8, windows: &[&str], printed: &str) -> Known {
    let windows: Vec<&[u8]> = windows.iter().map(|window| window.as_bytes()).collect();
    known_bytes(entry, &windows, printed)
}

fn known_bytes(entry: u8, windows: &[&[u8]], printed: &str) -> Known {
    let case = Case { entry, slots: ENOUGH, bytes: windows.concat() };
    let lengths = windows.iter().map(|window| window.len()).collect();
    Known { cut: Cut::plain(case, lengths), printed: printed.to_string() }
}

/// A POP3 mail with boundary q up to behind its blank line, 42 bytes, then windows.
pub fn parted(windows: &[&str], answers: &str, events: &str, last: &str) -> Known {
    let front = "+OK 1 octets\r\nContent-Type: boundary=q\r\n\r\n";
    let all = [&[front], windows].concat();
    known(b'P', &all, &format!("42 1 42 3\n{answers}8 0 12 0\n1 14 26 0\n1 40 2 0\n{events}{last}\n"))
}

fn taken() -> Vec<Known> {
    let first = "EHLO a\r\nMAIL FROM: <b@c>\r\nRCPT TO: <d@e>\r\nDATA\r\nTo: d\r\n\r\nhi\r\n.\r\n";
    let events = "11 20 3 0\n12 36 3 0\n1 48 7 0\n1 55 2 0\n2 57 0 0\n3 57 4 0\n6 61 0 0\n";
    vec![
        known(b'S', &[first], &format!("64 0 64 7\n{events}0 64 7\n")),
        known(
            b'S',
            &["", &first[..7], &first[7..60], "", &first[60..62], &first[62..], "QUIT\r\n", ""],
            &format!("0 1 0 0\n0 1 0 0\n57 1 57 5\n0 1 57 5\n4 1 61 6\n3 0 64 7\n0 0 64 7\n0 0 64 7\n{events}0 64 7\n"),
        ),
        // Done takes up to its place.
        known(
            b's',
            &["250 a\n221 b\nc", "\n221 d\n", ""],
            "12 0 12 2\n0 0 12 2\n0 0 12 2\n8 0 5 0\n8 6 5 0\n0 12 2\n",
        ),
        // A refusal takes nothing, though lines of its window are listed.
        known(
            b'S',
            &["HELO\nAUTH LOGIN\nu\np\nx\n", "y\n", "DATA\n"],
            "22 1 22 2\n0 5 22 2\n0 5 22 2\n9 16 1 0\n10 18 1 0\n5 22 2\n",
        ),
        known(b'S', &["HELO\nAUTH LOGIN\nu\np\nx\ny\n", ""], "0 5 22 2\n0 5 22 2\n9 16 1 0\n10 18 1 0\n5 22 2\n"),
    ]
}

fn regions() -> Vec<Known> {
    vec![
        // Finished lines of a preamble are taken, its place stays; the delimiter waits for no line's end.
        parted(
            &["abc\r\nde", "f\r\n--", "q", "\r", "\n"],
            "5 1 42 3\n5 1 42 3\n3 1 55 3\n0 1 55 3\n2 1 57 3\n",
            "",
            "1 57 3",
        ),
        // The CRLF taken with its line belongs to the delimiter.
        parted(
            &["--q\r\n\r\nabc\r\n", "-", "-q-", "-"],
            "12 1 49 5\n0 1 49 5\n3 1 57 7\n2 1 59 7\n",
            "1 47 2 0\n2 49 0 0\n5 49 3 0\n6 52 0 0\n",
            "1 59 7",
        ),
        // Behind a bare LF no delimiter may stand, behind CRLF one may, in the next window too.
        parted(
            &["--q\r\n\r\nabc\n", "--q\r\n", "", "--q", "x\n"],
            "11 1 49 5\n5 1 49 5\n0 1 49 5\n3 1 61 7\n0 6 61 7\n",
            "1 47 2 0\n2 49 0 0\n5 49 7 0\n6 56 0 0\n",
            "6 61 7",
        ),
        // An unfinished line that can be no delimiter is not taken either.
        parted(&["--q\r\n\r\nxy", "z--q"], "7 1 49 5\n0 1 49 5\n", "1 47 2 0\n2 49 0 0\n", "1 49 5"),
        // A boundary that ends in LF is read with its line's end, and not before.
        known(
            b'P',
            &["+OK 1 octets\r\nContent-Type: boundary=q\n", "\r\n--q", "\n", "\r\n"],
            "39 1 39 2\n2 1 41 3\n4 1 45 3\n2 1 47 3\n8 0 12 0\n1 14 25 0\n1 39 2 0\n1 47 3\n",
        ),
    ]
}

fn literals() -> Vec<Known> {
    let rest = "Content-Type: boundary=qqq\r\n\r\n--qqq\r\n\r\n--qqq--";
    let listed = "7 0 13 0\n1 15 28 0\n1 43 2 0\n1 52 2 0\n2 54 0 0\n6 54 0 0\n";
    vec![
        // Of a sized body all bytes shown are taken, its place stays; two bytes are taken together.
        known(
            b'I',
            &["a APPEND x {11}\r\nT: u\r\n\r\nh", "e", "", "y\r", "\n"],
            "26 1 25 4\n1 1 25 4\n0 1 25 4\n1 1 28 6\n2 1 30 6\n7 0 15 0\n1 17 6 0\n1 23 2 0\n2 25 0 0\n4 25 3 0\n6 28 0 0\n1 30 6\n",
        ),
        // A header that passes its literal in an earlier window.
        known(
            b'I',
            &["a APPEND x {03}\r\nT: u\r\n", "\r", "\n", "hey"],
            "23 1 23 2\n0 1 23 2\n0 7 25 3\n0 7 25 3\n7 0 15 0\n1 17 6 0\n1 23 2 0\n7 25 3\n",
        ),
        // A line that is peeked at is not taken before it is whole; without a colon it is a command.
        // A window that ends inside a no-break space: the line is read whole, and the space counts.
        known_bytes(
            b'I',
            &[b"a APPEND{4}\xc2", b"\xa0\n:\n\r", b"\n\r\n"],
            "0 1 0 0\n16 1 16 2\n4 1 20 5\n7 0 13 0\n1 14 2 0\n1 16 2 0\n2 18 0 0\n6 18 0 0\n1 20 5\n",
        ),
        known(b'I', &["a APPEND {9}\r\nno", "\n"], "14 1 14 1\n3 1 17 2\n7 0 12 0\n7 14 2 0\n1 17 2\n"),
        // The literal's rest of 2 is skipped whole, before the next line is finished.
        known(
            b'I',
            &[&format!("a APPEND {{48}}\r\n{rest}"), "\n", "", "x", "\r", "\n"],
            &format!("61 1 61 6\n0 1 61 6\n0 1 61 6\n2 1 63 6\n0 1 63 6\n2 1 65 6\n{listed}1 65 6\n"),
        ),
        // With a rest of 0 a line is waited for.
        known(
            b'I',
            &[&format!("a APPEND {{46}}\r\n{rest}"), "\r", "\n--qqq\r", "\n", "x"],
            &format!("61 1 61 6\n0 1 61 6\n2 1 63 6\n7 1 70 6\n0 1 70 6\n{listed}1 70 6\n"),
        ),
    ]
}

/// A POP3 mail whose header supplies a boundary by `field`, in one window and cut before the blank line.
fn long_boundary(field: &str, refused: bool) -> [Known; 2] {
    let lines: Vec<&str> = field.split_inclusive('\n').collect();
    let header = 14 + field.len();
    let mut events = "8 0 12 0\n".to_string();
    let mut at = 14;
    for line in lines.iter().chain(&["\r\n"]) {
        events += &format!("1 {at} {} 0\n", line.len());
        at += line.len();
    }
    let count = lines.len() + 2;
    let answer = if refused { format!("12 {at} {count}") } else { format!("1 {at} {count}") };
    let whole = format!("{} {answer}\n", if refused { 0 } else { at });
    let cut = format!("{header} 1 {header} {}\n{} {answer}\n", count - 1, if refused { 0 } else { 2 });
    let front = format!("+OK 1 octets\r\n{field}");
    [
        known(b'P', &[&front, "\r\n"], &format!("{cut}{events}{answer}\n")),
        known(b'P', &[&format!("{front}\r\n")], &format!("{whole}{events}{answer}\n")),
    ]
}

fn boundaries() -> Vec<Known> {
    let b = |length: usize| "b".repeat(length);
    let fields = [
        (format!("Content-Type: m; boundary=\"{}\"\r\n", b(70)), false),
        (format!("Content-Type: m; boundary=\"{}\"\r\n", b(71)), true),
        (format!("Content-Type: m; boundary={}\r\n", b(71)), true),
        (format!("Content-Type: m; boundary={}\n", b(69)), false),
        (format!("Content-Type: m; boundary={}\n", b(70)), true),
        (format!("Content-Type: m;\r\n\tboundary=\"{}\"\r\n", b(70)), false),
        (format!("Content-Type: m;\r\n\tboundary={}\r\n", b(200)), true),
        // The first that is supplied counts, long or not.
        (format!("Content-Type: m; boundary={}\r\nContent-Type: m; boundary=q\r\n", b(71)), true),
        (format!("Content-Type: m; boundary=q\r\nContent-Type: m; boundary={}\r\n", b(71)), false),
    ];
    fields.iter().flat_map(|(field, refused)| long_boundary(field, *refused)).collect()
}

/// Multiparts one in another; the last has a boundary of 71 bytes. At the ninth level 9 comes first.
fn long_at_level(level: usize) -> Known {
    let mut text = "+OK 1 octets\r\n".to_string();
    let mut events = "8 0 12 0\n".to_string();
    for at in 1..=level {
        let boundary = if at == level { "b".repeat(71) } else { at.to_string() };
        let field = format!("Content-Type: boundary={boundary}\r\n");
        events += &format!("1 {} {} 0\n1 {} 2 0\n", text.len(), field.len(), text.len() + field.len());
        text += &format!("{field}\r\n");
        if at < level {
            text += &format!("--{boundary}\r\n");
        }
    }
    let answer = format!("{} {} {}", if level == 9 { 9 } else { 12 }, text.len(), 1 + 2 * level);
    known(b'P', &[&text, "--", ""], &format!("0 {answer}\n0 {answer}\n0 {answer}\n{events}{answer}\n"))
}

/// What the sessions of `around_limit` get, in their order.
const AROUND_LIMIT: [&str; 6] = [
    "2 1 2 1\n0 1 2 1\n0 1 2 1\n0 2 0 1\n0 2 0 1\n8 0 1 0\n2 0 1\n",
    "0 2 0 0\n2 0 0\n",
    "0 1 0 0\n29 1 29 4\n8000000 1 29 4\n8777187 1 29 4\n0 2 0 4\n0 2 0 4\n7 0 19 0\n1 21 6 0\n1 27 2 0\n2 29 0 0\n2 0 4\n",
    "4194304 1 4194304 0\n4194304 1 8388608 0\n4194304 1 12582912 0\n4194304 1 16777216 0\n0 1 16777216 0\n0 2 0 0\n0 2 0 0\n2 0 0\n",
    "8 0 8 1\n0 0 8 1\n0 0 8 1\n8 0 7 0\n0 8 1\n",
    "0 3 0 0\n0 3 0 0\n3 0 0\n",
];

/// With a limit of 10 bytes: shown again they count once, ten pass, the eleventh does not.
fn limited() -> Vec<Known> {
    let limited = |windows: &[&str], printed| {
        let mut known = known(b's', windows, printed);
        known.cut.limit = 10;
        known
    };
    vec![
        limited(
            &["ab\r\n", "cd", "", "efgh", "", "\n", "\n"],
            "4 1 4 1\n0 1 4 1\n0 1 4 1\n0 1 4 1\n0 1 4 1\n0 2 0 1\n0 2 0 1\n8 0 2 0\n2 0 1\n",
        ),
        limited(&["221 234\r\n", "more than ten bytes"], "9 0 9 1\n0 0 9 1\n8 0 7 0\n0 9 1\n"),
        limited(&["12345678\n\n"], "10 1 10 2\n8 0 8 0\n8 9 0 0\n1 10 2\n"),
        limited(&["12345678\n\n\n"], "0 2 0 0\n2 0 0\n"),
    ]
}

/// Tables of several lengths: each window's events go by the table lent with it.
fn lent_tables() -> bool {
    let mut table = [7; 16];
    let mut session = Session::begin(b's', LONGEST, false, Bend::Nothing);
    let mut shows = |window: &[u8], numbers: usize, wanted: [u32; 4]| {
        let Shown { result, place, count, taken } = session.show(window, &mut table[..numbers]);
        [taken, result, place, count] == wanted
    };
    let answers = shows(b"a\nb\n", 11, [4, 1, 4, 2])
        && shows(b"c", 0, [0, 1, 4, 2])
        && shows(b"c\n", 12, [2, 1, 6, 3])
        && shows(b"d\ne\n", 15, [0, 10, 6, 3])
        && shows(b"d\ne\n", 16, [0, 10, 6, 3])
        && shows(b"", 16, [0, 10, 6, 3]);
    answers && table == [8, 0, 1, 0, 8, 2, 1, 0, 8, 4, 1, 0, 7, 7, 7, 7]
}

/// 2 stays even if what is shown then would be within the limit, and any end stays for an empty window.
fn ends_stay() -> bool {
    let mut session = Session::begin(b's', 10, false, Bend::Nothing);
    let mut table = [0; 8];
    let shown = [&b"a\n"[..], b"123456789", b"", b"221 x\n"].map(|window| session.show(window, &mut table));
    shown.map(|shown| [shown.taken, shown.result, shown.place, shown.count])
        == [[2, 1, 2, 1], [0, 2, 0, 1], [0, 2, 0, 1], [0, 2, 0, 1]]
}

/// How many checks were run, and how many failed.
pub fn run() -> (usize, usize) {
    let limits = around_limit().into_iter().zip(AROUND_LIMIT);
    let limits = limits.map(|(cut, printed)| Known { cut, printed: printed.to_string() });
    let known = [
        taken(),
        regions(),
        literals(),
        boundaries(),
        limited(),
        (1..=9).map(long_at_level).collect(),
        strict_selftest::known(),
    ];
    let mut failed = 0;
    let mut run = 0;
    for Known { cut, printed } in known.into_iter().flatten().chain(limits) {
        let mut found = Vec::new();
        write_windows(&mut found, &cut).expect("memory can be written");
        let found = String::from_utf8_lossy(&found);
        run += 1;
        if found != printed {
            failed += 1;
            let start = &cut.case.bytes[..cut.case.bytes.len().min(3_000)];
            println!("by windows {:?}, {}:\n{found}instead of\n{printed}", cut.lengths, readable(start));
        }
    }
    for (what, holds) in [("tables of several lengths", lent_tables()), ("an end stays", ends_stay())] {
        run += 1;
        if !holds {
            failed += 1;
            println!("by windows, {what}: FAILS");
        }
    }
    (run, failed)
}
