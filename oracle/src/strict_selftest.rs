//! Document 02's W6 by hand: sessions with the strict setting on, and the same with it off.

use crate::windows_selftest::{Known, known as shown, parted};

pub fn known() -> Vec<Known> {
    [lines(), returns(), mails()].into_iter().flatten().flatten().collect()
}

fn strict(mut known: Known) -> Known {
    known.cut.strict = true;
    known
}

/// One session with the strict setting on, and the same with it off.
fn on_and_off(entry: u8, windows: &[&str], on: &str, off: &str) -> [Known; 2] {
    [strict(shown(entry, windows, on)), shown(entry, windows, off)]
}

/// The same answers with the setting on and off.
fn unmoved(known: Known) -> [Known; 2] {
    [strict(known.clone()), known]
}

fn with_slots(known: [Known; 2], slots: u32) -> [Known; 2] {
    known.map(|mut known| {
        known.cut.case.slots = slots;
        known
    })
}

fn with_limit(known: [Known; 2], limit: usize) -> [Known; 2] {
    known.map(|mut known| {
        known.cut.limit = limit;
        known
    })
}

/// Every kind of line outside mails, and what 11 comes before.
fn lines() -> Vec<[Known; 2]> {
    let login = "EHLO a\r\nAUTH LOGIN\r\n";
    let tried = "EHLO a\r\nMAIL FROM:\r\n";
    let sender = "EHLO a\r\nMAIL FROM: <b@c>\r\n";
    vec![
        on_and_off(b'S', &["EHLO\n"], "0 11 0 0\n11 0 0\n", "5 1 5 0\n1 5 0\n"),
        on_and_off(b'S', &["NOOP\n"], "0 11 0 0\n11 0 0\n", "0 3 0 0\n3 0 0\n"),
        on_and_off(b'S', &["EHLO a\r\nNOOP\n"], "0 11 8 0\n11 8 0\n", "13 1 13 0\n1 13 0\n"),
        on_and_off(b'S', &["EHLO a\r\n", "STARTTLS\n"], "8 1 8 0\n0 11 8 0\n11 8 0\n", "8 1 8 0\n0 4 8 0\n4 8 0\n"),
        on_and_off(b'S', &["EHLO a\r\nNOOP\r\nNOOP\n"], "0 11 14 0\n11 14 0\n", "19 1 19 0\n1 19 0\n"),
        on_and_off(b'S', &[login, "u\n"], "20 1 20 0\n0 11 20 0\n11 20 0\n", "20 1 20 0\n2 1 22 1\n9 20 1 0\n1 22 1\n"),
        on_and_off(
            b'S',
            &[login, "u\r\np\n"],
            "20 1 20 0\n0 11 23 1\n9 20 1 0\n11 23 1\n",
            "20 1 20 0\n5 1 25 2\n9 20 1 0\n10 23 1 0\n1 25 2\n",
        ),
        on_and_off(
            b'S',
            &[login, "u\r\np\r\nx\n"],
            "20 1 20 0\n0 11 26 2\n9 20 1 0\n10 23 1 0\n11 26 2\n",
            "20 1 20 0\n8 1 28 2\n9 20 1 0\n10 23 1 0\n1 28 2\n",
        ),
        on_and_off(
            b'S',
            &[tried, "RCPT TO: <d@e>\n"],
            "20 1 20 0\n0 11 20 0\n11 20 0\n",
            "20 1 20 0\n15 1 35 1\n12 30 3 0\n1 35 1\n",
        ),
        on_and_off(b'S', &[tried, "DATA\n"], "20 1 20 0\n0 11 20 0\n11 20 0\n", "20 1 20 0\n5 1 25 0\n1 25 0\n"),
        on_and_off(
            b'S',
            &[sender, "RSET\n"],
            "26 1 26 1\n0 11 26 1\n11 20 3 0\n11 26 1\n",
            "26 1 26 1\n0 5 26 1\n11 20 3 0\n5 26 1\n",
        ),
        on_and_off(b's', &["250 a\n"], "0 11 0 0\n11 0 0\n", "6 1 6 1\n8 0 5 0\n1 6 1\n"),
        on_and_off(b's', &["221 x\n"], "0 11 0 0\n11 0 0\n", "6 0 6 1\n8 0 5 0\n0 6 1\n"),
        on_and_off(b'P', &["+OK\n"], "0 11 0 0\n11 0 0\n", "4 1 4 1\n8 0 3 0\n1 4 1\n"),
        on_and_off(b'P', &["+OK TLS\n"], "0 11 0 0\n11 0 0\n", "8 0 8 1\n8 0 7 0\n0 8 1\n"),
        on_and_off(b'I', &["a NOOP\n"], "0 11 0 0\n11 0 0\n", "7 1 7 1\n7 0 6 0\n1 7 1\n"),
        // The line behind an append, with a colon and without: one refusal, whether peeked at or read.
        on_and_off(
            b'I',
            &["a APPEND {9}\r\n", ":", "\n"],
            "14 1 14 1\n0 1 14 1\n0 11 14 1\n7 0 12 0\n11 14 1\n",
            "14 1 14 1\n0 1 14 1\n2 1 16 2\n7 0 12 0\n1 14 2 0\n1 16 2\n",
        ),
        on_and_off(
            b'I',
            &["a APPEND {9}\r\nx\n", "y\r\n"],
            "0 11 14 1\n0 11 14 1\n7 0 12 0\n11 14 1\n",
            "16 1 16 2\n3 1 19 3\n7 0 12 0\n7 14 1 0\n7 16 1 0\n1 19 3\n",
        ),
        // 11 comes before 10, and an event before it is due before it.
        with_slots(on_and_off(b's', &["a\n"], "0 11 0 0\n11 0 0\n", "0 10 0 0\n10 0 0\n"), 0),
        with_slots(on_and_off(b's', &["a\r\nb\n"], "0 11 3 1\n8 0 1 0\n11 3 1\n", "0 10 3 1\n8 0 1 0\n10 3 1\n"), 1),
        with_slots(unmoved(shown(b's', &["a\r\nb\n"], "0 10 0 0\n10 0 0\n")), 0),
        // 2 comes before the window is read; behind 11 it does not come.
        with_limit(unmoved(shown(b's', &["abc\n"], "0 2 0 0\n2 0 0\n")), 3),
        with_limit(
            on_and_off(b's', &["a\n", "longer"], "0 11 0 0\n0 11 0 0\n11 0 0\n", "2 1 2 1\n0 2 0 1\n8 0 1 0\n2 0 1\n"),
            7,
        ),
    ]
}

/// Which CR counts, and how lines are cut.
fn returns() -> Vec<[Known; 2]> {
    let literal = "a APPEND {79}\r\nContent-Type: boundary=qqq\r\n\r\n--qqq\r\n";
    let inner = "Content-Type: boundary=b\r\n\r\n--b\r\n\r\n--b--";
    let events = "7 0 13 0\n1 15 28 0\n1 43 2 0\n1 52 26 0\n1 78 2 0\n1 85 2 0\n2 87 0 0\n6 87 0 0\n";
    vec![
        on_and_off(b's', &["a\rb\n"], "0 11 0 0\n11 0 0\n", "4 1 4 1\n8 0 3 0\n1 4 1\n"),
        on_and_off(b's', &["\n"], "0 11 0 0\n11 0 0\n", "1 1 1 1\n8 0 0 0\n1 1 1\n"),
        on_and_off(b's', &["\r\n\n"], "0 11 2 1\n8 0 0 0\n11 2 1\n", "3 1 3 2\n8 0 0 0\n8 2 0 0\n1 3 2\n"),
        unmoved(shown(b's', &["\r\n\r\r\n"], "5 1 5 2\n8 0 0 0\n8 2 1 0\n1 5 2\n")),
        unmoved(shown(b's', &["a"], "0 1 0 0\n1 0 0\n")),
        unmoved(shown(
            b's',
            &["250 a\r", "\n", "221 b\r", "", "\n"],
            "0 1 0 0\n7 1 7 1\n0 1 7 1\n0 1 7 1\n7 0 14 2\n8 0 5 0\n8 7 5 0\n0 14 2\n",
        )),
        on_and_off(
            b's',
            &["a", "\r", "\n", "b", "\n", "", "c\r\n"],
            "0 1 0 0\n0 1 0 0\n3 1 3 1\n0 1 3 1\n0 11 3 1\n0 11 3 1\n0 11 3 1\n8 0 1 0\n11 3 1\n",
            "0 1 0 0\n0 1 0 0\n3 1 3 1\n0 1 3 1\n2 1 5 2\n0 1 5 2\n3 1 8 3\n8 0 1 0\n8 3 1 0\n8 5 1 0\n1 8 3\n",
        ),
        // The literal's rest ends in CR, and the next header line is an LF alone.
        on_and_off(
            b'I',
            &[literal, inner, "x\r\n"],
            &format!("52 1 52 3\n40 1 92 8\n0 11 94 8\n{events}11 94 8\n"),
            &format!("52 1 52 3\n40 1 92 8\n3 1 95 9\n{events}1 94 1 0\n1 95 9\n"),
        ),
        on_and_off(
            b'I',
            &[literal, inner, "x\r", "\n"],
            &format!("52 1 52 3\n40 1 92 8\n2 1 94 8\n0 11 94 8\n{events}11 94 8\n"),
            &format!("52 1 52 3\n40 1 92 8\n2 1 94 8\n1 1 95 9\n{events}1 94 1 0\n1 95 9\n"),
        ),
        // A rest that ends in LF.
        unmoved(shown(
            b'I',
            &[literal, inner, "x\n\r\n"],
            &format!("52 1 52 3\n40 1 92 8\n4 1 96 10\n{events}1 94 2 0\n2 96 0 0\n1 96 10\n"),
        )),
    ]
}

/// Lines of mails, what is no line, and a mail that is ended in its middle.
fn mails() -> Vec<[Known; 2]> {
    let part = "1 47 2 0\n2 49 0 0\n6 49 0 0\n";
    let forged = "EHLO\r\nMAIL FROM:\r\nDATA\r\n\r\na\n.\r\nMAIL FROM: <x@y>\r\n";
    let status = "8 0 12 0\n1 14 2 0\n2 16 0 0\n";
    let retrieved = "8 21 12 0\n1 35 2 0\n2 37 0 0\n3 37 3 0\n6 40 0 0\n";
    vec![
        on_and_off(
            b'P',
            &["+OK 1 octets\r\nT: u\n"],
            "0 11 14 1\n8 0 12 0\n11 14 1\n",
            "19 1 19 2\n8 0 12 0\n1 14 5 0\n1 19 2\n",
        ),
        on_and_off(
            b'P',
            &["+OK 1 octets\r\nT: u\r\n\n"],
            "0 11 20 2\n8 0 12 0\n1 14 6 0\n11 20 2\n",
            "21 1 21 3\n8 0 12 0\n1 14 6 0\n1 20 1 0\n1 21 3\n",
        ),
        [
            strict(parted(&["--q\r\nT: u\n"], "0 11 47 3\n", "", "11 47 3")),
            parted(&["--q\r\nT: u\n"], "10 1 52 4\n", "1 47 5 0\n", "1 52 4"),
        ],
        on_and_off(
            b'P',
            &["+OK 1 octets\r\n\r\nhi\n"],
            &format!("0 11 16 3\n{status}11 16 3\n"),
            &format!("19 1 19 4\n{status}3 16 3 0\n1 19 4\n"),
        ),
        on_and_off(
            b'P',
            &["+OK 1 octets\r\n\r\n", ".\n"],
            &format!("16 1 16 3\n0 11 16 3\n{status}11 16 3\n"),
            &format!("16 1 16 3\n2 1 18 4\n{status}3 16 2 0\n1 18 4\n"),
        ),
        [
            strict(parted(&["--q\r\n\r\n--q--x\n"], "0 11 54 6\n", part, "11 54 6")),
            parted(&["--q\r\n\r\n--q--x\n"], "14 1 56 6\n", part, "1 56 6"),
        ],
        [
            strict(parted(&["--q\r\n\r\n--q--\r\n", "--q\n"], "14 1 56 6\n0 11 56 6\n", part, "11 56 6")),
            parted(&["--q\r\n\r\n--q--\r\n", "--q\n"], "14 1 56 6\n4 1 60 6\n", part, "1 60 6"),
        ],
        // Preamble and content.
        unmoved(parted(
            &["a\n\n--q\n\r\n--q\r\n\r\nb\n\r\n--q--\r\n"],
            "27 1 69 7\n",
            "1 56 2 0\n2 58 0 0\n5 58 2 0\n6 60 0 0\n",
            "1 69 7",
        )),
        // A sized body; two bytes behind it and behind a delimiter.
        unmoved(shown(
            b'I',
            &["a APPEND {12}\r\nT: u\r\n\r\na\nb\n\r\n"],
            "29 1 29 6\n7 0 13 0\n1 15 6 0\n1 21 2 0\n2 23 0 0\n4 23 4 0\n6 27 0 0\n1 29 6\n",
        )),
        unmoved(shown(
            b'I',
            &["a APPEND {8}\r\nT: u\r\n\r\nx\n"],
            "0 8 22 5\n7 0 12 0\n1 14 6 0\n1 20 2 0\n2 22 0 0\n6 22 0 0\n8 22 5\n",
        )),
        unmoved(parted(&["--qx\n"], "0 6 45 3\n", "", "6 45 3")),
        // Behind a blank line.
        unmoved(shown(
            b'I',
            &["a APPEND {07}\r\nT: u\r\n\r\nx\n"],
            "0 7 23 3\n7 0 13 0\n1 15 6 0\n1 21 2 0\n7 23 3\n",
        )),
        unmoved(shown(
            b'P',
            &[&format!("+OK 1 octets\r\nContent-Type: boundary={}\r\n\r\nx\n", "q".repeat(71))],
            "0 12 112 3\n8 0 12 0\n1 14 96 0\n1 110 2 0\n12 112 3\n",
        )),
        // The bare line is the text line before the dot.
        on_and_off(
            b'S',
            &[forged],
            "0 11 26 2\n1 24 2 0\n2 26 0 0\n11 26 2\n",
            "31 0 31 4\n1 24 2 0\n2 26 0 0\n3 26 2 0\n6 28 0 0\n0 31 4\n",
        ),
        on_and_off(
            b'P',
            &["+OK 1 octets\r\n\r\na\n.\r\n", "+OK 1 octets\r\n\r\nb\r\n.\r\n"],
            &format!("0 11 16 3\n0 11 16 3\n{status}11 16 3\n"),
            &format!("21 1 21 5\n22 1 43 10\n{status}3 16 2 0\n6 18 0 0\n{retrieved}1 43 10\n"),
        ),
        on_and_off(
            b'P',
            &["+OK 1 octets\r\n\r\na\n.\n"],
            &format!("0 11 16 3\n{status}11 16 3\n"),
            &format!("20 1 20 5\n{status}3 16 2 0\n3 18 2 0\n1 20 5\n"),
        ),
    ]
}
