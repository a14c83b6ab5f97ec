/* The proved mail index: where sender, headers, bodies and parts of a mail session lie.
 *
 * One direction of one session is read, from its first byte, and its events are written into a table that the caller lends: by windows, as the bytes
 * come (mailindex_begin, mailindex_show), or in one call, by who holds all of it (mailindex_smtp_client and its like). Both list the same.
 * The library keeps nothing between calls, allocates nothing, and reads and writes nothing but the memory described here; of a session's bytes it
 * copies none but the boundaries of open multiparts, into the record that the caller holds. It may be called from any thread.
 *
 * The caller sees to it that
 * - `bytes` points to `length` bytes that nobody changes during the call, `table` to `numbers` numbers, and every other pointer to as many as it says;
 * - what a call may write overlaps nothing else that it is given, and nobody else uses it during the call;
 * - no pointer is null, also where its length is 0, and all are aligned for their type.
 * Nothing else is asked: any bytes and any length get an answer, and every number of the table behind the events stays as it was.
 */
#ifndef MAILINDEX_H
#define MAILINDEX_H

#include <stddef.h>
#include <stdint.h>

#ifdef __cplusplus
extern "C" {
#endif

/* What this header describes; mailindex_version() says what the library is. */
#define MAILINDEX_VERSION 4

/* The longest session, in bytes; and how many numbers of the table an event takes. */
#define MAILINDEX_LIMIT 16777216
#define MAILINDEX_WIDTH 4

/* An event is four numbers: kind, offset, length, encoding. Offset and length are bytes of the session, from its first byte on.
 *
 * Kinds 1 and 3 are whole lines, their CRLF or LF included. Kinds 7 to 10 are lines without it: the LF and one CR before it are left out.
 * Kinds 11 and 12 are an address without its < and >. Kinds 4 and 5 are a body at once.
 *
 * - A header is a run of kind 1; the blank line that ends it is a kind 1 too, of length 2. A folded line is an event of its own.
 * - A body has a start (2) and a stop (6), both of length 0: the start's offset is the body's first byte, the stop's the byte behind its last.
 *   Between them stand its lines (3), or its bytes at once (4 in IMAP, 5 in a part), or nothing where it is empty.
 * - A multipart has no event of its own: its header's lines are listed, then each part's header and body. What stands before the first part and
 *   behind the last one is not listed, nor are the delimiters. A part that is a multipart itself has its header's lines, and its parts follow.
 * - Dots that SMTP and POP3 double stay doubled: an offset and a length are the bytes as they were sent.
 * - Bytes of a user and a password (9, 10) lie where the event says: the table holds places only.
 *
 * An SMTP client's session gives kinds 1, 2, 3, 5, 6 and 9 to 12; an SMTP server's 8; a POP3 server's 1, 2, 3, 5, 6 and 8; an IMAP client's 1, 2,
 * 4, 5, 6 and 7. */
enum mailindex_kind {
    MAILINDEX_HEADER_LINE = 1,
    MAILINDEX_BODY_START = 2,
    MAILINDEX_BODY_LINE = 3,
    MAILINDEX_SIZED_BODY = 4,
    MAILINDEX_PART_BODY = 5,
    MAILINDEX_BODY_STOP = 6,
    MAILINDEX_CLIENT_LINE = 7,
    MAILINDEX_SERVER_LINE = 8,
    MAILINDEX_USER = 9,
    MAILINDEX_PASSWORD = 10,
    MAILINDEX_SENDER = 11,
    MAILINDEX_RECIPIENT = 12
};

/* What the header said of a body: on kinds 3, 4 and 5; 0 on all others. NO_ENCODING: nothing. UNKNOWN_ENCODING: it has a line that opens with
 * Content-Transfer-Encoding: and none that is valid, which is the field, spaces or none, one of the five names, CRLF. So x-uuencode is unknown, and so
 * is 7bit with a tab before it, with a space, a comment or a bare LF behind it, or on the next line. A part goes by its own header. */
enum mailindex_encoding {
    MAILINDEX_NO_ENCODING = 0,
    MAILINDEX_7BIT = 1,
    MAILINDEX_8BIT = 2,
    MAILINDEX_BINARY = 3,
    MAILINDEX_QUOTED_PRINTABLE = 4,
    MAILINDEX_BASE64 = 5,
    MAILINDEX_UNKNOWN_ENCODING = 6
};

/* The first number of an answer. In brackets: the place that comes with it.
 *
 * DONE is the end of an SMTP client's first mail, of an SMTP server's lines (221), or POP3 going over to TLS: what follows is not read.
 * INCOMPLETE is how a POP3 or an IMAP session normally stands when all of it was read, since it has no last line; the same bytes with more
 * behind them give the same events first. A session that its parties ended has a line last, of kind 7 or 8 (LOGOUT, the reply to QUIT): where the
 * last event is of another kind, the session broke off, or it was read on inside a mail that its sender had ended (docs/DIFFERENCES.md, 4).
 * The others are refusals: reading ended there, and the events so far stay. */
enum mailindex_result {
    MAILINDEX_DONE = 0,          /* the session ended [first unread byte] */
    MAILINDEX_INCOMPLETE = 1,    /* a read needs bytes beyond the end [where that read began] */
    MAILINDEX_TOO_LONG = 2,      /* more than MAILINDEX_LIMIT bytes [0]; in one call nothing was read, by windows earlier events stay */
    MAILINDEX_NO_HELLO = 3,      /* the first SMTP line lacks HELO or EHLO [0] */
    MAILINDEX_STARTTLS = 4,      /* the second SMTP line is STARTTLS [that line] */
    MAILINDEX_NO_RECIPIENT = 5,  /* a line before DATA is no recipient [that line] */
    MAILINDEX_BAD_DELIMITER = 6, /* wrong two bytes after a delimiter [those bytes] */
    MAILINDEX_SMALL_LITERAL = 7, /* a boundary-free literal below its header's length [after the blank line] */
    MAILINDEX_OPEN_LITERAL = 8,  /* a literal is not followed by CRLF [those bytes] */
    MAILINDEX_TOO_DEEP = 9,      /* a ninth multipart level [after its blank line] */
    MAILINDEX_TABLE_FULL = 10,   /* an event is due and no slot is free [that event's offset] */
    /* By windows only: */
    MAILINDEX_BARE_LF = 11,       /* in a strict session, a line whose LF has no CR directly before it in the line [that line] */
    MAILINDEX_LONG_BOUNDARY = 12, /* a multipart's boundary of more than 70 bytes would open [after its blank line] */
    MAILINDEX_NO_SESSION = 20     /* the record cannot be a session's: mailindex_begin and mailindex_show make none such; no event was written [0] */
};

/* answer[0] is the result, answer[1] the place, answer[2] the number of events in the table.
 *
 * The table has a slot for each MAILINDEX_WIDTH numbers, filled from the front. A slot for each byte of the session always suffices:
 * numbers = MAILINDEX_WIDTH * length. A smaller table will mostly do, a slot for each 32 bytes, say; on TABLE_FULL it holds the session's first
 * events, and the call is made again with a larger one. */
void mailindex_smtp_client(const uint8_t *bytes, size_t length, uint32_t *table, size_t numbers, uint64_t *answer);
void mailindex_smtp_server(const uint8_t *bytes, size_t length, uint32_t *table, size_t numbers, uint64_t *answer);
void mailindex_pop3_server(const uint8_t *bytes, size_t length, uint32_t *table, size_t numbers, uint64_t *answer);
void mailindex_imap_client(const uint8_t *bytes, size_t length, uint32_t *table, size_t numbers, uint64_t *answer);

/* ---- by windows
 *
 * A session is begun once and then shown its bytes as they come:
 *
 *     uint64_t choices[MAILINDEX_CHOICES] = {0};
 *     choices[MAILINDEX_ENTRY] = MAILINDEX_POP3_SERVER;
 *     struct mailindex_session session;
 *     mailindex_begin(choices, session.numbers, session.boundaries); (INCOMPLETE, or there is no such entry)
 *     for each window, the bytes that the last one left untaken in front of it:
 *         mailindex_show(session.numbers, session.boundaries, bytes, length, table, numbers, answer);
 *         answer[3] bytes of it were taken and need not be kept.
 *
 * However the session is cut, also byte by byte or with empty windows, its last answer and table are those of one call on all its bytes. Three refusals
 * apart: a boundary of more than 70 bytes (12), which only windows refuse; more bytes than the limit (2), where the events of earlier windows stay; and, in
 * a strict session, a line that does not end in CRLF (11), where the events are the first of those.
 * INCOMPLETE means: show more, if there is more. After any other answer the session is over: it takes nothing more and repeats its answer. So is one
 * that met TABLE_FULL: who lends less than a slot for each byte keeps a copy of the record, and goes back to it with that window and a larger table.
 *
 * What is taken: all before the read that is not finished, and of it, in a sized body (kind 4) every byte, in a part's body and before the first part
 * every finished line. So a caller keeps at most one unfinished line from window to window, whatever the body's size; or the two bytes behind a
 * delimiter or a literal, or, once in an IMAP mail with parts, the literal's last bytes, fewer than its boundary has. INCOMPLETE's place is where that
 * read began, which may lie before bytes that were taken. DONE takes up to its place, any other end takes nothing of its window.
 *
 * An unfinished line is read again from its first byte when more of it is shown. A line of n bytes shown again for every k of them costs
 * n * n / k / 2: where lines can be long, and a window took nothing, show again only when a line's end or twice as much has come: so do the examples.
 * What was taken is never looked at again. */

/* A session between windows: the caller holds it, the library makes it. What its numbers are is not said; it may be copied, moved and stored, and a
 * copy goes on from where the session was then, with what was chosen for it. It holds no pointer and no byte of the session but boundaries. Any other
 * content is safe to show: it is answered NO_SESSION, or read as the session that it happens to describe. */
#define MAILINDEX_SESSION_NUMBERS 24
#define MAILINDEX_SESSION_BOUNDARIES 648
struct mailindex_session {
    uint64_t numbers[MAILINDEX_SESSION_NUMBERS];
    uint8_t boundaries[MAILINDEX_SESSION_BOUNDARIES];
};

/* What is chosen where a session begins: a number for each choice, at the choice's index. 0 is a choice's default, and what has no name yet is 0, so that
 * a caller who leaves it so is not touched by a choice that is added. The entry has no default.
 *
 * Strict is off (0) or on (1). In RFC 5321 an LF alone ends no line; here it does. So a dot line behind such an LF ends a mail that goes on for who keeps to
 * the RFC, and the text behind that line, smuggled past him, is read as a second mail. A strict session ends with BARE_LF at the first line that is read
 * whose LF has no CR directly before it in the line, before that line's event and every other test of it.
 * Lines are: all that stands outside of mails; headers; bodies that are listed by lines, the dot line too; what follows a multipart's close. No lines, so
 * that an LF alone passes there: what stands before the first part; bodies of kinds 4 and 5; the two bytes behind a delimiter or a literal; the last bytes
 * of a literal with parts, where they are fewer than its boundary has. */
#define MAILINDEX_CHOICES 8
enum mailindex_choice {
    MAILINDEX_ENTRY = 0,
    MAILINDEX_STRICT = 1
};

enum mailindex_entry {
    MAILINDEX_SMTP_CLIENT = 1,
    MAILINDEX_SMTP_SERVER = 2,
    MAILINDEX_POP3_SERVER = 3,
    MAILINDEX_IMAP_CLIENT = 4
};

/* Begins a session: INCOMPLETE; or NO_SESSION where the entry is none of the four, strict is neither 0 nor 1, or a choice without a name is not 0: the
 * record is then no session's. choices points to MAILINDEX_CHOICES numbers, session_numbers and boundaries to those of a struct mailindex_session. */
uint32_t mailindex_begin(const uint64_t *choices, uint64_t *session_numbers, uint8_t *boundaries);

/* Shows a window. answer[0] is the result, answer[1] the place, answer[2] the number of events in the table, all as of one call on the bytes so far;
 * answer[3] is how many bytes of the window were taken. Places and offsets count from the session's first byte.
 *
 * session_numbers and boundaries are those of the session's struct, answer has four numbers. The table keeps the events of earlier windows, in front:
 * it may be another one, larger and with these copied, from window to window. A slot for each byte shown so far always suffices. */
void mailindex_show(uint64_t *session_numbers, uint8_t *boundaries, const uint8_t *bytes, size_t length, uint32_t *table, size_t numbers, uint64_t *answer);

enum mailindex_protocol {
    MAILINDEX_SMTP = 1,
    MAILINDEX_POP3 = 2,
    MAILINDEX_IMAP = 3
};

enum mailindex_guess {
    MAILINDEX_AS_GIVEN = 0,
    MAILINDEX_SWAPPED = 1,
    MAILINDEX_UNKNOWN = 2,
    MAILINDEX_OTHER_PROTOCOL = 3
};

/* Whether the side that is called the client is the client: by the ports, else by the first bytes that each side sent. A protocol that is none of the
 * three answers OTHER_PROTOCOL. Where a side's mark, client_held or server_held, is 0, its first payload is not held, and its bytes are not looked
 * at. The payloads may be the same memory. */
uint32_t mailindex_direction(uint32_t protocol, uint32_t client_port, uint32_t server_port, uint32_t client_held, const uint8_t *client, size_t client_length,
                             uint32_t server_held, const uint8_t *server, size_t server_length);

/* MAILINDEX_VERSION of the header that goes with the library. */
uint32_t mailindex_version(void);

#ifdef __cplusplus
}
#endif

#endif
