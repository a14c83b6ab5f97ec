/* Lists a session from standard input: a letter (S SMTP client, s SMTP server, P POP3 server, I IMAP client), then the session.
 * - list: as its bytes come, in pieces of at most 1,460; what a piece adds is printed at once.
 * - list pieces FIRST THEN: a first piece of FIRST bytes, then pieces of THEN, each shown at once.
 * - list strict, list strict pieces FIRST THEN: likewise, and a line that ends in LF alone is refused.
 * - list whole: in one call, when all of it has been read.
 * - list direction PROTOCOL CLIENT_PORT SERVER_PORT CLIENT SERVER: guesses the direction, where CLIENT and SERVER are a side's first bytes, or -
 *   where they are not held.
 * Exits with 0; 1 where something cannot be read, held or written; 2 on bad usage. */
#include "mailindex.h"

#include <errno.h>
#include <inttypes.h>
#include <signal.h>
#include <stdio.h>
#include <stdlib.h>
#include <string.h>
#include <unistd.h>

struct entry {
    char letter;
    enum mailindex_entry number;
    void (*dissect)(const uint8_t *, size_t, uint32_t *, size_t, uint64_t *);
};

static const struct entry entries[] = {
    {'S', MAILINDEX_SMTP_CLIENT, mailindex_smtp_client},
    {'s', MAILINDEX_SMTP_SERVER, mailindex_smtp_server},
    {'P', MAILINDEX_POP3_SERVER, mailindex_pop3_server},
    {'I', MAILINDEX_IMAP_CLIENT, mailindex_imap_client},
};

static const struct entry *entry_of(char letter) {
    for (size_t i = 0; i < sizeof entries / sizeof *entries; i++) {
        if (entries[i].letter == letter) return &entries[i];
    }
    return NULL;
}

/* The most bytes of the first piece and of the others; whether each is shown at once, also after a window of which nothing was taken; whether the session
 * is strict. */
struct pieces {
    uint32_t first, then;
    int at_once, strict;
};

/* Bytes that were read and not taken, and the table; its first `printed` events are printed. */
struct listing {
    uint8_t *bytes;
    size_t held, room;
    uint32_t *table;
    size_t slots;
    uint64_t answer[4];
    uint64_t printed;
};

/* Reads what has come, at most so many bytes: how many, 0 at the input's end, -1 where they cannot be read or held. */
static ssize_t read_piece(struct listing *l, size_t most) {
    /* One byte more, so that there is memory to point to. */
    if (l->room < l->held + most + 1) {
        size_t room = 2 * (l->held + most) + 1;
        uint8_t *more = realloc(l->bytes, room);
        if (more == NULL) return -1;
        l->bytes = more;
        l->room = room;
    }
    ssize_t got = read(STDIN_FILENO, l->bytes + l->held, most);
    if (got > 0) l->held += (size_t)got;
    return got;
}

/* Whether there is a slot for each of so many bytes, which always suffices. What is over the limit is refused and needs none. */
static int has_slots(struct listing *l, size_t bytes) {
    if (bytes > MAILINDEX_LIMIT) bytes = MAILINDEX_LIMIT;
    if (l->slots > bytes) return 1;
    size_t slots = 2 * bytes < MAILINDEX_LIMIT ? 2 * bytes + 1 : MAILINDEX_LIMIT + 1;
    uint32_t *more = realloc(l->table, slots * MAILINDEX_WIDTH * sizeof *more);
    if (more == NULL) return 0;
    l->table = more;
    l->slots = slots;
    return 1;
}

static int unheld(void) {
    fprintf(stderr, "the session cannot be read or held\n");
    return 1;
}

/* Whether all that was printed has been written; says so where it has not. */
static int written(void) {
    if (fflush(stdout) == 0 && !ferror(stdout)) return 1;
    fprintf(stderr, "the listing cannot be written: %s\n", strerror(errno));
    return 0;
}

/* Prints the events that are not printed yet. */
static int print_events(struct listing *l) {
    for (; l->printed < l->answer[2]; l->printed++) {
        const uint32_t *e = l->table + MAILINDEX_WIDTH * l->printed;
        printf("%" PRIu32 " %" PRIu32 " %" PRIu32 " %" PRIu32 "\n", e[0], e[1], e[2], e[3]);
    }
    return written();
}

static int print_answer(const struct listing *l) {
    printf("%" PRIu64 " %" PRIu64 " %" PRIu64 "\n", l->answer[0], l->answer[1], l->answer[2]);
    return written() ? 0 : 1;
}

static int list_whole(const struct entry *entry, struct listing *l) {
    ssize_t got;
    do got = read_piece(l, 1 << 16);
    while (got > 0);
    if (got < 0 || !has_slots(l, l->held)) return unheld();
    entry->dissect(l->bytes, l->held, l->table, MAILINDEX_WIDTH * l->slots, l->answer);
    return print_events(l) ? print_answer(l) : 1;
}

/* Shows a window: all that is held. Keeps what was not taken of it, and says how much was. */
static size_t show(struct mailindex_session *session, struct listing *l) {
    mailindex_show(session->numbers, session->boundaries, l->bytes, l->held, l->table, MAILINDEX_WIDTH * l->slots, l->answer);
    size_t taken = l->answer[3];
    l->held -= taken;
    if (taken > 0) memmove(l->bytes, l->bytes + taken, l->held);
    return taken;
}

static int list_pieces(const struct entry *entry, const struct pieces *pieces, struct listing *l) {
    uint64_t choices[MAILINDEX_CHOICES] = {0};
    choices[MAILINDEX_ENTRY] = entry->number;
    choices[MAILINDEX_STRICT] = (uint64_t)pieces->strict;
    struct mailindex_session session;
    if (mailindex_begin(choices, session.numbers, session.boundaries) != MAILINDEX_INCOMPLETE) {
        fprintf(stderr, "the library has no such entry\n");
        return 1;
    }
    size_t most = pieces->first, all = 0, due = 0;
    for (;;) {
        ssize_t got = read_piece(l, most);
        if (got < 0 || !has_slots(l, all + l->held)) return unheld();
        int ended = got == 0 && most > 0;
        most = pieces->then;
        if (l->held < due && !ended && memchr(l->bytes + l->held - got, '\n', (size_t)got) == NULL) continue;
        size_t taken = show(&session, l);
        all += taken;
        if (!print_events(l)) return 1;
        if (ended || l->answer[0] != MAILINDEX_INCOMPLETE) return print_answer(l);
        /* An unfinished line is read again from its first byte: so that a long one is not read too often, its end is awaited, or twice as much. */
        due = taken > 0 || pieces->at_once ? 0 : 2 * l->held;
    }
}

/* By pieces; where they are NULL, in one call. */
static int list(const struct pieces *pieces) {
    char letter;
    ssize_t got = read(STDIN_FILENO, &letter, 1);
    if (got < 0) return unheld();
    const struct entry *entry = got == 0 ? NULL : entry_of(letter);
    if (entry == NULL) {
        fprintf(stderr, "the first byte is one of S s P I\n");
        return 2;
    }
    struct listing l = {0};
    int status = pieces == NULL ? list_whole(entry, &l) : list_pieces(entry, pieces, &l);
    free(l.table);
    free(l.bytes);
    return status;
}

/* A number of 32 bits in decimal; says so where it is none. */
static int number(const char *text, uint32_t *n) {
    char *end;
    errno = 0;
    unsigned long long value = strtoull(text, &end, 10);
    *n = (uint32_t)value;
    if (errno == 0 && text[0] >= '0' && text[0] <= '9' && *end == 0 && value <= UINT32_MAX) return 1;
    fprintf(stderr, "%s is no number\n", text);
    return 0;
}

static int direction(char **words) {
    uint32_t n[3];
    for (int i = 0; i < 3; i++) {
        if (!number(words[i], &n[i])) return 2;
    }
    const char *client = words[3], *server = words[4];
    printf("%" PRIu32 "\n", mailindex_direction(n[0], n[1], n[2], strcmp(client, "-") != 0, (const uint8_t *)client, strlen(client), strcmp(server, "-") != 0,
                                                (const uint8_t *)server, strlen(server)));
    return written() ? 0 : 1;
}

int main(int count, char **words) {
    /* A pipe that nobody reads any more is an error to tell, not a signal to die of. */
    signal(SIGPIPE, SIG_IGN);
    if (mailindex_version() != MAILINDEX_VERSION) {
        fprintf(stderr, "this program was built for another library\n");
        return 1;
    }
    if (count == 2 && strcmp(words[1], "whole") == 0) return list(NULL);
    if (count == 7 && strcmp(words[1], "direction") == 0) return direction(words + 2);
    struct pieces pieces = {1460, 1460, 0, 0};
    /* One call is never strict. */
    if (count > 1 && strcmp(words[1], "strict") == 0) {
        pieces.strict = 1;
        count--;
        words++;
    }
    if (count == 1) return list(&pieces);
    if (count == 4 && strcmp(words[1], "pieces") == 0) {
        if (!number(words[2], &pieces.first) || !number(words[3], &pieces.then)) return 2;
        pieces.at_once = 1;
        if (pieces.then > 0) return list(&pieces);
    }
    fprintf(stderr, "usage: list [whole | [strict] [pieces FIRST THEN]] < SESSION, or list direction PROTOCOL CLIENT_PORT SERVER_PORT CLIENT SERVER\n");
    return 2;
}
