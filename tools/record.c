/* What the library says of a record that is no session's and of choices that are none, that a copy is as strict as its session, and how large a record is.
 * C, and C++ too. */
#include "mailindex.h"

#include <stdio.h>
#include <string.h>

static struct mailindex_session session;

/* A session begun with this entry, and with this number as the choice at this index. */
static uint32_t begin(uint64_t entry, size_t choice, uint64_t number) {
    uint64_t choices[MAILINDEX_CHOICES] = {0};
    choices[choice] = number;
    choices[MAILINDEX_ENTRY] = entry;
    return mailindex_begin(choices, session.numbers, session.boundaries);
}

/* Whether a window is answered with this result and place, no event and so many bytes taken, and the table, which has a slot, keeps what it holds. */
static int answers(struct mailindex_session *s, const char *window, uint64_t result, uint64_t place, uint64_t taken) {
    uint32_t table[MAILINDEX_WIDTH] = {5, 6, 7, 8};
    uint64_t answer[4] = {9, 9, 9, 9};
    mailindex_show(s->numbers, s->boundaries, (const uint8_t *)window, strlen(window), table, MAILINDEX_WIDTH, answer);
    const uint32_t kept[] = {5, 6, 7, 8};
    const uint64_t wanted[] = {result, place, 0, taken};
    return memcmp(answer, wanted, sizeof answer) == 0 && memcmp(table, kept, sizeof table) == 0;
}

/* Whether half a line is answered with this result and zeros. */
static int shows(uint64_t result) {
    return answers(&session, "221", result, 0, 0);
}

static int wrong(const char *what) {
    fprintf(stderr, "%s\n", what);
    return 1;
}

/* An entry with every choice that there is, and with some that are none. */
static int begun(uint64_t entry) {
    for (size_t choice = MAILINDEX_STRICT; choice < MAILINDEX_CHOICES; choice++) {
        const uint64_t none[] = {choice == MAILINDEX_STRICT ? 2u : 1u, UINT64_C(1) << 32, UINT64_C(1) << 32 | 1};
        for (size_t i = 0; i < sizeof none / sizeof *none; i++) {
            if (begin(entry, choice, none[i]) != MAILINDEX_NO_SESSION) return wrong("a choice that is none is taken");
            if (!shows(MAILINDEX_NO_SESSION)) return wrong("a session with a choice that is none is answered otherwise than 20 0 0 0");
        }
    }
    for (uint64_t strict = 0; strict <= 1; strict++) {
        if (begin(entry, MAILINDEX_STRICT, strict) != MAILINDEX_INCOMPLETE) return wrong("an entry is not begun");
        if (!shows(MAILINDEX_INCOMPLETE)) return wrong("half a line is answered otherwise than 1 0 0 0");
    }
    if (!answers(&session, "221\n", MAILINDEX_BARE_LF, 0, 0)) return wrong("a strict session answers a bare LF otherwise than 11 0 0 0");
    return 0;
}

/* A session that is under way, and then its copy, with a line that ends in LF alone. */
static int copied(uint64_t strict) {
    begin(MAILINDEX_SMTP_CLIENT, MAILINDEX_STRICT, strict);
    if (!answers(&session, "EHLO a\r\n", MAILINDEX_INCOMPLETE, 8, 8)) return wrong("a line is answered otherwise than 1 8 0 8");
    struct mailindex_session copy = session;
    struct mailindex_session *both[] = {&session, &copy};
    for (size_t i = 0; i < 2; i++) {
        if (strict ? !answers(both[i], "NOOP\n", MAILINDEX_BARE_LF, 8, 0) : !answers(both[i], "NOOP\n", MAILINDEX_INCOMPLETE, 13, 5)) {
            return wrong("a session or its copy is strict where it was not begun so, or is not where it was");
        }
    }
    return 0;
}

int main(void) {
    if (mailindex_version() != MAILINDEX_VERSION) return wrong("the header and the library have different versions");
    memset(&session, 0, sizeof session);
    if (!shows(MAILINDEX_NO_SESSION)) return wrong("a record of zeros is answered otherwise than 20 0 0 0");
    for (uint64_t entry = MAILINDEX_SMTP_CLIENT; entry <= MAILINDEX_IMAP_CLIENT; entry++) {
        if (begun(entry) != 0) return 1;
    }
    if (copied(0) != 0 || copied(1) != 0) return 1;
    const uint64_t none[] = {0, MAILINDEX_IMAP_CLIENT + 1, UINT64_C(1) << 32 | MAILINDEX_SMTP_CLIENT};
    for (size_t i = 0; i < sizeof none / sizeof *none; i++) {
        if (begin(none[i], MAILINDEX_STRICT, 0) != MAILINDEX_NO_SESSION) return wrong("an entry that is none is begun");
        if (!shows(MAILINDEX_NO_SESSION)) return wrong("a session that was not begun is answered otherwise than 20 0 0 0");
    }
    if (sizeof session > 1024) return wrong("a session's record is over 1 KiB");
    printf("a session between windows is %zu bytes\n", sizeof session);
    return 0;
}
