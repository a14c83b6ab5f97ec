/* How many bytes of stack the library uses: the deepest session runs on a stack filled with a pattern; what of the pattern is gone was used. In one call, and by
 * windows: byte by byte, then all at once. */
#define _GNU_SOURCE
#include "mailindex.h"

#include <pthread.h>
#include <stdio.h>
#include <stdlib.h>
#include <string.h>

enum { STACK = 1 << 20, PATTERN = 0xa5 };

static char bytes[8192];
static uint32_t table[4 * sizeof bytes];
static uint64_t answer[4];
static struct mailindex_session session;

/* Eight levels of multiparts, and a part's content in the innermost. */
static void write_session(void) {
    char *p = bytes;
    p += sprintf(p, "+OK 1 octets\r\n");
    for (int level = 1; level <= 8; level++) p += sprintf(p, "Content-Type: multipart/mixed; boundary=\"b%d\"\r\n\r\n--b%d\r\n", level, level);
    sprintf(p, "Content-Transfer-Encoding: base64\r\n\r\nAAAA\r\n--b8--\r\n--b1\r\n");
}

static void *one_call(void *nothing) {
    mailindex_pop3_server((const uint8_t *)bytes, strlen(bytes), table, sizeof table / sizeof *table, answer);
    return nothing;
}

/* The session from its start, a window for each `step` new bytes. */
static void show_all(size_t step) {
    const uint64_t choices[MAILINDEX_CHOICES] = {[MAILINDEX_ENTRY] = MAILINDEX_POP3_SERVER};
    size_t taken = 0, shown = 0, length = strlen(bytes);
    mailindex_begin(choices, session.numbers, session.boundaries);
    while (shown < length) {
        shown = shown + step < length ? shown + step : length;
        mailindex_show(session.numbers, session.boundaries, (const uint8_t *)bytes + taken, shown - taken, table, sizeof table / sizeof *table, answer);
        taken += answer[3];
    }
}

static void *by_windows(void *nothing) {
    show_all(1);
    show_all(sizeof bytes);
    return nothing;
}

static void *idle(void *nothing) {
    return nothing;
}

/* Bytes of a thread's stack that were written. */
static size_t used(void *(*thread)(void *)) {
    unsigned char *stack = aligned_alloc(1 << 16, STACK);
    pthread_attr_t how;
    pthread_t one;
    if (stack == NULL) exit(1);
    memset(stack, PATTERN, STACK);
    if (pthread_attr_init(&how) || pthread_attr_setstack(&how, stack, STACK) || pthread_create(&one, &how, thread, NULL) || pthread_join(one, NULL)) exit(1);
    size_t clean = 0;
    while (clean < STACK && stack[clean] == PATTERN) clean++;
    free(stack);
    return STACK - clean;
}

static void print(const char *how, void *(*thread)(void *), size_t base) {
    printf("stack at eight levels, %s: %zu bytes; the answer: ", how, used(thread) - base);
    printf("%d %d %d\n", (int)answer[0], (int)answer[1], (int)answer[2]);
}

int main(void) {
    write_session();
    size_t base = used(idle);
    print("in one call", one_call, base);
    print("by windows", by_windows, base);
    printf("a thread that does nothing uses %zu bytes of stack; a session between windows is %zu bytes\n", base, sizeof session);
    return 0;
}
