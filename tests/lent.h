/* For C programs that test the library: buffers to lend to it, in which a byte touched outside is seen, and checks. To be included first.
 *
 * A buffer stands in a room of memory between two pages that may not be touched, and the rest of the room is filled with guard bytes. It stands at the end of
 * the room, at its start, or in the middle at any place in a word: no alignment is asked for. So a byte that is read or written outside ends the program,
 * or a byte that is written is found. A room may also be sealed: then writing into it ends the program, too. */
#ifndef LENT_H
#define LENT_H

#define _DEFAULT_SOURCE
#include "../firmware/bytes.h"

#include <signal.h>
#include <stddef.h>
#include <stdint.h>
#include <stdio.h>
#include <stdlib.h>
#include <string.h>
#include <sys/mman.h>
#include <unistd.h>

#define ROOM 8192 /* whole pages, more than twice what any buffer needs */
#define GUARD 0xc3

struct buffer {
    uint8_t *room;
    uint8_t *lent;
    size_t length;
};

/* What is being tried, for messages. */
static char what[300];
static unsigned long checks;

static inline void fail(const char *text)
{
    printf("%s: %s\n", what, text);
    exit(1);
}

static inline void hold(int holds, const char *file, int line, const char *text)
{
    checks++;
    if (!holds) {
        printf("%s:%d: does not hold: %s\n    after %s\n", file, line, text, what);
        exit(1);
    }
}
#define CHECK(condition) hold((condition), __FILE__, __LINE__, #condition)

static inline void expect_number(uint32_t given, uint32_t right)
{
    checks++;
    if (given != right) {
        printf("%s: number %lu, and not %lu\n", what, (unsigned long)given, (unsigned long)right);
        exit(1);
    }
}

static inline void crashed(int signal)
{
    printf("%s: signal %d: touched what is outside of the buffers, or wrote what is to be read only\n", what, signal);
    fflush(stdout);
    _exit(1);
}

static inline void make_room(struct buffer *b)
{
    size_t page = (size_t)sysconf(_SC_PAGESIZE);
    uint8_t *whole = mmap(NULL, ROOM + 2 * page, PROT_NONE, MAP_PRIVATE | MAP_ANONYMOUS, -1, 0);
    strcpy(what, "making room");
    if (ROOM % page != 0 || whole == MAP_FAILED || mprotect(whole + page, ROOM, PROT_READ | PROT_WRITE) != 0)
        fail("no memory with guard pages");
    b->room = whole + page;
    signal(SIGSEGV, crashed);
    signal(SIGBUS, crashed);
}

/* Lends a copy of the bytes. Places: 0 at the end of the room, 1 at its start, 2 to 9 in the middle, so many bytes less 2 behind a word's start. */
#define PLACES 10
static inline void lend(struct buffer *b, const uint8_t *bytes, size_t length, int place)
{
    memset(b->room, GUARD, ROOM);
    b->lent = place == 0 ? b->room + ROOM - length : place == 1 ? b->room : b->room + ROOM / 4 + place - 2;
    b->length = length;
    if (length > 0)
        memcpy(b->lent, bytes, length);
}

static inline void seal(struct buffer *b)
{
    if (mprotect(b->room, ROOM, PROT_READ) != 0)
        fail("a page cannot be made read only");
}

static inline void unseal(struct buffer *b)
{
    if (mprotect(b->room, ROOM, PROT_READ | PROT_WRITE) != 0)
        fail("a page cannot be written again");
}

/* The pointer to be passed. A length of 0 may come with any pointer: it comes with a null pointer, or with one to a byte that no program has. */
static inline uint8_t *pointer(const struct buffer *b, int odd)
{
    if (b->length > 0)
        return b->lent;
    return odd ? (uint8_t *)(uintptr_t)8 : NULL;
}

/* The lent bytes are these now, and the guard bytes stand. */
static inline void expect_bytes(const struct buffer *b, const uint8_t *bytes, const char *name)
{
    checks++;
    for (const uint8_t *at = b->room; at < b->room + ROOM; at++) {
        int inside = at >= b->lent && at < b->lent + b->length;
        int expected = inside ? bytes[at - b->lent] : GUARD;
        if (*at == expected)
            continue;
        printf("%s: %s, byte %ld is %d, and not %d\n", what, name, (long)(at - b->lent), *at, expected);
        exit(1);
    }
}

/* The byte that pattern p puts at place i of a buffer. */
#define PATTERNS 5
static inline uint8_t pattern(int p, size_t i)
{
    switch (p) {
    case 0: return 0x00;
    case 1: return 0xff;
    case 2: return 0xa5;
    case 3: return (uint8_t)(i * 7 + 13);
    default: return (uint8_t)(i * i + (i >> 5) + 101);
    }
}

static inline void fill(uint8_t *bytes, size_t length, int p)
{
    for (size_t i = 0; i < length; i++)
        bytes[i] = pattern(p, i);
}

#endif
