/* Refuses each growth of memory in turn, by --wrap of the linker.
 *
 * The run then says so, has the answers to the operations in front, and leaves the rest of the results as it was. A call
 * of a space that lasts says so and changes nothing: the same call, made again with memory, goes on as if nothing had
 * been. */
#include <stdint.h>
#include <stdio.h>
#include <stdlib.h>
#include <string.h>

#include "btspace.h"

/* How many growths are granted before one is refused, and whether one was. */
static size_t granted;
static int was_refused;

void *__real_malloc(size_t size);
void *__real_realloc(void *block, size_t size);
void *__wrap_malloc(size_t size);
void *__wrap_realloc(void *block, size_t size);

static int refuses(void) {
    int is_now = granted-- == 0;
    was_refused |= is_now;
    return is_now;
}

void *__wrap_malloc(size_t size) { return refuses() ? NULL : __real_malloc(size); }

void *__wrap_realloc(void *block, size_t size) { return refuses() ? NULL : __real_realloc(block, size); }

/* Ends the program with this status if what has to hold doesn't. */
static void expect(int holds, int status) {
    if (!holds) exit(status);
}

enum { UNTOUCHED = 0xaa };

static void expect_untouched(const uint8_t *bytes, size_t from, size_t to, int status) {
    for (size_t at = from; at < to; at++) expect(bytes[at] == UNTOUCHED, status);
}

/* out (1), rdp (*), cas (2) (2), rdAll 64 (*), inAll 2 (*), upgrade, inAll 2 (*), inp (*) */
#define OUT "\x21\1\1\0\0\0\0\0\0\0\1"
#define READ "\x22\1\x10"
#define SWAP "\x24\1\1\0\0\0\0\0\0\0\2\1\1\0\0\0\0\0\0\0\2"
#define READ_ALL "\x25\x40\1\x10"
#define TAKE_ALL "\x26\2\1\x10"
#define UPGRADE "\x27"
#define TAKE "\x23\1\x10"

/* ---- A run. */

static const char script[] = OUT READ SWAP READ_ALL;

enum { ROOM = 100 };

static uint8_t run(size_t growths, uint8_t *results, struct btspace_ran *ran) {
    memset(results, UNTOUCHED, ROOM);
    granted = growths;
    was_refused = 0;
    return btspace_run(1, (const uint8_t *)script, sizeof script - 1, results, ROOM, ran);
}

static size_t growths_of_a_run(void) {
    uint8_t whole[ROOM], some[ROOM];
    struct btspace_ran all, ran;
    expect(run(SIZE_MAX, whole, &all) == 0, 1);
    for (size_t growths = 0;; growths++) {
        uint8_t refusal = run(growths, some, &ran);
        expect(refusal == 0 || refusal == BTSPACE_NO_MEMORY, 2);
        expect(refusal != 0 || (ran.read == all.read && ran.written == all.written), 3);
        expect(memcmp(some, whole, ran.written) == 0, 4);
        expect_untouched(some, ran.written, ROOM, 5);
        if (!was_refused) return growths;
    }
}

/* ---- A space that lasts. */

struct text {
    const char *bytes;
    size_t len;
};

#define TEXT(bytes) {bytes, sizeof bytes - 1}

static const struct text operations[] = {TEXT(OUT),      TEXT(READ),    TEXT(SWAP),     TEXT(READ_ALL),
                                         TEXT(TAKE_ALL), TEXT(UPGRADE), TEXT(TAKE_ALL), TEXT(TAKE)};

enum { OPERATIONS = sizeof operations / sizeof *operations };

/* What the calls of a space gave, one behind another. */
struct told {
    uint8_t bytes[BTSPACE_MOST_ANSWER + OPERATIONS * ROOM];
    size_t len;
};

/* Whether a call is to be made again: then memory ran out, and from now on there is some. */
static int again(uint8_t refusal) {
    expect(refusal == 0 || (refusal == BTSPACE_NO_MEMORY && was_refused), 6);
    if (refusal != 0) granted = SIZE_MAX;
    return refusal != 0;
}

static void open(struct btspace *space) {
    while (again(btspace_open(1, space))) expect(space->space == NULL, 7);
}

static void apply(struct btspace *space, const struct text *operation, struct told *told) {
    static uint8_t answer[BTSPACE_MOST_ANSWER];
    const uint8_t *bytes = (const uint8_t *)operation->bytes;
    size_t written = 1;
    memset(answer, UNTOUCHED, sizeof answer);
    while (again(btspace_apply(space, bytes, operation->len, answer, sizeof answer, &written))) {
        expect(written == 0, 8);
        expect_untouched(answer, 0, sizeof answer, 9);
    }
    expect_untouched(answer, written, sizeof answer, 10);
    memcpy(told->bytes + told->len, answer, written);
    told->len += written;
}

/* Saves the space as its pages, and opens another one by them. */
static void save(struct btspace *space, struct btspace *other) {
    static uint8_t texts[BTSPACE_MOST_PAGE], header[BTSPACE_HEADER];
    size_t lengths[BTSPACE_PAGES], len = 0;
    uint64_t number = 7;
    for (size_t page = 0; page < BTSPACE_PAGES; page++) {
        size_t *written = &lengths[page];
        while (again(btspace_page(space, page, texts + len, sizeof texts - len, written))) expect(*written == 0, 11);
        len += *written;
    }
    expect(btspace_header(space, 1, header) == 0, 12);
    while (again(btspace_from_pages(texts, len, lengths, header, sizeof header, other, &number))) {
        expect(other->space == NULL && number == 7, 13);
    }
    expect(number == 1, 14);
}

static void call_all(size_t growths, struct told *told) {
    struct btspace space = BTSPACE_CLOSED, other = BTSPACE_CLOSED;
    granted = growths;
    was_refused = 0;
    told->len = 0;
    open(&space);
    for (size_t at = 0; at < OPERATIONS / 2; at++) apply(&space, &operations[at], told);
    save(&space, &other);
    btspace_close(&space);
    expect(space.space == NULL, 15);
    for (size_t at = OPERATIONS / 2; at < OPERATIONS; at++) apply(&other, &operations[at], told);
    btspace_close(&other);
    /* A closed handle answers so, and may be closed again. */
    uint8_t answer;
    size_t written;
    expect(btspace_apply(&other, (const uint8_t *)UPGRADE, 1, &answer, 1, &written) == BTSPACE_IS_CLOSED, 16);
    btspace_close(&other);
}

static size_t growths_of_a_space(void) {
    static struct told whole, some;
    call_all(SIZE_MAX, &whole);
    for (size_t growths = 0;; growths++) {
        call_all(growths, &some);
        expect(some.len == whole.len && memcmp(some.bytes, whole.bytes, whole.len) == 0, 17);
        if (!was_refused) return growths;
    }
}

int main(void) {
    size_t of_a_run = growths_of_a_run();
    size_t of_a_space = growths_of_a_space();
    granted = SIZE_MAX;
    printf("%zu growths of a run, %zu of a space refused\n", of_a_run, of_a_space);
    return of_a_run == 0 || of_a_space == 0;
}
