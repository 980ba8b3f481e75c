/* A space that lasts, from C: a job is put and taken, and what is left is saved as pages and read again. */
#include <stdint.h>
#include <stdio.h>
#include <stdlib.h>

#include "btspace.h"

/* The bytes stand in docs/formats.md. A number has one digit here. */
#define JOB(number) "\2" "\2\0\3job" "\1\0\0\0\0\0\0\0" number      /* ("job" NUMBER) */
#define OUT(number) "\x21" JOB(number)                              /* out ("job" NUMBER) */
#define TAKE "\x23" "\2" "\2\0\3job" "\x11"                         /* inp ("job" ?int) */

static void check(uint8_t refusal) {
    if (refusal != 0) {
        fprintf(stderr, "refused %u\n", refusal);
        exit(1);
    }
}

/* Applies an operation, and prints its answer. */
static void apply(struct btspace *space, const char *operation, size_t len) {
    static uint8_t answer[BTSPACE_MOST_ANSWER];
    size_t written;
    check(btspace_apply(space, (const uint8_t *)operation, len, answer, sizeof answer, &written));
    for (size_t at = 0; at < written; at++) printf("%02x", answer[at]);
    printf("\n");
}

int main(void) {
    struct btspace space = BTSPACE_CLOSED, other = BTSPACE_CLOSED;
    check(btspace_open(1, &space));
    apply(&space, OUT("\1"), sizeof OUT("\1") - 1);
    apply(&space, OUT("\2"), sizeof OUT("\2") - 1);
    apply(&space, TAKE, sizeof TAKE - 1);

    /* The pages and the header are the whole space. */
    static uint8_t texts[BTSPACE_PAGES * BTSPACE_MOST_PAGE], header[BTSPACE_HEADER];
    size_t lengths[BTSPACE_PAGES], len = 0;
    for (size_t page = 0; page < BTSPACE_PAGES; page++) {
        check(btspace_page(&space, page, texts + len, BTSPACE_MOST_PAGE, &lengths[page]));
        len += lengths[page];
    }
    check(btspace_header(&space, 1, header));
    btspace_close(&space);

    uint64_t number;
    check(btspace_from_pages(texts, len, lengths, header, sizeof header, &other, &number));
    apply(&other, TAKE, sizeof TAKE - 1);
    apply(&other, TAKE, sizeof TAKE - 1);
    btspace_close(&other);
    return 0;
}
