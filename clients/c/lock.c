/* A lock, from C: ann asks for it, ben asks too, ann lets go, and ben asks again. */
#include <stdint.h>
#include <stdio.h>

#include "btspace.h"

/* The bytes stand in docs/formats.md. A name has three letters here. */
#define LOCK "\2\0\4lock" "\2\0\7printer"
#define HOLDER(name) "\4" LOCK "\1\0\0\0\0\0\0\0\0" "\2\0\3" name /* ("lock" "printer" 0 NAME) */
#define ASK(name) "\x24" "\4" LOCK "\x10\x10" HOLDER(name)       /* cas ("lock" "printer" * *) ("lock" "printer" 0 NAME) */
#define RELEASE(name) "\x23" HOLDER(name)                        /* inp ("lock" "printer" 0 NAME) */

static const char script[] = ASK("ann") ASK("ben") RELEASE("ann") ASK("ben");

int main(void) {
    static uint8_t results[4 * BTSPACE_MOST_ANSWER];
    struct btspace_ran ran;
    uint8_t refusal = btspace_run(1, (const uint8_t *)script, sizeof script - 1, results, sizeof results, &ran);
    if (refusal != 0) {
        fprintf(stderr, "refused %u at byte %zu\n", refusal, ran.read);
        return 1;
    }
    for (size_t at = 0; at < ran.written; at++) printf("%02x", results[at]);
    printf("\n");
    return 0;
}
