/* One space of btspace, a Linda tuple space, for programs in C: as a function from bytes to bytes, and as a space that
 * lasts.
 *
 * Link with libspace_library.a, which `rt lib` makes in crates/space_library, and with the C part of Rattle's libraries.
 * docs/embedding.md has the command, and docs/formats.md ("Bytes") the encodings.
 *
 * What a caller owes, for nothing checks it:
 * - A pointer is not null, even where the length beside it is 0. So many bytes are there, fewer than 2^63, to be read or
 *   written as the parameter says, and nobody else writes them during the call.
 * - The parameters of a call share no byte.
 * - A `struct btspace` is BTSPACE_CLOSED, or as the last call left it. One that was copied is one space: only one of
 *   the copies is used from then on. It stays on its thread.
 * - No call comes from a signal handler, or from the child of a fork of a process with threads.
 * - malloc, realloc and free are those of one allocator.
 *
 * Then any bytes and any numbers are safe, and threads may call at the same time, each with spaces of its own.
 */
#ifndef BTSPACE_H
#define BTSPACE_H

#include <stddef.h>
#include <stdint.h>

#ifdef __cplusplus
extern "C" {
#endif

/* Refusals. The numbers are those of docs/formats.md. */
enum {
    BTSPACE_NO_MEMORY = 4,    /* memory ran out */
    BTSPACE_MALFORMED = 5,    /* the bytes spell no operation, or are no pages; there is no such page */
    BTSPACE_TOO_LARGE = 7,    /* the answer, or the text, may not fit */
    BTSPACE_STOPPED = 21,     /* no birth number is left: more than 2^53 operations */
    BTSPACE_BAD_VERSION = 25, /* a space has version 1 or 2 */
    BTSPACE_IS_CLOSED = 27    /* the handle holds no space */
};

enum {
    BTSPACE_MOST_ANSWER = 65538, /* the longest answer: 64 tuples of 1,024 bytes, a tag and a count */
    BTSPACE_PAGES = 256,
    BTSPACE_MOST_PAGE = 66176, /* the longest page: 64 tuples of 1,024 bytes, each behind 10 bytes */
    BTSPACE_HEADER = 17        /* a header */
};

/* ---- A run: operations on a space that is gone at the end. */

/* How far a run came. */
struct btspace_ran {
    size_t read;    /* so many bytes of the operations: all of them spell operations that were applied */
    size_t written; /* so many bytes of the results: their answers */
};

/* Applies the operations, whose encodings stand one behind another, to a new space of version 1 or 2, as client 0's. Their
 * answers' encodings stand one behind another in the results, and behind those the results stay as they were. The space is
 * gone at the end. Gives 0 if all operations were applied, or 4, 5, 7 (the next answer doesn't fit), 21 or 25. */
uint8_t btspace_run(uint8_t version, const uint8_t *operations, size_t operations_len, uint8_t *results, size_t results_len,
                    struct btspace_ran *ran);

/* ---- A space that lasts. Each call gives 0, or the number of a refusal. A refusal changes nothing but `written`,
 * which is 0 then. */

/* A handle of a space. Nobody but the library reads or writes what is inside. */
struct btspace {
    void *space;
};

/* A handle without a space. A handle begins so. */
#define BTSPACE_CLOSED { NULL }

/* Opens a new space of version 1 or 2. A space that the handle had is gone. Refusals: 4, 25. */
uint8_t btspace_open(uint8_t version, struct btspace *space);

/* The space is gone, and the handle closed. A closed one stays as it is. */
void btspace_close(struct btspace *space);

/* Applies the operation that the bytes spell, all of them, as client 0's. Its answer's encoding stands in front of
 * `answer`, and has `*written` bytes; behind those nothing changes. `answer` needs room for the longest answer that the
 * operation may have: 1 byte for out and upgrade, 2 for cas, 1,025 for rdp and inp, 2 + 1,024 N for an rdAll or inAll of
 * N tuples. Refusals: 4, 5, 7, 21, 27. */
uint8_t btspace_apply(struct btspace *space, const uint8_t *operation, size_t operation_len, uint8_t *answer,
                      size_t answer_len, size_t *written);

/* Writes the text of page `page`, 0 to 255, which has `*written` bytes. Refusals: 4, 5 (no such page), 7, 27. */
uint8_t btspace_page(struct btspace *space, size_t page, uint8_t *text, size_t text_len, size_t *written);

/* Writes the text of the header. `number` is the caller's. To be read again, it has to be below 2^48 and at least a
 * sixteenth of the number of operations so far. Refusals: 27. */
uint8_t btspace_header(struct btspace *space, uint64_t number, uint8_t header[BTSPACE_HEADER]);

/* Opens the space with these pages and this header. The texts of pages 0 to 255 stand one behind another, with the
 * length of each. `*number` is the header's. A space that the handle had is gone. Refusals: 4; 5 if these are no
 * space's. */
uint8_t btspace_from_pages(const uint8_t *texts, size_t texts_len, const size_t lengths[BTSPACE_PAGES],
                           const uint8_t *header, size_t header_len, struct btspace *space, uint64_t *number);

#ifdef __cplusplus
}
#endif

#endif
