/* Counts a program's copies and fills of at least LEAST bytes, by the place that asks for them. When the program ends,
   it writes them to the file MOVES: first where the program is entered, and then for each place how often it asked, and
   for how many bytes in all. Threads may ask side by side. */
#include <stdio.h>
#include <stdlib.h>
#include <sys/auxv.h>
#include <sys/syscall.h>
#include <unistd.h>

#define ROWS 65536

/* The checked forms of glibc, which are not counted themselves. */
extern void *__memmove_chk(void *to, const void *from, size_t length, size_t room);
extern void *__memset_chk(void *to, int byte, size_t length, size_t room);

static struct {
    size_t place, times, bytes;
} rows[ROWS];
static size_t least = -1;

__attribute__((constructor)) static void begin(void) {
    const char *word = getenv("LEAST");
    least = word ? strtoul(word, NULL, 10) : 1024;
}

static void count(void *caller, size_t length) {
    if (length < least)
        return;
    size_t place = (size_t)caller;
    for (size_t i = 0; i < ROWS; i++) {
        size_t at = (place + i) % ROWS, free = 0;
        if (__atomic_compare_exchange_n(&rows[at].place, &free, place, 0, __ATOMIC_RELAXED, __ATOMIC_RELAXED)
            || free == place) {
            __atomic_fetch_add(&rows[at].times, 1, __ATOMIC_RELAXED);
            __atomic_fetch_add(&rows[at].bytes, length, __ATOMIC_RELAXED);
            return;
        }
    }
    abort();
}

void *memcpy(void *to, const void *from, size_t length) {
    count(__builtin_return_address(0), length);
    return __memmove_chk(to, from, length, -1);
}

void *memmove(void *to, const void *from, size_t length) {
    count(__builtin_return_address(0), length);
    return __memmove_chk(to, from, length, -1);
}

void *memset(void *to, int byte, size_t length) {
    count(__builtin_return_address(0), length);
    return __memset_chk(to, byte, length, -1);
}

static void tell(void) {
    const char *name = getenv("MOVES");
    least = -1;
    FILE *file = name ? fopen(name, "w") : NULL;
    if (!file)
        return;
    fprintf(file, "%zu\n", (size_t)getauxval(AT_ENTRY));
    for (size_t at = 0; at < ROWS; at++)
        if (rows[at].place)
            fprintf(file, "%zu %zu %zu\n", rows[at].place, rows[at].times, rows[at].bytes);
    fclose(file);
}

/* The toolchain's programs end by this call, after which no destructor runs. */
void _exit(int status) {
    tell();
    for (;;)
        syscall(SYS_exit_group, status);
}
