/* A malloc that refuses the growth of number REFUSED, counted from 1, and grants all others. In the file GROWTHS, of
   three numbers of eight bytes, it counts how often it was asked, and how many threads were started and how many
   joined. The file is mapped, so that the counts are right however the program ends.

   If COPIES names a folder, it grants each growth, and refuses it in a copy of the process, for which it waits SECONDS
   at the most. So a program without threads is run once in place of once for each growth. The copy of number N writes
   what it gives and says to the files N.given and N.said. The file `statuses` gets a line for each copy: its number and
   how it ended, as waitpid tells it, or -1 if it didn't. */
#define _GNU_SOURCE
#include <dlfcn.h>
#include <errno.h>
#include <fcntl.h>
#include <pthread.h>
#include <signal.h>
#include <stdatomic.h>
#include <stdio.h>
#include <stdlib.h>
#include <sys/mman.h>
#include <sys/wait.h>
#include <time.h>
#include <unistd.h>

extern void *__libc_malloc(size_t size);
extern void *__libc_calloc(size_t count, size_t size);
extern void *__libc_realloc(void *block, size_t size);
extern void *__libc_memalign(size_t align, size_t size);

typedef int start_call(pthread_t *, const pthread_attr_t *, void *(*)(void *), void *);
typedef int join_call(pthread_t, void **);

struct counts {
    _Atomic unsigned long asked, started, joined;
};

static struct counts unseen;
static struct counts *counts = &unseen;
static unsigned long refused;
static const char *copies;
static time_t seconds;
static int statuses;
static start_call *start;
static join_call *join;

__attribute__((constructor)) static void begin(void) {
    const char *number = getenv("REFUSED"), *name = getenv("GROWTHS");
    start = (start_call *)dlsym(RTLD_NEXT, "pthread_create");
    join = (join_call *)dlsym(RTLD_NEXT, "pthread_join");
    int file = name ? open(name, O_RDWR) : -1;
    if (file >= 0) {
        void *at = mmap(NULL, sizeof *counts, PROT_READ | PROT_WRITE, MAP_SHARED, file, 0);
        if (at != MAP_FAILED)
            counts = at;
        close(file);
    }
    refused = number ? strtoul(number, NULL, 10) : 0;
    copies = getenv("COPIES");
    if (copies) {
        char path[4096];
        snprintf(path, sizeof path, "%s/statuses", copies);
        statuses = open(path, O_WRONLY | O_CREAT | O_APPEND | O_CLOEXEC, 0600);
        seconds = strtol(getenv("SECONDS"), NULL, 10);
    }
}

/* Writes to a file of the copy what goes to this number. */
static void redirect(int to, unsigned long number, const char *what) {
    char path[4096];
    snprintf(path, sizeof path, "%s/%lu.%s", copies, number, what);
    int file = open(path, O_WRONLY | O_CREAT | O_TRUNC, 0600);
    if (file < 0 || dup2(file, to) < 0)
        _exit(126);
    close(file);
}

/* How the copy ended, or -1. */
static int status_of(pid_t copy) {
    struct timespec now, pause = {0, 200000};
    clock_gettime(CLOCK_MONOTONIC, &now);
    for (time_t end = now.tv_sec + seconds; now.tv_sec <= end; clock_gettime(CLOCK_MONOTONIC, &now)) {
        int status;
        if (waitpid(copy, &status, WNOHANG) == copy)
            return status;
        nanosleep(&pause, NULL);
        if (pause.tv_nsec < 5000000)
            pause.tv_nsec *= 2;
    }
    kill(copy, SIGKILL);
    waitpid(copy, NULL, 0);
    return -1;
}

/* Whether this is the copy in which the growth is refused. */
static int is_copy_of(unsigned long number) {
    pid_t copy = fork();
    if (copy == 0) {
        redirect(1, number, "given");
        redirect(2, number, "said");
        copies = NULL;
        counts = &unseen;
        return 1;
    }
    char line[64];
    int length = snprintf(line, sizeof line, "%lu %d\n", number, copy < 0 ? -1 : status_of(copy));
    if (write(statuses, line, length) != length)
        abort();
    return 0;
}

static int is_refused(void) {
    unsigned long number = atomic_fetch_add(&counts->asked, 1) + 1;
    if (copies ? !is_copy_of(number) : number != refused)
        return 0;
    errno = ENOMEM;
    return 1;
}

void *malloc(size_t size) {
    return is_refused() ? NULL : __libc_malloc(size);
}

void *calloc(size_t count, size_t size) {
    return is_refused() ? NULL : __libc_calloc(count, size);
}

void *realloc(void *block, size_t size) {
    return is_refused() ? NULL : __libc_realloc(block, size);
}

void *aligned_alloc(size_t align, size_t size) {
    return is_refused() ? NULL : __libc_memalign(align, size);
}

void *memalign(size_t align, size_t size) {
    return is_refused() ? NULL : __libc_memalign(align, size);
}

int posix_memalign(void **block, size_t align, size_t size) {
    void *made = is_refused() ? NULL : __libc_memalign(align, size);
    if (made)
        *block = made;
    return made ? 0 : ENOMEM;
}

int pthread_create(pthread_t *thread, const pthread_attr_t *attributes, void *(*body)(void *), void *given) {
    int failed = start(thread, attributes, body, given);
    if (!failed)
        atomic_fetch_add(&counts->started, 1);
    return failed;
}

int pthread_join(pthread_t thread, void **result) {
    int failed = join(thread, result);
    if (!failed)
        atomic_fetch_add(&counts->joined, 1);
    return failed;
}
