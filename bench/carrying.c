/* Carries frames and timers between processes of parties, for bench/processes: the records of docs/formats.md. Its
   first word is how many microseconds it holds back the frames that it took at once. Each other word is a party: its
   number, and the descriptors from which its records are read and to which records for it are written, as 256:7:8. It
   ends after the records of the last client did. */
#define _GNU_SOURCE
#include <errno.h>
#include <limits.h>
#include <poll.h>
#include <signal.h>
#include <stdbool.h>
#include <stdio.h>
#include <stdlib.h>
#include <string.h>
#include <sys/prctl.h>
#include <time.h>
#include <unistd.h>

#define FIRST_CLIENT 256
#define PIECE 65536

/* The kinds of records. */
enum { FRAME = 1, TIMER = 2 };

struct bytes {
    unsigned char *at;
    size_t length, room;
};

struct party {
    int number, from, to;
    bool has_ended, has_timer;
    /* What was read of it and not carried, and what is to be written to it. */
    struct bytes taken, due;
    /* The number of its timer, as bytes, and when that is over. */
    unsigned char timer[8];
    long long over_at;
};

static struct party *parties;
static int count;

static void fail(const char *what) {
    perror(what);
    exit(1);
}

static long long milliseconds(void) {
    struct timespec now;
    clock_gettime(CLOCK_MONOTONIC, &now);
    return now.tv_sec * 1000LL + now.tv_nsec / 1000000;
}

static size_t number_in(const unsigned char *bytes, int length) {
    size_t number = 0;
    for (int i = 0; i < length; i++)
        number = number << 8 | bytes[i];
    return number;
}

/* Room for so many bytes more. */
static unsigned char *room_for(struct bytes *bytes, size_t more) {
    if (bytes->room < bytes->length + more) {
        bytes->room = 2 * (bytes->length + more);
        bytes->at = realloc(bytes->at, bytes->room);
        if (!bytes->at)
            fail("realloc");
    }
    return bytes->at + bytes->length;
}

static void drop_front(struct bytes *bytes, size_t length) {
    bytes->length -= length;
    if (bytes->length)
        memmove(bytes->at, bytes->at + length, bytes->length);
}

static void put_record(struct party *to, unsigned char kind, const unsigned char *content, size_t length) {
    unsigned char *record = room_for(&to->due, 5 + length);
    for (int i = 0; i < 4; i++)
        record[i] = (length + 1) >> (24 - 8 * i);
    record[4] = kind;
    memcpy(record + 5, content, length);
    to->due.length += 5 + length;
}

static void carry_frame(const unsigned char *content, size_t length) {
    size_t start = 1 + 2 * content[0];
    for (size_t i = 1; i < start; i += 2)
        for (struct party *to = parties; to < parties + count; to++)
            if (to->number == (int)number_in(content + i, 2))
                put_record(to, FRAME, content + start, length - start);
}

/* In place of the party's last one. */
static void begin_timer(struct party *party, const unsigned char *content) {
    memcpy(party->timer, content, 8);
    party->over_at = milliseconds() + number_in(content + 8, 4);
    party->has_timer = true;
}

/* Carries the records that were taken whole. */
static void carry_records(struct party *party) {
    const unsigned char *bytes = party->taken.at;
    size_t left = party->taken.length, length;
    while (left >= 5 && left - 4 >= (length = number_in(bytes, 4))) {
        if (bytes[4] == FRAME)
            carry_frame(bytes + 5, length - 1);
        else if (bytes[4] == TIMER)
            begin_timer(party, bytes + 5);
        bytes += 4 + length;
        left -= 4 + length;
    }
    drop_front(&party->taken, party->taken.length - left);
}

static void take_from(struct party *party) {
    ssize_t length = read(party->from, room_for(&party->taken, PIECE), PIECE);
    if (length < 0)
        fail("read");
    party->has_ended = !length;
    party->taken.length += length;
    carry_records(party);
}

/* Writes what there is room for. One that has ended reads nothing. */
static void give_to(struct party *party) {
    ssize_t length = write(party->to, party->due.at, party->due.length);
    if (length >= 0)
        drop_front(&party->due, length);
    else if (errno == EPIPE)
        party->due.length = 0;
    else if (errno != EAGAIN)
        fail("write");
}

static void end_timers(void) {
    for (struct party *it = parties; it < parties + count; it++)
        if (it->has_timer && it->over_at <= milliseconds()) {
            it->has_timer = false;
            put_record(it, TIMER, it->timer, 8);
        }
}

/* The milliseconds until a timer is over, -1 if none runs. */
static int until_timer(void) {
    long long first = LLONG_MAX, now = milliseconds();
    for (struct party *it = parties; it < parties + count; it++)
        if (it->has_timer && it->over_at < first)
            first = it->over_at;
    return first == LLONG_MAX ? -1 : first > now ? (int)(first - now) : 0;
}

/* Takes what is there, waiting for some of it. */
static void take(struct pollfd *polled) {
    for (int i = 0; i < count; i++) {
        polled[i] = (struct pollfd){parties[i].has_ended ? -1 : parties[i].from, POLLIN, 0};
        polled[count + i] = (struct pollfd){parties[i].due.length ? parties[i].to : -1, POLLOUT, 0};
    }
    if (poll(polled, 2 * count, until_timer()) < 0)
        fail("poll");
    for (int i = 0; i < count; i++)
        if (polled[i].revents)
            take_from(&parties[i]);
}

static bool has_clients(void) {
    for (struct party *it = parties; it < parties + count; it++)
        if (it->number >= FIRST_CLIENT && !it->has_ended)
            return true;
    return false;
}

static void carry(const struct timespec *hold) {
    struct pollfd *polled = calloc(2 * count, sizeof *polled);
    if (!polled)
        fail("calloc");
    while (has_clients()) {
        take(polled);
        end_timers();
        if (hold->tv_nsec)
            nanosleep(hold, NULL);
        for (struct party *it = parties; it < parties + count; it++)
            if (it->due.length)
                give_to(it);
    }
    free(polled);
}

int main(int words, char **word) {
    signal(SIGPIPE, SIG_IGN);
    /* A sleep ends when it is over, and not up to 50 microseconds later. */
    prctl(PR_SET_TIMERSLACK, 1);
    parties = calloc(words, sizeof *parties);
    if (words < 3 || !parties)
        return 2;
    for (; count < words - 2; count++) {
        struct party *it = &parties[count];
        if (sscanf(word[2 + count], "%d:%d:%d", &it->number, &it->from, &it->to) != 3)
            return 2;
    }
    struct timespec hold = {0, 1000 * atol(word[1])};
    carry(&hold);
    return 0;
}
