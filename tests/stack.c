/* How much stack the calls of pump.h need: each runs in a thread on stack memory that was filled with a pattern, and
   the deepest byte that it changed counts. The thread's own bytes are part of every figure. */
#define _XOPEN_SOURCE 600

#include <pthread.h>
#include <stdio.h>
#include <stdlib.h>
#include <string.h>

#include "../c/pump.h"

/* A call needs less than this, its thread's own bytes included. */
enum { LIMIT = 262144 };

/* What a thread is given, so that a call which needs too much is still measured. */
enum { STACK = 1 << 22 };

typedef struct {
    size_t direction, position, from, to;
} line;

/* A map, or bytes that are none, with the lines that are drawn on it: one as given, one with all the allowance. */
typedef struct {
    const char *name;
    uint8_t bytes[PUMP_LARGEST_FILE];
    size_t used;
    line as_given, longer;
} subject;

static void need(int holds, const char *what) {
    if (!holds) {
        printf("stack: %s\n", what);
        exit(1);
    }
}

static void begin(subject *map, const char *name) {
    map->name = name;
    need(pump_fresh(128, 128, map->bytes, sizeof map->bytes, &map->used) == PUMP_YES, "a fresh map is refused");
    /* One corner, from which the readings fall all the way: so there is a flow for rows and columns to meet. */
    need(pump_set(map->bytes, sizeof map->bytes, &map->used, 128, 128, 60000) == PUMP_YES, "a value is refused");
    map->as_given = map->longer = (line){PUMP_UPRIGHT, 64, 0, 128};
}

static void draw(subject *map, size_t direction, size_t position, size_t to) {
    size_t n = pump_split(map->bytes, sizeof map->bytes, &map->used, direction, position, 0, to, 0);
    need(n == PUMP_YES, "a line of the maps to measure on is refused");
}

/* The calls work on a copy of the subject; no call needs more room for its answer than out has. */
static subject now;
static uint8_t out[PUMP_TABLE_TEXT];
static size_t first, second;

static size_t nothing(void) {
    return PUMP_YES;
}

static size_t fresh(void) {
    return pump_fresh(128, 128, now.bytes, sizeof now.bytes, &now.used);
}

static size_t set(void) {
    return pump_set(now.bytes, sizeof now.bytes, &now.used, 128, 128, 65535);
}

static size_t split(line l, size_t allowance) {
    return pump_split(now.bytes, sizeof now.bytes, &now.used, l.direction, l.position, l.from, l.to, allowance);
}

static size_t split_as_given(void) {
    return split(now.as_given, 0);
}

static size_t split_longer(void) {
    return split(now.longer, PUMP_MOST_ALLOWANCE);
}

static size_t place(void) {
    return pump_place(now.bytes, now.used, 3, out, sizeof out);
}

static size_t reading(void) {
    return pump_reading(now.bytes, now.used, 127, 126, &first);
}

static size_t weights(void) {
    return pump_weights(now.bytes, now.used, 127, 126, out, sizeof out);
}

static size_t row(void) {
    return pump_row(now.bytes, now.used, 126, 30000, &first, &second);
}

static size_t column(void) {
    return pump_column(now.bytes, now.used, 127, 30000, &first, &second);
}

static size_t same(void) {
    return pump_same(now.bytes, now.used, now.bytes, now.used, &first);
}

static size_t check(void) {
    return pump_check(now.bytes, now.used);
}

static size_t payload(void) {
    return pump_payload(now.bytes, now.used, 0, &first, &second);
}

static size_t table(void) {
    return pump_table(now.bytes, now.used, out, sizeof out, &first);
}

/* A buffer that may be too short: the text is measured first. */
static size_t short_table(void) {
    return pump_table(now.bytes, now.used, out, sizeof out - 1, &first);
}

enum { CALLS = 14 };

static const struct {
    const char *name;
    size_t (*run)(void);
} calls[CALLS] = {
    {"pump_fresh", fresh},
    {"pump_set", set},
    {"pump_split as given", split_as_given},
    {"pump_split with all the allowance", split_longer},
    {"pump_place", place},
    {"pump_reading", reading},
    {"pump_weights", weights},
    {"pump_row", row},
    {"pump_column", column},
    {"pump_same", same},
    {"pump_check", check},
    {"pump_payload", payload},
    {"pump_table", table},
    {"pump_table that measures", short_table},
};

static size_t (*run)(void);
static size_t number;

static void *thread(void *unused) {
    number = run();
    return unused;
}

/* The depth of the deepest byte that differs from the pattern after the thread. */
static size_t depth(uint8_t *stack, uint8_t pattern) {
    pthread_attr_t attributes;
    pthread_t id;
    memset(stack, pattern, STACK);
    need(pthread_attr_init(&attributes) == 0 && pthread_attr_setstack(&attributes, stack, STACK) == 0 &&
             pthread_create(&id, &attributes, thread, NULL) == 0 && pthread_join(id, NULL) == 0,
         "no thread");
    pthread_attr_destroy(&attributes);
    size_t at = 0;
    while (at < STACK && stack[at] == pattern)
        at++;
    need(at > 0, "the thread's stack is used up");
    return STACK - at;
}

/* Two patterns, so that a byte that happens to be written as the one is seen with the other. */
static size_t measure(uint8_t *stack, size_t (*call)(void), const subject *map) {
    size_t deepest = 0;
    run = call;
    for (int round = 0; round < 2; round++) {
        if (map != NULL)
            now = *map;
        size_t found = depth(stack, round == 0 ? 0xa5 : 0x5a);
        if (found > deepest)
            deepest = found;
    }
    return deepest;
}

enum { SUBJECTS = 7 };

static subject subjects[SUBJECTS];

/* What each call gives on each subject, so that the figures are those of the work that is meant. */
static const size_t want[SUBJECTS][CALLS] = {
    {0, 0, 0, 0, 0, 0, 0, 0, 0, 0, 0, 0, 0, 0},
    {0, 0, 4, 4, 0, 0, 0, 0, 0, 0, 0, 0, 0, 0},
    {0, 0, 0, 0, 0, 0, 0, 0, 0, 0, 0, 0, 0, 0},
    {0, 0, 0, 0, 0, 0, 0, 0, 0, 0, 0, 0, 0, 0},
    {0, 11, 11, 11, 11, 11, 11, 11, 11, 11, 11, 0, 11, 11},
    {0, 11, 11, 11, 11, 11, 11, 11, 11, 11, 11, 11, 11, 11},
    {0, 0, 0, 0, 0, 0, 0, 0, 0, 0, 0, 0, 0, 0},
};

/* The file in the old form: the values of kind 3, without marks. */
static void without_marks(subject *map) {
    size_t end = 0, from, count;
    for (size_t at = 0; pump_payload(map->bytes, map->used, at, &from, &count) == PUMP_YES; at = from + count) {
        size_t length = from + count - at;
        memmove(map->bytes + end, map->bytes + at, length);
        if (map->bytes[end + 2] == 5) {
            map->bytes[end] = 8;
            map->bytes[end + 2] = 3;
            length = 10;
        }
        end += length;
    }
    map->used = end;
}

static void make_subjects(void) {
    subject *before = &subjects[0], *largest = &subjects[1], *fan = &subjects[2], *small = &subjects[3],
            *damaged = &subjects[4], *junk = &subjects[5], *old = &subjects[6];

    begin(before, "the largest map before its last split");
    for (size_t at = 1; at <= 30; at++) {
        draw(before, PUMP_LEVEL, 4 * at, 128);
        if (at < 30)
            draw(before, PUMP_UPRIGHT, 4 * at, 128);
    }
    before->as_given = (line){PUMP_UPRIGHT, 120, 0, 128};
    before->longer = (line){PUMP_UPRIGHT, 120, 0, 8};

    *largest = *before;
    largest->name = "the largest map";
    draw(largest, PUMP_UPRIGHT, 120, 128);
    need(largest->used == PUMP_LARGEST_FILE, "the largest map is another");

    /* A second level is unsound until it runs all the way; then all the uprights cut its halves. */
    begin(fan, "a map with a long search");
    draw(fan, PUMP_LEVEL, 100, 128);
    for (size_t at = 1; at <= 58; at++)
        draw(fan, PUMP_UPRIGHT, 2 * at, 100);
    fan->as_given = (line){PUMP_LEVEL, 50, 0, 128};
    fan->longer = (line){PUMP_LEVEL, 50, 56, 60};

    begin(small, "a fresh map");

    /* The last byte is wrong, so all the rest is read first. */
    *damaged = *largest;
    damaged->name = "the largest map's file, damaged";
    damaged->bytes[damaged->used - 1] ^= 1;

    junk->name = "bytes without a record";
    junk->used = sizeof junk->bytes;
    memset(junk->bytes, 0xff, sizeof junk->bytes);

    *old = *before;
    old->name = "the largest map before its last split, in an old file";
    without_marks(old);
}

int main(void) {
    void *stack;
    size_t most = 0, most_call = 0, most_subject = 0;
    need(posix_memalign(&stack, 4096, STACK) == 0, "no memory");
    make_subjects();
    for (size_t on = 0; on < SUBJECTS; on++)
        for (size_t call = 0; call < CALLS; call++) {
            size_t deepest = measure(stack, calls[call].run, &subjects[on]);
            if (number != want[on][call]) {
                printf("stack: %s on %s gives %zu, not %zu\n", calls[call].name, subjects[on].name, number,
                       want[on][call]);
                return 1;
            }
            if (deepest > most) {
                most = deepest;
                most_call = call;
                most_subject = on;
            }
        }
    printf("stack: at most %zu bytes, by %s on %s; %zu by a thread that makes no call\n", most, calls[most_call].name,
           subjects[most_subject].name, measure(stack, nothing, NULL));
    if (most >= LIMIT) {
        printf("stack: that is not less than %d bytes\n", LIMIT);
        return 1;
    }
    free(stack);
    return 0;
}
