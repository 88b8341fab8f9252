/* What a get takes through the edge, and what it takes to learn that nothing is new: cost KEYS.
 *
 * It does what the job `get` of bench/group/program does inside, with the same keys and values: random gets in a
 * group of so many keys and 1,000 counters, the least time of one in several turns, of the processor. It prints what
 * that job prints; and the same of gets in one reading, of a moment, and of a poll of 100 rows, which didn't change. */
#define _POSIX_C_SOURCE 200809L
#include "giqaymu.h"

#include <inttypes.h>
#include <stdio.h>
#include <stdlib.h>
#include <time.h>

enum { COUNTERS = 1000, GETS = 300000, POLLS = 3000, TURNS = 7, KEY = 13, OPERATION = 120 };

static void stop(const char *what) {
    fprintf(stderr, "%s\n", what);
    exit(EXIT_FAILURE);
}

static void done(int32_t number) {
    if (number != GIQ_OK) stop("refused");
}

/* The response that brings the counters and the items. */
static char *body(uint64_t keys) {
    char *text = (char *)malloc(OPERATION * (size_t)(COUNTERS + keys) + OPERATION), *at = text;
    uint64_t i;
    if (text == NULL) stop("no memory");
    at += sprintf(at, "{\"cookie\":1,\"lastMutationIDChanges\":{},\"patch\":[");
    for (i = 0; i < COUNTERS; i++) {
        at += sprintf(at, "{\"op\":\"put\",\"key\":\"ctr/%04" PRIu64 "\",\"value\":0},", i);
    }
    for (i = 0; i < keys; i++) {
        at += sprintf(at, "%s{\"op\":\"put\",\"key\":\"item/%08" PRIu64 "\",", i == 0 ? "" : ",", i);
        at += sprintf(at, "\"value\":{\"done\":false,\"order\":%" PRIu64 ",\"text\":\"buy some milk\"}}", i);
    }
    strcpy(at, "]}");
    return text;
}

static void fill(giq_place *place, uint64_t keys) {
    giq_answer answer;
    char *text = body(keys);
    done(giq_begin_pull(place, &answer));
    done(giq_end_pull(place, (uint32_t)answer.number, giq_text(text), &answer));
    free(text);
}

/* The keys that are asked for, one behind another, by a linear congruence. */
static uint8_t *asked(uint64_t keys) {
    char *texts = (char *)malloc((size_t)GETS * KEY + 1);
    uint64_t state = 77;
    size_t i;
    if (texts == NULL) stop("no memory");
    for (i = 0; i < GETS; i++) {
        state = state * 6364136223846793005 + 1442695040888963407;
        sprintf(texts + i * KEY, "item/%08" PRIu64, (state >> 33) % keys);
    }
    return (uint8_t *)texts;
}

static double now(void) {
    struct timespec time;
    if (clock_gettime(CLOCK_THREAD_CPUTIME_ID, &time) != 0) stop("no clock");
    return (double)time.tv_sec * 1e9 + (double)time.tv_nsec;
}

/* The nanoseconds of one get. */
static double gets_each(giq_place *place, const uint8_t *texts) {
    giq_answer answer;
    giq_bytes key;
    double start = now();
    size_t i;
    key.len = KEY;
    for (i = 0; i < GETS; i++) {
        key.at = texts + i * KEY;
        done(giq_get(place, key, &answer));
    }
    return (now() - start) / GETS;
}

/* Of one get of a reading. */
static double gets_in_one(giq_place *place, const uint8_t *texts) {
    giq_answer answer;
    double taken;
    done(giq_begin_read(place, &answer));
    taken = gets_each(place, texts);
    done(giq_end_read(place, &answer));
    return taken;
}

/* Of one moment. */
static double moments(giq_place *place, const uint8_t *texts) {
    giq_answer answer;
    double start = now();
    size_t i;
    (void)texts;
    for (i = 0; i < GETS; i++) done(giq_moment(place, &answer));
    return (now() - start) / GETS;
}

/* Of one poll of the rows of a watch, which are as they were. */
static double polls(giq_place *place, const uint8_t *texts) {
    giq_answer answer;
    uint32_t watch;
    double start;
    size_t i;
    (void)texts;
    done(giq_watch(place, giq_rows(giq_text("item/000000")), &answer));
    watch = (uint32_t)answer.number;
    done(giq_poll(place, watch, &answer));
    start = now();
    for (i = 0; i < POLLS; i++) {
        if (giq_poll(place, watch, &answer) != GIQ_NONE) stop("polled");
    }
    start = (now() - start) / POLLS;
    done(giq_unwatch(place, watch, &answer));
    return start;
}

/* Prints the least of several turns. */
static void tell(const char *name, double (*turn)(giq_place *, const uint8_t *), giq_place *place, const uint8_t *texts,
                 uint64_t keys) {
    double best = turn(place, texts), one;
    int i;
    for (i = 1; i < TURNS; i++) {
        one = turn(place, texts);
        if (one < best) best = one;
    }
    printf("%s\tedge\t%" PRIu64 "\t0\t%.0f\tns\n", name, keys, best);
}

int main(int argc, char **argv) {
    uint64_t keys = argc == 2 ? strtoull(argv[1], NULL, 10) : 0;
    giq_opening opening;
    giq_place place;
    giq_answer answer;
    uint8_t *texts;

    if (keys == 0 || keys > 10000) stop("cost KEYS, 1 to 10000");
    opening.group = giq_text("00000000-0000-4000-8000-000000000001");
    opening.profile = giq_text("p1");
    opening.schema = giq_text("s1");
    opening.rules = giq_nothing();
    opening.slots = 32768;
    opening.own_mutators = 0;
    done(giq_open_places(&opening, &place, 1));
    done(giq_sit(&place, giq_text("00000000-0000-4000-8000-000000000000"), &answer));
    fill(&place, keys);
    texts = asked(keys);
    tell("get", gets_each, &place, texts, keys);
    tell("get in a reading", gets_in_one, &place, texts, keys);
    tell("moment", moments, &place, texts, keys);
    tell("poll of 100 rows", polls, &place, texts, keys);
    free(texts);
    giq_close(&place);
    return EXIT_SUCCESS;
}
