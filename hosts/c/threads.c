/* Clients of one group on threads whose stacks have GIQ_STACK bytes. Four threads mutate at once, and no mutation may
 * be lost; each reads long values that the others put; two put pairs that two read, each pair in a reading; then one
 * makes calls with values, arguments, responses and rules that nest as deep as they may. Readings are ended, left and
 * closed. */
#define _POSIX_C_SOURCE 200809L
#include "giqaymu.h"

#include <pthread.h>
#include <stdio.h>
#include <stdlib.h>

#define PUT(key, value) "{\"op\":\"put\",\"key\":\"" key "\",\"value\":" value "}"

#ifdef __SANITIZE_THREAD__ /* gcc's ThreadSanitizer keeps what it knows of a thread on the thread's stack */
#define STACK (4 * GIQ_STACK)
#else
#define STACK GIQ_STACK
#endif

enum { THREADS = 4, MUTATIONS = 2000, PUTS = 200, PAIRS = 500, KEYS = 20, LONG = 300, SLOTS = 65536, DEEP = 124 };

static const char FIRST[] =
    "{\"cookie\":1,\"lastMutationIDChanges\":{},\"patch\":[" PUT("n", "0") "]}";

static const char *const CLIENTS[THREADS] = {
    "00000000-0000-4000-8000-00000000000a", "00000000-0000-4000-8000-00000000000b",
    "00000000-0000-4000-8000-00000000000c", "00000000-0000-4000-8000-00000000000d"};

static void fail(const char *what, long number) {
    fprintf(stderr, "%s: %ld\n", what, number);
    exit(EXIT_FAILURE);
}

static int32_t done(const char *what, int32_t number) {
    if (number < 0) fail(what, number);
    return number;
}

static void wanted(const char *what, giq_bytes bytes, const char *text) {
    if (bytes.len != strlen(text) || memcmp(bytes.at, text, bytes.len) != 0) {
        fail(what, (long)bytes.len);
    }
}

/* Runs `work` on so many threads, each with its own one of the places, and waits for all. */
static void on_threads(size_t count, void *(*work)(void *), giq_place *places) {
    pthread_t threads[THREADS];
    pthread_attr_t with;
    size_t i;
    if (pthread_attr_init(&with) != 0 || pthread_attr_setstacksize(&with, STACK) != 0) fail("stack", STACK);
    for (i = 0; i < count; i++) {
        if (pthread_create(&threads[i], &with, work, &places[i]) != 0) fail("thread", (long)i);
    }
    for (i = 0; i < count; i++) {
        if (pthread_join(threads[i], NULL) != 0) fail("join", (long)i);
    }
    pthread_attr_destroy(&with);
}

static void *increments(void *place) {
    giq_answer answer;
    uint64_t i;
    for (i = 1; i <= MUTATIONS; i++) {
        done("incr", giq_mutate((giq_place *)place, giq_text("incr"), giq_text("[\"n\",1]"), i, &answer));
        if (answer.number != i) fail("id", (long)answer.number);
    }
    return NULL;
}

/* Puts long values, and reads those that the other threads put, each of one letter. */
static void *puts_and_gets(void *place) {
    char args[LONG + 32];
    giq_place *at = (giq_place *)place;
    giq_answer answer;
    int i;
    size_t j;
    for (i = 0; i < PUTS; i++) {
        int start = sprintf(args, "[\"k%d\",\"", i % KEYS);
        memset(args + start, 'a' + i % 26, LONG);
        strcpy(args + start + LONG, "\"]");
        done("put", giq_mutate(at, giq_text("put"), giq_text(args), 1, &answer));
        sprintf(args, "k%d", 3 * i % KEYS);
        if (done("get", giq_get(at, giq_text(args), &answer)) == GIQ_NONE) continue;
        if (answer.bytes.len != LONG + 2) fail("length", (long)answer.bytes.len);
        for (j = 2; j <= LONG; j++) {
            if (answer.bytes.at[j] != answer.bytes.at[1]) fail("torn", (long)j);
        }
    }
    return NULL;
}

/* The number at the key, 0 where there is none. */
static long number_at(giq_place *place, const char *key) {
    giq_answer answer;
    char text[32];
    if (done("get", giq_get(place, giq_text(key), &answer)) == GIQ_NONE) return 0;
    (void)snprintf(text, sizeof text, "%.*s", (int)answer.bytes.len, (const char *)answer.bytes.at);
    return strtol(text, NULL, 10);
}

static uint64_t moment(giq_place *place) {
    giq_answer answer;
    done("moment", giq_moment(place, &answer));
    return answer.number;
}

/* Puts one number at two keys, again and again, each time the next one. */
static void *puts_pairs(void *place) {
    char args[32];
    giq_answer answer;
    int i;
    for (i = 1; i <= PAIRS; i++) {
        sprintf(args, "[%d]", i);
        done("pair", giq_mutate((giq_place *)place, giq_text("pair"), giq_text(args), 1, &answer));
    }
    return NULL;
}

/* Reads both of a pair in a reading, up to the last number. Its moment stays, and no next one is earlier. */
static void *reads_pairs(void *place) {
    giq_place *at = (giq_place *)place;
    giq_answer answer;
    uint64_t last = 0, now;
    long left;
    do {
        done("begin", giq_begin_read(at, &answer));
        now = moment(at);
        left = number_at(at, "left");
        if (number_at(at, "right") != left) fail("torn", left);
        if (moment(at) != now || now < last) fail("moment", (long)now);
        last = now;
        done("end", giq_end_read(at, &answer));
    } while (left != PAIRS);
    return NULL;
}

/* The first of the places at which pairs are read; at those before it they are put. */
static giq_place *readers;

static void *pairs(void *place) { return (giq_place *)place < readers ? puts_pairs(place) : reads_pairs(place); }

static void refused(const char *what, int32_t returned, int32_t why) {
    if (returned != why) fail(what, returned);
}

static void put_left(giq_place *place, const char *args) {
    giq_answer answer;
    done("refresh", giq_refresh(place, &answer));
    done("put", giq_mutate(place, giq_text("put"), giq_text(args), 1, &answer));
}

/* While a reading is open, others' changes aren't seen; only tickets and watches may be given up. Then it ends. */
static void ends(giq_place *reader, giq_place *writer) {
    giq_answer answer;
    uint32_t ticket, watch;
    done("watch", giq_watch(reader, giq_rows(giq_text("left")), &answer));
    watch = (uint32_t)answer.number;
    done("pull", giq_begin_pull(reader, &answer));
    ticket = (uint32_t)answer.number;
    put_left(writer, "[\"left\",1]");
    refused("no reading", giq_end_read(reader, &answer), GIQ_NOT_READ);
    done("begin", giq_begin_read(reader, &answer));
    put_left(writer, "[\"left\",2]");
    if (number_at(reader, "left") != 1 || moment(reader) >= moment(writer)) fail("read", 1);
    refused("begin", giq_begin_read(reader, &answer), GIQ_READS);
    refused("put", giq_mutate(reader, giq_text("put"), giq_text("[\"left\",3]"), 1, &answer), GIQ_READS);
    refused("poll", giq_poll(reader, watch, &answer), GIQ_READS);
    refused("poll changes", giq_poll_changes(reader, watch, &answer), GIQ_READS);
    refused("end", giq_end_pull(reader, ticket, giq_text(FIRST), &answer), GIQ_READS);
    refused("sit", giq_sit(reader, giq_text(CLIENTS[0]), &answer), GIQ_IN_USE);
    refused("ran", giq_ran(reader, GIQ_RAN, 0, &answer), GIQ_NOT_ASKED);
    refused("pulled", giq_pulled_get(reader, giq_text("left"), &answer), GIQ_NONE);
    done("pulled", giq_pulled_get(reader, giq_text("n"), &answer));
    wanted("pulled", answer.bytes, "0");
    done("unwatch", giq_unwatch(reader, watch, &answer));
    refused("unwatch", giq_unwatch(reader, watch, &answer), GIQ_NO_WATCH);
    done("forget", giq_forget_ticket(reader, ticket, &answer));
    done("end", giq_end_read(reader, &answer));
    if (number_at(reader, "left") != 2 || moment(reader) != moment(writer)) fail("read", 2);
}

/* A reading is given up where its client leaves, and where its place is closed. */
static void left_and_closed(giq_place *reader) {
    giq_answer answer;
    done("begin", giq_begin_read(reader, &answer));
    done("leave", giq_leave(reader, &answer));
    refused("end", giq_end_read(reader, &answer), GIQ_NOT_READ);
    refused("begin", giq_begin_read(reader, &answer), GIQ_NO_CLIENT);
    done("sit", giq_sit(reader, giq_text(CLIENTS[0]), &answer));
    done("begin", giq_begin_read(reader, &answer));
    if (number_at(reader, "left") != 2) fail("read", 2);
    giq_close(reader);
    refused("end", giq_end_read(reader, &answer), GIQ_NO_PLACE);
}

/* The text `left` so many times, then `middle`, then `right` so many times, from `to` on; where it ends. */
static char *nested(char *to, int depth, const char *left, const char *middle, const char *right) {
    int i;
    for (i = 0; i < depth; i++) to += sprintf(to, "%s", left);
    to += sprintf(to, "%s", middle);
    for (i = 0; i < depth; i++) to += sprintf(to, "%s", right);
    return to;
}

/* Values that nest 124 deep in a response, in arguments and in the map, read by a rule that nests as deep. */
static void *goes_deep(void *place) {
    static char value[4096], text[8192];
    giq_place *at = (giq_place *)place;
    giq_answer answer;

    nested(value, DEEP, "[", "1", "]");
    sprintf(text, "{\"cookie\":2,\"lastMutationIDChanges\":{},\"patch\":[" PUT("d", "%s") "]}", value);
    done("begin", giq_begin_pull(at, &answer));
    done("end", giq_end_pull(at, (uint32_t)answer.number, giq_text(text), &answer));
    done("get", giq_get(at, giq_text("d"), &answer));
    wanted("pulled", answer.bytes, value);
    done("mutate", giq_mutate(at, giq_text("deep"), giq_text(value), 1, &answer));
    done("get", giq_get(at, giq_text("e"), &answer));
    nested(text, DEEP - 1, "[", "1", "]");
    wanted("put", answer.bytes, text);
    nested(text, DEEP + 1, "[", "1", "]");
    if (giq_mutate(at, giq_text("deep"), giq_text(text), 1, &answer) != GIQ_NOT_JSON) fail("too deep", DEEP + 1);
    done("push", giq_push(at, &answer));
    return NULL;
}

static void open_all(giq_place *places) {
    static char rules[4096];
    giq_opening opening;
    giq_answer answer;
    char *end;
    size_t i;

    end = rules + sprintf(rules, "{\"put\":[[\"put\",[\"arg\",0],[\"arg\",1]]],");
    end += sprintf(end, "\"pair\":[[\"put\",\"left\",[\"arg\",0]],[\"put\",\"right\",[\"arg\",0]]],");
    end += sprintf(end, "\"deep\":[[\"put\",\"e\",");
    end = nested(end, DEEP - 1, "[\"or\",null,", "[\"arg\",0]", "]");
    sprintf(end, "]]}");
    opening.group = giq_text("00000000-0000-4000-8000-000000000001");
    opening.profile = giq_text("p1");
    opening.schema = giq_text("s1");
    opening.rules = giq_text(rules);
    opening.slots = SLOTS;
    opening.own_mutators = 0;
    done("open", giq_open_places(&opening, places, THREADS));
    for (i = 0; i < THREADS; i++) done("sit", giq_sit(&places[i], giq_text(CLIENTS[i]), &answer));
}

int main(void) {
    giq_place places[THREADS];
    giq_answer answer;
    char sum[32];
    size_t i;

    open_all(places);
    done("begin", giq_begin_pull(&places[0], &answer));
    done("end", giq_end_pull(&places[0], (uint32_t)answer.number, giq_text(FIRST), &answer));
    on_threads(THREADS, increments, places);
    sprintf(sum, "%d", THREADS * MUTATIONS);
    for (i = 0; i < THREADS; i++) {
        done("get", giq_get(&places[i], giq_text("n"), &answer));
        wanted("sum", answer.bytes, sum);
        done("refresh", giq_refresh(&places[i], &answer));
        if (answer.number != MUTATIONS) fail("last id", (long)answer.number);
    }
    printf("%d threads, %s mutations, none lost\n", THREADS, sum);
    on_threads(THREADS, puts_and_gets, places);
    printf("%d values, none torn\n", THREADS * PUTS);
    readers = places + THREADS / 2;
    on_threads(THREADS, pairs, places);
    printf("%d pairs, none torn in a reading\n", THREADS / 2 * PAIRS);
    on_threads(1, goes_deep, places);
    printf("nested %d deep in %d bytes of stack\n", DEEP, STACK);
    ends(&places[1], &places[0]);
    left_and_closed(&places[1]);
    for (i = 0; i < THREADS; i++) giq_close(&places[i]);
    return EXIT_SUCCESS;
}
