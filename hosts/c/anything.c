/* Calls with any numbers and bytes, at places that are open, empty or closed: each is answered as the header says.
 *
 *     anything CALLS SEED [REFUSED]
 *
 * One allocation in REFUSED is refused, at random; without it none is. The program is linked with --wrap=malloc and
 * --wrap=realloc, so that the library calls the functions below. */
#include "giqaymu.h"

#include <stdio.h>
#include <stdlib.h>

/* Places; pieces, and which of them are names of mutators, arguments, IDs, responses, rules and writes; the room for
 * one. */
enum { PLACES = 3, NAMES = 3, ARGS = 8, IDS = 12, RESPONSES = 15, RULES = 21, WRITES = 23, PIECES = 26, ROOM = 512 };

/* What calls are given, whole or damaged. */
static const char *const pieces[PIECES] = {
    "",
    "n",
    "todo/x",
    "incr",
    "set",
    "append",
    "add",
    "fly",
    "[\"n\",1]",
    "[\"t\",\"x\"]",
    "[0.5]",
    "{\"id\":\"x\",\"text\":\"milk\"}",
    "00000000-0000-4000-8000-00000000000a",
    "00000000-0000-4000-8000-00000000000b",
    "{00000000-0000-4000-8000-00000000000C}",
    "{\"cookie\":1,\"lastMutationIDChanges\":{},\"patch\":[{\"op\":\"put\",\"key\":\"n\",\"value\":5}]}",
    "{\"cookie\":2,\"lastMutationIDChanges\":{},\"patch\":[{\"op\":\"clear\"}]}",
    "{\"cookie\":{\"order\":\"3\"},\"lastMutationIDChanges\":{},\"patch\":[{\"op\":\"del\",\"key\":\"n\"}]}",
    "{\"cookie\":null,\"lastMutationIDChanges\":{},\"patch\":[]}",
    "{\"cookie\":9,\"lastMutationIDChanges\":{\"00000000-0000-4000-8000-00000000000a\":7},\"patch\":[]}",
    "{\"error\":\"VersionNotSupported\",\"versionType\":\"pull\"}",
    "{\"add\":[[\"put\",[\"cat\",\"todo/\",[\"arg\",\"id\"]],[\"arg\",\"text\"]]]}",
    "{\"fly\":[[\"need\",[\"has\",\"n\"],77]]}",
    "[{\"op\":\"put\",\"key\":\"n\",\"value\":5},{\"op\":\"del\",\"key\":\"t\"}]",
    "[{\"op\":\"del\",\"key\":\"n\"},{\"op\":\"put\",\"key\":\"t\",\"value\":[0.5]}]",
    "\xc3\xa9\xff"};

static uint64_t state, refused;

/* The place whose change asked for a run last. */
static giq_place *asking;

/* Of each place whether a reading is open there, its moment, and a hash of its rows; and the last moment that the group
 * told. */
static int reads[PLACES];
static uint64_t read_at[PLACES], read_rows[PLACES], latest;

/* A number that looks random, below the limit. */
static uint64_t below(uint64_t limit) {
    state = state * 6364136223846793005 + 1442695040888963407;
    return (state >> 33) % limit;
}

void *__real_malloc(size_t size);
void *__real_realloc(void *old, size_t size);
void *__wrap_malloc(size_t size);
void *__wrap_realloc(void *old, size_t size);

static int refuses(void) { return refused != 0 && below(refused) == 0; }

void *__wrap_malloc(size_t size) { return refuses() ? NULL : __real_malloc(size); }

void *__wrap_realloc(void *old, size_t size) { return refuses() ? NULL : __real_realloc(old, size); }

static void fail(const char *what, long number) {
    fprintf(stderr, "%s: %ld\n", what, number);
    exit(EXIT_FAILURE);
}

/* A piece from one number up to another, now and then any piece, with another byte in it, or cut. */
static giq_bytes given(uint8_t *room, int from, int to) {
    const char *piece = below(6) == 0 ? pieces[below(PIECES)] : pieces[from + (int)below((uint64_t)(to - from))];
    giq_bytes bytes;
    bytes.at = room;
    bytes.len = strlen(piece);
    memcpy(room, piece, bytes.len);
    if (bytes.len > 0 && below(6) == 0) room[below(bytes.len)] = (uint8_t)below(256);
    if (bytes.len > 0 && below(6) == 0) bytes.len = (size_t)below(bytes.len);
    return bytes;
}

/* What fits the first byte string of a call. */
static giq_bytes fitting(uint8_t *room, uint32_t what) {
    switch (what) {
    case GIQ_CALL_SIT:
        return given(room, IDS, RESPONSES);
    case GIQ_CALL_END_PULL:
        return given(room, RESPONSES, RULES);
    case GIQ_CALL_MUTATE:
        return given(room, NAMES, ARGS);
    case GIQ_CALL_DRAFT_WRITES:
        return given(room, WRITES, PIECES - 1);
    default:
        return given(room, 0, NAMES);
    }
}

/* A number that a call may take for that of a ticket, a kind or a limit. */
static uint64_t number(void) {
    static const uint64_t odd[] = {UINT32_MAX, UINT64_MAX, UINT64_MAX - 1, INT64_MAX};
    return below(5) == 0 ? odd[below(4)] : below(5);
}

/* What a call returned and answered is what it may. */
static void check(int32_t returned, const giq_answer *answer) {
    static volatile uint8_t read;
    size_t i;
    const int has_code = returned == GIQ_REFUSED || returned == GIQ_VERSION_NOT_SUPPORTED;
    if (returned > GIQ_ASKED || (returned < GIQ_CLOSED && returned > GIQ_NOT_UTF8) || returned < GIQ_NOT_READ) {
        fail("returned", returned);
    }
    if (returned == GIQ_NO_MEMORY && refused == 0) fail("no memory", returned);
    if (returned < 0 && (answer->bytes.len != 0 || answer->number != 0)) fail("told", returned);
    if (answer->code != 0 && !has_code) fail("code", (long)answer->code);
    for (i = 0; i < answer->bytes.len; i++) read = answer->bytes.at[i];
    (void)read;
}

/* A moment is that of the reading which is open there, or no earlier one than the group told before. */
static void check_moment(int at, uint64_t moment) {
    if (reads[at] ? moment != read_at[at] : moment < latest) fail("moment", (long)moment);
    if (!reads[at]) latest = moment;
}

/* A hash of all rows, those that the server last sent too; 0 where they were refused. */
static uint64_t rows_of(giq_place *place) {
    giq_answer answer;
    uint64_t hash = 14695981039346656037u;
    int pulled;
    size_t i;
    for (pulled = 0; pulled < 2; pulled++) {
        const giq_range all = giq_rows(giq_nothing());
        if ((pulled ? giq_pulled_scan(place, all, &answer) : giq_scan(place, all, &answer)) != GIQ_OK) return 0;
        for (i = 0; i < answer.bytes.len; i++) hash = (hash ^ answer.bytes.at[i]) * 1099511628211u;
    }
    return hash;
}

/* A reading has begun: only where none was open, and its moment is the group's last one. */
static void check_reading(giq_place *place, int at) {
    giq_answer answer;
    if (reads[at]) fail("two readings", at);
    if (giq_moment(place, &answer) != GIQ_OK || answer.number < latest) fail("moment", (long)answer.number);
    reads[at] = 1;
    read_at[at] = latest = answer.number;
    read_rows[at] = rows_of(place);
}

/* A reading that is to be ended has the rows that it had when it began. */
static void check_rows(giq_place *place, int at) {
    const uint64_t rows = rows_of(place);
    if (refused == 0 && (rows == 0 || read_rows[at] == 0)) fail("no rows", at);
    if (rows != 0 && read_rows[at] != 0 && rows != read_rows[at]) fail("other rows", at);
}

/* These calls take no memory. */
static int takes_none(uint32_t what) {
    return what == GIQ_CALL_BEGIN_READ || what == GIQ_CALL_END_READ || what == GIQ_CALL_MOMENT ||
           what == GIQ_CALL_UNWATCH;
}

/* These are some of the calls that a reading refuses. */
static int is_refused_in_readings(uint32_t what) {
    return what == GIQ_CALL_MUTATE || what == GIQ_CALL_POLL || what == GIQ_CALL_POLL_CHANGES;
}

/* These are queries, whose answers tell their moments. */
static int is_query(uint32_t what) {
    return (what >= GIQ_CALL_GET && what <= GIQ_CALL_CLOSED) || what == GIQ_CALL_PUSH || what == GIQ_CALL_PULLED_GET ||
           what == GIQ_CALL_PULLED_SCAN;
}

/* What a call says of readings and moments. */
static void check_reads(giq_place *place, int at, uint32_t what, int32_t returned, const giq_answer *answer) {
    if (reads[at] && returned >= 0 && is_refused_in_readings(what)) fail("reads", (long)what);
    if (returned == GIQ_NO_MEMORY && takes_none(what)) fail("memory", (long)what);
    if (returned == GIQ_READS && !reads[at]) fail("no reading", (long)what);
    if (returned == GIQ_NOT_READ && reads[at]) fail("a reading", (long)what);
    if (returned >= 0 && is_query(what)) check_moment(at, answer->number);
    if (returned != GIQ_OK) return;
    if (what == GIQ_CALL_MOMENT) check_moment(at, answer->number);
    if (what == GIQ_CALL_BEGIN_READ) check_reading(place, at);
    if (what == GIQ_CALL_END_READ || what == GIQ_CALL_LEAVE) reads[at] = 0;
}

/* Of rules by which a group was opened or not it is told what is wrong where they were refused, and only there. */
static void check_rules(giq_bytes rules, int32_t returned) {
    char text[ROOM];
    const int64_t told = giq_check_rules(rules, text, sizeof text);
    if (told < 0 && (told != GIQ_NO_MEMORY || refused == 0)) fail("not told", (long)told);
    if (told >= 0 && told < ROOM && strlen(text) > (size_t)told) fail(text, (long)told);
    if (told == 0 && returned == GIQ_BAD_RULES) fail("nothing wrong", returned);
    if (told > 0 && returned == GIQ_OK) fail(text, returned);
}

/* Closes all places, opens a group there, and lets clients sit down. */
static void open_any(giq_place *places) {
    static uint8_t rooms[4][ROOM];
    giq_opening opening;
    giq_answer answer;
    int32_t returned;
    int i;
    for (i = 0; i < PLACES; i++) giq_close(&places[i]);
    memset(reads, 0, sizeof reads);
    latest = 0;
    opening.group = given(rooms[0], IDS, RESPONSES);
    opening.profile = given(rooms[1], 0, NAMES);
    opening.schema = given(rooms[2], 0, NAMES);
    opening.own_mutators = below(2) == 0 ? 0 : (below(20) == 0 ? (uint32_t)number() : 1);
    opening.rules = below(2) == 0 ? given(rooms[3], RULES, WRITES) : giq_nothing();
    opening.slots = below(4) == 0 ? (uint32_t)number() % GIQ_MAX_PLACES : 16 + (uint32_t)below(64);
    returned = giq_open_places(&opening, places, PLACES);
    if (opening.own_mutators < 2) check_rules(opening.rules, returned);
    for (i = 0; i < PLACES; i++) {
        if ((places[i].is_open != 0) != (returned == GIQ_OK)) fail("open", returned);
        (void)giq_sit(&places[i], giq_text(pieces[IDS + i]), &answer);
    }
}

/* Closes one of the places, also where a reading is open or a run is asked for. */
static void close_any(giq_place *places) {
    const int at = (int)below(PLACES);
    giq_close(&places[at]);
    reads[at] = 0;
}

/* Makes a call at one of the places; whether it was done. */
static int call_any(giq_place *places) {
    static uint8_t rooms[2][ROOM];
    const int at = (int)below(PLACES);
    giq_place *place = &places[at];
    uint32_t what = below(50) == 0 ? (uint32_t)number() : (uint32_t)below(GIQ_CALL_DRAFT_WRITES + 2);
    uint32_t m = (uint32_t)number();
    giq_answer answer;
    int32_t returned;
    if (what > GIQ_CALL_POLL && what < GIQ_CALL_SLOTS && place != asking && below(10) != 0) {
        what = (uint32_t)below(GIQ_CALL_POLL + 1);
    }
    if (what <= GIQ_CALL_LEAVE && below(10) != 0) what = GIQ_CALL_MUTATE;
    if (reads[at] && below(6) == 0) what = GIQ_CALL_END_READ;
    if (place == asking && below(3) == 0) {
        what = GIQ_CALL_RAN;
        m = (uint32_t)below(3);
    }
    if (reads[at] && what == GIQ_CALL_END_READ) check_rows(place, at);
    memset(&answer, 255, sizeof answer);
    returned = giq_ask(place, (enum giq_what)what, m, number(), fitting(rooms[0], what), given(rooms[1], ARGS, IDS),
                       &answer);
    check(returned, &answer);
    check_reads(place, at, what, returned, &answer);
    if (returned == GIQ_ASKED) {
        asking = place;
    } else if (place == asking && returned != GIQ_ASKS && (what == GIQ_CALL_RAN || what == GIQ_CALL_GIVE_UP ||
               returned == GIQ_NOT_ASKED)) {
        asking = NULL;
    }
    return returned >= 0;
}

int main(int argc, char **argv) {
    giq_place places[PLACES];
    long calls = argc > 2 ? strtol(argv[1], NULL, 10) : 0, done = 0, i;

    if (calls <= 0) fail("anything CALLS SEED [REFUSED]", calls);
    state = strtoull(argv[2], NULL, 10);
    refused = argc > 3 ? strtoull(argv[3], NULL, 10) : 0;
    printf("seed %llu\n", (unsigned long long)state);
    memset(places, 0, sizeof places);
    for (i = 0; i < calls; i++) {
        if (i % 200 == 0) open_any(places);
        done += call_any(places);
        if (below(500) == 0) close_any(places);
    }
    for (i = 0; i < PLACES; i++) giq_close(&places[i]);
    printf("%ld calls, %ld done\n", calls, done);
    return EXIT_SUCCESS;
}
