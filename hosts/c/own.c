/* Mutators of the program's own: each step of a run, a rebase, others that are first, changes that are given up, and
 * the numbers of tickets; and what changed in the rows of a watch. */
#include "giqaymu.h"

#include <stdio.h>
#include <stdlib.h>

#define ANNA "00000000-0000-4000-8000-00000000000a"
#define BERT "00000000-0000-4000-8000-00000000000b"

static int line;

static void fail(const char *what, long number) {
    fprintf(stderr, "line %d: %s %ld\n", line, what, number);
    exit(EXIT_FAILURE);
}

static void is_number(int32_t returned, int32_t wanted) {
    if (returned != wanted) fail("returned", returned);
}

static void are_bytes(giq_bytes bytes, const char *wanted) {
    if (bytes.len != strlen(wanted) || memcmp(bytes.at, wanted, bytes.len) != 0) {
        fprintf(stderr, "%.*s\n", (int)bytes.len, (const char *)bytes.at);
        fail("bytes", (long)bytes.len);
    }
}

#define IS(call, wanted) (line = __LINE__, is_number((call), (wanted)))
#define TELLS(text) (line = __LINE__, are_bytes(answer.bytes, (text)))
#define NUMBERS(wanted) (line = __LINE__, is_number((int32_t)answer.number, (wanted)))

static giq_answer answer;

/* The program's one mutator: it puts its arguments behind what is at the key of its name, as an array. */
static int32_t run(giq_place *place, int32_t returned) {
    char name[32], args[32], value[128];
    int length;
    while (returned == GIQ_ASKED) {
        IS(giq_asked_name(place, &answer), GIQ_OK);
        (void)snprintf(name, sizeof name, "%.*s", (int)answer.bytes.len, (const char *)answer.bytes.at);
        IS(giq_asked_args(place, &answer), GIQ_OK);
        (void)snprintf(args, sizeof args, "%.*s", (int)answer.bytes.len, (const char *)answer.bytes.at);
        if (giq_draft_get(place, giq_text(name), &answer) == GIQ_NONE) {
            length = snprintf(value, sizeof value, "[%s]", args);
        } else {
            length = snprintf(value, sizeof value, "%.*s,%s]", (int)answer.bytes.len - 1,
                              (const char *)answer.bytes.at, args);
        }
        if (length < 0) fail("text", length);
        IS(giq_draft_put(place, giq_text(name), giq_text(value), &answer), GIQ_OK);
        returned = giq_ran(place, GIQ_RAN, 0, &answer);
    }
    return returned;
}

static int32_t mutate(giq_place *place, const char *name, const char *args) {
    return giq_mutate(place, giq_text(name), giq_text(args), 5, &answer);
}

static void open_group(giq_place *places, giq_bytes rules) {
    giq_opening opening;
    opening.group = giq_text("00000000-0000-4000-8000-000000000001");
    opening.profile = giq_text("p1");
    opening.schema = giq_text("s1");
    opening.rules = giq_text("{\"a\":[[]]}");
    opening.slots = 1024;
    opening.own_mutators = 2;
    IS(giq_open_places(&opening, places, 2), GIQ_OUT_OF_RANGE);
    opening.own_mutators = 1;
    IS(giq_open_places(&opening, places, 2), GIQ_BAD_RULES);
    opening.rules = rules;
    IS(giq_open_places(&opening, places, 2), GIQ_OK);
    IS(giq_sit(&places[0], giq_text(ANNA), &answer), GIQ_OK);
    IS(giq_sit(&places[1], giq_text(BERT), &answer), GIQ_OK);
}

static int32_t write_all(giq_place *place, const char *writes) {
    return giq_draft_writes(place, giq_text(writes), &answer);
}

/* Puts and dels in one call: all of them, or none where what they say is refused. */
static void writes(giq_place *place) {
    IS(write_all(place, "[{\"op\":\"put\",\"key\":\"d\",\"value\":1},{\"op\":\"put\",\"key\":\"c\",\"value\": [ 3 ]},"
                        "{\"key\":\"d\",\"op\":\"del\"},{\"op\":\"del\",\"key\":\"none\"}]"), GIQ_OK);
    TELLS("");
    IS(write_all(place, "[{\"op\":\"del\",\"key\":\"c\"},{\"op\":\"put\",\"key\":\"d\",\"value\":0.5}]"),
       GIQ_NOT_WHOLE);
    IS(write_all(place, "[{\"op\":\"put\",\"key\":\"d\",\"value\":0.5},{\"op\":\"clear\"}]"), GIQ_BAD_SHAPE);
    IS(write_all(place, "[{\"op\":\"del\",\"key\":\"c\"}"), GIQ_NOT_JSON);
    IS(giq_draft_scan(place, giq_rows(giq_nothing()), &answer), GIQ_OK);
    TELLS("[[\"b\",[2,\"x\"]],[\"c\",[3]]]");
    IS(write_all(place, "[{\"op\":\"del\",\"key\":\"c\"}]"), GIQ_OK);
    IS(write_all(place, "[]"), GIQ_OK);
}

/* Each call of a run, and what is refused meanwhile. */
static void steps(giq_place *place) {
    IS(giq_asked_name(place, &answer), GIQ_NOT_ASKED);
    IS(giq_asked_run(place, &answer), GIQ_NOT_ASKED);
    IS(giq_draft_put(place, giq_text("a"), giq_text("1"), &answer), GIQ_NOT_ASKED);
    IS(giq_draft_writes(place, giq_text("[]"), &answer), GIQ_NOT_ASKED);
    IS(giq_draft_writes(place, giq_text("{}"), &answer), GIQ_BAD_SHAPE);
    IS(giq_ran(place, GIQ_RAN, 0, &answer), GIQ_NOT_ASKED);
    IS(giq_give_up(place, &answer), GIQ_NOT_ASKED);
    IS(mutate(place, "mark", "[ 1 ]"), GIQ_ASKED);
    IS(giq_asked_name(place, &answer), GIQ_OK);
    TELLS("mark");
    NUMBERS(GIQ_INITIAL);
    IS(giq_asked_args(place, &answer), GIQ_OK);
    TELLS("[1]");
    IS(giq_asked_run(place, &answer), GIQ_OK);
    TELLS("{\"args\":[1],\"clientID\":\"" ANNA "\",\"id\":1,\"name\":\"mark\",\"timestamp\":5}");
    NUMBERS(GIQ_INITIAL);
    IS(giq_get(place, giq_text("a"), &answer), GIQ_ASKS);
    IS(giq_pulled_get(place, giq_text("a"), &answer), GIQ_ASKS);
    IS(giq_begin_read(place, &answer), GIQ_ASKS);
    IS(giq_end_read(place, &answer), GIQ_ASKS);
    IS(giq_moment(place, &answer), GIQ_ASKS);
    IS(giq_poll_changes(place, 0, &answer), GIQ_ASKS);
    IS(giq_unwatch(place, 0, &answer), GIQ_ASKS);
    IS(mutate(place, "mark", "1"), GIQ_ASKS);
    IS(giq_sit(place, giq_text(BERT), &answer), GIQ_ASKS);
    IS(giq_begin_pull(place, &answer), GIQ_ASKS);
    IS(giq_draft_get(place, giq_text("a"), &answer), GIQ_NONE);
    IS(giq_draft_has(place, giq_text("a"), &answer), GIQ_OK);
    IS(giq_draft_put(place, giq_text("a"), giq_text(" 1"), &answer), GIQ_OK);
    IS(giq_draft_put(place, giq_text("b"), giq_text("[2,\"x\"]"), &answer), GIQ_OK);
    IS(giq_draft_put(place, giq_text("c"), giq_text("0.5"), &answer), GIQ_NOT_WHOLE);
    IS(giq_draft_put(place, giq_text("c"), giq_text("{"), &answer), GIQ_NOT_JSON);
    IS(giq_draft_put(place, giq_text("\xff"), giq_text("1"), &answer), GIQ_NOT_UTF8);
    IS(giq_draft_has(place, giq_text("a"), &answer), GIQ_YES);
    IS(giq_draft_get(place, giq_text("a"), &answer), GIQ_OK);
    TELLS("1");
    IS(giq_draft_del(place, giq_text("a"), &answer), GIQ_OK);
    IS(giq_draft_del(place, giq_text("a"), &answer), GIQ_OK);
    writes(place);
    IS(giq_draft_scan(place, giq_rows(giq_nothing()), &answer), GIQ_OK);
    TELLS("[[\"b\",[2,\"x\"]]]");
    IS(giq_ran(place, 3, 0, &answer), GIQ_OUT_OF_RANGE);
    IS(giq_call(place, GIQ_CALL_RAN, GIQ_RAN_REFUSED, (uint64_t)1 << 32, giq_at(giq_nothing()), 0,
                giq_at(giq_nothing()), 0, &answer), GIQ_OUT_OF_RANGE);
    IS(giq_ran(place, GIQ_RAN, 0, &answer), GIQ_OK);
    NUMBERS(1);
    IS(giq_scan(place, giq_rows(giq_nothing()), &answer), GIQ_OK);
    TELLS("[[\"b\",[2,\"x\"]]]");
}

/* A run that refuses, one of no mutator, and changes that are given up: nothing is changed. */
static void no_changes(giq_place *place) {
    IS(mutate(place, "mark", "1"), GIQ_ASKED);
    IS(giq_draft_put(place, giq_text("z"), giq_text("1"), &answer), GIQ_OK);
    IS(giq_ran(place, GIQ_RAN_REFUSED, UINT32_MAX, &answer), GIQ_REFUSED);
    if (answer.code != UINT32_MAX) fail("code", (long)answer.code);
    IS(mutate(place, "mark", "1"), GIQ_ASKED);
    IS(giq_ran(place, GIQ_RAN_UNKNOWN, 0, &answer), GIQ_NO_MUTATOR);
    IS(mutate(place, "mark", "1"), GIQ_ASKED);
    IS(giq_draft_put(place, giq_text("z"), giq_text("1"), &answer), GIQ_OK);
    IS(giq_give_up(place, &answer), GIQ_OK);
    IS(giq_has(place, giq_text("z"), &answer), GIQ_OK);
    IS(mutate(place, "mark", "1"), GIQ_ASKED);
    IS(giq_leave(place, &answer), GIQ_OK);
    IS(giq_sit(place, giq_text(ANNA), &answer), GIQ_OK);
    IS(giq_refresh(place, &answer), GIQ_OK);
    NUMBERS(1);
}

/* Two mutations stay pending where a pull is ended, one of which no longer runs; and another place is first. */
static void rebase(giq_place *anna, giq_place *bert) {
    uint32_t ticket;
    IS(run(anna, mutate(anna, "n", "1")), GIQ_OK);
    NUMBERS(2);
    IS(run(bert, mutate(bert, "m", "2")), GIQ_OK);
    IS(run(anna, mutate(anna, "n", "3")), GIQ_OK);
    NUMBERS(3);
    IS(giq_begin_pull(anna, &answer), GIQ_OK);
    ticket = (uint32_t)answer.number;
    IS(giq_end_pull(anna, ticket,
                    giq_text("{\"cookie\":1,\"lastMutationIDChanges\":{\"" ANNA "\":2},"
                             "\"patch\":[{\"op\":\"put\",\"key\":\"n\",\"value\":[0]}]}"),
                    &answer), GIQ_ASKED);
    IS(giq_asked_name(anna, &answer), GIQ_OK);
    TELLS("m");
    NUMBERS(GIQ_REBASE);
    IS(giq_asked_run(anna, &answer), GIQ_OK);
    TELLS("{\"args\":2,\"clientID\":\"" BERT "\",\"id\":1,\"name\":\"m\",\"timestamp\":5}");
    NUMBERS(GIQ_REBASE);
    IS(giq_draft_scan(anna, giq_rows(giq_nothing()), &answer), GIQ_OK);
    TELLS("[[\"n\",[0]]]");
    IS(run(bert, mutate(bert, "k", "4")), GIQ_OK);
    IS(giq_draft_put(anna, giq_text("m"), giq_text("9"), &answer), GIQ_OK);
    IS(giq_ran(anna, GIQ_RAN_REFUSED, 1, &answer), GIQ_ASKED);
    IS(giq_asked_name(anna, &answer), GIQ_OK);
    TELLS("n");
    IS(giq_draft_has(anna, giq_text("m"), &answer), GIQ_OK);
    IS(giq_ran(anna, GIQ_RAN, 0, &answer), GIQ_ASKED);
    /* bert was first: all three are asked for */
    IS(giq_asked_name(anna, &answer), GIQ_OK);
    TELLS("m");
    IS(run(anna, GIQ_ASKED), GIQ_OK);
    IS(giq_forget_ticket(anna, ticket, &answer), GIQ_OK);
    IS(giq_scan(bert, giq_rows(giq_nothing()), &answer), GIQ_OK);
    TELLS("[[\"k\",[4]],[\"m\",[2]],[\"n\",[0,3]]]");
    IS(giq_pulled_scan(bert, giq_rows(giq_nothing()), &answer), GIQ_OK);
    TELLS("[[\"n\",[0]]]");
    IS(giq_pending(bert, &answer), GIQ_OK);
    TELLS("[[\"" BERT "\",1,\"m\"],[\"" ANNA "\",3,\"n\"],[\"" BERT "\",2,\"k\"]]");
}

/* What changed in the rows of a watch: each row at first, then the differences from what was told last, by either poll.
 */
static void changes(giq_place *place) {
    uint32_t watch;
    IS(giq_watch(place, giq_rows(giq_text("n")), &answer), GIQ_OK);
    watch = (uint32_t)answer.number;
    IS(giq_poll_changes(place, watch, &answer), GIQ_OK);
    TELLS("[{\"key\":\"n\",\"newValue\":[0,3,5],\"op\":\"add\"}]");
    IS(giq_poll_changes(place, watch, &answer), GIQ_NONE);
    IS(run(place, mutate(place, "n", "6")), GIQ_OK);
    IS(run(place, mutate(place, "m", "7")), GIQ_OK);
    IS(giq_poll_changes(place, watch, &answer), GIQ_OK);
    TELLS("[{\"key\":\"n\",\"newValue\":[0,3,5,6],\"oldValue\":[0,3,5],\"op\":\"change\"}]");
    IS(giq_poll(place, watch, &answer), GIQ_NONE);
    IS(mutate(place, "n", "null"), GIQ_ASKED);
    IS(giq_draft_del(place, giq_text("n"), &answer), GIQ_OK);
    IS(giq_ran(place, GIQ_RAN, 0, &answer), GIQ_OK);
    IS(giq_poll_changes(place, watch, &answer), GIQ_OK);
    TELLS("[{\"key\":\"n\",\"oldValue\":[0,3,5,6],\"op\":\"del\"}]");
    IS(giq_unwatch(place, watch, &answer), GIQ_OK);
    IS(giq_poll_changes(place, watch, &answer), GIQ_NO_WATCH);
}

/* Tickets have numbers from 0 on; the number of one that was given up is given again. */
static void tickets(giq_place *place) {
    IS(giq_begin_pull(place, &answer), GIQ_OK);
    NUMBERS(0);
    IS(giq_begin_pull(place, &answer), GIQ_OK);
    NUMBERS(1);
    IS(giq_forget_ticket(place, 0, &answer), GIQ_OK);
    IS(giq_begin_pull(place, &answer), GIQ_OK);
    NUMBERS(0);
    IS(giq_begin_pull(place, &answer), GIQ_OK);
    NUMBERS(2);
}

/* A group with a rule runs it itself, also in a pull, and asks for the names that have none, those of scripts too. */
static void beside_rules(void) {
    giq_place places[2];
    uint32_t ticket;
    open_group(places, giq_text("{\"add\":[[\"put\",[\"arg\",0],[\"add\",[\"or\",[\"get\",[\"arg\",0]],0],1]]]}"));
    IS(mutate(&places[0], "add", "[\"r\"]"), GIQ_OK);
    NUMBERS(1);
    IS(run(&places[0], mutate(&places[0], "n", "1")), GIQ_OK);
    IS(mutate(&places[0], "add", "[\"r\"]"), GIQ_OK);
    NUMBERS(3);
    IS(run(&places[0], mutate(&places[0], "set", "[\"s\",1]")), GIQ_OK);
    IS(mutate(&places[0], "add", "[\"n\"]"), GIQ_REFUSED);
    if (answer.code != 1) fail("code", (long)answer.code);
    IS(giq_begin_pull(&places[1], &answer), GIQ_OK);
    ticket = (uint32_t)answer.number;
    IS(giq_end_pull(&places[1], ticket,
                    giq_text("{\"cookie\":1,\"lastMutationIDChanges\":{},"
                             "\"patch\":[{\"op\":\"put\",\"key\":\"r\",\"value\":10}]}"),
                    &answer), GIQ_ASKED);
    IS(giq_asked_name(&places[1], &answer), GIQ_OK);
    TELLS("n");
    IS(giq_draft_get(&places[1], giq_text("r"), &answer), GIQ_OK);
    TELLS("11");
    IS(giq_ran(&places[1], GIQ_RAN_REFUSED, 1, &answer), GIQ_ASKED);
    IS(giq_asked_name(&places[1], &answer), GIQ_OK);
    TELLS("set");
    IS(giq_draft_get(&places[1], giq_text("r"), &answer), GIQ_OK);
    TELLS("12");
    IS(giq_ran(&places[1], GIQ_RAN, 0, &answer), GIQ_OK);
    IS(giq_scan(&places[0], giq_rows(giq_nothing()), &answer), GIQ_OK);
    TELLS("[[\"r\",12]]");
    giq_close(&places[0]);
    giq_close(&places[1]);
}

int main(void) {
    giq_place places[2];
    open_group(places, giq_nothing());
    steps(&places[0]);
    no_changes(&places[0]);
    rebase(&places[0], &places[1]);
    tickets(&places[1]);
    IS(mutate(&places[1], "mark", "1"), GIQ_ASKED);
    giq_close(&places[1]);
    IS(giq_ran(&places[1], GIQ_RAN, 0, &answer), GIQ_NO_PLACE);
    IS(run(&places[0], mutate(&places[0], "n", "5")), GIQ_OK);
    changes(&places[0]);
    giq_close(&places[0]);
    beside_rules();
    return EXIT_SUCCESS;
}
