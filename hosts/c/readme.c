/* The README's example in C: two clients of one group, and a server that this file plays. */
#include "giqaymu.h"

#include <stdio.h>
#include <stdlib.h>

#define ANNA "00000000-0000-4000-8000-00000000000a"
#define BERT "00000000-0000-4000-8000-00000000000b"
#define PUT(key, value) "{\"op\":\"put\",\"key\":\"" key "\",\"value\":" value "}"

/* What a call returned, where it was done; else the program ends. */
static int32_t done(int32_t number) {
    if (number < 0) {
        fprintf(stderr, "refused with %d\n", (int)number);
        exit(EXIT_FAILURE);
    }
    return number;
}

static void show(const char *what, giq_bytes bytes) {
    printf("%s %.*s\n", what, (int)bytes.len, (const char *)bytes.at);
}

static void show_id(const char *what, const giq_answer *answer) {
    printf("%s %llu\n", what, (unsigned long long)answer->number);
}

/* A pull whose response is this one. */
static void pull(giq_place *place, const char *response) {
    giq_answer begun, answer;
    done(giq_begin_pull(place, &begun));
    show("pull", begun.bytes);
    puts(done(giq_end_pull(place, (uint32_t)begun.number, giq_text(response), &answer)) == GIQ_OK ? "applied" : "same");
    done(giq_forget_ticket(place, (uint32_t)begun.number, &answer));
}

static void poll(giq_place *place, uint32_t watch) {
    giq_answer answer;
    if (done(giq_poll(place, watch, &answer)) == GIQ_NONE) {
        puts("unchanged");
    } else {
        show("new", answer.bytes);
    }
}

int main(void) {
    giq_opening opening;
    giq_place places[2];
    giq_answer answer;
    uint32_t watch;

    opening.group = giq_text("00000000-0000-4000-8000-000000000001");
    opening.profile = giq_text("p1");
    opening.schema = giq_text("s1");
    opening.rules = giq_text("{\"add\":[[\"put\",[\"cat\",\"todo/\",[\"arg\",\"id\"]],[\"arg\",\"text\"]]]}");
    opening.slots = 4096;
    opening.own_mutators = 0;
    done(giq_open_places(&opening, places, 2));
    done(giq_sit(&places[0], giq_text(ANNA), &answer));
    done(giq_sit(&places[1], giq_text(BERT), &answer));

    pull(&places[0], "{\"cookie\":1,\"lastMutationIDChanges\":{},\"patch\":[" PUT("n", "5") "]}");
    done(giq_watch(&places[1], giq_rows(giq_text("todo/")), &answer));
    watch = (uint32_t)answer.number;
    poll(&places[1], watch);

    done(giq_mutate(&places[0], giq_text("incr"), giq_text("[\"n\",1]"), 1700000000000, &answer));
    show_id("id", &answer);
    done(giq_mutate(&places[1], giq_text("add"), giq_text("{\"id\":\"x\",\"text\":\"milk\"}"), 1700000000001, &answer));
    show_id("id", &answer);
    done(giq_get(&places[1], giq_text("n"), &answer));
    show("n", answer.bytes);
    puts(done(giq_has(&places[0], giq_text("todo/x"), &answer)) == GIQ_YES ? "there" : "not there");
    poll(&places[1], watch);
    poll(&places[1], watch);

    done(giq_pending(&places[0], &answer));
    show("pending", answer.bytes);
    done(giq_push(&places[0], &answer));
    show("push", answer.bytes);
    pull(&places[1], "{\"cookie\":2,\"lastMutationIDChanges\":{\"" ANNA "\":1,\"" BERT "\":1},"
                     "\"patch\":[" PUT("n", "6") "," PUT("todo/x", "\"oat milk\"") "]}");
    poll(&places[1], watch);
    done(giq_pending(&places[0], &answer));
    show("pending", answer.bytes);

    if (giq_mutate(&places[0], giq_text("incr"), giq_text("[\"m\",1]"), 1700000000002, &answer) == GIQ_REFUSED) {
        printf("refused with code %u\n", (unsigned)answer.code);
    }
    done(giq_leave(&places[0], &answer));
    giq_close(&places[0]);
    giq_close(&places[1]);
    return EXIT_SUCCESS;
}
