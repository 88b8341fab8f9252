/* What is wrong with rules, in any room; the messages of numbers; and a library of another version.
 *
 * The program is linked with --wrap=giq_version, so that the header calls the function below. */
#include "giqaymu.h"

#include <stdio.h>
#include <stdlib.h>

static int line;

static void fail(const char *what, long number) {
    fprintf(stderr, "line %d: %s %ld\n", line, what, number);
    exit(EXIT_FAILURE);
}

static void is_number(int64_t returned, int64_t wanted) {
    if (returned != wanted) fail("number", (long)returned);
}

#define IS(call, wanted) (line = __LINE__, is_number((call), (wanted)))

/* What the library says of its version, if it is to say anything else than it does. */
static uint32_t said;

uint32_t __real_giq_version(void);
uint32_t __wrap_giq_version(void);

uint32_t __wrap_giq_version(void) { return said != 0 ? said : __real_giq_version(); }

/* These rules have this fault, whatever room there is for its text; no byte behind the room is written. */
static void faulty(const char *rules, const char *fault) {
    char text[64];
    const size_t length = strlen(fault);
    size_t size, i;
    for (size = 0; size < sizeof text; size++) {
        memset(text, '#', sizeof text);
        is_number(giq_check_rules(giq_text(rules), text, size), (int64_t)length);
        if (size > 0 && strncmp(text, fault, size - 1) != 0) fail(text, (long)size);
        if (size > 0 && strlen(text) != (length < size ? length : size - 1)) fail(text, (long)size);
        for (i = size; i < sizeof text; i++) is_number(text[i], '#');
    }
}

#define FAULTY(rules, fault) (line = __LINE__, faulty((rules), (fault)))

static int32_t opened(const char *rules) {
    giq_opening opening;
    giq_place place;
    int32_t returned;
    opening.group = giq_text("00000000-0000-4000-8000-000000000001");
    opening.profile = giq_text("p1");
    opening.schema = giq_text("s1");
    opening.rules = giq_text(rules);
    opening.slots = 64;
    opening.own_mutators = 0;
    memset(&place, 255, sizeof place);
    returned = giq_open_places(&opening, &place, 1);
    if ((place.is_open != 0) != (returned == GIQ_OK)) fail("open", returned);
    giq_close(&place);
    return returned;
}

static void versions(void) {
    IS(giq_version() & ~GIQ_UNPROVED, GIQ_VERSION);
    said = GIQ_VERSION | GIQ_UNPROVED;
    IS(opened("{}"), GIQ_OK);
    said = GIQ_VERSION + 1;
    IS(opened("{}"), GIQ_OK);
    said = GIQ_VERSION + 100;
    IS(opened("{}"), GIQ_BAD_VERSION);
    said = GIQ_VERSION + 10000;
    IS(opened("{}"), GIQ_BAD_VERSION);
    said = GIQ_VERSION - 1;
    IS(opened("{}"), GIQ_BAD_VERSION);
    said = 0;
}

static void messages(void) {
    IS(strcmp(giq_message(GIQ_OK), "it was done; or no"), 0);
    IS(strcmp(giq_message(GIQ_GONE), "a slot was given again while it was looked for: call again"), 0);
    IS(strcmp(giq_message(GIQ_BAD_RULES), "the rules are faulty"), 0);
    IS(strcmp(giq_message(GIQ_ASKED + 1), giq_message(INT32_MIN)), 0);
    IS(strcmp(giq_message(INT32_MIN), "no call returns this number"), 0);
}

int main(void) {
    FAULTY("[", "no JSON text, or one that nests too deep");
    FAULTY("[]", "no JSON object");
    FAULTY("{\"add\":[[\"put\",\"k\",[\"adds\",1,2]]]}", "/add/0/2: unknown word");
    FAULTY("{\"a/b~\xc3\xa9\":1}", "/a~1b~0\xc3\xa9: no list of steps");
    FAULTY("{\"\\n\\u0000\\\"\":1}", "/\\n\\u0000\\\": no list of steps");
    FAULTY("{}", "");
    FAULTY("", "");
    IS(opened("{\"a\":[[]]}"), GIQ_BAD_RULES);
    IS(opened(""), GIQ_OK);
    versions();
    messages();
    return EXIT_SUCCESS;
}
