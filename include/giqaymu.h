/* giqaymu.h: the client half of Replicache for one client group, for C, C++ and whatever calls as C does.
 *
 * A group is opened with 1 to 256 places. A client sits down at a place, makes its calls and leaves; then another one
 * may sit there. No call opens a socket, starts a thread or waits for another call: the program carries the bodies of
 * requests and responses. The last place that is closed frees the group. The library is for x86-64 Linux with glibc.
 *
 * Bytes in. A giq_bytes is an address and a count; the bytes are read during the call alone. Keys, prefixes and names
 * are UTF-8, arguments, rules and responses JSON texts, IDs UUIDs (RFC 9562, any of its text forms). They may not lie
 * where the answer of the same place lies: copy what a place answered before you hand it back to that place.
 *
 * Bytes out. answer.bytes belongs to the library and is good until the next call of the same place, giq_close too.
 * Each call that takes an answer writes it: where it is refused there are no bytes, and `code` may say more.
 *
 * What a call returns. 0 or above: it was done, or asks for a run (GIQ_ASKED). Below 0: a refusal, an enum giq_number,
 * of which giq_message says what it is; nothing was changed then, but that GIQ_STATE_NOT_FOUND closes the group. Each
 * call may be refused with GIQ_NO_MEMORY, at a closed place with GIQ_NO_PLACE, and where it needs a client with
 * GIQ_NO_CLIENT. A call begins anew where others are in its way, 1,000,000 times at the most; then it is refused with
 * GIQ_MOVED, GIQ_BUSY or GIQ_GONE. GIQ_STAMPS comes only where all of a group's 2^40 stamps but 2^32 are drawn: a
 * try of a change draws one for each commit and each chunk that it makes.
 *
 * Of two refusals. Where a call has several, the first of these is returned: GIQ_NO_PLACE; what its bytes and numbers
 * say, one parameter after the other, a response not among them: GIQ_NOT_UTF8, GIQ_BAD_UUID, GIQ_NOT_JSON,
 * GIQ_BAD_SHAPE, GIQ_NOT_WHOLE, GIQ_OUT_OF_RANGE; GIQ_ASKS or GIQ_NOT_ASKED; GIQ_READS, GIQ_NOT_READ, GIQ_IN_USE or
 * GIQ_NO_CLIENT; GIQ_NO_TICKET or GIQ_NO_WATCH; and then what the group answers, which reads a response (docs/RECORD.md
 * has its order). GIQ_NO_MEMORY may come in the place of any of them but the first.
 *
 * Readings. From giq_begin_read to giq_end_read the queries of a place are answered as of one moment, which is a moment
 * of giq_begin_read: giq_get, giq_has, giq_scan, giq_pulled_get, giq_pulled_scan, giq_pending, giq_cookie, giq_closed,
 * giq_push and giq_moment. Meanwhile tickets and watches may be given up, the client may leave and the place be closed,
 * which ends the reading; each other call that needs a client is refused with GIQ_READS. As long as a reading is open,
 * the slots that other clients let go are kept from use, so a long one can make a busy group full.
 *
 * Mutators. A group runs its rules itself, and without own_mutators those of scripts. With own_mutators each name that
 * has no rule is a mutator of the program's own: a mutation of one, and an end of a pull where such a mutation stays
 * pending, answer GIQ_ASKED. The program runs the mutator on the run's map, by the calls giq_asked_name to
 * giq_draft_writes, and says with giq_ran how that ended; giq_ran answers GIQ_ASKED for the next run that the group
 * doesn't make itself, or what the change came to. Until then each other call of the place is refused with GIQ_ASKS,
 * but that the client may leave and the place be closed: then, and by giq_give_up, the change is given up, and nothing
 * was changed. As long as a run is asked for, the slots that other clients let go are kept from use, so a long run can
 * make a busy group full: a run is no place to wait. Where others changed the group first, all runs are asked for anew.
 *
 * Threads. Any thread may open a group. A place is used by one thread at a time, its closing too; it may go from one
 * thread to another where the program orders their calls (a lock, a queue, a join). Places of one group are used by
 * any number of threads at the same time. No call may be made in a handler of a signal.
 *
 * Stack. GIQ_STACK bytes, 256 kB, were enough for each call that was tried, with rules, values and responses that nest
 * as deep as they may; 64 kB were where little nests. That is measured, not proved.
 *
 * Trusted, since nothing here can look: a giq_place is zeros, or as the library left it; one thread at a time uses
 * it, and nobody a copy of it; each giq_bytes has so many bytes that can be read, which nobody writes meanwhile;
 * `answer` and `places` can be written. And of mutators of the program's own: what a run does depends on the name, the
 * arguments, the reason and the run's map alone. What a call answers then is proved, for any bytes and numbers, also at
 * a place that was closed.
 *
 * Five functions are exported: giq_open, giq_call, giq_close, giq_rules_fault and giq_version. The others are written
 * over them here. giq_open_places refuses a library of another version than this header's.
 */
#ifndef GIQAYMU_H
#define GIQAYMU_H

#include <stddef.h>
#include <stdint.h>
#include <string.h>

#ifdef __cplusplus
extern "C" {
#endif

/* ---- types */

/* A place of a group. The library alone writes it. It may be moved, but not be copied: of two copies one is used, the
 * other one forgotten. A place of zeros is closed. */
typedef struct giq_place {
    void *at;
    uint64_t is_open;
} giq_place;

/* So many bytes from an address on. Where there are none the address doesn't count. */
typedef struct giq_bytes {
    const uint8_t *at;
    size_t len;
} giq_bytes;

/* What a call tells beside the number that it returns. */
typedef struct giq_answer {
    giq_bytes bytes; /* of the library, good until the next call of the place */
    uint64_t number; /* an id, the number of a ticket, of a watch or of a moment, or a reason; of a query's answer its
                        moment; else 0 */
    uint32_t code;   /* of GIQ_REFUSED the mutator's; of GIQ_VERSION_NOT_SUPPORTED an enum giq_version_kind; else 0 */
} giq_answer;

/* What a call returns. */
enum giq_number {
    /* by tools/refusals: header of numbers */
    /* it was done; or no */
    GIQ_OK = 0,
    /* it was done, and there is nothing: no value, no new rows; or the pull changed nothing */
    GIQ_NONE = 1,
    /* yes */
    GIQ_YES = 2,
    /* the change asks for a run of one of the program's own mutators */
    GIQ_ASKED = 3,
    /* memory was refused: free some and call again */
    GIQ_NO_MEMORY = -1,
    /* other clients changed the group first, as often as the call tries: call again */
    GIQ_MOVED = -2,
    /* a slot or a pin was lost to other clients, as often as the call tries: call again */
    GIQ_BUSY = -3,
    /* a slot was given again while it was looked for: call again */
    GIQ_GONE = -4,
    /* no slot is free for the change: close readers, pull what confirms or clears, or open a larger group */
    GIQ_FULL = -5,
    /* the group has too few stamps left: open a new group */
    GIQ_STAMPS = -6,
    /* the client's last id is not the one that the group has: refresh it and call again */
    GIQ_STALE = -7,
    /* no mutator has this name */
    GIQ_NO_MUTATOR = -8,
    /* the mutator refused, with the code */
    GIQ_REFUSED = -9,
    /* the bytes are no JSON text, or one that nests too deep */
    GIQ_NOT_JSON = -10,
    /* a field is missing, of a wrong type or out of range */
    GIQ_BAD_SHAPE = -11,
    /* a number is not whole, or does not fit 64 bits */
    GIQ_NOT_WHOLE = -12,
    /* another pull was applied since this one began: begin a new one */
    GIQ_OVERTAKEN = -13,
    /* the response's cookie is below the group's: begin a new pull */
    GIQ_COOKIE_WENT_BACK = -14,
    /* the cookie is as high as the group's, but the response brings something: begin a new pull */
    GIQ_COOKIE_NOT_NEW = -15,
    /* the response confirms less of a client than was confirmed: begin a new pull */
    GIQ_ID_WENT_BACK = -16,
    /* the server does not know the client group, which is closed by this: open a new one */
    GIQ_STATE_NOT_FOUND = -17,
    /* the server does not support the version of this kind */
    GIQ_VERSION_NOT_SUPPORTED = -18,
    /* all seats are out: give one back */
    GIQ_NO_SEAT = -19,
    /* the group is closed, since the server does not know it: open a new one */
    GIQ_CLOSED = -20,
    /* the bytes are not UTF-8 */
    GIQ_NOT_UTF8 = -101,
    /* the text is no UUID (RFC 9562) */
    GIQ_BAD_UUID = -102,
    /* a number is none of those that it may be */
    GIQ_OUT_OF_RANGE = -103,
    /* the place has no ticket of this number: begin a pull */
    GIQ_NO_TICKET = -104,
    /* the place has no watch of this number: begin a watch */
    GIQ_NO_WATCH = -105,
    /* the rules are faulty */
    GIQ_BAD_RULES = -106,
    /* a client sits at the place: let it leave first */
    GIQ_IN_USE = -107,
    /* a change of the place asks for a run of a mutator: do it, or give the change up */
    GIQ_ASKS = -108,
    /* no client sits at the place: sit down first */
    GIQ_NO_CLIENT = -109,
    /* the place is closed: open a group */
    GIQ_NO_PLACE = -110,
    /* no change of the place asks for a run: mutate, or end a pull */
    GIQ_NOT_ASKED = -111,
    /* a reading of the place is open: end it first */
    GIQ_READS = -112,
    /* no reading of the place is open: begin one */
    GIQ_NOT_READ = -113,
    /* the library is of another version than what calls it: build both of one version */
    GIQ_BAD_VERSION = -201
    /* tools/refusals: end */
};

/* The version of this header: major * 10000 + minor * 100 + patch. */
#define GIQ_VERSION 10200

/* This bit of what giq_version answers says that the library was built without its proof. */
#define GIQ_UNPROVED 0x80000000

/* Which version a server does not support. */
enum giq_version_kind { GIQ_UNKNOWN_VERSION = 0, GIQ_PUSH_VERSION = 1, GIQ_PULL_VERSION = 2, GIQ_SCHEMA_VERSION = 3 };

/* Where the rows of a scan begin: at the first key, at a key, or after it. */
enum giq_start { GIQ_ANY = 0, GIQ_AT = 1, GIQ_AFTER = 2 };

/* For which reason a mutator is run: the client makes the mutation, or a pull was applied under it. */
enum giq_reason { GIQ_INITIAL = 0, GIQ_REBASE = 1 };

/* How a run ended: what it wrote is the mutator's; it refuses, with a code; or there is no mutator of the name. */
enum giq_ending { GIQ_RAN = 0, GIQ_RAN_REFUSED = 1, GIQ_RAN_UNKNOWN = 2 };

/* Which call giq_call makes. */
enum giq_what {
    GIQ_CALL_SIT = 0,
    GIQ_CALL_LEAVE = 1,
    GIQ_CALL_GET = 2,
    GIQ_CALL_HAS = 3,
    GIQ_CALL_SCAN = 4,
    GIQ_CALL_PENDING = 5,
    GIQ_CALL_COOKIE = 6,
    GIQ_CALL_CLOSED = 7,
    GIQ_CALL_REFRESH = 8,
    GIQ_CALL_PUSH = 9,
    GIQ_CALL_BEGIN_PULL = 10,
    GIQ_CALL_FORGET_TICKET = 11,
    GIQ_CALL_END_PULL = 12,
    GIQ_CALL_MUTATE = 13,
    GIQ_CALL_WATCH = 14,
    GIQ_CALL_POLL = 15,
    GIQ_CALL_ASKED_NAME = 16,
    GIQ_CALL_ASKED_ARGS = 17,
    GIQ_CALL_DRAFT_GET = 18,
    GIQ_CALL_DRAFT_HAS = 19,
    GIQ_CALL_DRAFT_SCAN = 20,
    GIQ_CALL_DRAFT_PUT = 21,
    GIQ_CALL_DRAFT_DEL = 22,
    GIQ_CALL_RAN = 23,
    GIQ_CALL_GIVE_UP = 24,
    GIQ_CALL_SLOTS = 25,
    GIQ_CALL_BEGIN_READ = 26,
    GIQ_CALL_END_READ = 27,
    GIQ_CALL_MOMENT = 28,
    GIQ_CALL_PULLED_GET = 29,
    GIQ_CALL_PULLED_SCAN = 30,
    GIQ_CALL_UNWATCH = 31,
    GIQ_CALL_ASKED_RUN = 32,
    GIQ_CALL_POLL_CHANGES = 33,
    GIQ_CALL_DRAFT_WRITES = 34
};

#define GIQ_NO_LIMIT UINT64_MAX
#define GIQ_MAX_PLACES 256
#define GIQ_MIN_SLOTS 16
#define GIQ_MAX_SLOTS 16777216
#define GIQ_STACK 262144

/* What a group is opened with. */
typedef struct giq_opening {
    giq_bytes group;       /* the group's ID */
    giq_bytes profile;     /* the profile ID of its requests, UTF-8 */
    giq_bytes schema;      /* the schema version of its requests, UTF-8 */
    giq_bytes rules;       /* mutators as a JSON object (docs/RULES.md), which it runs itself; no bytes: none */
    uint32_t slots;        /* GIQ_MIN_SLOTS to GIQ_MAX_SLOTS, 8 bytes each, 80 once used; a group never grows */
    uint32_t own_mutators; /* what a name without a rule is: 0: a mutator of scripts, 1: of the program's own */
} giq_opening;

/* Which rows: those whose keys begin with the prefix, from the start on, so many at the most. */
typedef struct giq_range {
    giq_bytes prefix;
    uint32_t kind;   /* an enum giq_start */
    giq_bytes start; /* the key, where the kind is not GIQ_ANY */
    uint64_t limit;  /* GIQ_NO_LIMIT, or how many */
} giq_range;

/* ---- the exported functions: an address is not NULL here, even where its count is 0 */

/* Opens a group at `count` places; those that were open are closed first. See giq_open_places. */
int32_t giq_open(const uint8_t *group, size_t group_len, const uint8_t *profile, size_t profile_len,
                 const uint8_t *schema, size_t schema_len, const uint8_t *rules, size_t rules_len, uint32_t slots,
                 uint32_t own_mutators, giq_place *places, size_t count);

/* Makes the call `what`, an enum giq_what, with two numbers and two byte strings: what it doesn't use is not looked
 * at. Any other number is refused with GIQ_OUT_OF_RANGE. */
int32_t giq_call(giq_place *place, uint32_t what, uint32_t m, uint64_t n, const uint8_t *a, size_t a_len,
                 const uint8_t *b, size_t b_len, giq_answer *answer);

/* Closes a place, with the client that sits there; what the client made stays pending in the group. A place that is
 * closed stays so. */
void giq_close(giq_place *place);

/* Tells what is wrong with rules, in the `room` bytes from `text` on. See giq_check_rules. */
int64_t giq_rules_fault(const uint8_t *rules, size_t rules_len, uint8_t *text, size_t room);

/* The version of the library, as GIQ_VERSION is this header's; with the bit GIQ_UNPROVED where it was built without its
 * proof. Any thread may call it at any time. */
uint32_t giq_version(void);

/* ---- bytes */

/* The bytes of a text that ends with a zero, without it. */
static inline giq_bytes giq_text(const char *text) {
    giq_bytes bytes;
    bytes.at = (const uint8_t *)text;
    bytes.len = strlen(text);
    return bytes;
}

/* No bytes. */
static inline giq_bytes giq_nothing(void) { return giq_text(""); }

/* All rows whose keys begin with the prefix. */
static inline giq_range giq_rows(giq_bytes prefix) {
    giq_range range;
    range.prefix = prefix;
    range.kind = GIQ_ANY;
    range.start = giq_nothing();
    range.limit = GIQ_NO_LIMIT;
    return range;
}

/* An address that is not NULL. */
static inline const uint8_t *giq_at(giq_bytes bytes) { return bytes.len == 0 ? (const uint8_t *)"" : bytes.at; }

/* giq_call with byte strings as values. */
static inline int32_t giq_ask(giq_place *place, enum giq_what what, uint32_t m, uint64_t n, giq_bytes a, giq_bytes b,
                              giq_answer *answer) {
    return giq_call(place, (uint32_t)what, m, n, giq_at(a), a.len, giq_at(b), b.len, answer);
}

/* What a number that a call returned says, and what the caller can do about it; any other number is said to be none. */
static inline const char *giq_message(int32_t number) {
    switch (number) {
    /* by tools/refusals: header messages of numbers */
    case GIQ_OK:
        return "it was done; or no";
    case GIQ_NONE:
        return "it was done, and there is nothing: no value, no new rows; or the pull changed nothing";
    case GIQ_YES:
        return "yes";
    case GIQ_ASKED:
        return "the change asks for a run of one of the program's own mutators";
    case GIQ_NO_MEMORY:
        return "memory was refused: free some and call again";
    case GIQ_MOVED:
        return "other clients changed the group first, as often as the call tries: call again";
    case GIQ_BUSY:
        return "a slot or a pin was lost to other clients, as often as the call tries: call again";
    case GIQ_GONE:
        return "a slot was given again while it was looked for: call again";
    case GIQ_FULL:
        return "no slot is free for the change: close readers, pull what confirms or clears, or open a larger group";
    case GIQ_STAMPS:
        return "the group has too few stamps left: open a new group";
    case GIQ_STALE:
        return "the client's last id is not the one that the group has: refresh it and call again";
    case GIQ_NO_MUTATOR:
        return "no mutator has this name";
    case GIQ_REFUSED:
        return "the mutator refused, with the code";
    case GIQ_NOT_JSON:
        return "the bytes are no JSON text, or one that nests too deep";
    case GIQ_BAD_SHAPE:
        return "a field is missing, of a wrong type or out of range";
    case GIQ_NOT_WHOLE:
        return "a number is not whole, or does not fit 64 bits";
    case GIQ_OVERTAKEN:
        return "another pull was applied since this one began: begin a new one";
    case GIQ_COOKIE_WENT_BACK:
        return "the response's cookie is below the group's: begin a new pull";
    case GIQ_COOKIE_NOT_NEW:
        return "the cookie is as high as the group's, but the response brings something: begin a new pull";
    case GIQ_ID_WENT_BACK:
        return "the response confirms less of a client than was confirmed: begin a new pull";
    case GIQ_STATE_NOT_FOUND:
        return "the server does not know the client group, which is closed by this: open a new one";
    case GIQ_VERSION_NOT_SUPPORTED:
        return "the server does not support the version of this kind";
    case GIQ_NO_SEAT:
        return "all seats are out: give one back";
    case GIQ_CLOSED:
        return "the group is closed, since the server does not know it: open a new one";
    case GIQ_NOT_UTF8:
        return "the bytes are not UTF-8";
    case GIQ_BAD_UUID:
        return "the text is no UUID (RFC 9562)";
    case GIQ_OUT_OF_RANGE:
        return "a number is none of those that it may be";
    case GIQ_NO_TICKET:
        return "the place has no ticket of this number: begin a pull";
    case GIQ_NO_WATCH:
        return "the place has no watch of this number: begin a watch";
    case GIQ_BAD_RULES:
        return "the rules are faulty";
    case GIQ_IN_USE:
        return "a client sits at the place: let it leave first";
    case GIQ_ASKS:
        return "a change of the place asks for a run of a mutator: do it, or give the change up";
    case GIQ_NO_CLIENT:
        return "no client sits at the place: sit down first";
    case GIQ_NO_PLACE:
        return "the place is closed: open a group";
    case GIQ_NOT_ASKED:
        return "no change of the place asks for a run: mutate, or end a pull";
    case GIQ_READS:
        return "a reading of the place is open: end it first";
    case GIQ_NOT_READ:
        return "no reading of the place is open: begin one";
    case GIQ_BAD_VERSION:
        return "the library is of another version than what calls it: build both of one version";
    /* tools/refusals: end */
    default:
        return "no call returns this number";
    }
}

/* ---- a group */

/* Whether the library has this header's major and minor number. A program that calls giq_open itself asks before. */
static inline int giq_is_of_version(void) { return (giq_version() & ~GIQ_UNPROVED) / 100 == GIQ_VERSION / 100; }

/* What is wrong with rules that are refused with GIQ_BAD_RULES: the first fault with its place, as
 * "/add/0/2: unknown word" (docs/RULES.md); the text has no zero and no line feed. As snprintf does, it writes as much
 * of that text as fits in `size` bytes, with a zero behind it, and returns how many bytes the whole text has without
 * the zero. 0: nothing is wrong, or there are no rules. GIQ_NO_MEMORY: the text is empty. Any thread may call it at any
 * time; `text` may not lie where `rules` do. */
static inline int64_t giq_check_rules(giq_bytes rules, char *text, size_t size) {
    char none;
    const size_t room = size == 0 ? 0 : size - 1;
    const int64_t told = giq_rules_fault(giq_at(rules), rules.len, (uint8_t *)(size == 0 ? &none : text), room);
    if (size != 0) text[told < 0 ? 0 : (uint64_t)told < room ? (size_t)told : room] = 0;
    return told;
}

/* Opens a group at `count` places, 1 to GIQ_MAX_PLACES, none of which is open; the group is in memory and starts empty.
 * Where it is refused the places are closed, with the first of these: GIQ_BAD_VERSION (see giq_is_of_version),
 * GIQ_OUT_OF_RANGE (places, then own_mutators), GIQ_BAD_RULES (see giq_check_rules), GIQ_BAD_UUID, GIQ_NOT_UTF8,
 * GIQ_OUT_OF_RANGE (slots); GIQ_NO_MEMORY may come in the place of any. What is proved allows GIQ_BUSY and GIQ_FULL
 * too; no test met them here. */
static inline int32_t giq_open_places(const giq_opening *with, giq_place *places, size_t count) {
    if (count != 0) memset(places, 0, count * sizeof *places);
    if (!giq_is_of_version()) return GIQ_BAD_VERSION;
    if (count == 0) return GIQ_OUT_OF_RANGE;
    return giq_open(giq_at(with->group), with->group.len, giq_at(with->profile), with->profile.len,
                    giq_at(with->schema), with->schema.len, giq_at(with->rules), with->rules.len, with->slots,
                    with->own_mutators, places, count);
}

/* ---- a client */

/* A client of this ID sits down. Its last id is the one that the group has, 0 where it has none.
 *
 * An ID is for one life of a client: take a new UUID each time, unless the group was restored to what it was. A new
 * group numbers a client's mutations from 1, and a server skips those whose numbers it has seen of that ID: they would
 * be confirmed and never done, without a word.
 * Refused: GIQ_BAD_UUID, GIQ_IN_USE, GIQ_BUSY, GIQ_GONE. */
static inline int32_t giq_sit(giq_place *place, giq_bytes client, giq_answer *answer) {
    return giq_ask(place, GIQ_CALL_SIT, 0, 0, client, giq_nothing(), answer);
}

/* The client leaves; its tickets, its watches and a reading are given up, and what it made stays pending. */
static inline int32_t giq_leave(giq_place *place, giq_answer *answer) {
    return giq_ask(place, GIQ_CALL_LEAVE, 0, 0, giq_nothing(), giq_nothing(), answer);
}

/* Finds the client's last id in the group: answer->number. The remedy for GIQ_STALE. Refused: GIQ_BUSY, GIQ_GONE. */
static inline int32_t giq_refresh(giq_place *place, giq_answer *answer) {
    return giq_ask(place, GIQ_CALL_REFRESH, 0, 0, giq_nothing(), giq_nothing(), answer);
}

/* ---- queries: each but giq_slots is answered as of one moment of the call, or of the reading that is open, and tells
 * it: answer->number, as giq_moment counts them. Refused: GIQ_BUSY, GIQ_GONE, and giq_slots and giq_moment with neither;
 * those that are given bytes: GIQ_NOT_UTF8 */

/* The value at the key, a compact JSON text; GIQ_NONE where there is none. */
static inline int32_t giq_get(giq_place *place, giq_bytes key, giq_answer *answer) {
    return giq_ask(place, GIQ_CALL_GET, 0, 0, key, giq_nothing(), answer);
}

/* Whether the key is there: GIQ_YES or GIQ_OK. Compare with GIQ_YES: a refusal isn't 0 either. */
static inline int32_t giq_has(giq_place *place, giq_bytes key, giq_answer *answer) {
    return giq_ask(place, GIQ_CALL_HAS, 0, 0, key, giq_nothing(), answer);
}

/* The rows of the range in the order of their keys' bytes, a JSON array of [key,value].
 * Refused: GIQ_OUT_OF_RANGE where the kind is no enum giq_start. */
static inline int32_t giq_scan(giq_place *place, giq_range range, giq_answer *answer) {
    return giq_ask(place, GIQ_CALL_SCAN, range.kind, range.limit, range.prefix, range.start, answer);
}

/* The pending mutations of the group, whichever client made them, the oldest first: a JSON array of
 * [client,id,name]. */
static inline int32_t giq_pending(giq_place *place, giq_answer *answer) {
    return giq_ask(place, GIQ_CALL_PENDING, 0, 0, giq_nothing(), giq_nothing(), answer);
}

/* The group's cookie, a compact JSON text; null before the first pull was applied. */
static inline int32_t giq_cookie(giq_place *place, giq_answer *answer) {
    return giq_ask(place, GIQ_CALL_COOKIE, 0, 0, giq_nothing(), giq_nothing(), answer);
}

/* Whether the group is closed, since the server does not know it: GIQ_YES or GIQ_OK, as giq_has. */
static inline int32_t giq_closed(giq_place *place, giq_answer *answer) {
    return giq_ask(place, GIQ_CALL_CLOSED, 0, 0, giq_nothing(), giq_nothing(), answer);
}

/* The value at the key in what the server last sent, without what is pending, as giq_get has it. */
static inline int32_t giq_pulled_get(giq_place *place, giq_bytes key, giq_answer *answer) {
    return giq_ask(place, GIQ_CALL_PULLED_GET, 0, 0, key, giq_nothing(), answer);
}

/* The rows of the range in what the server last sent, without what is pending, as giq_scan has them.
 * Refused: as giq_scan. */
static inline int32_t giq_pulled_scan(giq_place *place, giq_range range, giq_answer *answer) {
    return giq_ask(place, GIQ_CALL_PULLED_SCAN, range.kind, range.limit, range.prefix, range.start, answer);
}

/* The number of the group's moment: answer->number. The same number, also at another place of the group, says the same
 * map, pending mutations and cookie; a later state has a greater number. It is one load, and takes no memory: a program
 * that asks before it reads pays little where nothing is new. */
static inline int32_t giq_moment(giq_place *place, giq_answer *answer) {
    return giq_ask(place, GIQ_CALL_MOMENT, 0, 0, giq_nothing(), giq_nothing(), answer);
}

/* How many slots are free, a JSON array [ordinary,all,retired]: those that a change may take, those that a pull may
 * take which leaves nothing pending, and those that were let go and not given since, of which a change takes each that
 * no older reader holds. Each slot is looked at once, one after the other, so that others may take and let go
 * meanwhile; it takes time for each slot of the group. */
static inline int32_t giq_slots(giq_place *place, giq_answer *answer) {
    return giq_ask(place, GIQ_CALL_SLOTS, 0, 0, giq_nothing(), giq_nothing(), answer);
}

/* Begins a reading: until giq_end_read this place's queries are answered as of one moment. End it soon: see "Readings".
 * Refused: GIQ_READS where one is open, GIQ_BUSY, GIQ_GONE. It takes no memory. */
static inline int32_t giq_begin_read(giq_place *place, giq_answer *answer) {
    return giq_ask(place, GIQ_CALL_BEGIN_READ, 0, 0, giq_nothing(), giq_nothing(), answer);
}

/* Ends the reading. Refused: GIQ_NOT_READ where none is open, also where nobody sits. */
static inline int32_t giq_end_read(giq_place *place, giq_answer *answer) {
    return giq_ask(place, GIQ_CALL_END_READ, 0, 0, giq_nothing(), giq_nothing(), answer);
}

/* Watches the rows of a range: answer->number names the watch at this place, until it is given up or the client leaves.
 * Nothing is read. Refused: as giq_scan. */
static inline int32_t giq_watch(giq_place *place, giq_range range, giq_answer *answer) {
    return giq_ask(place, GIQ_CALL_WATCH, range.kind, range.limit, range.prefix, range.start, answer);
}

/* The rows of a watch, as giq_scan has them, the first time and whenever they differ from those told last; else
 * GIQ_NONE.
 * Refused: GIQ_NO_WATCH; then, and in each other refusal, nothing counts as told. */
static inline int32_t giq_poll(giq_place *place, uint32_t watch, giq_answer *answer) {
    return giq_ask(place, GIQ_CALL_POLL, watch, 0, giq_nothing(), giq_nothing(), answer);
}

/* What changed in the rows of a watch since they were told last, by giq_poll or by this: a JSON array of objects in the
 * order of their keys' bytes, {"key":..,"newValue":..,"oldValue":..,"op":..}. `op` is "add", "del" or "change"; a row
 * that was added has no old value, one that was taken out no new one. The first time each row is added. GIQ_NONE where
 * nothing changed. Refused: as giq_poll. */
static inline int32_t giq_poll_changes(giq_place *place, uint32_t watch, giq_answer *answer) {
    return giq_ask(place, GIQ_CALL_POLL_CHANGES, watch, 0, giq_nothing(), giq_nothing(), answer);
}

/* Gives a watch up, and the rows that it keeps. Its number may be given again. Refused: GIQ_NO_WATCH. */
static inline int32_t giq_unwatch(giq_place *place, uint32_t watch, giq_answer *answer) {
    return giq_ask(place, GIQ_CALL_UNWATCH, watch, 0, giq_nothing(), giq_nothing(), answer);
}

/* ---- changes and requests */

/* Runs a mutator on the map: answer->number is the mutation's id, and queries show it at once; or GIQ_ASKED. `args` is
 * a JSON text of whole numbers that nests at most 124 deep, `time` is in milliseconds since 1970.
 * Refused: GIQ_NOT_UTF8, GIQ_NOT_JSON, GIQ_NOT_WHOLE, GIQ_NO_MUTATOR, GIQ_REFUSED with the mutator's code, GIQ_STALE,
 * GIQ_FULL, GIQ_STAMPS, GIQ_CLOSED, GIQ_MOVED, GIQ_BUSY, GIQ_GONE. */
static inline int32_t giq_mutate(giq_place *place, giq_bytes name, giq_bytes args, uint64_t time, giq_answer *answer) {
    return giq_ask(place, GIQ_CALL_MUTATE, 0, time, name, args, answer);
}

/* The body of a push of all that is pending in the group (version 1), also where nothing is. Refused: GIQ_BUSY,
 * GIQ_GONE. The answer of the push endpoint is not read by the library. */
static inline int32_t giq_push(giq_place *place, giq_answer *answer) {
    return giq_ask(place, GIQ_CALL_PUSH, 0, 0, giq_nothing(), giq_nothing(), answer);
}

/* The body of a push as giq_push has it, but for the oldest `skip` pending mutations: with 0 it is giq_push. Where no
 * more are pending it has none. What is pending may be other by the time of the call than giq_pending told: look which
 * mutation the body begins with, or ask for both in one reading. */
static inline int32_t giq_push_from(giq_place *place, uint32_t skip, giq_answer *answer) {
    return giq_ask(place, GIQ_CALL_PUSH, skip, 0, giq_nothing(), giq_nothing(), answer);
}

/* Begins a pull: the body of its request (version 1), and answer->number names its ticket at this place. Many pulls
 * may be under way. Refused: GIQ_BUSY, GIQ_GONE. */
static inline int32_t giq_begin_pull(giq_place *place, giq_answer *answer) {
    return giq_ask(place, GIQ_CALL_BEGIN_PULL, 0, 0, giq_nothing(), giq_nothing(), answer);
}

/* Gives a ticket up: when its pull has ended, or when no response came. Its number may be given again.
 * Refused: GIQ_NO_TICKET. */
static inline int32_t giq_forget_ticket(giq_place *place, uint32_t ticket, giq_answer *answer) {
    return giq_ask(place, GIQ_CALL_FORGET_TICKET, ticket, 0, giq_nothing(), giq_nothing(), answer);
}

/* Ends a pull with the response's body: what the server confirmed is pending no more, and the rest is run again on the
 * server's map; GIQ_ASKED where one of those is to be run by the program. GIQ_NONE where the response brings nothing.
 * The ticket stays.
 * Refused: GIQ_NO_TICKET, GIQ_NOT_JSON, GIQ_BAD_SHAPE, GIQ_NOT_WHOLE, GIQ_OVERTAKEN, GIQ_COOKIE_WENT_BACK,
 * GIQ_COOKIE_NOT_NEW, GIQ_ID_WENT_BACK, GIQ_STATE_NOT_FOUND, GIQ_VERSION_NOT_SUPPORTED with an enum giq_version_kind,
 * GIQ_FULL, GIQ_STAMPS, GIQ_CLOSED, GIQ_MOVED, GIQ_BUSY, GIQ_GONE. */
static inline int32_t giq_end_pull(giq_place *place, uint32_t ticket, giq_bytes response, giq_answer *answer) {
    return giq_ask(place, GIQ_CALL_END_PULL, ticket, 0, response, giq_nothing(), answer);
}

/* ---- mutators of the program's own: each call is refused with GIQ_NOT_ASKED where no run is asked for */

/* The name of the mutator that is to be run; answer->number is the reason, an enum giq_reason. The name is good until
 * the place's next call: copy it before giq_asked_args. */
static inline int32_t giq_asked_name(giq_place *place, giq_answer *answer) {
    return giq_ask(place, GIQ_CALL_ASKED_NAME, 0, 0, giq_nothing(), giq_nothing(), answer);
}

/* Its arguments, a compact JSON text. Copy them before the run's map is read. */
static inline int32_t giq_asked_args(giq_place *place, giq_answer *answer) {
    return giq_ask(place, GIQ_CALL_ASKED_ARGS, 0, 0, giq_nothing(), giq_nothing(), answer);
}

/* All of the run in one: its mutation as a push lists it, a compact JSON text with "args", "clientID", "id", "name" and
 * "timestamp"; answer->number is the reason, an enum giq_reason. Client, id and time are told for the program's own
 * logs: what a run does must not depend on them. Copy the bytes before the run's map is read. */
static inline int32_t giq_asked_run(giq_place *place, giq_answer *answer) {
    return giq_ask(place, GIQ_CALL_ASKED_RUN, 0, 0, giq_nothing(), giq_nothing(), answer);
}

/* The value at the key in the run's map, a compact JSON text; GIQ_NONE where there is none. Refused: GIQ_NOT_UTF8,
 * GIQ_BUSY, GIQ_GONE, after which the run may go on. */
static inline int32_t giq_draft_get(giq_place *place, giq_bytes key, giq_answer *answer) {
    return giq_ask(place, GIQ_CALL_DRAFT_GET, 0, 0, key, giq_nothing(), answer);
}

/* Whether the key is there in the run's map: GIQ_YES or GIQ_OK, as giq_has. Refused: as giq_draft_get. */
static inline int32_t giq_draft_has(giq_place *place, giq_bytes key, giq_answer *answer) {
    return giq_ask(place, GIQ_CALL_DRAFT_HAS, 0, 0, key, giq_nothing(), answer);
}

/* The rows of the range in the run's map, as giq_scan has them. Refused: as giq_draft_get, and GIQ_OUT_OF_RANGE. */
static inline int32_t giq_draft_scan(giq_place *place, giq_range range, giq_answer *answer) {
    return giq_ask(place, GIQ_CALL_DRAFT_SCAN, range.kind, range.limit, range.prefix, range.start, answer);
}

/* Puts a value, a JSON text of whole numbers, at the key in the run's map. Refused, and then the map is as it was: as
 * giq_draft_get, and GIQ_NOT_JSON, GIQ_NOT_WHOLE. */
static inline int32_t giq_draft_put(giq_place *place, giq_bytes key, giq_bytes value, giq_answer *answer) {
    return giq_ask(place, GIQ_CALL_DRAFT_PUT, 0, 0, key, value, answer);
}

/* Takes the key out of the run's map, whether or not it was there. Refused: as giq_draft_get. */
static inline int32_t giq_draft_del(giq_place *place, giq_bytes key, giq_answer *answer) {
    return giq_ask(place, GIQ_CALL_DRAFT_DEL, 0, 0, key, giq_nothing(), answer);
}

/* Puts values and takes keys out in the run's map, as many as `writes` says, a JSON array of operations as in the patch
 * of a pull, {"op":"put","key":..,"value":..} and {"op":"del","key":..}: in their order, each as giq_draft_put and
 * giq_draft_del do it. Refused, and then none is done: GIQ_NOT_JSON, also where it nests deeper than 126,
 * GIQ_BAD_SHAPE, GIQ_NOT_WHOLE. Refused, and then the first ones may be done, so do all of them again or end the run:
 * GIQ_NO_MEMORY, GIQ_BUSY, GIQ_GONE. */
static inline int32_t giq_draft_writes(giq_place *place, giq_bytes writes, giq_answer *answer) {
    return giq_ask(place, GIQ_CALL_DRAFT_WRITES, 0, 0, writes, giq_nothing(), answer);
}

/* Says how the run ended, by an enum giq_ending, and the code where it refused. GIQ_ASKED: the next run is asked for.
 * Else the change has ended: this returns and answers what giq_mutate or giq_end_pull would have. A new mutation whose
 * run wasn't done is refused with GIQ_REFUSED or GIQ_NO_MUTATOR; a pending one stays pending, and leaves the map as it
 * was before its run. Refused with GIQ_OUT_OF_RANGE where the ending is none, and then the run is still asked for. */
static inline int32_t giq_ran(giq_place *place, uint32_t ending, uint32_t code, giq_answer *answer) {
    return giq_ask(place, GIQ_CALL_RAN, ending, code, giq_nothing(), giq_nothing(), answer);
}

/* Gives the change up: nothing was changed. */
static inline int32_t giq_give_up(giq_place *place, giq_answer *answer) {
    return giq_ask(place, GIQ_CALL_GIVE_UP, 0, 0, giq_nothing(), giq_nothing(), answer);
}

#ifdef __cplusplus
}
#endif

#endif
