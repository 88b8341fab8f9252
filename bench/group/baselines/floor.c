/* The floor: what a get and a mutation take where all is written by hand for these two jobs.
 *
 * The map is the tree that a group has: chunks of at most 16 entries, of which 8 are filled, as puts in the order of
 * their keys leave them, and a chunk's keys are shared by its versions. A mutation reads its arguments, copies the
 * chunks on its way with a stamp each, keeps a record of itself, and moves the head there by one exchange. A reader
 * stores its pin before and takes it away after. Left out: all that a second client would need, refusals, slots, keys
 * that are new, and memory that is refused. Reads lines `get KEYS 0` and `mutate KEYS PENDING`, as the baselines do. */
#define _POSIX_C_SOURCE 200809L
#include <inttypes.h>
#include <stdatomic.h>
#include <stdbool.h>
#include <stddef.h>
#include <stdio.h>
#include <stdlib.h>
#include <string.h>
#include <time.h>

enum { MOST = 16, FILLED = 8, SHORT = 22, LEVELS = 16, KEY = 16, ARGS = 24, LONG = 80 };
enum { COUNTERS = 1000, GETS = 300000, MUTATIONS = 200 };

/* A text of up to 22 bytes in place, or one elsewhere. Its first 16 bytes are compared as two numbers. */
typedef struct { char bytes[SHORT + 1]; uint8_t length; } Text;

typedef struct { uint32_t count; Text at[MOST]; } Keys;

/* Its entries are values in a leaf, and children elsewhere. */
typedef struct {
    uint64_t stamp;
    Keys *keys;
    bool is_leaf;
    uint64_t entries[];
} Chunk;

/* What is pending, and which chunks it replaced. */
typedef struct Mutation {
    struct Mutation *before;
    Chunk *root;
    uint64_t id, time;
    char name[8], args[ARGS];
    Chunk *replaced[LEVELS];
    int levels;
} Mutation;

typedef struct { uint64_t high, low; } Front;

static _Atomic(Mutation *) head;
static _Atomic uint64_t pin, stamps;
static uint64_t state;

static uint64_t below(uint64_t limit) {
    state = state * 6364136223846793005u + 1442695040888963407u;
    return (state >> 33) % limit;
}

static uint64_t now(void) {
    struct timespec time;
    clock_gettime(CLOCK_THREAD_CPUTIME_ID, &time);
    return (uint64_t)time.tv_sec * 1000000000u + (uint64_t)time.tv_nsec;
}

static Text *values_of(const Chunk *chunk) {
    return (Text *)chunk->entries;
}

static Chunk **children_of(const Chunk *chunk) {
    return (Chunk **)chunk->entries;
}

static Front front_of(const char *bytes) {
    Front front;
    memcpy(&front, bytes, sizeof front);
    return (Front){__builtin_bswap64(front.high), __builtin_bswap64(front.low)};
}

static bool is_above(Front one, Front other) {
    return one.high != other.high ? one.high > other.high : one.low > other.low;
}

static Text text_of(const char *bytes, size_t length) {
    Text text = {{0}, (uint8_t)length};
    memcpy(text.bytes, bytes, length);
    return text;
}

/* Where the bytes of a long text are. */
static char *bytes_of(const Text *text) {
    char *bytes;
    memcpy(&bytes, text->bytes, sizeof bytes);
    return bytes;
}

/* The place of the last key that isn't above, or the first place. */
static uint32_t place_of(const Keys *keys, Front key) {
    uint32_t low = 0, high = keys->count;
    while (low < high) {
        uint32_t middle = (low + high) / 2;
        if (is_above(front_of(keys->at[middle].bytes), key)) high = middle;
        else low = middle + 1;
    }
    return low == 0 ? 0 : low - 1;
}

static bool is_at(const Keys *keys, uint32_t place, Front key) {
    Front there = front_of(keys->at[place].bytes);
    return there.high == key.high && there.low == key.low;
}

/* The value's length, or -1 where the key isn't there. The value's text is copied. */
static int get(const char *key, char *out) {
    Front front = front_of(key);
    atomic_exchange(&pin, 1);
    const Chunk *chunk = atomic_load(&head)->root;
    while (!chunk->is_leaf) chunk = children_of(chunk)[place_of(chunk->keys, front)];
    uint32_t place = place_of(chunk->keys, front);
    int length = -1;
    if (is_at(chunk->keys, place, front)) {
        const Text *value = &values_of(chunk)[place];
        length = value->length;
        memcpy(out, length > SHORT ? bytes_of(value) : value->bytes, (size_t)length);
    }
    atomic_exchange(&pin, 0);
    return length;
}

static size_t size_of(bool is_leaf, uint32_t count) {
    return sizeof(Chunk) + count * (is_leaf ? sizeof(Text) : sizeof(Chunk *));
}

static Chunk *copy_of(const Chunk *chunk, uint64_t stamp) {
    Chunk *copy = malloc(size_of(chunk->is_leaf, MOST));
    memcpy(copy, chunk, size_of(chunk->is_leaf, chunk->keys->count));
    copy->stamp = stamp;
    return copy;
}

/* The text of a number's value raised by so much. */
static Text sum_of(const Text *value, uint64_t by) {
    uint64_t number = by, unit = 1;
    char digits[SHORT];
    int at = SHORT;
    for (int i = value->length - 1; i >= 0; i--, unit *= 10) number += unit * (uint64_t)(value->bytes[i] - '0');
    do digits[--at] = (char)('0' + number % 10);
    while ((number /= 10) != 0);
    return text_of(digits + at, (size_t)(SHORT - at));
}

/* Puts a value in place of the one at the last place of a way, in copies of the chunks on it. */
static void change_way(Mutation *mutation, const uint32_t *places, Text value) {
    int last = mutation->levels - 1;
    uint64_t stamp = atomic_fetch_add(&stamps, (uint64_t)mutation->levels + 1);
    Chunk *changed = copy_of(mutation->replaced[last], stamp);
    values_of(changed)[places[last]] = value;
    for (int level = last - 1; level >= 0; level--) {
        Chunk *above = copy_of(mutation->replaced[level], ++stamp);
        children_of(above)[places[level]] = changed;
        changed = above;
    }
    mutation->root = changed;
}

/* Runs `incr` by arguments as ["ctr/0001",1], and publishes what it leaves. False where the key isn't there. */
static bool incr(const char *args, uint64_t id) {
    char key[SHORT] = {0};
    const char *quote = strchr(args + 2, '"');
    memcpy(key, args + 2, (size_t)(quote - args - 2));
    Front front = front_of(key);
    Mutation *mutation = malloc(sizeof *mutation);
    uint32_t places[LEVELS];
    atomic_exchange(&pin, 1);
    Mutation *before = atomic_load(&head);
    Chunk *chunk = before->root;
    for (mutation->levels = 0;; chunk = children_of(chunk)[places[mutation->levels - 1]]) {
        places[mutation->levels] = place_of(chunk->keys, front);
        mutation->replaced[mutation->levels++] = chunk;
        if (chunk->is_leaf) break;
    }
    uint32_t place = places[mutation->levels - 1];
    if (!is_at(chunk->keys, place, front)) return false;
    change_way(mutation, places, sum_of(&values_of(chunk)[place], strtoull(quote + 2, NULL, 10)));
    mutation->before = before;
    mutation->id = id;
    mutation->time = 1;
    strcpy(mutation->name, "incr");
    strcpy(mutation->args, args);
    bool moved = atomic_compare_exchange_strong(&head, &before, mutation);
    atomic_exchange(&pin, 0);
    return moved;
}

/* Confirms all that is pending, and frees what it replaced. */
static void confirm(void) {
    Mutation *last = atomic_load(&head), *base = calloc(1, sizeof *base);
    base->root = last->root;
    atomic_store(&head, base);
    while (last != NULL) {
        Mutation *before = last->before;
        for (int level = 0; level < last->levels; level++) free(last->replaced[level]);
        free(last);
        last = before;
    }
}

static Text long_text(uint64_t number) {
    char bytes[LONG], *kept;
    int length = sprintf(bytes, "{\"done\":false,\"order\":%" PRIu64 ",\"text\":\"buy some milk\"}", number);
    Text text = {{0}, (uint8_t)length};
    kept = malloc((size_t)length);
    memcpy(kept, bytes, (size_t)length);
    memcpy(text.bytes, &kept, sizeof kept);
    return text;
}

static void add_entry(Chunk *leaf, uint64_t number) {
    char key[LONG];
    uint32_t place = leaf->keys->count++;
    int length = number < COUNTERS ? sprintf(key, "ctr/%04" PRIu64, number)
                                   : sprintf(key, "item/%08" PRIu64, number - COUNTERS);
    leaf->keys->at[place] = text_of(key, (size_t)length);
    values_of(leaf)[place] = number < COUNTERS ? text_of("0", 1) : long_text(number - COUNTERS);
}

static Chunk *new_chunk(bool is_leaf) {
    Chunk *chunk = calloc(1, size_of(is_leaf, MOST));
    chunk->keys = calloc(1, sizeof *chunk->keys);
    chunk->is_leaf = is_leaf;
    return chunk;
}

/* The tree of the counters and so many items, level by level. */
static Chunk *tree_of(uint64_t keys) {
    uint64_t count = 0, total = keys + COUNTERS;
    Chunk **level = malloc((total / FILLED + 1) * sizeof *level);
    for (uint64_t number = 0; number < total; number++) {
        if (number % FILLED == 0) level[count++] = new_chunk(true);
        add_entry(level[count - 1], number);
    }
    while (count > 1) {
        uint64_t below_it = count;
        count = 0;
        for (uint64_t i = 0; i < below_it; i++) {
            Chunk *child = level[i];
            if (i % FILLED == 0) level[count++] = new_chunk(false);
            Chunk *above = level[count - 1];
            children_of(above)[above->keys->count] = child;
            above->keys->at[above->keys->count++] = child->keys->at[0];
        }
    }
    Chunk *root = level[0];
    free(level);
    return root;
}

static void free_tree(Chunk *chunk) {
    for (uint32_t place = 0; place < chunk->keys->count; place++) {
        if (!chunk->is_leaf) free_tree(children_of(chunk)[place]);
        else if (values_of(chunk)[place].length > SHORT) free(bytes_of(&values_of(chunk)[place]));
    }
    free(chunk->keys);
    free(chunk);
}

static void stop(const char *what) {
    fprintf(stderr, "%s\n", what);
    exit(EXIT_FAILURE);
}

/* What a job times is never a part of its caller, so that `bench/group/count` finds it. */
__attribute__((noinline)) static void get_each(char (*keys)[KEY], char *out) {
    for (int i = 0; i < GETS; i++) {
        if (get(keys[i], out) < 0) stop("a key isn't there");
    }
}

__attribute__((noinline)) static void incr_each(char (*args)[ARGS], uint64_t *id, uint64_t count) {
    for (uint64_t i = 0; i < count; i++) {
        if (!incr(args[i % MUTATIONS], ++*id)) stop("a mutation isn't made");
    }
}

static uint64_t gets(uint64_t keys) {
    char(*asked)[KEY] = malloc(GETS * sizeof *asked), out[LONG], text[LONG] = {0};
    uint64_t least = UINT64_MAX;
    state = 77;
    for (int i = 0; i < GETS; i++) {
        sprintf(text, "item/%08" PRIu64, below(keys));
        memcpy(asked[i], text, KEY);
    }
    for (int turn = 0; turn < 7; turn++) {
        uint64_t start = now();
        get_each(asked, out);
        uint64_t each = (now() - start) / GETS;
        least = each < least ? each : least;
    }
    free(asked);
    return least;
}

static uint64_t mutations(uint64_t pending) {
    char args[MUTATIONS][ARGS], text[LONG] = {0};
    uint64_t least = UINT64_MAX, id = 0;
    state = 3;
    for (int i = 0; i < MUTATIONS; i++) {
        sprintf(text, "[\"ctr/%04" PRIu64 "\",1]", below(COUNTERS));
        memcpy(args[i], text, ARGS);
    }
    for (int turn = 0; turn < 15; turn++) {
        incr_each(args, &id, pending);
        uint64_t start = now();
        incr_each(args, &id, MUTATIONS);
        uint64_t each = (now() - start) / MUTATIONS;
        least = each < least ? each : least;
        confirm();
    }
    return least;
}

int main(void) {
    char line[100], job[50];
    uint64_t keys, pending;
    while (fgets(line, sizeof line, stdin) != NULL) {
        bool is_get = sscanf(line, "%49s %" SCNu64 " %" SCNu64, job, &keys, &pending) == 3 && strcmp(job, "get") == 0;
        if (!is_get && strcmp(job, "mutate") != 0) continue;
        Mutation *base = calloc(1, sizeof *base);
        base->root = tree_of(keys);
        atomic_store(&head, base);
        uint64_t time = is_get ? gets(keys) : mutations(pending);
        free_tree(atomic_load(&head)->root);
        free(atomic_load(&head));
        printf("%s\tfloor\t%" PRIu64 "\t%" PRIu64 "\t%" PRIu64 "\tns\n", job, keys, pending, time);
    }
}
