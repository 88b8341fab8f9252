/* Stands before `malloc` and `realloc` of a program (LD_PRELOAD), and refuses the allocation whose number is
 * REFUSED_ALLOCATION, or each where that is `all`. Where BETWEEN_MARKS is set, none is counted but between the lines
 * `the call begins` and `the call ends`, which the program writes on standard error. Each refusal is told there. */
#define _GNU_SOURCE
#include <dlfcn.h>
#include <stdio.h>
#include <stdlib.h>
#include <string.h>
#include <unistd.h>

static const char BEGINS[] = "the call begins", ENDS[] = "the call ends";
static ssize_t (*real_write)(int, const void *, size_t);
static void *(*real_malloc)(size_t);
static void *(*real_realloc)(void *, size_t);
static long made, wanted;
static int counts, refuses_all;

__attribute__((constructor)) static void begin(void) {
    const char *number = getenv("REFUSED_ALLOCATION");
    real_write = dlsym(RTLD_NEXT, "write");
    real_malloc = dlsym(RTLD_NEXT, "malloc");
    real_realloc = dlsym(RTLD_NEXT, "realloc");
    refuses_all = number && !strcmp(number, "all");
    wanted = number ? atol(number) : 0;
    counts = !getenv("BETWEEN_MARKS");
}

static int refuses(void) {
    if (!counts) return 0;
    if (__atomic_add_fetch(&made, 1, __ATOMIC_SEQ_CST) != wanted && !refuses_all) return 0;
    real_write(STDERR_FILENO, "refused\n", 8);
    return 1;
}

static int is_mark(const char *mark, const void *text, size_t length) {
    return length >= strlen(mark) && !memcmp(text, mark, strlen(mark));
}

ssize_t write(int file, const void *text, size_t length) {
    if (file == STDERR_FILENO && getenv("BETWEEN_MARKS")) {
        if (is_mark(BEGINS, text, length)) counts = 1;
        if (is_mark(ENDS, text, length)) counts = 0;
    }
    return real_write(file, text, length);
}

void *malloc(size_t size) {
    if (!real_malloc) real_malloc = dlsym(RTLD_NEXT, "malloc");
    return refuses() ? NULL : real_malloc(size);
}

void *realloc(void *old, size_t size) {
    if (!real_realloc) real_realloc = dlsym(RTLD_NEXT, "realloc");
    return refuses() ? NULL : real_realloc(old, size);
}
