/*
 * Prints how much stack each of the ten calls, and fork with its list lent, uses: a call is made on a thread whose stack was filled with a pattern, and what of the
 * pattern is gone is counted. The calls are those that do the most: the largest book, the longest arguments, an image with a bss, a
 * process that shares its text, accepted.
 */
#include <holthrimi.h>
#include <pthread.h>
#include <stdio.h>
#include <stdlib.h>
#include <string.h>

enum { FRAMES = HOLTHRIMI_MAX_FRAMES, WORDS = FRAMES * HOLTHRIMI_FRAME_WORDS, STACK = 1 << 20, PATTERN = 0xa5, IMAGE = 184, ARGS = 1636 };

static struct holthrimi_setup setup = {65536, (uint64_t)1 << 47, 65536, (uint64_t)1 << 47, HOLTHRIMI_BUILT_IN};
static uint8_t frames[FRAMES * HOLTHRIMI_PAGE];
static uint64_t book[WORDS];
static struct holthrimi_procs procs;
static uint8_t image[IMAGE];
static uint8_t bytes[ARGS];
static uint64_t lengths[ARGS];
static uint64_t argv;
static struct holthrimi_segment list[3];
static struct holthrimi_answer answer;
static char stack[STACK] __attribute__((aligned(4096)));

#define LENT setup, frames, sizeof frames, book, WORDS, &procs

static void put(uint8_t *at, uint64_t value, int count) {
    for (int i = 0; i < count; i++) {
        at[i] = (uint8_t)(value >> (8 * i));
    }
}

static void header(uint8_t *at, uint32_t flags, uint64_t offset, uint64_t address, uint64_t file, uint64_t memory) {
    put(at, 1, 4);
    put(at + 4, flags, 4);
    put(at + 8, offset, 8);
    put(at + 16, address, 8);
    put(at + 32, file, 8);
    put(at + 40, memory, 8);
}

/* A page of text and two of data and bss. */
static void write_image(void) {
    memcpy(image, "\177ELF\2\1\1", 7);
    put(image + 16, 2, 2);
    put(image + 18, 183, 2);
    put(image + 20, 1, 4);
    put(image + 24, 65712, 8);
    put(image + 32, 64, 8);
    put(image + 54, 56, 2);
    put(image + 56, 2, 2);
    header(image + 64, 5, 0, 65536, 180, 180);
    header(image + 120, 6, 180, 69812, 4, 8000);
}

static void *nothing(void *arg) {
    return arg;
}

static void *start(void *arg) {
    answer = holthrimi_start(LENT, 1, false, 0, image, IMAGE, (const uint8_t *)"lex", 3, bytes, ARGS, lengths, ARGS);
    return arg;
}

static void *replace(void *arg) {
    answer = holthrimi_replace(LENT, 1, false, 0, image, IMAGE, (const uint8_t *)"lex", 3, argv);
    return arg;
}

static void *push(void *arg) {
    answer = holthrimi_push(LENT, 1, 65712, setup.ustktop, bytes, ARGS, lengths, ARGS);
    return arg;
}

static void *grow(void *arg) {
    answer = holthrimi_break(LENT, 1, 90000);
    return arg;
}

static void *fork_it(void *arg) {
    answer = holthrimi_fork(LENT, 1, 2);
    return arg;
}

static void *fork_list(void *arg) {
    answer = holthrimi_fork_list(LENT, 1, 3, list, 3);
    return arg;
}

static void *end(void *arg) {
    answer = holthrimi_end(LENT, 2);
    return arg;
}

static void *range(void *arg) {
    answer = holthrimi_user_range_ok(LENT, 1, 65536, 4096, false);
    return arg;
}

static void *from(void *arg) {
    answer = holthrimi_copy_from_user(LENT, 1, bytes, ARGS, 69632);
    return arg;
}

static void *to(void *arg) {
    answer = holthrimi_copy_to_user(LENT, 1, 69632, bytes, ARGS);
    return arg;
}

static void *string(void *arg) {
    uint8_t text[16];
    answer = holthrimi_try_copy_str_from_user(LENT, 1, text, sizeof text, 69632);
    return arg;
}

/* The bytes of stack that a function uses on a thread of its own. */
static size_t used(void *(*f)(void *)) {
    pthread_attr_t attr;
    pthread_t thread;
    memset(stack, PATTERN, STACK);
    if (pthread_attr_init(&attr) || pthread_attr_setstack(&attr, stack, STACK) || pthread_create(&thread, &attr, f, NULL)
        || pthread_join(thread, NULL)) {
        fprintf(stderr, "stack: no thread\n");
        exit(1);
    }
    size_t i = 0;
    while (i < STACK && (uint8_t)stack[i] == PATTERN) {
        i++;
    }
    return STACK - i;
}

static void show(const char *name, void *(*f)(void *)) {
    size_t thread = used(nothing);
    answer.kind = HOLTHRIMI_REFUSED;
    size_t n = used(f);
    if (answer.kind != HOLTHRIMI_ACCEPTED) {
        fprintf(stderr, "stack: %s was not accepted: %llu\n", name, (unsigned long long)answer.number);
        exit(1);
    }
    printf("%-24s %6.1f KiB\n", name, (double)(n - thread) / 1024);
}

int main(void) {
    write_image();
    memset(bytes, 'a', ARGS);
    for (size_t i = 0; i < ARGS; i++) {
        lengths[i] = 1;
    }
    show("start", start);
    argv = answer.regs.argv;
    show("fork", fork_it);
    memcpy(list, procs.all[0].segments, sizeof list);
    show("fork_list", fork_list);
    show("replace", replace);
    show("push", push);
    show("break", grow);
    show("end", end);
    show("user_range_ok", range);
    show("copy_from_user", from);
    show("copy_to_user", to);
    show("try_copy_str_from_user", string);
    return 0;
}
