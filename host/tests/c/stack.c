/* The stack that each call takes, by painting: a call runs on a stack of its own that was filled with one byte, and the lowest
 * byte that is another afterwards is how deep it went. Prints the deepest of each call over images that are filled, split,
 * thinned out and damaged; returns 0 if each was made and none is deeper than HUT_STACK_BYTES. */
#define _GNU_SOURCE
#include <inttypes.h>
#include <stdio.h>
#include <string.h>
#include <ucontext.h>

#include "stringhut.h"

#define STACK (4 * HUT_STACK_BYTES)
#define PAINT 0xA5
#define MOST_BYTES (HUT_MOST_BLOCKS * HUT_BLOCK_BYTES)
#define MOST_LINES (MOST_BYTES / HUT_LINE_BYTES)
#define MOST_ENTRIES (14 * HUT_MOST_BLOCKS)

enum call { FIND, PUT, SET, DEL, LISTING, RECOVERY, RUN, CUT, CALLS };
static const char *const names[CALLS] = {"find", "put", "set", "del", "listing", "recovery", "run", "cut"};

static uint8_t image[MOST_BYTES], stack[STACK];
static uint64_t list[HUT_LIST_WORDS], keys[MOST_ENTRIES], values[MOST_ENTRIES], arrivals[MOST_LINES];
static size_t bytes, lines, deepest[CALLS];

static enum call call;
static uint64_t key, n, answer, steps;
static uint8_t *top;
static ucontext_t home, there;

static void on_the_stack(void) {
    top = __builtin_frame_address(0);
    hut_made made = {0, 0, 0, 0};
    switch (call) {
    case FIND: answer = hut_find(image, bytes, key).answer; break;
    case PUT: made = hut_put(image, bytes, list, HUT_LIST_WORDS, key, ~key); answer = made.answer; break;
    case SET: made = hut_set(image, bytes, list, HUT_LIST_WORDS, key, key); answer = made.answer; break;
    case DEL: made = hut_del(image, bytes, list, HUT_LIST_WORDS, key); answer = made.answer; break;
    case LISTING: answer = hut_listing(image, bytes, key, keys, MOST_ENTRIES, values, MOST_ENTRIES).answer; break;
    case RECOVERY: answer = hut_recovery(image, bytes, keys, MOST_ENTRIES, values, MOST_ENTRIES).answer; break;
    case RUN: answer = hut_run(image, bytes, list, HUT_LIST_WORDS, n); break;
    default: answer = hut_cut(image, bytes, list, HUT_LIST_WORDS, n, arrivals, lines); break;
    }
    steps = made.steps;
}

/* One call, and its depth noted. The frame that makes it is counted too. */
static uint64_t measure(enum call which, uint64_t with) {
    call = which, key = with;
    memset(stack, PAINT, STACK);
    getcontext(&there);
    there.uc_stack.ss_sp = stack, there.uc_stack.ss_size = STACK, there.uc_link = &home;
    makecontext(&there, on_the_stack, 0);
    swapcontext(&home, &there);
    uint8_t *lowest = stack;
    while (*lowest == PAINT) lowest++;
    size_t depth = (size_t)(top - lowest);
    if (depth > deepest[which]) deepest[which] = depth;
    return answer;
}

/* A list that was made, cut at its start, its middle and its end over a copy, and then run whole. */
static void take(void) {
    static uint8_t before[MOST_BYTES];
    uint64_t made = steps;
    memcpy(before, image, bytes);
    for (n = 0; n <= made; n += made / 2 + (made < 2)) {
        for (size_t line = 0; line < lines; line++) arrivals[line] = 0;
        for (uint64_t at = 0; at < n; at++) {
            if (list[2 * at] < HUT_WRITE_BACK) arrivals[list[2 * at] / HUT_LINE_BYTES]++;
        }
        measure(CUT, 0);
        memcpy(image, before, bytes);
        arrivals[0] = 57;
        measure(CUT, 0);
        memcpy(image, before, bytes);
    }
    n = made;
    measure(RUN, 0);
}

static void read_all(uint64_t with) {
    measure(FIND, with);
    measure(LISTING, with);
    measure(RECOVERY, 0);
}

/* Every bit of the first two leaves' headers and siblings turned, one by one: the images that are not sound. */
static void damage(void) {
    for (size_t at = 0; at < 2 * HUT_BLOCK_BYTES && at < bytes; at++) {
        if (at % HUT_BLOCK_BYTES >= 32 && at % HUT_BLOCK_BYTES < 240) continue;
        for (int bit = 0; bit < 8; bit++) {
            image[at] ^= (uint8_t)(1 << bit);
            for (int which = FIND; which <= RECOVERY; which++) measure((enum call)which, at);
            image[at] ^= (uint8_t)(1 << bit);
        }
    }
}

/* Fills an image with keys that rise, fall or jump, so that leaves are split with the new key above and below the moved ones;
 * keys whose bytes are all alike have one fingerprint, so that keys are compared. Then takes every key away again. */
static void fill(size_t blocks, uint64_t factor) {
    bytes = blocks * HUT_BLOCK_BYTES, lines = bytes / HUT_LINE_BYTES;
    memset(image, 0, bytes);
    uint64_t puts = 0;
    while (measure(PUT, puts * factor) == HUT_OK) {
        take();
        measure(SET, puts * factor);
        if (puts++ % 64 == 0) read_all(puts * factor / 2);
    }
    read_all(0);
    damage();
    for (uint64_t at = 0; at < puts; at++) {
        if (measure(DEL, at * factor) == HUT_OK) take();
    }
    read_all(0);
}

int main(void) {
    int fits = 1;
    fill(1, 1);
    fill(4, ~UINT64_C(0));
    fill(8, UINT64_C(0x9E3779B97F4A7C15));
    fill(16, UINT64_C(0x0101010101010101));
    fill(HUT_MOST_BLOCKS, UINT64_C(0x9E3779B97F4A7C15));
    for (int which = 0; which < CALLS; which++) {
        printf("%-9s %5zu\n", names[which], deepest[which]);
        fits = fits && deepest[which] > 0 && deepest[which] <= HUT_STACK_BYTES;
    }
    printf("%-9s %5d\n", "allowed", HUT_STACK_BYTES);
    return fits ? 0 : 1;
}
