/* The stack that leafdrum_next uses is at most what the header says, and no more than a quarter below it: it runs on a stack of its own that was filled before, over a
   full table and over hostile memory, at each width. Relies on the library and on POSIX contexts. gcc tests/stack.c target/staticlib/libexport.a */
#define _XOPEN_SOURCE 600
#include "../include/leafdrum.h"
#include <stdio.h>
#include <string.h>
#include <ucontext.h>

enum { WORKERS = 1, LIMIT = 1, NODES = 4096, FILL = 0x5a, ROOM = 4 * LEAFDRUM_NEXT_STACK };
static uint32_t nodes[LEAFDRUM_NODE_AREA(NODES)], levels[LEAFDRUM_LEVEL_AREA(WORKERS, LIMIT, NODES, LEAFDRUM_WIDTH_6)], workers[LEAFDRUM_WORKER_AREA(WORKERS)];
#define READ nodes, sizeof nodes / 4, levels, sizeof levels / 4
#define AREAS READ, workers, sizeof workers / 4

static unsigned char stack[ROOM];
static ucontext_t caller, callee;
static leafdrum_settings settings;
static leafdrum_given given;

static void ask(void) {
    leafdrum_listing listing = {LEAFDRUM_LISTING_START};
    given = leafdrum_next(settings, &listing, READ);
}

/* the bytes of the stack that a "next" wrote to; 0 where it gives another answer than the one wanted */
static size_t used(uint32_t answer) {
    memset(stack, FILL, sizeof stack);
    getcontext(&callee);
    callee.uc_stack.ss_sp = stack, callee.uc_stack.ss_size = sizeof stack, callee.uc_link = &caller;
    makecontext(&callee, ask, 0);
    swapcontext(&caller, &callee);
    size_t untouched = 0;
    while (untouched < sizeof stack && stack[untouched] == FILL) untouched++;
    return given.answer == answer ? sizeof stack - untouched : 0;
}

/* a full table of this width: a pixel in each row, and calls for their neighbours, which moved the chains before they ended "full" */
static void fill(uint32_t width) {
    leafdrum_reply r = leafdrum_open((leafdrum_settings){.workers = WORKERS, .limit = LIMIT, .nodes = NODES, .width = width}, AREAS);
    for (uint32_t k = 0; k < 2 * NODES; k++) {
        r = leafdrum_start(r.settings, 0, k % NODES, k / NODES, AREAS);
        while (r.answer == LEAFDRUM_OPEN) r = leafdrum_turn(r.settings, 0, AREAS);
    }
    settings = r.settings;
}

/* every level is taken and reached by a previous word, every node by the one before it */
static void spoil(uint32_t width) {
    uint32_t words = LEAFDRUM_LEVEL_WORDS(width);
    settings.levels_taken = leafdrum_level_count(settings);
    for (uint32_t g = 0; g < settings.levels_taken; g++) {
        levels[words * g] = (g + 1) % settings.levels_taken;
        for (uint32_t e = 2; e < words; e++) levels[words * g + e] = 1;
    }
    for (uint32_t i = 0; i < NODES; i++) nodes[2 * i + 1] = 2 * ((i + 1) % NODES) + 1;
}

int main(void) {
    static const uint32_t widths[] = {LEAFDRUM_WIDTH_2, LEAFDRUM_WIDTH_3, LEAFDRUM_WIDTH_4, LEAFDRUM_WIDTH_6};
    int wrong = 0;
    for (size_t k = 0; k < sizeof widths / sizeof *widths; k++) {
        size_t bytes[3];
        fill(widths[k]);
        bytes[0] = used(LEAFDRUM_GIVEN_PIXEL);
        spoil(widths[k]);
        bytes[1] = used(LEAFDRUM_GIVEN_PIXEL);
        nodes[1] = 4294967295u;
        bytes[2] = used(LEAFDRUM_GIVEN_REFUSED);
        printf("stack.c: width %u: a next uses %zu bytes of stack, %zu on hostile memory, %zu where it is refused\n", widths[k], bytes[0], bytes[1], bytes[2]);
        for (int j = 0; j < 3; j++) wrong |= bytes[j] > LEAFDRUM_NEXT_STACK || bytes[j] < LEAFDRUM_NEXT_STACK / 4 * 3;
    }
    return wrong;
}
