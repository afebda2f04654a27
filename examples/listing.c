/* How service reads the flagged pixels out while the workers go on: one leafdrum_next between two turns, here amid the Move of a chain.
   Build: gcc examples/listing.c target/staticlib/libexport.a */
#include "../include/leafdrum.h"
#include <stdio.h>

enum { WORKERS = 2, LIMIT = 1, NODES = 8, WIDTH = LEAFDRUM_WIDTH_3 };
static uint32_t nodes[LEAFDRUM_NODE_AREA(NODES)], levels[LEAFDRUM_LEVEL_AREA(WORKERS, LIMIT, NODES, WIDTH)], workers[LEAFDRUM_WORKER_AREA(WORKERS)];
#define READ nodes, sizeof nodes / 4, levels, sizeof levels / 4
#define AREAS READ, workers, sizeof workers / 4

static leafdrum_settings settings = {.workers = WORKERS, .limit = LIMIT, .nodes = NODES, .width = WIDTH};

/* turns of a worker until its call has ended */
static void finish(leafdrum_reply r, uint32_t worker, uint32_t row, uint32_t column) {
    while (r.answer == LEAFDRUM_OPEN) r = leafdrum_turn(r.settings, worker, AREAS);
    settings = r.settings;
    if (r.answer == LEAFDRUM_NEW) printf("worker %u placed row %u, column %u\n", worker, row, column);
    else printf("worker %u: number %u, answer %u\n", worker, r.number, r.answer);
}

/* a worker places a pixel, with all turns to itself */
static void place(uint32_t worker, uint32_t row, uint32_t column) {
    finish(leafdrum_start(settings, worker, row, column, AREAS), worker, row, column);
}

/* the next pixel of a listing; 0 at its end and where it is refused */
static int next(leafdrum_listing *listing) {
    leafdrum_given g = leafdrum_next(settings, listing, READ);
    if (g.answer == LEAFDRUM_GIVEN_PIXEL) printf("listed: row %u, column %u\n", g.pixel / 4096, g.pixel % 4096);
    if (g.answer == LEAFDRUM_GIVEN_END) printf("listed: end\n");
    if (g.answer == LEAFDRUM_GIVEN_REFUSED) printf("refused by %u\n", g.number);
    return g.answer == LEAFDRUM_GIVEN_PIXEL;
}

int main(void) {
    leafdrum_reply r = leafdrum_open(settings, AREAS);
    if (r.number != 0) return printf("opening refused by %u\n", r.number), 1;
    settings = r.settings;
    place(0, 10, 0);
    place(0, 2000, 3);
    /* worker 1 brings a pixel that shares the first digits with row 10, column 0, so that the chain moves to a new level. It stops amid this Move: its own pixel is not
       placed yet, and of the others none is lost or doubled, whichever turn it stops at */
    r = leafdrum_start(settings, 1, 10, 4, AREAS);
    for (int turns = 0; turns < 8; turns++) r = leafdrum_turn(r.settings, 1, AREAS);
    settings = r.settings;
    printf("worker 1 stops: %s\n", r.answer == LEAFDRUM_OPEN ? "its call is open" : "its call has ended");
    /* zeroed memory is a listing that begins */
    leafdrum_listing listing = {LEAFDRUM_LISTING_START};
    next(&listing);
    /* pixels that are placed meanwhile: one below the listing's place, which does not come, and one above it, which does */
    place(0, 9, 4095);
    place(0, 4000, 7);
    while (next(&listing)) continue;
    /* after its end nothing comes, and a new listing has all */
    r.settings = settings;
    finish(r, 1, 10, 4);
    next(&listing);
    listing.place = LEAFDRUM_LISTING_START;
    while (next(&listing)) continue;
    /* a place that no listing has */
    listing.place = LEAFDRUM_LISTING_END + 1;
    next(&listing);
    return 0;
}
