/* How a firmware embeds the table: lend three areas, open, start calls, give turns, one by one or as a list; look pixels up as a viewer.
   Build: gcc examples/embed.c target/staticlib/libexport.a */
#include "../include/leafdrum.h"
#include <stdio.h>

/* four workers that place and, behind them, one viewer */
enum { PLACING = 4, VIEWERS = 1, WORKERS = PLACING + VIEWERS, LIMIT = 4, NODES = 8, WIDTH = LEAFDRUM_WIDTH_3 };
static uint32_t nodes[LEAFDRUM_NODE_AREA(NODES)], levels[LEAFDRUM_LEVEL_AREA(WORKERS, LIMIT, NODES, WIDTH)], workers[LEAFDRUM_WORKER_AREA(WORKERS)];
#define AREAS nodes, sizeof nodes / 4, levels, sizeof levels / 4, workers, sizeof workers / 4

int main(void) {
    leafdrum_settings s = {.workers = WORKERS, .limit = LIMIT, .nodes = NODES, .viewers = VIEWERS, .width = WIDTH};
    leafdrum_reply r = leafdrum_open(s, AREAS);
    if (r.number != 0) return printf("opening refused by %u\n", r.number), 1;
    /* two workers report the pixel at row 0, column 0; their turns interleave: worker 1 comes second, meets worker 0's node and finds it */
    r = leafdrum_start(r.settings, 0, 0, 0, AREAS);
    r = leafdrum_start(r.settings, 1, 0, 0, AREAS);
    static const uint8_t order[] = {0, 1, 0, 1, 0, 1};
    for (size_t k = 0; k < sizeof order; k++) {
        r = leafdrum_turn(r.settings, order[k], AREAS);
        if (r.answer == LEAFDRUM_NEW) printf("worker %u: new, node %u\n", order[k], r.node);
        if (r.answer == LEAFDRUM_FOUND) printf("worker %u: found, node %u\n", order[k], r.node);
    }
    /* all four report the pixel at row 512, column 0, and one list gives the turns: all look, all take a node, all put it. One exchange is done, the others
       fail, as many as can; what a list reports is of its own turns alone */
    for (uint32_t i = 0; i < PLACING; i++) r = leafdrum_start(r.settings, i, 512, 0, AREAS);
    static const uint8_t list[] = {0, 1, 2, 3, 0, 1, 2, 3, 0, 1, 2, 3};
    r = leafdrum_turns(r.settings, list, sizeof list, sizeof list, AREAS);
    printf("list: %u turns, exchanges %u done, %u failed\n", r.turns, r.exchanges_done, r.exchanges_failed);
    for (uint32_t i = 0; i < PLACING; i++) {
        leafdrum_reply last = leafdrum_last(r.settings, i, AREAS);
        printf("worker %u: %s, node %u\n", i, last.answer == LEAFDRUM_NEW ? "new" : "found", last.node);
    }
    /* the viewer looks two pixels up, of which one is placed; here it has all turns to itself, else they come between the others' */
    for (uint32_t row = 512; row <= 1024; row += 512) {
        r = leafdrum_view(r.settings, PLACING, row, 0, AREAS);
        while (r.answer == LEAFDRUM_OPEN) r = leafdrum_turn(r.settings, PLACING, AREAS);
        if (r.answer == LEAFDRUM_FOUND) printf("viewer: row %u found, node %u\n", row, r.node);
        if (r.answer == LEAFDRUM_ABSENT) printf("viewer: row %u absent\n", row);
    }
    printf("nodes taken %u, levels taken %u\n", r.settings.nodes_taken, r.settings.levels_taken);
    return 0;
}
