/* Microseconds of one "next" of the proved table and of by_hand.c, over the same memory in one run, as a ratio: on full tables that calls have left, and on hostile memory
   that none can leave, in which all levels are taken and nearly all are reached. Run by hand: sh bench/run.sh
   Relies on leafdrum.h. Both must give the same, else it stops. */
#include "common.h"
#include "../include/leafdrum.h"
#include <stdio.h>
#include <stdlib.h>

typedef leafdrum_settings S;
leafdrum_given by_hand_next(S, leafdrum_listing *, const uint32_t *, size_t, const uint32_t *, size_t);

/* the widest levels take the largest area, the narrowest are the most */
enum { WORKERS = 16, NODES = 4096, LEVELS = LEAFDRUM_LEVEL_COUNT(WORKERS, 1, NODES, LEAFDRUM_WIDTH_2) };
static uint32_t nodes[LEAFDRUM_NODE_AREA(NODES)], levels[LEAFDRUM_LEVEL_AREA(WORKERS, 1, NODES, LEAFDRUM_WIDTH_6)], workers[LEAFDRUM_WORKER_AREA(WORKERS)];
#define READ nodes, sizeof nodes / 4, levels, sizeof levels / 4
#define AREAS READ, workers, sizeof workers / 4

static S call(S s, uint32_t row, uint32_t column) {
    leafdrum_reply r = leafdrum_start(s, 0, row, column, AREAS);
    while (r.answer == LEAFDRUM_OPEN) r = leafdrum_turn(r.settings, 0, AREAS);
    return r.settings;
}

/* a full table: pixels far apart, or in pairs that share all digits but the last, or one in each row and then a call for its neighbour, which ends "full" after it has
   moved the chain down to the last level: as many levels as calls can make. With rows in rising order levels stand in memory nearly as the search meets them, with
   scattered rows they don't */
enum load { APART, PAIRS, RISING, SCATTERED };
static S full(enum load load, uint32_t limit, uint32_t width) {
    S s = leafdrum_open((S){.workers = 1, .limit = limit, .nodes = NODES, .width = width}, AREAS).settings;
    for (uint32_t k = 0; k < NODES; k++) {
        uint32_t p = load == APART ? k * 2654435761u & 0xffffff : load == PAIRS ? ((k >> 1) * 2654435761u & 0x7fffff) << 1 | (k & 1) : (load == RISING ? k : k * 1597 & 4095) << 12;
        s = call(s, p >> 12, p & 4095);
    }
    for (uint32_t k = 0; load >= RISING && k < NODES; k++) s = call(s, load == RISING ? k : k * 2531 & 4095, 1);
    return s;
}

/* all levels are taken, and reached by previous words or by entries one after the other, by previous words in any order, by references of all kinds */
enum shape { BY_PREVIOUS, BY_ENTRIES, SHUFFLED, RANDOM };
static S hostile(enum shape shape, uint32_t width) {
    static uint32_t order[LEVELS];
    uint32_t words = LEAFDRUM_LEVEL_WORDS(width), n = LEAFDRUM_LEVEL_COUNT(WORKERS, 1, NODES, width);
    for (uint32_t g = 0; g < n; g++) order[g] = g;
    for (uint32_t g = n - 1; shape == SHUFFLED && g > 1; g--) {
        uint32_t j = 1 + draw(g), t = order[g];
        order[g] = order[j], order[j] = t;
    }
    for (uint32_t i = 0; i < NODES; i++) nodes[2 * i] = draw(1 << 24), nodes[2 * i + 1] = 2 * ((i + 1) % NODES) + 1;
    for (uint32_t k = 0; k < n; k++) {
        uint32_t g = order[k], after = order[(k + 1) % n], *w = levels + (size_t)words * g;
        w[0] = shape == BY_ENTRIES ? 4294967295u : shape == RANDOM ? draw(n) : after;
        w[1] = draw(4);
        for (uint32_t e = 2; e < words; e++) w[e] = shape == RANDOM ? (draw(8) ? 2 * draw(n) : 2 * draw(NODES) + 1) : 2 * g;
        if (shape == BY_ENTRIES) w[words - 1] = 2 * after;
    }
    levels[2] = 1;
    return (S){.workers = WORKERS, .limit = 1, .nodes = NODES, .nodes_taken = NODES, .levels_taken = n, .width = width};
}

/* least of 300; returns the proved one's time */
static double row(const char *name, S s) {
    double best[2] = {1e30, 1e30};
    leafdrum_given given[2];
    leafdrum_listing at[2];
    for (int again = 0; again < 300; again++)
        for (int which = 0; which < 2; which++) {
            at[which].place = LEAFDRUM_LISTING_START;
            double a = now();
            given[which] = (which ? by_hand_next : leafdrum_next)(s, &at[which], READ);
            a = now() - a;
            if (a < best[which]) best[which] = a;
        }
    if (given[0].number != given[1].number || given[0].answer != given[1].answer || given[0].pixel != given[1].pixel || at[0].place != at[1].place) {
        printf("%s: the two give different answers\n", name);
        exit(1);
    }
    double references = (double)s.levels_taken * (LEAFDRUM_LEVEL_WORDS(s.width) - 1) + s.nodes_taken;
    printf("%-38s %u %7u |  %8.1f %8.1f  %5.2f |  %5.2f\n", name, s.width, s.levels_taken, best[0] / 1e3, best[1] / 1e3, best[0] / best[1], best[0] / references);
    fflush(stdout);
    return best[0];
}

int main(void) {
    static const uint32_t widths[] = {LEAFDRUM_WIDTH_2, LEAFDRUM_WIDTH_3, LEAFDRUM_WIDTH_4, LEAFDRUM_WIDTH_6};
    static const char *shapes[] = {"hostile: chain by previous words", "hostile: chain by entries", "hostile: shuffled ring", "hostile: random references"};
    printf("one next                      width  levels |    proved  by hand  ratio |  ns a reference   (microseconds, least of 300)\n");
    row("full, pixels far apart, limit 8", full(APART, 8, LEAFDRUM_WIDTH_3));
    row("full, pixels far apart, limit 4", full(APART, 4, LEAFDRUM_WIDTH_3));
    row("full, pixels far apart, limit 1", full(APART, 1, LEAFDRUM_WIDTH_3));
    for (int k = 0; k < 4; k++) {
        row("full, pixels in pairs, limit 1", full(PAIRS, 1, widths[k]));
        double rising = row("full, most levels, rows rising", full(RISING, 1, widths[k])), scattered = row("full, most levels, rows scattered", full(SCATTERED, 1, widths[k])), worst = 0;
        for (int h = BY_PREVIOUS; h <= RANDOM; h++) {
            double t = row(shapes[h], hostile(h, widths[k]));
            if (t > worst) worst = t;
        }
        printf("width %u: the worst hostile memory takes %.2f times the time of the full table with the most levels and rising rows, %.2f times with scattered ones\n", widths[k],
               worst / rising, worst / scattered);
    }
    return 0;
}
