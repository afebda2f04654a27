/* Exchanges done and failed under five loads with 1 to 16 workers, as lists of turns report them: what exchanges.py draws.
   Relies on include/leafdrum.h and the library. Writes after each table a line: load, workers, and the exchanges done and failed in all its tables so far. */
#include "../include/leafdrum.h"
#include <stdio.h>
#include <stdlib.h>

enum { WORKERS = 16, NODES = 512, WIDTH = LEAFDRUM_WIDTH_3, ENOUGH = 4000 };
static uint32_t nodes[LEAFDRUM_NODE_AREA(NODES)], levels[LEAFDRUM_LEVEL_AREA(WORKERS, 1, NODES, WIDTH)], workers[LEAFDRUM_WORKER_AREA(WORKERS)];
#define AREAS nodes, sizeof nodes / 4, levels, sizeof levels / 4, workers, sizeof workers / 4

static uint64_t state;
static uint32_t draw(uint32_t n) {
    uint64_t z = state += 0x9E3779B97F4A7C15u;
    z = (z ^ z >> 30) * 0xBF58476D1CE4E5B9u;
    z = (z ^ z >> 27) * 0x94D049BB133111EBu;
    return (uint32_t)((z >> 33) % n);
}

/* RACE and ONE_PIXEL: all workers report one pixel, then all the next one. NEIGHBOURS: any of eight that differ in the last digit alone, so that chains of
   one node move down to the last level. COLUMN: each worker the next pixel of a bad column. SCATTERED: any pixel of the panel. */
enum load { RACE, ONE_PIXEL, NEIGHBOURS, COLUMN, SCATTERED, LOADS };
static const uint32_t limits[LOADS] = {4, 4, 1, 4, 4}, calls[LOADS] = {8, 8, 24, 64, 256};

static uint32_t pixel(enum load l, uint32_t k, uint32_t place) {
    switch (l) {
    case RACE:
    case ONE_PIXEL: return k << 21; /* one in each entry of the root */
    case NEIGHBOURS: return place >> 3 << 3 | draw(8);
    case COLUMN: return ((place + k) & 4095) << 12 | place >> 12;
    default: return draw(1 << 24);
    }
}

/* Nothing here is refused. */
static leafdrum_reply carried(leafdrum_reply r) {
    if (r.number) {
        fprintf(stderr, "exchanges.c: refused by %u\n", r.number);
        exit(1);
    }
    return r;
}

/* One table from its opening until every call has ended. In a race the workers take turns, else each entry of a list is any worker. */
static void table(enum load l, uint32_t crew, unsigned long *done, unsigned long *failed) {
    uint8_t list[WORKERS];
    uint32_t place = draw(1 << 24), started = 0, open;
    int together = l == RACE || l == ONE_PIXEL;
    leafdrum_reply r = carried(leafdrum_open((leafdrum_settings){.workers = crew, .limit = limits[l], .nodes = NODES, .width = WIDTH}, AREAS));
    do {
        open = 0;
        for (uint32_t i = 0; i < crew; i++) open += leafdrum_last(r.settings, i, AREAS).answer == LEAFDRUM_OPEN;
        if (together && open == 0 && started < calls[l]) {
            for (uint32_t i = 0; i < crew; i++) r = carried(leafdrum_start(r.settings, i, pixel(l, started, place) >> 12, 0, AREAS));
            started++, open = crew;
        }
        for (uint32_t i = 0; !together && i < crew && started < calls[l]; i++) {
            if (leafdrum_last(r.settings, i, AREAS).answer == LEAFDRUM_OPEN) continue;
            uint32_t p = pixel(l, started++, place);
            r = carried(leafdrum_start(r.settings, i, p >> 12, p & 4095, AREAS)), open++;
        }
        for (uint32_t k = 0; k < crew; k++) list[k] = (uint8_t)(l == RACE ? k : draw(crew));
        r = carried(leafdrum_turns(r.settings, list, crew, crew, AREAS));
        *done += r.exchanges_done, *failed += r.exchanges_failed;
    } while (open);
}

int main(void) {
    for (int l = RACE; l < LOADS; l++)
        for (uint32_t crew = 1; crew <= WORKERS; crew++) {
            unsigned long done = 0, failed = 0;
            state = 1000u * (uint64_t)l + crew;
            while (done < ENOUGH) {
                unsigned long before = done;
                table((enum load)l, crew, &done, &failed);
                if (done == before) return fprintf(stderr, "exchanges.c: a table without an exchange done\n"), 1;
                printf("%d %u %lu %lu\n", l, crew, done, failed);
            }
        }
    return 0;
}
