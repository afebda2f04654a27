/* Nanoseconds a turn of the proved table and of by_hand.c, the same sequences through both in one run, as a ratio. Run by hand: sh bench/run.sh
   Both must leave the same words after each pass, else it stops. */
#include "common.h"
#include "../include/leafdrum.h"
#include <stdio.h>
#include <stdlib.h>
#include <string.h>

typedef leafdrum_settings S;
typedef leafdrum_reply R;
R by_hand_open(S, LEAFDRUM_AREAS);
R by_hand_start(S, uint32_t, uint32_t, uint32_t, LEAFDRUM_AREAS);
R by_hand_view(S, uint32_t, uint32_t, uint32_t, LEAFDRUM_AREAS);
R by_hand_turn(S, uint32_t, LEAFDRUM_AREAS);
R by_hand_turns(S, const uint8_t *, size_t, uint32_t, LEAFDRUM_AREAS);

typedef struct {
    R (*open)(S, LEAFDRUM_AREAS);
    R (*start)(S, uint32_t, uint32_t, uint32_t, LEAFDRUM_AREAS);
    R (*view)(S, uint32_t, uint32_t, uint32_t, LEAFDRUM_AREAS);
    R (*turn)(S, uint32_t, LEAFDRUM_AREAS);
    R (*turns)(S, const uint8_t *, size_t, uint32_t, LEAFDRUM_AREAS);
} table;
static const table proved = {leafdrum_open, leafdrum_start, leafdrum_view, leafdrum_turn, leafdrum_turns};
static const table by_hand = {by_hand_open, by_hand_start, by_hand_view, by_hand_turn, by_hand_turns};

/* the widest levels take the largest area */
enum { WORKERS = 16, NODES = 4096 };
static uint32_t nodes[LEAFDRUM_NODE_AREA(NODES)], levels[LEAFDRUM_LEVEL_AREA(WORKERS, 1, NODES, LEAFDRUM_WIDTH_6)], workers[LEAFDRUM_WORKER_AREA(WORKERS)];
/* the areas of n nodes and a crew, with lw words of levels */
#define AREAS nodes, LEAFDRUM_NODE_AREA(n), levels, lw, workers, LEAFDRUM_WORKER_AREA(crew)

/* in VIEWS worker 0 places and the others are viewers that look pixels up, half of which are there on the whole */
enum load { FOUND, INSERT, MOVES, VIEWS };
static const char *names[] = {"found", "insert", "moves", "views"};

/* the k-th pixel: all differ; of MOVES each second one shares all digits but the last with the one before it, so that its chain moves down to the last level */
static uint32_t pixel(enum load l, uint32_t k) {
    return l == MOVES ? ((k >> 1) * 2654435761u & 0x7fffff) << 1 | (k & 1) : k * 2654435761u & 0xffffff;
}

/* turns of all workers, one after the other, until every call has ended; returns the turns done */
static uint64_t rest(const table *t, S *s, uint32_t crew, uint32_t n, size_t lw, int lists) {
    static uint8_t list[256];
    uint64_t done = 0, more;
    if (lists) {
        for (uint32_t k = 0; k < 8 * crew; k++) list[k] = k % crew;
        do {
            R r = t->turns(*s, list, 8 * crew, 8 * crew, AREAS);
            *s = r.settings;
            done += more = r.turns;
        } while (more);
        return done;
    }
    do {
        more = 0;
        for (uint32_t k = 0; k < 8; k++)
            for (uint32_t i = 0; i < crew; i++) {
                R r = t->turn(*s, i, AREAS);
                *s = r.settings;
                more += r.number != 8;
            }
        done += more;
    } while (more);
    return done;
}

/* a sum of what the table holds: its settings, its taken nodes and levels, and all words of its workers */
static uint64_t sum_of(S s) {
    const struct { const uint32_t *words; size_t count; } parts[] = {
        {(const uint32_t *)&s, sizeof s / sizeof(uint32_t)}, {nodes, LEAFDRUM_NODE_AREA(s.nodes_taken)},
        {levels, LEAFDRUM_LEVEL_WORDS(s.width) * s.levels_taken}, {workers, LEAFDRUM_WORKER_AREA(s.workers)}};
    uint64_t sum = 14695981039346656037u;
    for (size_t k = 0; k < sizeof parts / sizeof *parts; k++)
        for (size_t j = 0; j < parts[k].count; j++) sum = (sum ^ parts[k].words[j]) * 1099511628211u;
    return sum;
}

/* one pass of about `want` turns: the time of starts and turns (opening and filling apart), in *turns the turns and in *sum what they left */
static double pass(const table *t, enum load l, uint32_t crew, uint32_t n, uint32_t width, int lists, uint64_t want, uint64_t *turns, uint64_t *sum) {
    S s = {crew, l == MOVES ? 1 : 4, n, 0, 0, l == VIEWS ? crew - 1 : 0, width};
    size_t lw = (size_t)LEAFDRUM_LEVEL_AREA(s.workers, s.limit, s.nodes, s.width);
    uint64_t done = 0;
    double spent = 0;
    seed = 12345;
    while (done < want) {
        s = t->open(s, AREAS).settings;
        for (uint32_t k = 0; l == FOUND && k < n; k++) {
            uint32_t p = pixel(l, k);
            s = t->start(s, 0, p >> 12, p & 4095, AREAS).settings;
            rest(t, &s, crew, n, lw, 1);
        }
        double a = now();
        /* FOUND asks for pixels that are there until enough turns are done; the others place each pixel once and open anew */
        uint32_t placing = crew - s.viewers;
        for (uint32_t k = 0; done < want && (l == FOUND || k + placing <= n); k += placing) {
            for (uint32_t i = 0; i < crew; i++) {
                uint32_t p = pixel(l, l == FOUND || i >= placing ? draw(n) : k + i);
                s = (i >= placing ? t->view : t->start)(s, i, p >> 12, p & 4095, AREAS).settings;
            }
            done += rest(t, &s, crew, n, lw, lists);
        }
        spent += now() - a;
    }
    *turns = done, *sum = sum_of(s);
    return spent;
}

static void row(enum load l, uint32_t crew, uint32_t n, uint32_t width) {
    double best[2][2] = {{1e30, 1e30}, {1e30, 1e30}};
    for (int again = 0; again < 5; again++)
        for (int lists = 0; lists < 2; lists++) {
            uint64_t turns[2], sums[2];
            for (int which = 0; which < 2; which++) {
                double t = pass(which ? &by_hand : &proved, l, crew, n, width, lists, 200000, &turns[which], &sums[which]) / turns[which];
                if (t < best[lists][which]) best[lists][which] = t;
            }
            if (turns[0] != turns[1] || sums[0] != sums[1]) {
                printf("%s, %u workers, %u nodes, width %u: the two leave other words\n", names[l], crew, n, width);
                exit(1);
            }
        }
    printf("%-7s %4u   %5u   %u    |               %6.1f   %6.1f  %5.2f |        %6.1f   %6.1f  %5.2f\n", names[l], crew, n, width, best[0][0], best[0][1],
           best[0][0] / best[0][1], best[1][0], best[1][1], best[1][0] / best[1][1]);
    fflush(stdout);
}

/* width 3 with every number of workers and nodes, then the other widths with 4 workers and 4,096 nodes, then viewers */
int main(void) {
    static const uint32_t crews[] = {1, 4, 16}, sizes[] = {64, 512, 4096}, widths[] = {LEAFDRUM_WIDTH_2, LEAFDRUM_WIDTH_4, LEAFDRUM_WIDTH_6};
    printf("load    workers nodes  width | single turns: proved  by hand  ratio | lists: proved  by hand  ratio   (ns a turn with its share of starts, least of 5)\n");
    for (int l = FOUND; l <= MOVES; l++)
        for (int c = 0; c < 3; c++)
            for (int z = 0; z < 3; z++) row(l, crews[c], sizes[z], LEAFDRUM_WIDTH_3);
    for (int l = FOUND; l <= MOVES; l++)
        for (int k = 0; k < 3; k++) row(l, 4, 4096, widths[k]);
    for (int c = 1; c < 3; c++) row(VIEWS, crews[c], 4096, LEAFDRUM_WIDTH_3);
    return 0;
}
