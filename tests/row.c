/* Demand 3 and the bound of failed exchanges on random orders of starts, turns and lists of turns at every digit width, beside viewers in half of the tables,
   judged without a model, and a listing beside them: row [SEED [TABLES]]
   Relies on include/leafdrum.h and the library; with -DTABLE=by_hand on bench/by_hand.c in its place. Table k has seed SEED + k: row SEED 1 runs one again. */
#include "../include/leafdrum.h"
#include <stdio.h>
#include <stdlib.h>
#include <string.h>

#ifndef TABLE
#define TABLE leafdrum
#endif
#define JOINED(table, name) table##_##name
#define NAMED(table, name) JOINED(table, name)
#define OF_TABLE(name) NAMED(TABLE, name)

typedef leafdrum_settings S;
typedef leafdrum_reply R;
R OF_TABLE(open)(S, LEAFDRUM_AREAS);
R OF_TABLE(start)(S, uint32_t, uint32_t, uint32_t, LEAFDRUM_AREAS);
R OF_TABLE(view)(S, uint32_t, uint32_t, uint32_t, LEAFDRUM_AREAS);
R OF_TABLE(turn)(S, uint32_t, LEAFDRUM_AREAS);
R OF_TABLE(turns)(S, const uint8_t *, size_t, uint32_t, LEAFDRUM_AREAS);
R OF_TABLE(last)(S, uint32_t, LEAFDRUM_AREAS);
leafdrum_given OF_TABLE(next)(S, leafdrum_listing *, const uint32_t *, size_t, const uint32_t *, size_t);
uint32_t OF_TABLE(level_count)(S);

/* The widths, each with its last depth, which is also how many Moves are open one inside another at most. Width 2 has the most levels, width 6 the most words. */
static const struct { uint32_t width, last; } widths[] = {{2, 11}, {3, 7}, {4, 5}, {6, 3}};
enum { WIDTHS = 4, WORKERS = 16, NODES = 4096, LEVELS = 1 + 11 * NODES + WORKERS, LEVEL_WORDS = 66 * (1 + 3 * NODES + WORKERS), RECORD = 256, PIXELS = 2 * NODES };
static uint32_t nodes[2 * NODES], levels[LEVEL_WORDS], workers[RECORD * WORKERS];
static S s;
static int wide; /* the place of the table's width */
static size_t level_words; /* of all levels */
#define AREAS nodes, 2 * s.nodes, levels, level_words, workers, RECORD * s.workers

/* What is asked. Where all of it holds there is document 01's row: each "new", "found" and "absent" put where it ends, each "full" where it starts. */
enum check {
    REFUSED, SIX, REFUSAL, NEW_PIXEL, NEW_NODE, FOUND_FIRST, FOUND_NODE, FULL_EARLY, FULL_PLACED, ABSENT_PLACED, SORT, LOOKED, LOST, NOT_PLACED, PIXEL_WORD, UNTAKEN,
    TAKEN, SPARE, LEVELS_HELD, LAST, DONE, COUNTED, BOUND, ALONE, ENDLESS, SIZES, LIST_REFUSED, LIST_END, LIST_MISSES, LIST_GIVES, LIST_RISES, CHECKS
};
static const char *const names[CHECKS] = {
    [REFUSED] = "refused without a reason",
    [SIX] = "6 given",
    [REFUSAL] = "refusal not by its number",
    [NEW_PIXEL] = "new again for its pixel",
    [NEW_NODE] = "new again for its node",
    [FOUND_FIRST] = "found before new",
    [FOUND_NODE] = "found with another node",
    [FULL_EARLY] = "full with a node left",
    [FULL_PLACED] = "full for a placed pixel",
    [ABSENT_PLACED] = "absent for a placed pixel",
    [SORT] = "ended as its worker may not",
    [LOOKED] = "a viewer changed the table",
    [LOST] = "placed node not reached",
    [NOT_PLACED] = "reached node not placed",
    [PIXEL_WORD] = "reached node with another pixel",
    [UNTAKEN] = "reached reference to nothing taken",
    [TAKEN] = "nodes or levels taken not as turns take them",
    [SPARE] = "spare node not used",
    [LEVELS_HELD] = "more levels held than placing workers",
    [LAST] = "last answer not as the call ended",
    [DONE] = "turns done not counted",
    [COUNTED] = "exchanges of a list not counted",
    [BOUND] = "more exchanges failed than the bound",
    [ALONE] = "exchange of a worker alone failed",
    [ENDLESS] = "call alone without end",
    [SIZES] = "levels not counted by the width",
    [LIST_REFUSED] = "listing refused",
    [LIST_END] = "listing not at its end",
    [LIST_MISSES] = "listing ended before a pixel",
    [LIST_GIVES] = "listing gave another pixel",
    [LIST_RISES] = "listing did not rise",
};
static uint64_t seed;
static uint32_t operation, tables_with[CHECKS];
static int broken;

/* A table ends at its first mistake: the next ones follow from it. */
static void must(int holds, enum check c) {
    if (holds || broken) return;
    broken = 1;
    if (!tables_with[c]++) printf("row: table %llu, operation %u: %s\n", (unsigned long long)seed, operation, names[c]);
}

static uint64_t state;
static uint32_t draw(uint32_t n) {
    uint64_t z = state += 0x9E3779B97F4A7C15u;
    z = (z ^ z >> 30) * 0xBF58476D1CE4E5B9u;
    z = (z ^ z >> 27) * 0x94D049BB133111EBu;
    return (uint32_t)((z >> 33) % n);
}

/* The table's pixels; `placed` is the operation that said "new", 0 before it. Calls name a pixel by its place here. */
static struct { uint32_t pixel, node, placed; } book[PIXELS];
static uint32_t pixels, nodes_placed;
static uint32_t holds[NODES]; /* the place of the node's pixel + 1; 0: not placed */
static struct { uint32_t open, place, started, answer, node; } calls[WORKERS];
static unsigned long turns_done, lists_done, compared, ended[LEAFDRUM_ABSENT + 1];
static uint32_t deepest[WIDTHS]; /* the most Moves that were open one inside another */

static uint32_t placing(void) { return s.workers - s.viewers; }
static int views(uint32_t i) { return i >= placing(); }

/* A listing that goes on beside the calls. "Pixels that could be reached when the listing began come exactly once, rising. A pixel placed meanwhile comes if it lies
   above the place when it is placed, and otherwise doesn't": `due` are those that have to come, by their place in the book. */
static leafdrum_listing listing;
static uint8_t due[PIXELS];
static unsigned long listings, listed;

static void begin_listing(void) {
    listing.place = LEAFDRUM_LISTING_START;
    for (uint32_t k = 0; k < pixels; k++) due[k] = book[k].placed != 0;
}

/* A "next"; whether it gave a pixel. */
static int next_listed(void) {
    uint32_t before = listing.place, k = 0;
    listings += before == LEAFDRUM_LISTING_START;
    leafdrum_given g = OF_TABLE(next)(s, &listing, nodes, 2 * s.nodes, levels, level_words);
    must(g.number == 0, LIST_REFUSED);
    if (g.answer != LEAFDRUM_GIVEN_PIXEL) {
        must(g.answer == LEAFDRUM_GIVEN_END && listing.place == LEAFDRUM_LISTING_END, LIST_END);
        for (; k < pixels; k++) must(!due[k], LIST_MISSES);
        return 0;
    }
    must(g.pixel >= before, LIST_RISES);
    while (k < pixels && book[k].pixel != g.pixel) k++;
    must(k < pixels && due[k], LIST_GIVES);
    if (!broken) due[k] = 0, listed++;
    return !broken;
}

/* Now and then a "next", after the end some more; at the table's end all of them, then a whole listing. */
static void list_on(void) {
    if (!next_listed() && !broken && operation % 3 == 0) begin_listing();
}
static void list_whole(void) {
    for (int k = 0; k < 2 && !broken; k++) {
        while (next_listed()) {}
        if (!broken) next_listed();
        begin_listing();
    }
}

static void ends(uint32_t i, uint32_t answer, uint32_t node) {
    uint32_t k = calls[i].place;
    must(answer == LEAFDRUM_FOUND || (answer == LEAFDRUM_ABSENT) == views(i), SORT);
    calls[i].open = 0, calls[i].answer = answer, calls[i].node = node;
    ended[answer]++;
    if (answer == LEAFDRUM_NEW) {
        must(!book[k].placed, NEW_PIXEL);
        must(node < s.nodes_taken && !holds[node], NEW_NODE);
        if (broken) return;
        book[k].placed = operation, book[k].node = node, holds[node] = k + 1, nodes_placed++;
        due[k] = book[k].pixel >= listing.place; /* the place is that of a pixel below it */
    } else if (answer == LEAFDRUM_FOUND) {
        must(book[k].placed != 0, FOUND_FIRST);
        must(book[k].node == node, FOUND_NODE);
    } else if (answer == LEAFDRUM_ABSENT) {
        must(!book[k].placed, ABSENT_PLACED);
    } else {
        must(s.nodes_taken == s.nodes, FULL_EARLY);
        must(!book[k].placed || book[k].placed > calls[i].started, FULL_PLACED);
    }
}

/* What nothing refuses is carried out, "full" under its own number; a turn takes one node or level at most, a start or a viewer's turn none. */
static void carried_out(R r, uint32_t turns) {
    S t = r.settings;
    must(r.number != 6, SIX);
    must(r.number == (r.answer == LEAFDRUM_FULL ? 9 : 0), REFUSED);
    must(r.exchanges_done + r.exchanges_failed <= r.turns, COUNTED); /* none but of a list */
    must(t.workers == s.workers && t.limit == s.limit && t.nodes == s.nodes && t.viewers == s.viewers && t.width == s.width, TAKEN);
    must(t.nodes_taken <= t.nodes, TAKEN);
    must(t.nodes_taken >= s.nodes_taken && t.levels_taken >= s.levels_taken, TAKEN);
    must(t.nodes_taken - s.nodes_taken + t.levels_taken - s.levels_taken <= turns, TAKEN);
    s = t;
}

/* Kinds of turn and words of a record by their numbers in docs/LAYOUT.md. */
enum { TAKE = 2, PUT = 3, TAKETAIL = 6, APPEND = 7, LEVEL = 8, CLOSE = 9, SETLOOK = 14, SETPUT = 15, SETAPPEND = 18, SETLEVEL = 19, SETCLOSE = 20 };
enum { W_KIND, W_PIXEL, W_LEVEL, W_NODE, W_MOVES = 9 };

static uint32_t entries(void) { return 1u << s.width; }
static uint32_t *level_at(uint32_t g) { return levels + (2 + entries()) * g; }

/* The entry of a pixel by its digit at the level's depth. What a wrong table holds as a depth is taken for one. */
static uint32_t entry_of(uint32_t g, uint32_t pixel) {
    uint32_t *level = level_at(g), depth = level[1] % (24 / s.width);
    return level[2 + (pixel >> (24 - s.width * (depth + 1))) % entries()];
}

/* The pixel of the node that a moving worker sets: the last that its innermost Move remembers. */
static uint32_t set_pixel(const uint32_t *w) {
    const uint32_t *move = w + 5 + 11 * w[W_MOVES];
    return nodes[2 * move[2 + move[2]]];
}

/* A worker is committed from the turn that read a cell as its level to the turn that exchanges the cell from it; doomed, if the cell holds something else. */
static int doomed(uint32_t i) {
    const uint32_t *w = workers + RECORD * i, own = 2 * w[W_LEVEL];
    switch (w[W_KIND]) {
    case TAKE:
    case PUT: return entry_of(w[W_LEVEL], w[W_PIXEL]) != own;
    case SETPUT: return entry_of(w[W_LEVEL], set_pixel(w)) != own;
    case TAKETAIL:
    case APPEND:
    case LEVEL:
    case CLOSE:
    case SETAPPEND:
    case SETLEVEL:
    case SETCLOSE: return nodes[2 * w[W_NODE] + 1] != own;
    default: return 0;
    }
}

/* Exchanges that were done and that failed. */
typedef struct { unsigned long done, failed; } exchanges;
static exchanges in_table, in_all;
static unsigned long bound_reached;

/* The exchange of worker i's next turn, if it makes one and is not refused, is added: it fails if the cell holds something else than the worker's level. */
static void count_next(uint32_t i, exchanges *e) {
    switch (workers[RECORD * i + W_KIND]) {
    case PUT:
    case APPEND:
    case CLOSE:
    case SETPUT:
    case SETAPPEND:
    case SETCLOSE: *(doomed(i) ? &e->failed : &e->done) += 1;
    }
}

/* "Failed exchanges are at most (placing workers - 1) x successful ones; with no placing worker both are zero", and a doomed worker's will be one of them. */
static void bound(void) {
    unsigned long failing = in_table.failed, most = placing() ? (placing() - 1) * in_table.done : 0;
    must(placing() || !in_table.done, BOUND);
    for (uint32_t i = 0; i < s.workers; i++) failing += (unsigned long)doomed(i);
    must(failing <= most, BOUND);
    bound_reached += most && in_table.failed == most;
}

/* The areas put aside, of the levels those that so many turns can change: no turn takes more than one. */
static uint32_t kept_nodes[2 * NODES], kept_levels[LEVEL_WORDS], kept_workers[RECORD * WORKERS];
static size_t kept_level_words;
static void keep(uint32_t turns) {
    kept_level_words = (2 + entries()) * (size_t)(s.levels_taken + turns);
    if (kept_level_words > level_words) kept_level_words = level_words;
    memcpy(kept_nodes, nodes, 2 * s.nodes * sizeof *nodes);
    memcpy(kept_levels, levels, kept_level_words * sizeof *levels);
    memcpy(kept_workers, workers, RECORD * s.workers * sizeof *workers);
}

/* "Striking all viewers' starts and turns from a sequence leaves every other worker's answers, all nodes and all levels the same": they write their own record
   alone. Words are compared in small tables. */
static int small(void) { return s.nodes <= 64; }
static void only_looked(uint32_t i) {
    size_t own = RECORD * i, rest = RECORD * (s.workers - i - 1);
    if (!small()) return;
    must(!memcmp(kept_nodes, nodes, 2 * s.nodes * sizeof *nodes) && !memcmp(kept_levels, levels, kept_level_words * sizeof *levels), LOOKED);
    must(!memcmp(kept_workers, workers, own * sizeof *workers), LOOKED);
    must(!memcmp(kept_workers + own + RECORD, workers + own + RECORD, rest * sizeof *workers), LOOKED);
}

/* A call of the sort that the worker has, and of the sort that is refused by 17. */
static R call(uint32_t i, uint32_t row, uint32_t column) {
    return views(i) ? OF_TABLE(view)(s, i, row, column, AREAS) : OF_TABLE(start)(s, i, row, column, AREAS);
}
static R other_call(uint32_t i, uint32_t row, uint32_t column) {
    return views(i) ? OF_TABLE(start)(s, i, row, column, AREAS) : OF_TABLE(view)(s, i, row, column, AREAS);
}

static void start(uint32_t i, uint32_t k) {
    if (views(i) && small()) keep(0);
    R r = call(i, book[k].pixel >> 12, book[k].pixel & 4095);
    if (views(i)) only_looked(i);
    must(r.answer == LEAFDRUM_OPEN, REFUSED);
    carried_out(r, 0);
    calls[i].open = 1, calls[i].place = k, calls[i].started = operation;
}

/* how many Moves of worker i are open */
static uint32_t moving(uint32_t i) { return workers[RECORD * i + W_MOVES]; }

static void turn(uint32_t i) {
    count_next(i, &in_table);
    if (views(i) && small()) keep(0);
    R r = OF_TABLE(turn)(s, i, AREAS);
    if (views(i)) only_looked(i);
    carried_out(r, !views(i));
    turns_done++;
    if (moving(i) > deepest[wide]) deepest[wide] = moving(i);
    if (r.answer == LEAFDRUM_OPEN) return;
    must(r.answer >= LEAFDRUM_NEW && r.answer <= LEAFDRUM_ABSENT, REFUSED);
    if (!broken) ends(i, r.answer, r.node);
}

/* What a list has to report: its turns, done one by one on memory that is put back. */
static R turn_by_turn(const uint8_t *entry, uint32_t count, uint32_t limit) {
    const S kept = s;
    exchanges e = {0, 0};
    R told = {0};
    keep(count);
    for (uint32_t k = 0; k < count && told.turns < limit; k++) {
        count_next(entry[k], &e);
        R r = OF_TABLE(turn)(s, entry[k], AREAS);
        s = r.settings, told.turns += r.number != 8;
    }
    told.exchanges_done = (uint32_t)e.done, told.exchanges_failed = (uint32_t)e.failed;
    s = kept;
    memcpy(nodes, kept_nodes, 2 * s.nodes * sizeof *nodes);
    memcpy(levels, kept_levels, kept_level_words * sizeof *levels);
    memcpy(workers, kept_workers, RECORD * s.workers * sizeof *workers);
    return told;
}

/* A list tells no ends: they are read as last answers. Its "absent" come first here and then its "new", as a list does not tell the order of its ends. */
static void list(void) {
    static const uint32_t order[] = {LEAFDRUM_ABSENT, LEAFDRUM_NEW, LEAFDRUM_FOUND, LEAFDRUM_FULL};
    uint8_t entry[40];
    R last[WORKERS];
    uint32_t count = draw(sizeof entry + 1), limit = draw(50);
    for (uint32_t k = 0; k < count; k++) entry[k] = (uint8_t)draw(s.workers);
    R told = turn_by_turn(entry, count, limit), r = OF_TABLE(turns)(s, entry, count, limit, AREAS);
    carried_out(r, r.turns);
    must(r.turns == told.turns, DONE);
    must(r.exchanges_done == told.exchanges_done && r.exchanges_failed == told.exchanges_failed, COUNTED);
    in_table.done += r.exchanges_done, in_table.failed += r.exchanges_failed;
    for (uint32_t i = 0; i < s.workers; i++) {
        last[i] = OF_TABLE(last)(s, i, AREAS);
        must(last[i].number == 0 && (calls[i].open || last[i].answer == calls[i].answer), LAST);
    }
    turns_done += r.turns, lists_done++;
    for (int a = 0; a < 4; a++)
        for (uint32_t i = 0; i < s.workers && !broken; i++)
            if (calls[i].open && last[i].answer == order[a]) ends(i, last[i].answer, last[i].node);
}

static void refused_by(uint32_t number, R r, S given) {
    must(r.number == number && r.answer == LEAFDRUM_NONE && memcmp(&r.settings, &given, sizeof given) == 0, REFUSAL);
    must(r.exchanges_done == 0 && r.exchanges_failed == 0, COUNTED);
}

/* A width that is none of the four, more viewers than workers, and one word less than the width asks for in one of the areas; the opening or a turn of worker i. */
static void refused_sizes(uint32_t i, int opening) {
    S other = s, many = s;
    uint32_t less = draw(3);
    many.viewers = s.workers + 1 + (draw(2) ? 0 : draw(1u << 31));
    must(OF_TABLE(level_count)(many) == 0, SIZES);
    refused_by(1, opening ? OF_TABLE(open)(many, AREAS) : OF_TABLE(turn)(many, i, AREAS), many);
    while (other.width == 2 || other.width == 3 || other.width == 4 || other.width == 6) other.width = draw(4) ? draw(10) : draw(1u << 31);
    must(OF_TABLE(level_count)(other) == 0, SIZES);
    refused_by(1, opening ? OF_TABLE(open)(other, AREAS) : OF_TABLE(turn)(other, i, AREAS), other);
#define LESS nodes, 2 * s.nodes - (less == 0), levels, level_words - (less == 1), workers, RECORD * s.workers - (less == 2)
    refused_by(2, opening ? OF_TABLE(open)(s, LESS) : OF_TABLE(turn)(s, i, LESS), s);
}

/* Refused operations belong to a sequence too: they open and end nothing. */
static void refused(uint32_t i) {
    uint8_t entry[2] = {0, (uint8_t)(s.workers + draw(200))};
    switch (draw(6)) {
    case 0: refused_by(4, draw(2) ? call(s.workers + draw(9), 1, 2) : other_call(s.workers + draw(9), 1, 2), s); break;
    case 1: refused_by(4, OF_TABLE(turns)(s, entry, 2, 2, AREAS), s); break;
    case 2: refused_by(5, draw(2) ? call(i, 4096, draw(4096)) : other_call(i, 4096, draw(4096)), s); break;
    case 3: refused_sizes(i, 0); break;
    case 4: refused_by(17, other_call(i, draw(4096), 4095), s); break;
    default: refused_by(calls[i].open ? 7 : 8, calls[i].open ? call(i, 1, 2) : OF_TABLE(turn)(s, i, AREAS), s);
    }
}

static uint32_t visit, node_seen[NODES], level_seen[LEVELS], waiting[NODES + LEVELS];
static size_t in_wait;

static void lead_to(uint32_t reference) {
    uint32_t k = reference >> 1, *seen = reference & 1 ? node_seen : level_seen;
    must(k < (reference & 1 ? s.nodes_taken : s.levels_taken), UNTAKEN);
    if (!broken && seen[k] != visit) seen[k] = visit, waiting[in_wait++] = reference;
}

/* "Reached from the root is what entries, nodes' next words and levels' previous words lead to": exactly the placed nodes, each with its pixel. */
static void compare(void) {
    uint32_t levels_reached = 0;
    visit++, compared++, in_wait = 0;
    for (lead_to(0); in_wait && !broken;) {
        uint32_t reference = waiting[--in_wait];
        if (reference & 1) lead_to(nodes[reference]); /* 2 i + 1 is node i's reference and the place of its next word */
        else {
            uint32_t *level = level_at(reference >> 1);
            levels_reached++;
            for (uint32_t e = 0; e < entries(); e++) lead_to(level[2 + e]);
            if (level[0] != UINT32_MAX) lead_to(2 * level[0]);
        }
    }
    for (uint32_t n = 0; n < s.nodes_taken; n++) {
        must(!holds[n] || node_seen[n] == visit, LOST);
        must(holds[n] || node_seen[n] != visit, NOT_PLACED);
        must(!holds[n] || nodes[2 * n] == book[holds[n] - 1].pixel, PIXEL_WORD);
    }
    must(s.levels_taken - levels_reached <= placing(), LEVELS_HELD);
}

static void last_answers(void) {
    for (uint32_t i = 0; i < s.workers; i++) {
        R r = OF_TABLE(last)(s, i, AREAS);
        must(r.number == 0 && r.answer == (calls[i].open ? LEAFDRUM_OPEN : calls[i].answer) && r.node == (calls[i].open ? 0 : calls[i].node), LAST);
    }
}

/* In such a table a worker keeps its turns while it moves, and others come between (below), most often in chains of one node with pixels that differ in the
   last digits. */
static int between;

/* So many bits of a pixel number: the lowest, any, or one of each of the last digits. */
static uint32_t some_bits(uint32_t count) {
    uint32_t mask = 0, way = between ? 0 : draw(count * s.width <= 24 ? 3 : 2);
    for (uint32_t b = 0; b < count;) {
        uint32_t bit = 1u << (way == 0 ? b : way == 1 ? draw(24) : s.width * b);
        if (!(mask & bit)) mask |= bit, b++;
    }
    return mask;
}

/* A fresh table over random words. Most are small, with low limits and pixels that differ in few bits: there the calls meet. */
static void open_table(void) {
    static const uint32_t sizes[] = {4, 16, 16, 32, 64};
    uint32_t bits = 1, mask, base = draw(1 << 24), large = draw(500);
    s.workers = 1 + draw(draw(2) ? 4 : WORKERS);
    s.viewers = draw(2) ? 0 : draw(s.workers + 1);
    between = placing() > 1 && draw(4) == 0;
    s.limit = between && draw(4) ? 1 : 1 + draw(draw(4) ? 2 : 8);
    s.nodes = large == 0 ? NODES : 1 + draw(large < 20 ? 400 : sizes[draw(5)]);
    if (between) s.nodes = 12 + draw(21); /* enough for a pixel more than there are Moves */
    s.nodes_taken = draw(9), s.levels_taken = draw(9);
    wide = (int)draw(WIDTHS), s.width = widths[wide].width;
    while (1u << bits < s.nodes) bits++;
    bits += draw(2);
    mask = some_bits(bits);
    pixels = 0;
    for (uint32_t p = 0; pixels < 1u << bits; p = (p - mask) & mask) book[pixels].placed = 0, book[pixels++].pixel = base ^ p;
    memset(holds, 0, sizeof holds);
    memset(calls, 0, sizeof calls);
    in_table.done = in_table.failed = 0;
    nodes_placed = 0, broken = 0, operation = 0;
    begin_listing();
    uint32_t count = 1 + widths[wide].last * (s.nodes / s.limit) + s.workers;
    must(OF_TABLE(level_count)(s) == count, SIZES);
    level_words = (2 + entries()) * (size_t)count;
    for (size_t k = 0; k < 2 * s.nodes; k++) nodes[k] = draw(1 << 25);
    for (size_t k = 0; k < level_words; k++) levels[k] = draw(64);
    for (size_t k = 0; k < RECORD * s.workers; k++) workers[k] = draw(64);
    refused_sizes(0, 1);
    R r = OF_TABLE(open)(s, AREAS);
    s.nodes_taken = 0, s.levels_taken = 1;
    must(r.number == 0 && r.answer == LEAFDRUM_NONE && memcmp(&r.settings, &s, sizeof s) == 0, REFUSED);
}

/* A worker has all turns until its call has ended, which takes some hundred at most. Where it is not doomed no exchange fails, else one at most. */
static void alone(uint32_t i) {
    unsigned long most = in_table.failed + (unsigned long)doomed(i);
    for (uint32_t k = 0; calls[i].open && !broken; k++, operation++) {
        must(k < 5000, ENDLESS);
        turn(i);
        must(in_table.failed <= most, ALONE);
        bound();
        if (!broken) compare();
    }
}

/* A node that hangs where no search comes is missed when its pixel is asked for once more. In small tables a viewer looks every pixel up, placed or not. */
static void ask_again(void) {
    for (uint32_t i = 0; i < s.workers; i++) alone(i);
    for (uint32_t k = 0; k < pixels && !broken; k++)
        if (book[k].placed) start(0, k), alone(0);
    for (uint32_t k = 0; k < pixels && s.viewers && small() && !broken; k++) start(s.workers - 1, k), alone(s.workers - 1);
}

/* A worker that is told "full" has no spare node: once each is told so, every node is placed. */
static void fill(void) {
    uint32_t k = 0, i = 0;
    if (!placing()) return;
    while (i < placing() && !broken) {
        while (k < pixels && book[k].placed) k++;
        if (k == pixels) return;
        start(i, k), alone(i);
        i += calls[i].answer == LEAFDRUM_FULL;
    }
    must(nodes_placed == s.nodes, SPARE);
}

/* Another worker's call comes between, just before worker i looks where its node goes: if it places a pixel there, worker i has to move that one's chain first,
   inside its own Move. Most often it is the nearest pixel that is not placed. Random orders alone seldom have more than a few Moves one inside another. */
static void come_between(uint32_t i) {
    uint32_t j = (i + 1 + draw(placing() - 1)) % placing(), k = draw(pixels), near = set_pixel(workers + RECORD * i);
    operation++;
    for (uint32_t n = draw(8) ? 0 : pixels; n < pixels; n++)
        if (!book[n].placed && (book[k].placed || (book[n].pixel ^ near) < (book[k].pixel ^ near))) k = n;
    if (!calls[j].open) start(j, k);
    alone(j);
}

/* Workers rest amid their calls while others do many turns: how many differs from table to table. */
static void run(void) {
    static const uint32_t rests[] = {1, 4, 8, 16, 64};
    uint32_t rest = rests[draw(5)], i = 0, left = 0, steps = 1 + draw(40 * (s.nodes < 400 ? s.nodes : 400));
    compare();
    for (operation = 1; operation <= steps && !broken; operation++) {
        uint32_t which = draw(64);
        if (!(between && moving(i)) && !left--) i = draw(s.workers), left = draw(rest);
        if (which == 0) refused(i);
        else if (which <= 2) list();
        else if (calls[i].open) turn(i);
        else start(i, draw(pixels));
        bound();
        if (!broken) compare();
        if (between && workers[RECORD * i + W_KIND] == SETLOOK && !broken) come_between(i);
        if (operation % 16 == 0 && !broken) last_answers();
        if (operation % 16 == 8 && !broken) list_on();
    }
    ask_again();
    if (small()) fill();
    if (s.nodes <= 400 && !broken) list_whole();
}

int main(int count, char **word) {
    uint64_t first = count > 1 ? strtoull(word[1], NULL, 10) : 1, tables = count > 2 ? strtoull(word[2], NULL, 10) : 2000;
    int bad = 0;
    for (seed = first; seed - first < tables; seed++) {
        state = seed * 0xD1342543DE82EF95u;
        open_table();
        if (!broken) run();
        in_all.done += in_table.done, in_all.failed += in_table.failed;
        bad |= broken;
    }
    for (int c = 0; c < CHECKS; c++)
        if (tables_with[c]) printf("row: %s: in %u of %llu tables\n", names[c], tables_with[c], (unsigned long long)tables);
    if (bad) return 1;
    printf("row: %llu tables, %lu turns, %lu lists; %lu new, %lu found, %lu full, %lu absent; reached nodes compared %lu times; ", (unsigned long long)tables, turns_done,
           lists_done, ended[LEAFDRUM_NEW], ended[LEAFDRUM_FOUND], ended[LEAFDRUM_FULL], ended[LEAFDRUM_ABSENT], compared);
    printf("exchanges %lu done, %lu failed, the bound reached %lu times; Moves one inside another", in_all.done, in_all.failed, bound_reached);
    for (int k = 0; k < WIDTHS; k++) printf("%s %u at width %u", k ? "," : "", deepest[k], widths[k].width);
    printf("; %lu listings beside the calls gave %lu pixels\n", listings, listed);
    /* what the tests' own run never reaches was not tested */
    if (count == 1 && (!ended[LEAFDRUM_FULL] || !ended[LEAFDRUM_ABSENT] || !lists_done || !bound_reached || !listed))
        return puts("row: a full call, an absent one, a list, the bound or a listed pixel was never reached"), 1;
    for (int k = 0; k < WIDTHS; k++)
        if (count == 1 && deepest[k] != widths[k].last) return printf("row: as many Moves as there can be were not reached at width %u\n", widths[k].width), 1;
    return 0;
}
