/* Every function, field, constant and macro of include/leafdrum.h against the library: with a header that says something else this does not build, or fails
   when run. Numbers stand here as documents 01 and 02 have them; the macros are asked only where they are compared.
   Relies on the header and the library alone. Builds as C99 and as C++20; tests/headers.py builds it both ways, and with wrong headers. */
#include "../include/leafdrum.h"
#include "../include/leafdrum.h" /* once more: without its guard it does not build */
#include <stdio.h>

/* Another width, sign or number of parameters does not build: a pointer of this type does not take the function. */
#define AREA_TYPES uint32_t *, size_t, uint32_t *, size_t, uint32_t *, size_t
leafdrum_reply (*const opening)(leafdrum_settings, AREA_TYPES) = leafdrum_open;
leafdrum_reply (*const starting)(leafdrum_settings, uint32_t, uint32_t, uint32_t, AREA_TYPES) = leafdrum_start;
leafdrum_reply (*const viewing)(leafdrum_settings, uint32_t, uint32_t, uint32_t, AREA_TYPES) = leafdrum_view;
leafdrum_reply (*const one_turn)(leafdrum_settings, uint32_t, AREA_TYPES) = leafdrum_turn;
leafdrum_reply (*const list_of_turns)(leafdrum_settings, const uint8_t *, size_t, uint32_t, AREA_TYPES) = leafdrum_turns;
leafdrum_reply (*const last_answer)(leafdrum_settings, uint32_t, AREA_TYPES) = leafdrum_last;
leafdrum_given (*const listing_on)(leafdrum_settings, leafdrum_listing *, const uint32_t *, size_t, const uint32_t *, size_t) = leafdrum_next;
leafdrum_count (*const flagged_count)(leafdrum_settings, const uint32_t *, size_t, const uint32_t *, size_t) = leafdrum_flagged;
uint32_t (*const level_count)(leafdrum_settings) = leafdrum_level_count;

/* words needed for 3 workers, chain limit 2, 11 nodes at width 3: 39 levels; the arrays are for the largest table, the levels at width 6 */
enum { NODE_WORDS = 2 * 11, LEVEL_WORDS = 10 * 39, WORKER_WORDS = 256 * 3 };
static uint32_t nodes[8192], levels[812130], workers[4096];
#define AREAS nodes, NODE_WORDS, levels, LEVEL_WORDS, workers, WORKER_WORDS

/* the four widths with document 02's numbers */
static const struct { uint32_t width, level_words, last_depth; } widths[] = {{2, 6, 11}, {3, 10, 7}, {4, 18, 5}, {6, 66, 3}};
enum { WIDTHS = 4 };

static int failed;
static const char *about; /* where the same words are compared several times: when */
static void same(const char *what, size_t is, size_t should) {
    if (is == should) return;
    printf("header: %s%s%s is %lu, not %lu\n", about ? about : "", about ? ": " : "", what, (unsigned long)is, (unsigned long)should);
    failed = 1;
}

#define FIELD(type, field, place) same("place of " #field, offsetof(type, field), place), same("size of " #field, sizeof((type *)0)->field, 4)

static void structs(void) {
    FIELD(leafdrum_settings, workers, 0);
    FIELD(leafdrum_settings, limit, 4);
    FIELD(leafdrum_settings, nodes, 8);
    FIELD(leafdrum_settings, nodes_taken, 12);
    FIELD(leafdrum_settings, levels_taken, 16);
    FIELD(leafdrum_settings, viewers, 20);
    FIELD(leafdrum_settings, width, 24);
    same("size of leafdrum_settings", sizeof(leafdrum_settings), 28);
    FIELD(leafdrum_reply, number, 0);
    FIELD(leafdrum_reply, answer, 4);
    FIELD(leafdrum_reply, node, 8);
    FIELD(leafdrum_reply, turns, 12);
    FIELD(leafdrum_reply, exchanges_done, 16);
    FIELD(leafdrum_reply, exchanges_failed, 20);
    same("place of settings", offsetof(leafdrum_reply, settings), 24);
    same("size of leafdrum_reply", sizeof(leafdrum_reply), 52);
    FIELD(leafdrum_listing, place, 0);
    same("size of leafdrum_listing", sizeof(leafdrum_listing), 4);
    FIELD(leafdrum_given, number, 0);
    FIELD(leafdrum_given, answer, 4);
    FIELD(leafdrum_given, pixel, 8);
    same("size of leafdrum_given", sizeof(leafdrum_given), 12);
    FIELD(leafdrum_count, number, 0);
    FIELD(leafdrum_count, count, 4);
    same("size of leafdrum_count", sizeof(leafdrum_count), 8);
}

static leafdrum_settings wide(uint32_t crew, uint32_t limit, uint32_t count, uint32_t nodes_taken, uint32_t levels_taken, uint32_t width) {
    leafdrum_settings s = {.workers = crew, .limit = limit, .nodes = count, .nodes_taken = nodes_taken, .levels_taken = levels_taken, .viewers = 0, .width = width};
    return s;
}

static leafdrum_settings with(uint32_t crew, uint32_t limit, uint32_t count, uint32_t nodes_taken, uint32_t levels_taken) {
    return wide(crew, limit, count, nodes_taken, levels_taken, 3);
}

static leafdrum_settings with_viewers(uint32_t viewers, leafdrum_settings s) {
    s.viewers = viewers;
    return s;
}

/* Each field by what the library asks of it alone; with the bounds exchanged between two fields another number comes. */
static void fields(void) {
    leafdrum_reply r = leafdrum_last(with_viewers(1, with(3, 2, 11, 7, 9)), 2, AREAS);
    same("number of a last answer", r.number, 0);
    same("workers given back", r.settings.workers, 3);
    same("limit given back", r.settings.limit, 2);
    same("nodes given back", r.settings.nodes, 11);
    same("nodes_taken given back", r.settings.nodes_taken, 7);
    same("levels_taken given back", r.settings.levels_taken, 9);
    same("viewers given back", r.settings.viewers, 1);
    same("width given back", r.settings.width, 3);
    same("levels of 3 workers, limit 2, 11 nodes", leafdrum_level_count(with(3, 2, 11, 0, 0)), 39);
    same("levels of the largest table", leafdrum_level_count(with(16, 8, 4096, 0, 0)), 3601);
    same("levels of 17 workers", leafdrum_level_count(with(17, 8, 4096, 0, 0)), 0);
    same("levels of limit 9", leafdrum_level_count(with(16, 9, 4096, 0, 0)), 0);
    same("levels of 4097 nodes", leafdrum_level_count(with(16, 8, 4097, 0, 0)), 0);
    same("11 nodes taken of 11", leafdrum_last(with(3, 2, 11, 11, 39), 2, AREAS).number, 0);
    same("12 nodes taken of 11", leafdrum_last(with(3, 2, 11, 12, 39), 2, AREAS).number, 3);
    same("40 levels taken of 39", leafdrum_last(with(3, 2, 11, 11, 40), 2, AREAS).number, 3);
    same("no level taken", leafdrum_last(with(3, 2, 11, 0, 0), 2, AREAS).number, 3);
    for (uint32_t viewers = 0; viewers < 40; viewers++) {
        same("levels beside viewers", leafdrum_level_count(with_viewers(viewers, with(3, 2, 11, 0, 0))), viewers <= 3 ? 39 : 0);
        same("number of viewers", leafdrum_open(with_viewers(viewers, with(3, 2, 11, 0, 0)), nodes, 0, levels, 0, workers, 0).number, viewers <= 3 ? 2 : 1);
    }
    for (uint32_t width = 0; width < 40; width++) {
        int taken = width == 2 || width == 3 || width == 4 || width == 6;
        same("a width taken", leafdrum_level_count(wide(3, 2, 11, 0, 0, width)) != 0, (size_t)taken);
        same("number of another width", leafdrum_open(wide(3, 2, 11, 0, 0, width), nodes, 0, levels, 0, workers, 0).number, taken ? 2 : 1);
    }
}

/* The words that an opening writes at each width: level 0, and all of each worker's; LEAFDRUM_LEVEL_WORDS and LEAFDRUM_WORKER_AREA are as many. */
static void opened(void) {
    for (int k = 0; k < WIDTHS; k++) {
        size_t written = 0;
        for (size_t j = 0; j < 100; j++) levels[j] = 5;
        for (size_t j = 0; j < 4096; j++) workers[j] = 5;
        same("number of an opening at a width", leafdrum_open(wide(3, 2, 11, 0, 0, widths[k].width), nodes, 8192, levels, 812130, workers, 4096).number, 0);
        while (written < 100 && levels[written] != 5) written++;
        same("words of level 0 written", written, widths[k].level_words);
        same("LEAFDRUM_LEVEL_WORDS", LEAFDRUM_LEVEL_WORDS(widths[k].width), written);
        for (written = 0; written < 4096 && workers[written] != 5;) written++;
        same("words of 3 workers written", written, 3 * 256);
        same("LEAFDRUM_WORKER_AREA", LEAFDRUM_WORKER_AREA(3), written);
        same("LEAFDRUM_WORKER_WORDS", 3 * LEAFDRUM_WORKER_WORDS, written);
    }
}

/* Each area macro is the least length that an opening takes: with a word less it is refused by 2. */
static void lent(leafdrum_settings s) {
    const size_t n = LEAFDRUM_NODE_AREA(s.nodes), l = LEAFDRUM_LEVEL_AREA(s.workers, s.limit, s.nodes, s.width), w = LEAFDRUM_WORKER_AREA(s.workers);
    same("open with the macros' areas", leafdrum_open(s, nodes, n, levels, l, workers, w).number, 0);
    same("open with a word less than LEAFDRUM_NODE_AREA", leafdrum_open(s, nodes, n - 1, levels, l, workers, w).number, 2);
    same("open with a word less than LEAFDRUM_LEVEL_AREA", leafdrum_open(s, nodes, n, levels, l - 1, workers, w).number, 2);
    same("open with a word less than LEAFDRUM_WORKER_AREA", leafdrum_open(s, nodes, n, levels, l, workers, w - 1).number, 2);
}

/* Every settings in range, up to the first that differs; the areas at some of them. */
static void macros(void) {
    for (int k = 0; k < WIDTHS; k++)
        for (uint32_t crew = 1; crew <= 16; crew++)
            for (uint32_t limit = 1; limit <= 8; limit++)
                for (uint32_t count = 1; count <= 4096 && !failed; count++) {
                    leafdrum_settings s = wide(crew, limit, count, 0, 0, widths[k].width);
                    size_t found = leafdrum_level_count(s);
                    same("level count", found, 1 + widths[k].last_depth * (count / limit) + crew);
                    same("LEAFDRUM_LEVEL_COUNT", LEAFDRUM_LEVEL_COUNT(crew, limit, count, s.width), found);
                    if ((count == 1 || count == 11 || count == 4096) && (crew == 1 || crew == 16)) lent(s);
                }
}

/* As constants for an array's length, and in an expression; an argument may be one too. */
enum { OF_NODES = LEAFDRUM_NODE_AREA(11), OF_LEVELS = LEAFDRUM_LEVEL_AREA(3, 2, 11, LEAFDRUM_WIDTH_3), OF_WORKERS = LEAFDRUM_WORKER_AREA(3) };

static void expressions(void) {
    const uint32_t yes = 1;
    same("LEAFDRUM_NODE_AREA as a constant", OF_NODES, NODE_WORDS);
    same("LEAFDRUM_LEVEL_AREA as a constant", OF_LEVELS, LEVEL_WORDS);
    same("LEAFDRUM_WORKER_AREA as a constant", OF_WORKERS, WORKER_WORDS);
    same("LEAFDRUM_LEVEL_WORDS in a quotient", 100 / LEAFDRUM_LEVEL_WORDS(yes ? 3 : 2), 10);
    same("LEAFDRUM_LEVEL_COUNT in a quotient", 390 / LEAFDRUM_LEVEL_COUNT(yes ? 3 : 0, yes ? 2 : 1, yes ? 11 : 1, yes ? 3 : 2), 10);
    same("LEAFDRUM_NODE_AREA in a quotient", 220 / LEAFDRUM_NODE_AREA(yes ? 11 : 1), 10);
    same("LEAFDRUM_LEVEL_AREA in a quotient", 3900 / LEAFDRUM_LEVEL_AREA(yes ? 3 : 0, yes ? 2 : 1, yes ? 11 : 1, yes ? 3 : 2), 10);
    same("LEAFDRUM_WORKER_AREA in a quotient", 7680 / LEAFDRUM_WORKER_AREA(yes ? 3 : 1), 10);
    same("LEAFDRUM_WIDTH_2", LEAFDRUM_WIDTH_2, 2);
    same("LEAFDRUM_WIDTH_3", LEAFDRUM_WIDTH_3, 3);
    same("LEAFDRUM_WIDTH_4", LEAFDRUM_WIDTH_4, 4);
    same("LEAFDRUM_WIDTH_6", LEAFDRUM_WIDTH_6, 6);
}

/* One word less in one area is refused by 2. An opening writes level 0 and the workers' words, and no node. */
static void areas(leafdrum_settings s) {
    static const uint8_t list[] = {0};
    for (int k = 0; k < 3; k++) {
        size_t n = NODE_WORDS - (k == 0), l = LEVEL_WORDS - (k == 1), w = WORKER_WORDS - (k == 2);
        same("open with a word less", leafdrum_open(s, nodes, n, levels, l, workers, w).number, 2);
        same("start with a word less", leafdrum_start(s, 0, 0, 0, nodes, n, levels, l, workers, w).number, 2);
        same("view with a word less", leafdrum_view(s, 0, 0, 0, nodes, n, levels, l, workers, w).number, 2);
        same("turn with a word less", leafdrum_turn(s, 0, nodes, n, levels, l, workers, w).number, 2);
        same("turns with a word less", leafdrum_turns(s, list, 1, 1, nodes, n, levels, l, workers, w).number, 2);
        same("last with a word less", leafdrum_last(s, 0, nodes, n, levels, l, workers, w).number, 2);
    }
    nodes[0] = levels[0] = workers[0] = 5;
    leafdrum_reply r = leafdrum_open(s, AREAS);
    same("number of an opening", r.number, 0);
    same("answer of an opening", r.answer, LEAFDRUM_NONE);
    same("nodes taken by an opening", r.settings.nodes_taken, 0);
    same("levels taken by an opening", r.settings.levels_taken, 1);
    same("first word of the nodes", nodes[0], 5);
    same("first word of the levels", levels[0], 4294967295u);
    same("first word of the workers", workers[0], 0);
}

/* A call of worker 1 for row, column up to its end. */
static leafdrum_reply call(leafdrum_settings s, uint32_t row, uint32_t column) {
    leafdrum_reply r = leafdrum_start(s, 1, row, column, AREAS);
    for (int k = 0; k < 100 && r.answer == LEAFDRUM_OPEN; k++) r = leafdrum_turn(r.settings, 1, AREAS);
    return r;
}

static void arguments(void) {
    leafdrum_reply r = leafdrum_open(with(3, 2, 11, 7, 9), AREAS);
    leafdrum_settings s = r.settings;
    same("start of worker 3 of 3", leafdrum_start(s, 3, 0, 0, AREAS).number, 4);
    same("turn of worker 3 of 3", leafdrum_turn(s, 3, AREAS).number, 4);
    same("last of worker 3 of 3", leafdrum_last(s, 3, AREAS).number, 4);
    same("start in row 4096", leafdrum_start(s, 1, 4096, 0, AREAS).number, 5);
    same("start in column 4096", leafdrum_start(s, 1, 0, 4096, AREAS).number, 5);
    same("turn of an idle worker", leafdrum_turn(s, 1, AREAS).number, 8);
    r = leafdrum_start(s, 1, 2, 3, AREAS);
    same("answer of a start", r.answer, LEAFDRUM_OPEN);
    same("pixel of worker 1", workers[256 + 1], 2 * 4096 + 3);
    same("start of an open worker", leafdrum_start(s, 1, 2, 3, AREAS).number, 7);
    /* entry 3 names no worker: a list that were read with its count and limit exchanged would be refused */
    static const uint8_t list[] = {1, 1, 0, 9};
    same("list with entry 9", leafdrum_turns(s, list, 4, 2, AREAS).number, 4);
    r = leafdrum_turns(s, list, 3, 1, AREAS);
    same("turns done with limit 1", r.turns, 1);
    r = leafdrum_turns(r.settings, list, 3, 4, AREAS);
    same("number of a list", r.number, 0);
    same("turns done with limit 4", r.turns, 2);
    same("nodes taken by a list", r.settings.nodes_taken, 1);
}

/* Worker 2 of 3 is a viewer: what its calls are refused by and what they answer. */
static void viewers(void) {
    leafdrum_settings s = leafdrum_open(with_viewers(1, with(3, 2, 11, 7, 9)), AREAS).settings;
    same("view of worker 3 of 3", leafdrum_view(s, 3, 0, 0, AREAS).number, 4);
    same("view in row 4096", leafdrum_view(s, 2, 4096, 0, AREAS).number, 5);
    same("view in column 4096", leafdrum_view(s, 2, 0, 4096, AREAS).number, 5);
    same("start of a viewer", leafdrum_start(s, 2, 0, 0, AREAS).number, 17);
    same("view of another worker", leafdrum_view(s, 1, 0, 0, AREAS).number, 17);
    leafdrum_reply r = leafdrum_view(s, 2, 2, 3, AREAS);
    same("number of a view", r.number, 0);
    same("answer of a view", r.answer, LEAFDRUM_OPEN);
    same("pixel of worker 2", workers[2 * 256 + 1], 2 * 4096 + 3);
    same("view of an open viewer", leafdrum_view(s, 2, 2, 3, AREAS).number, 7);
    r = leafdrum_turn(s, 2, AREAS);
    same("answer for a pixel that is not placed", r.answer, LEAFDRUM_ABSENT);
    same("its number", r.number, 0);
    same("its node", r.node, 0);
    same("nodes taken after it", r.settings.nodes_taken, 0);
    same("last answer after it", leafdrum_last(s, 2, AREAS).answer, LEAFDRUM_ABSENT);
    same("last answer of it by number", leafdrum_last(s, 2, AREAS).answer, 5);
    s = call(s, 0, 0).settings;
    s = call(s, 2, 3).settings;
    r = leafdrum_view(s, 2, 2, 3, AREAS);
    for (int k = 0; k < 100 && r.answer == LEAFDRUM_OPEN; k++) r = leafdrum_turn(r.settings, 2, AREAS);
    same("answer for a placed pixel", r.answer, LEAFDRUM_FOUND);
    same("its node", r.node, 1);
}

/* Three workers race for a pixel, all before their Put: of a list one exchange is done, two fail; of everything else none is told. */
static void exchanges(void) {
    static const uint8_t list[] = {0, 1, 2, 0, 1, 2, 0, 1, 2};
    leafdrum_reply r = leafdrum_open(with(3, 2, 11, 0, 0), AREAS);
    for (uint32_t i = 0; i < 3; i++) r = leafdrum_start(r.settings, i, 0, 0, AREAS);
    same("exchanges done by a start", r.exchanges_done, 0);
    same("exchanges failed of a start", r.exchanges_failed, 0);
    r = leafdrum_turns(r.settings, list, 6, 9, AREAS);
    same("exchanges done before the Puts", r.exchanges_done, 0);
    same("exchanges failed before the Puts", r.exchanges_failed, 0);
    r = leafdrum_turns(r.settings, list, 9, 9, AREAS);
    same("turns done by the Puts", r.turns, 3);
    same("exchanges done by the Puts", r.exchanges_done, 1);
    same("exchanges failed by the Puts", r.exchanges_failed, 2);
    same("nodes taken after the race", r.settings.nodes_taken, 3);
}

/* Each constant against the answer that document 01 gives the call. */
static void answers(void) {
    leafdrum_settings s = leafdrum_open(with(3, 2, 4, 0, 0), AREAS).settings;
    same("last answer before the first end", leafdrum_last(s, 1, AREAS).answer, LEAFDRUM_NONE);
    leafdrum_reply r = leafdrum_start(s, 1, 0, 0, AREAS);
    same("answer of a start", r.answer, LEAFDRUM_OPEN);
    same("answer of a first turn", leafdrum_turn(r.settings, 1, AREAS).answer, LEAFDRUM_OPEN);
    same("last answer amid a call", leafdrum_last(s, 1, AREAS).answer, LEAFDRUM_OPEN);

    s = leafdrum_open(with(3, 2, 4, 0, 0), AREAS).settings;
    for (uint32_t k = 0; k < 4; k++) {
        r = call(s, 512 * k, 0);
        same("answer of a first call", r.answer, LEAFDRUM_NEW);
        same("its node", r.node, k);
        same("its number", r.number, 0);
        same("its turns", r.turns, 0);
        same("its exchanges done", r.exchanges_done, 0);
        same("its exchanges failed", r.exchanges_failed, 0);
        same("nodes taken after it", r.settings.nodes_taken, k + 1);
        same("levels taken after it", r.settings.levels_taken, 1);
        s = r.settings;
    }
    r = call(s, 3 * 512, 0);
    same("answer of a second call", r.answer, LEAFDRUM_FOUND);
    same("its node", r.node, 3);
    same("its number", r.number, 0);
    r = leafdrum_last(s, 1, AREAS);
    same("last answer after it", r.answer, LEAFDRUM_FOUND);
    same("its node", r.node, 3);
    r = call(s, 4 * 512, 0);
    same("answer of a call with every node taken", r.answer, LEAFDRUM_FULL);
    same("its number", r.number, 9);
    same("its node", r.node, 0);
}

/* A "next" has these numbers and leaves this place. */
static void next_is(const char *what, leafdrum_settings s, leafdrum_listing *listing, uint32_t number, uint32_t answer, uint32_t pixel, uint32_t place) {
    leafdrum_given g = leafdrum_next(s, listing, nodes, NODE_WORDS, levels, LEVEL_WORDS);
    about = what;
    same("number of a next", g.number, number);
    same("answer of a next", g.answer, answer);
    same("pixel of a next", g.pixel, pixel);
    same("place after a next", listing->place, place);
    about = NULL;
}

/* A whole listing, what is placed while it goes on, and its refusals. The record stands between two words that stay. */
static void listings(void) {
    struct { uint32_t before; leafdrum_listing listing; uint32_t after; } lent = {5, {LEAFDRUM_LISTING_START}, 5};
    leafdrum_listing *const listing = &lent.listing;
    leafdrum_settings s = leafdrum_open(with(3, 2, 11, 7, 9), AREAS).settings;
    same("LEAFDRUM_LISTING_START", LEAFDRUM_LISTING_START, 0);
    same("LEAFDRUM_LISTING_END", LEAFDRUM_LISTING_END, 4096 * 4096 + 1);
    next_is("an empty table", s, listing, 0, LEAFDRUM_GIVEN_END, 0, LEAFDRUM_LISTING_END);
    s = call(s, 4095, 4095).settings;
    next_is("after the end", s, listing, 0, 2, 0, 4096 * 4096 + 1);
    s = call(s, 2, 3).settings;
    listing->place = LEAFDRUM_LISTING_START;
    next_is("the first pixel", s, listing, 0, LEAFDRUM_GIVEN_PIXEL, 2 * 4096 + 3, 2 * 4096 + 4);
    s = call(s, 2, 2).settings; /* not above the place */
    s = call(s, 512, 7).settings;
    next_is("a pixel placed meanwhile", s, listing, 0, 1, 512 * 4096 + 7, 512 * 4096 + 8);
    next_is("the greatest pixel", s, listing, 0, LEAFDRUM_GIVEN_PIXEL, 4096 * 4096 - 1, 4096 * 4096);
    next_is("the end", s, listing, 0, LEAFDRUM_GIVEN_END, 0, LEAFDRUM_LISTING_END);
    listing->place = LEAFDRUM_LISTING_END + 1;
    next_is("a place above the end", s, listing, 11, LEAFDRUM_GIVEN_REFUSED, 0, LEAFDRUM_LISTING_END + 1);
    same("next with a word less of nodes", leafdrum_next(s, listing, nodes, NODE_WORDS - 1, levels, LEVEL_WORDS).number, 2);
    same("next with a word less of levels", leafdrum_next(s, listing, nodes, NODE_WORDS, levels, LEVEL_WORDS - 1).number, 2);
    same("next with width 5", leafdrum_next(wide(3, 2, 11, 0, 1, 5), listing, nodes, NODE_WORDS, levels, LEVEL_WORDS).number, 1);
    same("next with no level taken", leafdrum_next(with(3, 2, 11, 0, 0), listing, nodes, NODE_WORDS, levels, LEVEL_WORDS).number, 3);
    listing->place = 3;
    levels[9] = 4294967295u; /* the root's last entry */
    next_is("a reference to nothing taken", s, listing, 6, LEAFDRUM_GIVEN_REFUSED, 0, 3);
    same("the word before the record", lent.before, 5);
    same("the word behind the record", lent.after, 5);
}

/* A count has these numbers. */
static void count_is(const char *what, leafdrum_settings s, size_t node_words, size_t level_words, uint32_t number, uint32_t count) {
    leafdrum_count c = leafdrum_flagged(s, nodes, node_words, levels, level_words);
    about = what;
    same("number of a count", c.number, number);
    same("count", c.count, count);
    about = NULL;
}

/* Document 01's race: worker 1 holds a spare node, so that two nodes are taken for one pixel. Then two pixels more, and the refusals, each with a count of 0. */
static void counts(void) {
    static const uint8_t race[] = {0, 1, 0, 1, 0, 1};
    leafdrum_settings s = leafdrum_open(with(3, 2, 11, 7, 9), AREAS).settings;
    count_is("an empty table", s, NODE_WORDS, LEVEL_WORDS, 0, 0);
    for (uint32_t i = 0; i < 2; i++) s = leafdrum_start(s, i, 0, 0, AREAS).settings;
    s = leafdrum_turns(s, race, 4, 4, AREAS).settings;
    count_is("two nodes in hand", s, NODE_WORDS, LEVEL_WORDS, 0, 0);
    s = leafdrum_turns(s, race, 6, 6, AREAS).settings;
    same("nodes taken by the race", s.nodes_taken, 2);
    count_is("after the race", s, NODE_WORDS, LEVEL_WORDS, 0, 1);
    s = call(s, 512, 7).settings;
    s = call(s, 4095, 4095).settings;
    same("nodes taken then", s.nodes_taken, 3);
    count_is("three pixels", s, NODE_WORDS, LEVEL_WORDS, 0, 3);
    count_is("a word less of nodes", s, NODE_WORDS - 1, LEVEL_WORDS, 2, 0);
    count_is("a word less of levels", s, NODE_WORDS, LEVEL_WORDS - 1, 2, 0);
    count_is("width 5", wide(3, 2, 11, 3, 1, 5), NODE_WORDS, LEVEL_WORDS, 1, 0);
    count_is("no level taken", with(3, 2, 11, 3, 0), NODE_WORDS, LEVEL_WORDS, 3, 0);
    count_is("older settings", with(3, 2, 11, 2, 1), NODE_WORDS, LEVEL_WORDS, 6, 0);
    nodes[2] = nodes[0], nodes[4] = 4294967295u; /* one pixel twice, and no pixel */
    count_is("three nodes", s, NODE_WORDS, LEVEL_WORDS, 0, 3);
}

/* Each refusal's constant against a refusal that it names. */
static void refusals(void) {
    leafdrum_settings s = leafdrum_open(with_viewers(1, with(3, 2, 1, 0, 0)), AREAS).settings;
    same("refusal of width 5", leafdrum_open(wide(3, 2, 11, 0, 0, 5), AREAS).number, LEAFDRUM_REFUSED_SETTINGS);
    same("refusal of an area without words", leafdrum_open(s, nodes, 0, levels, LEVEL_WORDS, workers, WORKER_WORDS).number, LEAFDRUM_REFUSED_AREA);
    same("refusal of no level taken", leafdrum_last(with(3, 2, 11, 0, 0), 0, AREAS).number, LEAFDRUM_REFUSED_COUNTS);
    same("refusal of worker 3 of 3", leafdrum_turn(s, 3, AREAS).number, LEAFDRUM_REFUSED_WORKER);
    same("refusal of row 4096", leafdrum_start(s, 1, 4096, 0, AREAS).number, LEAFDRUM_REFUSED_PIXEL);
    same("refusal of a viewer's placing call", leafdrum_start(s, 2, 0, 0, AREAS).number, LEAFDRUM_REFUSED_SORT);
    same("refusal of an idle worker's turn", leafdrum_turn(s, 1, AREAS).number, LEAFDRUM_REFUSED_IDLE);
    s = call(s, 0, 0).settings;
    same("refusal of a second node of one", call(s, 512, 0).number, LEAFDRUM_REFUSED_FULL);
    leafdrum_start(s, 1, 0, 0, AREAS);
    same("refusal of an open worker's start", leafdrum_start(s, 1, 0, 0, AREAS).number, LEAFDRUM_REFUSED_BUSY);
    workers[256] = 23; /* no kind of turn */
    same("refusal of a spoiled record", leafdrum_turn(s, 1, AREAS).number, LEAFDRUM_REFUSED_MEMORY);
    leafdrum_listing past = {LEAFDRUM_LISTING_END + 1};
    same("refusal of a place above the end", leafdrum_next(s, &past, nodes, NODE_WORDS, levels, LEVEL_WORDS).number, LEAFDRUM_REFUSED_PLACE);
}

int main(void) {
    structs();
    if (failed) return 1; /* nothing can be handed over in other structs */
    fields();
    opened();
    macros();
    expressions();
    areas(with(3, 2, 11, 7, 9));
    arguments();
    viewers();
    exchanges();
    answers();
    listings();
    counts();
    refusals();
    return failed;
}
