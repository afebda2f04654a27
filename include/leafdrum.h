/* The flagged-pixel table. Every function is total: any settings, any memory content. See README.md, "Embedding". */
#ifndef LEAFDRUM_H
#define LEAFDRUM_H
#include <stddef.h>
#include <stdint.h>

#ifdef __cplusplus
extern "C" {
#endif

/* Hand in the newest settings each time; every reply gives them back. */
typedef struct {
    uint32_t workers;      /* 1 to 16 */
    uint32_t limit;        /* chain limit, 1 to 8 */
    uint32_t nodes;        /* 1 to 4096 */
    uint32_t nodes_taken;  /* set by leafdrum_open, counted up by turns; it has spare nodes too and is no flagged count */
    uint32_t levels_taken; /* set by leafdrum_open, counted up by turns */
    uint32_t viewers;      /* how many of the last workers are viewers, 0 to workers */
    uint32_t width;        /* digit width in bits, one of the four below */
} leafdrum_settings;

/* The digit widths. A level has an entry for each value of a digit, 4, 8, 16 or 64, and the table at most 12, 8, 6 or 4 levels one below another: a narrow width needs
   fewer words, a wide one has fewer levels on the way to a pixel. Another width is refusal 1. */
enum { LEAFDRUM_WIDTH_2 = 2, LEAFDRUM_WIDTH_3 = 3, LEAFDRUM_WIDTH_4 = 4, LEAFDRUM_WIDTH_6 = 6 };

/* answers */
enum { LEAFDRUM_NONE = 0, LEAFDRUM_NEW = 1, LEAFDRUM_FOUND = 2, LEAFDRUM_FULL = 3, LEAFDRUM_OPEN = 4, LEAFDRUM_ABSENT = 5 };

/* refusals; README.md, "Embedding", says what each means */
enum { LEAFDRUM_REFUSED_SETTINGS = 1, LEAFDRUM_REFUSED_AREA = 2, LEAFDRUM_REFUSED_COUNTS = 3, LEAFDRUM_REFUSED_WORKER = 4, LEAFDRUM_REFUSED_PIXEL = 5,
       LEAFDRUM_REFUSED_MEMORY = 6, LEAFDRUM_REFUSED_BUSY = 7, LEAFDRUM_REFUSED_IDLE = 8, LEAFDRUM_REFUSED_FULL = 9, LEAFDRUM_REFUSED_PLACE = 11,
       LEAFDRUM_REFUSED_SORT = 17 };

typedef struct {
    uint32_t number;           /* 0: carried out; else one of the refusals above */
    uint32_t answer;           /* one of the answers above; 0 for a refusal other than "full", an opening and a list */
    uint32_t node;             /* the node of "new" and "found", else 0 */
    uint32_t turns;            /* turns done by leafdrum_turns, else 0 */
    uint32_t exchanges_done;   /* of these turns: exchanges that were done, else 0 */
    uint32_t exchanges_failed; /* of these turns: exchanges that failed, else 0 */
    leafdrum_settings settings;
} leafdrum_reply;

/* Three lent areas, each a pointer and its length in words. Words needed, as constants for an array's length where the arguments are constants; they hold
   for settings in range, and the sums fit 32 bits. Viewers are workers here as others are. Longer areas are accepted, their excess is not touched. */
#define LEAFDRUM_WORKER_WORDS 256 /* of one worker, at every width */
#define LEAFDRUM_LEVEL_WORDS(width) (2 + (1 << (width))) /* of one level */
#define LEAFDRUM_LEVEL_COUNT(workers, limit, nodes, width) (1 + (24 / (width) - 1) * ((nodes) / (limit)) + (workers)) /* as leafdrum_level_count */
#define LEAFDRUM_NODE_AREA(nodes) (2 * (nodes))
#define LEAFDRUM_LEVEL_AREA(workers, limit, nodes, width) (LEAFDRUM_LEVEL_WORDS(width) * LEAFDRUM_LEVEL_COUNT(workers, limit, nodes, width))
#define LEAFDRUM_WORKER_AREA(workers) (LEAFDRUM_WORKER_WORDS * (workers))
#define LEAFDRUM_AREAS uint32_t *nodes, size_t node_words, uint32_t *levels, size_t level_words, uint32_t *workers, size_t worker_words

/* Refusals are named in the order in which they are asked; the first that applies is given. */

/* Begins anew, whatever the areas hold. Refusals 1, 2. */
leafdrum_reply leafdrum_open(leafdrum_settings settings, LEAFDRUM_AREAS);
/* A placing call starts; it ends "new", "found" or "full". Refusals 1, 2, 3, 4, 5, 17 (the worker is a viewer), 6, 7. */
leafdrum_reply leafdrum_start(leafdrum_settings settings, uint32_t worker, uint32_t row, uint32_t column, LEAFDRUM_AREAS);
/* A viewer's call starts, which looks the pixel up and places nothing; it ends "found" or "absent". Turns are given to it as to any call. Refusals 1, 2, 3, 4, 5,
   17 (the worker is no viewer: it is below workers - viewers), 6, 7. */
leafdrum_reply leafdrum_view(leafdrum_settings settings, uint32_t worker, uint32_t row, uint32_t column, LEAFDRUM_AREAS);
/* One turn. Refusals 1, 2, 3, 4, 6, 8, 9; 9 ends the call "full", and never comes to a viewer. */
leafdrum_reply leafdrum_turn(leafdrum_settings settings, uint32_t worker, LEAFDRUM_AREAS);
/* A list of turns. Refusals 1, 2, 3, 4 of the whole list; a 6 ends it, and the turns before it stay. A list reports the exchanges of its own turns, also where a 6
   or the limit ends it. Of all turns since an opening, those of leafdrum_turn included, exchanges that failed are at most (placing workers - 1) times those that
   were done, where placing workers are workers - viewers; where these are 0, no exchange is made. */
leafdrum_reply leafdrum_turns(leafdrum_settings settings, const uint8_t *list, size_t count, uint32_t limit, LEAFDRUM_AREAS);
/* A worker's last answer: "none" before its first call has ended, "open" during a call. Refusals 1, 2, 3, 4, 6. */
leafdrum_reply leafdrum_last(leafdrum_settings settings, uint32_t worker, LEAFDRUM_AREAS);

/* Listing the flagged pixels while calls are open. The record keeps the listing's place, and leafdrum_next moves it: 0 is "start", so zeroed memory is a listing that
   begins; after a pixel it is the pixel + 1; LEAFDRUM_LISTING_END is the end. After leafdrum_open set it to "start": nothing refuses the place of an older table. */
typedef struct {
    uint32_t place;
} leafdrum_listing;
enum { LEAFDRUM_LISTING_START = 0, LEAFDRUM_LISTING_END = 16777217 };

/* what leafdrum_next gives */
enum { LEAFDRUM_GIVEN_REFUSED = 0, LEAFDRUM_GIVEN_PIXEL = 1, LEAFDRUM_GIVEN_END = 2 };
typedef struct {
    uint32_t number; /* 0: carried out; else one of the refusals above, and the record stays as it was */
    uint32_t answer; /* one of the three above */
    uint32_t pixel;  /* row * 4096 + column of a pixel, else 0 */
} leafdrum_given;

/* The smallest reachable pixel above the listing's place, or "end". It is called between two turns, amid any calls, and no turn may run while it does. While these
   functions alone change the areas, and this one alone the record: pixels that could be reached when the listing began come exactly once, rising; one that is placed
   meanwhile comes if it lies above the place then, and else not; after the end nothing comes. Only nodes and levels are read, and no word of them is changed. Hand in
   the newest settings: with older ones a reference to a node taken since gives 6. The record must not lie in an area. Over memory of any content: 6 exactly if a
   reference reached from the root names nothing taken, at the end too. Refusals 1, 2 (of these two areas), 3, 11 (the place is more than LEAFDRUM_LISTING_END), 6. It
   searches the whole table each time; built for x86-64 it uses less stack than this: */
#define LEAFDRUM_NEXT_STACK 150000 /* bytes */
leafdrum_given leafdrum_next(leafdrum_settings settings, leafdrum_listing *listing, const uint32_t *nodes, size_t node_words, const uint32_t *levels, size_t level_words);

/* what leafdrum_flagged gives */
typedef struct {
    uint32_t number; /* 0: carried out; else one of the refusals above */
    uint32_t count;  /* 0 of a refusal */
} leafdrum_count;

/* The flagged count: how many nodes can be reached from the root. Settings' nodes_taken is no such count: it has the nodes that workers hold, in hand or spare, too. It
   is called as leafdrum_next is, between two turns and amid any calls, reads nodes and levels alone, changes no word and keeps nothing. While these functions alone change
   the areas it is the number of calls that have ended "new" since the opening, and as many pixels come in a listing that begins and ends between the same two turns. Hand in the newest
   settings. Over memory of any content: 6 exactly if a reference reached from the root names nothing taken; else nodes are counted by their numbers, so that two with one pixel are two, and one
   whose pixel word is no pixel counts. Refusals 1, 2 (of these two areas), 3, 6. It searches the whole table too, and uses less stack than LEAFDRUM_NEXT_STACK. */
leafdrum_count leafdrum_flagged(leafdrum_settings settings, const uint32_t *nodes, size_t node_words, const uint32_t *levels, size_t level_words);

/* The number of levels that the level area holds; 0 for settings out of range. */
uint32_t leafdrum_level_count(leafdrum_settings settings);

#ifdef __cplusplus
}
#endif
#endif
