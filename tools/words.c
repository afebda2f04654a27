/* Carries out a text as the text program reads it, through the library, and writes the words of the table after each line: what draw.py and trace.py read.
   A refused line has a state too, with its number; nothing is written where line 1 is refused. */
#include "../include/leafdrum.h"
#include <stdio.h>
#include <string.h>

/* what the text program lends, at its width */
enum { WORKERS = 16, NODES = 128, WIDTH = LEAFDRUM_WIDTH_3, LEVEL_WORDS = LEAFDRUM_LEVEL_WORDS(WIDTH) };
static uint32_t nodes[LEAFDRUM_NODE_AREA(NODES)], levels[LEAFDRUM_LEVEL_AREA(WORKERS, 1, NODES, WIDTH)], workers[LEAFDRUM_WORKER_AREA(WORKERS)];
#define AREAS nodes, sizeof nodes / 4, levels, sizeof levels / 4, workers, sizeof workers / 4
static unsigned char text[65537];

static void state(leafdrum_settings s) {
    printf("settings %u %u %u %u %u %u %u\n", s.workers, s.limit, s.nodes, s.nodes_taken, s.levels_taken, s.viewers, s.width);
    for (uint32_t i = 0; i < s.nodes_taken; i++) printf("node %u %u %u\n", i, nodes[2 * i], nodes[2 * i + 1]);
    for (uint32_t g = 0; g < s.levels_taken; g++) {
        printf("level %u", g);
        for (int k = 0; k < LEVEL_WORDS; k++) printf(" %u", levels[LEVEL_WORDS * g + k]);
        puts("");
    }
    for (uint32_t i = 0; i < s.workers; i++) {
        const uint32_t *w = workers + LEAFDRUM_WORKER_WORDS * i;
        printf("worker %u", i);
        for (uint32_t k = 0; k < 16 + 11 * w[9] && k < LEAFDRUM_WORKER_WORDS; k++) printf(" %u", w[k]);
        puts("");
    }
}

/* A field is a number of 1 to 4 digits without a leading zero except 0. */
static int number(const unsigned char *p, size_t n, uint32_t *v) {
    if (n < 1 || n > 4 || (n > 1 && p[0] == '0')) return 0;
    *v = 0;
    for (size_t k = 0; k < n; k++) {
        if (p[k] < '0' || p[k] > '9') return 0;
        *v = *v * 10 + (p[k] - '0');
    }
    return 1;
}

/* The line is the letter and `count` numbers, parted by commas. */
static int reads(const unsigned char *p, size_t n, char letter, int count, uint32_t *v) {
    if (n < 1 || p[0] != letter) return 0;
    size_t at = 1;
    for (int k = 0; k < count; k++) {
        if (at >= n || p[at] != ',') return 0;
        size_t end = ++at;
        while (end < n && p[end] != ',') end++;
        if (!number(p + at, end - at, &v[k])) return 0;
        at = end;
    }
    return at == n;
}

static leafdrum_reply carry(leafdrum_settings s, int first, const unsigned char *p, size_t n) {
    uint32_t v[4] = {0};
    leafdrum_reply unread = {.number = 10, .settings = s};
    if (first) {
        /* without a fifth field there are no viewers */
        if (!reads(p, n, 's', 4, v) && (v[3] = 0, !reads(p, n, 's', 3, v))) return unread;
        unread.number = 1;
        return v[2] > NODES ? unread : leafdrum_open((leafdrum_settings){v[0], v[1], v[2], 0, 1, v[3], WIDTH}, AREAS);
    }
    if (reads(p, n, 'c', 3, v)) return leafdrum_start(s, v[0], v[1], v[2], AREAS);
    if (reads(p, n, 'v', 3, v)) return leafdrum_view(s, v[0], v[1], v[2], AREAS);
    if (reads(p, n, 't', 1, v)) return leafdrum_turn(s, v[0], AREAS);
    return unread;
}

int main(void) {
    leafdrum_settings s = {0};
    size_t length = fread(text, 1, sizeof text, stdin), at = 0;
    if (length > 65536) return 0;
    for (int first = 1; at < length; first = 0) {
        const unsigned char *end = memchr(text + at, '\n', length - at);
        size_t n = end ? (size_t)(end - (text + at)) : length - at;
        leafdrum_reply r = end ? carry(s, first, text + at, n) : (leafdrum_reply){.number = 10, .settings = s};
        if (first && r.number != 0) return 0;
        s = r.settings;
        printf("line ");
        for (size_t k = 0; k < n; k++) putchar(text[at + k] >= 32 && text[at + k] < 127 ? text[at + k] : '?');
        printf("\nreply %u %u %u\n", r.number, r.answer, r.node);
        state(s);
        puts("end");
        at += n + 1;
    }
    return 0;
}
