/* The same table written by hand in C, with the same refusals and the same record, for comparing speed and for trying wrong versions (tests/shortcuts.py).
   Relies on include/leafdrum.h for the types. Its functions have the prefix HAND. */
#include "../include/leafdrum.h"
#include <string.h>

#ifndef HAND
#define HAND(name) by_hand_##name
#endif

enum { MAXPIX = 16777215, RECORD = 256 };
enum kind { IDLE, LOOK, TAKE, PUT, READ, TAIL, TAKETAIL, APPEND, LEVEL, CLOSE, FOLLOW, CHAINHEAD, CHAINNEXT, SETNEXT, SETLOOK, SETPUT, SETREAD, SETTAIL, SETAPPEND, SETLEVEL, SETCLOSE, SETFOLLOW, MOVEEND };
/* the six kinds that exchange a word, one bit each */
enum { EXCHANGES = 1 << PUT | 1 << APPEND | 1 << CLOSE | 1 << SETPUT | 1 << SETAPPEND | 1 << SETCLOSE };
enum { W_KIND, W_PIXEL, W_LEVEL, W_NODE, W_COUNT, W_HNODE, W_HLEVEL, W_ANSWER, W_ANODE, W_MOVES };
/* of a viewer: the kinds of its call and its last answers, one bit each */
enum { VIEWS = 1 << LOOK | 1 << READ | 1 << TAIL | 1 << FOLLOW, TOLD = 1 << LEAFDRUM_NONE | 1 << LEAFDRUM_FOUND | 1 << LEAFDRUM_ABSENT };

typedef leafdrum_settings S;
typedef leafdrum_reply R;

/* What the settings give, found once a call or list: the last depth (24 / width - 1; 0 of what is no width), the words of a level, how many levels there are. */
typedef struct { uint32_t width, last, words, levels; } D;

static inline int dims(const S *s, D *d) {
    static const uint8_t last[] = {[2] = 11, [3] = 7, [4] = 5, [6] = 3};
    d->width = s->width;
    d->last = s->width < sizeof last ? last[s->width] : 0;
    if (d->last == 0 || s->workers - 1 > 15 || s->limit - 1 > 7 || s->nodes - 1 > 4095 || s->viewers > s->workers) return 0;
    d->words = 2 + (1u << d->width);
    d->levels = 1 + d->last * (s->nodes / s->limit) + s->workers;
    return 1;
}

uint32_t HAND(level_count)(S s) {
    D d;
    return dims(&s, &d) ? d.levels : 0;
}

static inline uint32_t sizes(const S *s, D *d, size_t nl, size_t ll, size_t wl) {
    if (!dims(s, d)) return 1;
    if (nl < 2 * (size_t)s->nodes || ll < (size_t)d->words * d->levels || wl < RECORD * (size_t)s->workers) return 2;
    return 0;
}

static inline uint32_t counts(const S *s, D *d, size_t nl, size_t ll, size_t wl) {
    uint32_t q = sizes(s, d, nl, ll, wl);
    if (q) return q;
    if (s->nodes_taken > s->nodes || s->levels_taken - 1 >= d->levels) return 3;
    return 0;
}

static R reply(uint32_t number, uint32_t answer, uint32_t node, S s) {
    R r = {number, answer, node, 0, 0, 0, s};
    return r;
}

/* the last workers are viewers */
static inline int viewer(const S *s, uint32_t i) { return i >= s->workers - s->viewers; }

static inline int fits(const S *s, const D *d, const uint32_t *w, int views) {
    uint32_t k = w[W_KIND];
    if (k == IDLE) return views ? w[W_ANSWER] <= 5 && TOLD >> w[W_ANSWER] & 1 : w[W_ANSWER] <= 3;
    if (k > MOVEEND || w[W_PIXEL] > MAXPIX || (views && !(VIEWS >> k & 1))) return 0;
    if (((k >= TAIL && k <= FOLLOW) || (k >= SETTAIL && k <= SETFOLLOW)) && w[W_COUNT] - 1 > s->limit) return 0;
    if (k <= FOLLOW) return w[W_MOVES] == 0;
    uint32_t m = w[W_MOVES];
    if (m - 1 >= d->last) return 0;
    for (uint32_t j = 0; j + 1 < m; j++)
        if (w[18 + 11 * j] - 1 >= s->limit) return 0;
    uint32_t c = w[18 + 11 * (m - 1)];
    return k == CHAINHEAD || k == MOVEEND ? c == 0 : c - 1 < s->limit;
}

R HAND(open)(S s, LEAFDRUM_AREAS) {
    D d;
    uint32_t q = sizes(&s, &d, node_words, level_words, worker_words);
    (void)nodes;
    if (q) return reply(q, 0, 0, s);
    s.nodes_taken = 0;
    s.levels_taken = 1;
    levels[0] = UINT32_MAX;
    memset(levels + 1, 0, (d.words - 1) * sizeof *levels);
    memset(workers, 0, RECORD * (size_t)s.workers * sizeof *workers);
    return reply(0, 0, 0, s);
}

/* a call that places or one that looks */
static inline R begin(S s, int looks, uint32_t i, uint32_t row, uint32_t column, LEAFDRUM_AREAS) {
    D d;
    uint32_t q = counts(&s, &d, node_words, level_words, worker_words);
    (void)nodes, (void)levels;
    if (q) return reply(q, 0, 0, s);
    if (i >= s.workers) return reply(4, 0, 0, s);
    if (row > 4095 || column > 4095) return reply(5, 0, 0, s);
    if (viewer(&s, i) != looks) return reply(17, 0, 0, s);
    uint32_t *w = workers + RECORD * i;
    if (!fits(&s, &d, w, looks)) return reply(6, 0, 0, s);
    if (w[W_KIND] != IDLE) return reply(7, 0, 0, s);
    w[W_KIND] = LOOK;
    w[W_PIXEL] = row * 4096 + column;
    w[W_LEVEL] = 0;
    w[W_MOVES] = 0;
    return reply(0, 4, 0, s);
}

#define PASSED nodes, node_words, levels, level_words, workers, worker_words
R HAND(start)(S s, uint32_t i, uint32_t row, uint32_t column, LEAFDRUM_AREAS) { return begin(s, 0, i, row, column, PASSED); }
R HAND(view)(S s, uint32_t i, uint32_t row, uint32_t column, LEAFDRUM_AREAS) { return begin(s, 1, i, row, column, PASSED); }

R HAND(last)(S s, uint32_t i, LEAFDRUM_AREAS) {
    D d;
    uint32_t q = counts(&s, &d, node_words, level_words, worker_words);
    (void)nodes, (void)levels;
    if (q) return reply(q, 0, 0, s);
    if (i >= s.workers) return reply(4, 0, 0, s);
    uint32_t *w = workers + RECORD * i;
    if (!fits(&s, &d, w, viewer(&s, i))) return reply(6, 0, 0, s);
    if (w[W_KIND] != IDLE) return reply(0, 4, 0, s);
    return reply(0, w[W_ANSWER], w[W_ANSWER] == 1 || w[W_ANSWER] == 2 ? w[W_ANODE] : 0, s);
}

#define SIX return 6
#define NEED(c) do { if (!(c)) SIX; } while (0)

static inline int taken(const S *s, uint32_t r) { return r & 1 ? r >> 1 < s->nodes_taken : r >> 1 < s->levels_taken; }

/* level g; the word of pixel p's entry in it, where its depth is one */
static inline uint32_t *level(const D *d, uint32_t *levels, uint32_t g) { return levels + d->words * g; }
static inline uint32_t *entry(const D *d, uint32_t *level, uint32_t p) { return level + 2 + (p >> d->width * (d->last - level[1]) & ((1u << d->width) - 1)); }

/* "exchange x from a to b": gives the word that x held, which is a where it was done */
static inline uint32_t exchange(uint32_t *x, uint32_t a, uint32_t b) {
    uint32_t word = *x;
    if (word == a) *x = b;
    return word;
}

static int back(const S *s, const D *d, uint32_t *levels, uint32_t t, uint32_t g, uint32_t *child) {
    for (uint32_t n = 0; n < d->last; n++) {
        uint32_t p = level(d, levels, t)[0];
        if (p == g) { *child = t; return 1; }
        if (p >= s->levels_taken) return 0;
        t = p;
    }
    return 0;
}

static inline uint32_t *mv(uint32_t *w) { return w + 16 + 11 * (w[W_MOVES] - 1); }
static inline uint32_t last_node(const uint32_t *m) { return m[3 + m[2] - 1]; }

static inline void set_last(uint32_t *w, const uint32_t *m) {
    if (m[2] == 0) w[W_KIND] = MOVEEND;
    else w[W_KIND] = SETNEXT, w[W_LEVEL] = m[1];
}

/* one turn of an open worker whose record fits: 0, 6 or 9; tells whether it had an exchange that failed */
static uint32_t act(S *s, const D *d, uint32_t *w, int views, uint32_t *nodes, uint32_t *levels, uint32_t *answer, uint32_t *node, uint32_t *failed) {
    uint32_t k = w[W_KIND], h = w[W_LEVEL], *at, *x, word, n, g, *m;
    *answer = 4;
    *node = 0;
    *failed = 0;
    switch (k) {
    case LOOK:
        NEED(h < s->levels_taken && (at = level(d, levels, h))[1] <= d->last);
        word = *entry(d, at, w[W_PIXEL]);
        NEED(taken(s, word));
        if (word != 2 * h) w[W_KIND] = READ;
        else if (views) goto absent;
        else w[W_KIND] = TAKE;
        return 0;
    absent: /* where another worker would go on to take a node or a level */
        w[W_KIND] = IDLE, w[W_ANSWER] = 5, w[W_ANODE] = 0;
        *answer = 5;
        return 0;
    case TAKE:
    case TAKETAIL:
        NEED(h < s->levels_taken && w[W_HNODE] <= s->nodes_taken);
        if (w[W_HNODE]) n = w[W_HNODE] - 1;
        else if (s->nodes_taken < s->nodes) n = s->nodes_taken++;
        else {
            w[W_KIND] = IDLE, w[W_ANSWER] = 3, w[W_ANODE] = 0;
            *answer = 3;
            return 9;
        }
        nodes[2 * n] = w[W_PIXEL];
        nodes[2 * n + 1] = 2 * h;
        w[W_HNODE] = n + 1;
        w[W_KIND] = k == TAKE ? PUT : APPEND;
        return 0;
    case PUT:
        NEED(h < s->levels_taken && (at = level(d, levels, h))[1] <= d->last && w[W_HNODE] - 1 < s->nodes_taken);
        x = entry(d, at, w[W_PIXEL]);
        goto place;
    case APPEND:
        NEED(h < s->levels_taken && w[W_NODE] < s->nodes_taken && w[W_HNODE] - 1 < s->nodes_taken);
        x = nodes + 2 * w[W_NODE] + 1;
    place:
        n = w[W_HNODE] - 1;
        word = exchange(x, 2 * h, 2 * n + 1);
        if (word != 2 * h) goto met;
        w[W_KIND] = IDLE, w[W_ANSWER] = 1, w[W_ANODE] = n, w[W_HNODE] = 0;
        *answer = 1, *node = n;
        return 0;
    case READ:
        NEED(h < s->levels_taken && (at = level(d, levels, h))[1] <= d->last);
        word = *entry(d, at, w[W_PIXEL]);
        goto met;
    case FOLLOW:
        NEED(h < s->levels_taken && w[W_NODE] < s->nodes_taken);
        word = nodes[2 * w[W_NODE] + 1];
    met: /* the word read, or met by a failed exchange: what is in hand stays held, and is spare from here on */
        *failed = EXCHANGES >> k & 1;
        NEED(taken(s, word));
        if (word & 1) {
            n = word >> 1;
            NEED(nodes[2 * n] <= MAXPIX);
            if (nodes[2 * n] == w[W_PIXEL]) {
                w[W_KIND] = IDLE, w[W_ANSWER] = 2, w[W_ANODE] = n;
                *answer = 2, *node = n;
            } else {
                w[W_NODE] = n, w[W_KIND] = TAIL;
                w[W_COUNT] = k == READ || k == PUT ? 1 : w[W_COUNT] > s->limit ? s->limit + 1 : w[W_COUNT] + 1;
            }
        } else {
            g = word >> 1;
            if (k != READ && k != PUT) NEED(back(s, d, levels, g, h, &g));
            w[W_LEVEL] = g, w[W_KIND] = LOOK;
        }
        return 0;
    case TAIL:
    case SETTAIL:
        NEED(h < s->levels_taken && w[W_NODE] < s->nodes_taken);
        word = nodes[2 * w[W_NODE] + 1];
        NEED(taken(s, word));
        if (word != 2 * h || w[W_COUNT] > s->limit) w[W_KIND] = k == TAIL ? FOLLOW : SETFOLLOW;
        else if (views) goto absent;
        else if (w[W_COUNT] < s->limit) w[W_KIND] = k == TAIL ? TAKETAIL : SETAPPEND;
        else w[W_KIND] = k == TAIL ? LEVEL : SETLEVEL;
        return 0;
    case LEVEL:
    case SETLEVEL:
        NEED(h < s->levels_taken && w[W_HLEVEL] <= s->levels_taken && (at = level(d, levels, h))[1] < d->last);
        if (w[W_HLEVEL]) g = w[W_HLEVEL] - 1;
        else {
            NEED(s->levels_taken < d->levels);
            g = s->levels_taken++;
        }
        x = level(d, levels, g);
        x[1] = at[1] + 1;
        x[0] = h;
        for (uint32_t e = 2; e < d->words; e++) x[e] = 2 * g;
        w[W_HLEVEL] = g + 1;
        w[W_KIND] = k == LEVEL ? CLOSE : SETCLOSE;
        return 0;
    case CLOSE:
    case SETCLOSE:
        NEED(h < s->levels_taken && w[W_NODE] < s->nodes_taken && w[W_HLEVEL] - 1 < s->levels_taken);
        x = nodes + 2 * w[W_NODE] + 1;
        /* without room for a Move it is only read: it may fail, but not be done */
        word = w[W_MOVES] < d->last ? exchange(x, 2 * h, 2 * (w[W_HLEVEL] - 1)) : *x;
        if (word != 2 * h) {
            if (k == CLOSE) goto met;
            goto set_met;
        }
        NEED(w[W_MOVES] < d->last);
        w[W_MOVES]++;
        m = mv(w);
        m[0] = h, m[1] = w[W_HLEVEL] - 1;
        memset(m + 2, 0, 9 * sizeof *m);
        w[W_HLEVEL] = 0, w[W_KIND] = CHAINHEAD;
        return 0;
    case CHAINHEAD:
    case MOVEEND:
        m = mv(w);
        word = w[W_PIXEL];
        if (w[W_MOVES] > 1) {
            n = last_node(m - 11);
            NEED(n < s->nodes_taken && nodes[2 * n] <= MAXPIX);
            word = nodes[2 * n];
        }
        NEED(m[0] < s->levels_taken && (at = level(d, levels, m[0]))[1] <= d->last);
        x = entry(d, at, word);
        if (k == MOVEEND) {
            NEED(m[1] < s->levels_taken);
            *x = 2 * m[1];
            w[W_LEVEL] = m[1];
            w[W_KIND] = --w[W_MOVES] ? SETNEXT : LOOK;
            return 0;
        }
        word = *x;
        goto chain;
    case CHAINNEXT:
        m = mv(w);
        n = last_node(m);
        NEED(n < s->nodes_taken);
        word = nodes[2 * n + 1];
    chain:
        NEED(taken(s, word));
        if (word & 1) {
            NEED(m[2] < s->limit);
            m[3 + m[2]++] = word >> 1;
            w[W_KIND] = CHAINNEXT;
        } else set_last(w, m);
        return 0;
    case SETNEXT:
        n = last_node(mv(w));
        NEED(n < s->nodes_taken && h < s->levels_taken);
        nodes[2 * n + 1] = 2 * h;
        w[W_KIND] = SETLOOK;
        return 0;
    case SETLOOK:
    case SETREAD:
    case SETPUT:
        m = mv(w);
        n = last_node(m);
        NEED(n < s->nodes_taken && h < s->levels_taken && (at = level(d, levels, h))[1] <= d->last && nodes[2 * n] <= MAXPIX);
        x = entry(d, at, nodes[2 * n]);
        if (k == SETPUT) goto set;
        word = *x;
        if (k == SETREAD) goto set_met;
        NEED(taken(s, word));
        w[W_KIND] = word == 2 * h ? SETPUT : SETREAD;
        return 0;
    case SETAPPEND:
        m = mv(w);
        n = last_node(m);
        NEED(n < s->nodes_taken && h < s->levels_taken && w[W_NODE] < s->nodes_taken);
        x = nodes + 2 * w[W_NODE] + 1;
    set:
        word = exchange(x, 2 * h, 2 * n + 1);
        if (word != 2 * h) goto set_met;
        m[2]--;
        set_last(w, m);
        return 0;
    case SETFOLLOW:
        NEED(h < s->levels_taken && w[W_NODE] < s->nodes_taken);
        word = nodes[2 * w[W_NODE] + 1];
    set_met:
        *failed = EXCHANGES >> k & 1;
        NEED(taken(s, word));
        if (word & 1) {
            w[W_KIND] = SETTAIL, w[W_NODE] = word >> 1;
            w[W_COUNT] = k == SETREAD || k == SETPUT ? 1 : w[W_COUNT] > s->limit ? s->limit + 1 : w[W_COUNT] + 1;
        } else {
            g = word >> 1;
            if (k != SETREAD && k != SETPUT) NEED(back(s, d, levels, g, h, &g));
            w[W_LEVEL] = g, w[W_KIND] = SETNEXT;
        }
        return 0;
    }
    return 6;
}

R HAND(turn)(S s, uint32_t i, LEAFDRUM_AREAS) {
    D d;
    uint32_t q = counts(&s, &d, node_words, level_words, worker_words), answer, node, failed;
    if (q) return reply(q, 0, 0, s);
    if (i >= s.workers) return reply(4, 0, 0, s);
    uint32_t *w = workers + RECORD * i;
    int views = viewer(&s, i);
    if (!fits(&s, &d, w, views)) return reply(6, 0, 0, s);
    if (w[W_KIND] == IDLE) return reply(8, 0, 0, s);
    q = act(&s, &d, w, views, nodes, levels, &answer, &node, &failed);
    return q == 6 ? reply(6, 0, 0, s) : reply(q, answer, node, s);
}

R HAND(turns)(S s, const uint8_t *list, size_t count, uint32_t limit, LEAFDRUM_AREAS) {
    D d;
    uint32_t q = counts(&s, &d, node_words, level_words, worker_words), answer, node, failed, done = 0, exchanges = 0, failures = 0;
    if (q) return reply(q, 0, 0, s);
    for (size_t k = 0; k < count; k++)
        if (list[k] >= s.workers) return reply(4, 0, 0, s);
    for (size_t k = 0; k < count && done < limit; k++) {
        uint32_t *w = workers + RECORD * list[k], kind = w[W_KIND];
        int views = viewer(&s, list[k]);
        q = fits(&s, &d, w, views) ? kind == IDLE ? 8 : act(&s, &d, w, views, nodes, levels, &answer, &node, &failed) : 6;
        if (q == 6) break;
        if (q == 8) continue;
        done++;
        if (EXCHANGES >> kind & 1) exchanges++, failures += failed;
    }
    R r = reply(q == 6 ? 6 : 0, 0, 0, s);
    r.turns = done, r.exchanges_done = exchanges - failures, r.exchanges_failed = failures;
    return r;
}

/* A "next": the same search from the root on, breadth first, then the least pixel that is not below the place. */
leafdrum_given HAND(next)(S s, leafdrum_listing *listing, const uint32_t *nodes, size_t node_words, const uint32_t *levels, size_t level_words) {
    D d;
    uint32_t q = counts(&s, &d, node_words, level_words, RECORD * (size_t)s.workers);
    if (q == 0 && listing->place > LEAFDRUM_LISTING_END) q = 11;
    if (q) return (leafdrum_given){q, LEAFDRUM_GIVEN_REFUSED, 0};
    enum { NODES = 4096, LEVELS = 45073 };
    uint8_t seen[NODES + LEVELS];
    uint16_t queue[NODES + LEVELS];
    memset(seen, 0, NODES + s.levels_taken);
    uint32_t tail = 0, best = MAXPIX + 1;
    seen[NODES] = 1, queue[tail++] = NODES;
    for (uint32_t k = 0; k < tail; k++) {
        uint32_t t = queue[k], n = t < NODES ? 1 : d.words - 2;
        const uint32_t *w = t < NODES ? nodes + 2 * t + 1 : levels + (size_t)d.words * (t - NODES) + 2;
        for (uint32_t e = 0; e < n; e++) {
            uint32_t i = w[e] >> 1;
            if (i >= (w[e] & 1 ? s.nodes_taken : s.levels_taken)) return (leafdrum_given){6, LEAFDRUM_GIVEN_REFUSED, 0};
            if (!(w[e] & 1)) i += NODES;
            if (!seen[i]) seen[i] = 1, queue[tail++] = i;
        }
        if (t < NODES || w[-2] == 4294967295u) continue;
        if (w[-2] >= s.levels_taken) return (leafdrum_given){6, LEAFDRUM_GIVEN_REFUSED, 0};
        uint32_t i = NODES + w[-2];
        if (!seen[i]) seen[i] = 1, queue[tail++] = i;
    }
    for (uint32_t i = 0; i < s.nodes_taken; i++)
        if (seen[i] && nodes[2 * i] >= listing->place && nodes[2 * i] < best) best = nodes[2 * i];
    listing->place = best + 1;
    if (best > MAXPIX) return (leafdrum_given){0, LEAFDRUM_GIVEN_END, 0};
    return (leafdrum_given){0, LEAFDRUM_GIVEN_PIXEL, best};
}
