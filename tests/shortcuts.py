#!/usr/bin/env python3
"""Wrong versions of bench/by_hand.c, document 01's four shortcuts first, then numbers of another digit width, viewers, listings last: tests/row.c must find each,
by the checks named with it; the file as it is must pass.
Relies on tests/row.c, whose lines it reads, and on gcc. python3 tests/shortcuts.py [SEED]"""
import os
import re
import subprocess
import sys

ROOT = os.path.dirname(os.path.dirname(os.path.abspath(__file__)))
OUT = os.path.join(ROOT, "target/tests/shortcuts")
SEED = sys.argv[1] if len(sys.argv) > 1 else "1"

# texts of by_hand.c that several versions change
PLACES = "        word = exchange(x, 2 * h, 2 * n + 1);\n        if (word != 2 * h) goto met;\n"
SETS = PLACES.replace("goto met", "goto set_met")
CLOSES = "exchange(x, 2 * h, 2 * (w[W_HLEVEL] - 1)) : *x;\n        if (word != 2 * h) {\n"
BACK = "            if (k != READ && k != PUT) NEED(back(s, d, levels, g, h, &g));\n"
SET_BACK = BACK.replace("READ", "SETREAD").replace("PUT", "SETPUT")
COUNT = "                w[W_COUNT] = k == READ || k == PUT ? 1"
SET_COUNT = "            w[W_COUNT] = k == SETREAD || k == SETPUT ? 1"
SPARE = "        if (w[W_HNODE]) n = w[W_HNODE] - 1;\n"
NEXT = "        else if (s->nodes_taken < s->nodes) n = s->nodes_taken++;\n"
SAME = "            if (nodes[2 * n] == w[W_PIXEL]) {\n"
COUNTS = "        if (EXCHANGES >> kind & 1) exchanges++, failures += failed;\n"
FOUND = "w[W_KIND] = IDLE, w[W_ANSWER] = 2, w[W_ANODE] = n;\n                *answer = 2, *node = n;"


# and those that have to do with the width
DIMS = "    d->words = 2 + (1u << d->width);\n    d->levels = 1 + d->last * (s->nodes / s->limit) + s->workers;\n"
ROOT_WORDS = "    memset(levels + 1, 0, (d.words - 1) * sizeof *levels);\n    memset(workers, 0, RECORD * (size_t)s.workers * sizeof *workers);\n"
ENTRY = "level + 2 + (p >> d->width * (d->last - level[1]) & ((1u << d->width) - 1))"
ENTRIES = "        for (uint32_t e = 2; e < d->words; e++) x[e] = 2 * g;\n"
WALK = "    for (uint32_t n = 0; n < d->last; n++) {\n"
NEW_LEVEL = "w[W_HLEVEL] <= s->levels_taken && (at = level(d, levels, h))[1] < d->last);"
ROOM = "        word = w[W_MOVES] < d->last ? "
# and with viewers
LOOKS = "        if (word != 2 * h) w[W_KIND] = READ;\n        else if (views) goto absent;\n"
TAILS = "        if (word != 2 * h || w[W_COUNT] > s->limit) w[W_KIND] = k == TAIL ? FOLLOW : SETFOLLOW;\n        else if (views) goto absent;\n"
ABSENT = "        w[W_KIND] = IDLE, w[W_ANSWER] = 5, w[W_ANODE] = 0;\n        *answer = 5;\n        return 0;\n"
ASKED = "    if (viewer(&s, i) != looks) return reply(17, 0, 0, s);\n"
PIXEL_ASKED = "    if (row > 4095 || column > 4095) return reply(5, 0, 0, s);\n"
BUSY = "    if (w[W_KIND] != IDLE) return reply(7, 0, 0, s);\n"
AT_ITS_KINDS = " || (views && !(VIEWS >> k & 1))"
LISTED = "        if (q == 8) continue;\n"
# and with listings
HANGING = "        if (t < NODES || w[-2] == 4294967295u) continue;\n"
FOLLOWED = "            if (!seen[i]) seen[i] = 1, queue[tail++] = i;\n        }\n"
LEAST = "        if (seen[i] && nodes[2 * i] >= listing->place && nodes[2 * i] < best) best = nodes[2 * i];\n"
MOVED_ON = "    listing->place = best + 1;\n"


def failing(kind, what):
    """A search's exchange of this kind that fails does this first."""
    return PLACES, PLACES.replace("goto met;", "{ if (k == %s) { %s } goto met; }" % (kind, what))


def uncompared(text, kind):
    """The exchange of this kind is done whatever it meets."""
    return text, text.replace("exchange(x, 2 * h", "exchange(x, k == %s ? *x : 2 * h" % kind).replace("if (word", "if (k != %s && word" % kind)


def unended(text):
    """A viewer's call goes on where it ends "absent"."""
    return text, text.replace("        else if (views) goto absent;\n", "")


def without(text, kind):
    """What is done of every kind but some is not done of this kind either."""
    return text, text.replace("if (", "if (k != %s && " % kind)


# A version: its name, the checks of row.c that must find it, and its edits, each a text and what takes its place.
VERSIONS = [
    ("shortcut 1, the chain's first node is set first", ["LOST"], [
        ("        } else set_last(w, m);\n",
         "        } else {\n"
         "            for (uint32_t a = 0, b = m[2]; a + 1 < b; a++) b--, word = m[3 + a], m[3 + a] = m[3 + b], m[3 + b] = word;\n"
         "            set_last(w, m);\n"
         "        }\n")]),
    ("shortcut 2 in Follow, on at the level met", ["NEW_PIXEL", "FULL_PLACED", "SIX"], [without(BACK, "FOLLOW")]),
    ("shortcut 2 after a failed Append", ["NEW_PIXEL"], [without(BACK, "APPEND")]),
    ("shortcut 2 after a failed Close", ["NEW_PIXEL"], [without(BACK, "CLOSE")]),
    # a node set too deep is reached, and missed by the next search for its pixel
    ("shortcut 2 in SetFollow, on at the level met", ["NEW_PIXEL"], [without(SET_BACK, "SETFOLLOW")]),
    ("shortcut 2 after a failed SetAppend or SetClose", ["NEW_PIXEL"], [without(SET_BACK, "SETAPPEND && k != SETCLOSE")]),
    ("shortcut 3, the entry in H is written a turn before the last node is set", ["LOST"], [
        ("        nodes[2 * n + 1] = 2 * h;\n        w[W_KIND] = SETLOOK;\n",
         "        nodes[2 * n + 1] = 2 * h;\n"
         "        m = mv(w);\n"
         "        if (m[2] == 1) *entry(d, level(d, levels, m[0]), w[W_MOVES] > 1 ? nodes[2 * last_node(m - 11)] : w[W_PIXEL]) = 2 * m[1];\n"
         "        w[W_KIND] = SETLOOK;\n")]),
    ("shortcut 3, the entry in H is written with a node still remembered", ["LOST"], [
        ("static inline void set_last(uint32_t *w, const uint32_t *m) {\n    if (m[2] == 0) w[W_KIND] = MOVEEND;\n",
         "static inline void set_last(uint32_t *w, uint32_t *m) {\n    if (m[2] <= 1) w[W_KIND] = MOVEEND, m[2] = 0;\n")]),
    ("shortcut 4, a failed node goes to whoever takes next, its holder remembers it", ["NEW_NODE", "PIXEL_WORD"], [
        ("typedef leafdrum_settings S;\n", "typedef leafdrum_settings S;\nstatic uint32_t handed;\n"),
        ("    s.nodes_taken = 0;\n", "    s.nodes_taken = handed = 0;\n"),
        (SPARE, SPARE + "        else if (handed) n = handed - 1, handed = 0;\n"),
        (PLACES, PLACES.replace("goto met;", "{ handed = n + 1; goto met; }"))]),
    ("shortcut 4, nodes taken goes down, the holder remembers the node", ["TAKEN"], [failing("PUT", "s->nodes_taken--;")]),
    # this one has a row: "nodes taken is the number of turns that took a next number" alone excludes it
    ("shortcut 4, nodes taken goes down, the holder forgets the node", ["TAKEN"], [
        failing("PUT", "if (n + 1 == s->nodes_taken) s->nodes_taken--, w[W_HNODE] = 0;")]),
    ("a turn takes two numbers", ["TAKEN"], [(NEXT, NEXT.replace("++;", "++, s->nodes_taken += s->nodes_taken < s->nodes;"))]),
    ("Put without comparing", ["LOST"], [uncompared(PLACES, "PUT")]),
    ("Append without comparing", ["LOST"], [uncompared(PLACES, "APPEND")]),
    ("Close without comparing", ["LOST"], [uncompared(CLOSES, "CLOSE")]),
    ("SetPut without comparing", ["LOST"], [uncompared(SETS, "SETPUT")]),
    ("SetAppend without comparing", ["LOST"], [uncompared(SETS, "SETAPPEND")]),
    ("SetClose without comparing", ["LOST"], [uncompared(CLOSES, "SETCLOSE")]),
    ("a closed chain refers to the level behind the new one", ["UNTAKEN"], [(CLOSES, CLOSES.replace("(w[W_HLEVEL] - 1)", "w[W_HLEVEL]"))]),
    ("a failed Put forgets its node", ["SPARE"], [failing("PUT", "w[W_HNODE] = 0;")]),
    ("a failed Append forgets its node", ["SPARE"], [failing("APPEND", "w[W_HNODE] = 0;")]),
    ("a failed Close forgets its level", ["LEVELS_HELD"], [(CLOSES, CLOSES + "            if (k == CLOSE) w[W_HLEVEL] = 0;\n")]),
    ("a failed SetClose forgets its level", ["LEVELS_HELD"], [(CLOSES, CLOSES + "            if (k == SETCLOSE) w[W_HLEVEL] = 0;\n")]),
    ("a failed Put passes over its pixel", ["NEW_PIXEL"], [(SAME, SAME.replace("(nodes", "(k != PUT && nodes"))]),
    ("a failed Append passes over its pixel", ["NEW_PIXEL"], [(SAME, SAME.replace("(nodes", "(k != APPEND && nodes"))]),
    ("a failed Append counts as Read does", ["SIX"], [(COUNT, COUNT.replace("k == PUT", "k == PUT || k == APPEND"))]),
    ("a failed SetAppend counts as SetRead does", ["SIX"], [(SET_COUNT, SET_COUNT.replace("k == SETPUT", "k == SETPUT || k == SETAPPEND"))]),
    ("a failed SetPut counts its node as set", ["LOST"], [(SETS, SETS.replace("if (", "if (k != SETPUT && "))]),
    ("a failed SetAppend counts its node as set", ["LOST"], [(SETS, SETS.replace("if (", "if (k != SETAPPEND && "))]),
    ("Follow passes over its pixel", ["NEW_PIXEL", "FULL_PLACED"], [(SAME, SAME.replace("(nodes", "(k != FOLLOW && nodes"))]),
    ("Read goes on at its own level", ["ENDLESS"], [("            w[W_LEVEL] = g, w[W_KIND] = LOOK;\n", "            w[W_LEVEL] = k == READ ? h : g, w[W_KIND] = LOOK;\n")]),
    ("placed a turn before new", ["NOT_PLACED"], [
        (PLACES, PLACES.replace("if (word != 2 * h)", "if (word == 2 * h) return 0;\n        if (word != 2 * n + 1)"))]),
    ("new 0 always", ["NEW_NODE"], [("*answer = 1, *node = n;", "*answer = 1, *node = 0;")]),
    ("found by all bits but the last three", ["FOUND_FIRST"], [(SAME, SAME.replace("n] == w[W_PIXEL]", "n] >> 3 == w[W_PIXEL] >> 3"))]),
    ("found with the node before", ["FOUND_NODE"], [(FOUND, FOUND.replace("= n;", "= w[W_NODE];"))]),
    ("found forgets the spare node", ["SPARE"], [(FOUND, FOUND + " w[W_HNODE] = 0;")]),
    ("full with a node left", ["FULL_EARLY"], [(NEXT, NEXT.replace("taken <", "taken + 1 <"))]),
    ("full keeps the answer before", ["LAST"], [("            w[W_KIND] = IDLE, w[W_ANSWER] = 3, w[W_ANODE] = 0;\n", "            w[W_KIND] = IDLE;\n")]),
    ("every call turned away", ["REFUSED"], [("    if (w[W_KIND] != IDLE) return reply(7, 0, 0, s);\n", "    return reply(7, 0, 0, s);\n")]),
    ("an idle worker is answered", ["REFUSAL"], [
        ("    if (w[W_KIND] == IDLE) return reply(8, 0, 0, s);\n", "    if (w[W_KIND] == IDLE) return reply(0, w[W_ANSWER], w[W_ANODE], s);\n")]),
    ("a list counts idle entries", ["DONE"], [("        if (q == 8) continue;\n", "        if (q == 8) { done++; continue; }\n")]),
    ("a failed exchange counts as done", ["COUNTED"], [(COUNTS, COUNTS.replace(", failures += failed", ""))]),
    ("a failed exchange counts as done too", ["COUNTED"], [("exchanges_done = exchanges - failures", "exchanges_done = exchanges")]),
    ("a Move's exchanges are not counted", ["COUNTED"], [(COUNTS, COUNTS.replace("& 1)", "& 1 && kind < CHAINHEAD)"))]),
    ("a Close inside a Move is not counted", ["COUNTED"], [(COUNTS, COUNTS.replace("& 1)", "& 1 && kind != SETCLOSE)"))]),
    ("what a Move writes counts as an exchange", ["COUNTED"], [(COUNTS, COUNTS.replace("& 1)", "& 1 || kind == SETNEXT || kind == MOVEEND)"))]),
    ("the turn at the limit is not counted", ["COUNTED"], [(COUNTS, COUNTS.replace("& 1)", "& 1 && done < limit)"))]),
    # what fails is counted here too, so that the bound alone finds it
    ("a failed Put is tried again", ["BOUND"], [failing("PUT", "*failed = 1; return 0;")]),
    ("a failed Append is tried again", ["BOUND"], [failing("APPEND", "*failed = 1; return 0;")]),
    ("a failed Close is tried again", ["BOUND"], [(CLOSES, CLOSES + "            if (k == CLOSE) { *failed = 1; return 0; }\n")]),
    ("Look takes a used entry for empty", ["BOUND", "ALONE"], [(LOOKS, LOOKS.replace("2 * h)", "2 * h && views)"))]),
    ("SetLook takes a used entry for empty", ["ALONE"], [("word == 2 * h ? SETPUT : SETREAD;", "SETPUT;")]),
    # 7 and 8, 10 and 128 at every width; a number of the last depth one too low
    ("the level count has 7 at every width", ["SIZES"], [(DIMS, DIMS.replace("d->last *", "7 *"))]),
    ("the level count has a level for each depth", ["SIZES"], [(DIMS, DIMS.replace("d->last *", "(d->last + 1) *"))]),
    ("the level count is not told, and has 7", ["SIX", "REFUSAL"], [
        (DIMS, DIMS.replace("d->last *", "7 *")), ("return dims(&s, &d) ? d.levels : 0;", "return dims(&s, &d) ? 1 + d.last * (s.nodes / s.limit) + s.workers : 0;")]),
    ("width 5 is taken", ["SIZES"], [("[4] = 5, [6] = 3", "[4] = 5, [5] = 3, [6] = 3")]),
    ("width 6 is not taken", ["SIZES"], [(", [6] = 3", "")]),
    ("widths are taken by their last three bits", ["SIZES"], [
        ("d->last = s->width < sizeof last ? last[s->width] : 0;", "d->last = s->width % 8 < sizeof last ? last[s->width % 8] : 0;")]),
    ("every opening is at width 3", ["REFUSED"], [("    s.levels_taken = 1;\n", "    s.levels_taken = 1;\n    s.width = 3;\n")]),
    ("a list gives back width 3", ["TAKEN"], [("    R r = reply(q == 6 ? 6 : 0, 0, 0, s);\n", "    s.width = 3;\n    R r = reply(q == 6 ? 6 : 0, 0, 0, s);\n")]),
    ("128 words a worker", ["REFUSAL"], [("RECORD = 256", "RECORD = 128")]),
    ("128 words a worker are cleared", ["SIX"], [(ROOT_WORDS, ROOT_WORDS.replace("RECORD *", "128 *"))]),
    ("10 words a level", ["REFUSAL"], [(DIMS, DIMS.replace("2 + (1u << d->width)", "10"))]),
    ("an entry too few a level", ["REFUSAL"], [(DIMS, DIMS.replace("2 + (1u", "1 + (1u"))]),
    ("ten words of the root are set", ["UNTAKEN"], [(ROOT_WORDS, ROOT_WORDS.replace("(d.words - 1)", "9"))]),
    ("8 entries of a new level are set", ["UNTAKEN", "LOST"], [(ENTRIES, ENTRIES.replace("e < d->words", "e < 10"))]),
    ("the last entry of a new level is not set", ["UNTAKEN"], [(ENTRIES, ENTRIES.replace("e < d->words", "e + 1 < d->words"))]),
    ("the digit is the next depth's", ["SIX"], [(ENTRY, ENTRY.replace("d->last - level[1]", "(d->last - level[1] - (level[1] < d->last))"))]),
    ("the digit is the depth's before", ["SIX"], [(ENTRY, ENTRY.replace("d->last - level[1]", "(d->last - level[1] + (level[1] > 0))"))]),
    ("the digit is by three bits a depth", ["SIX"], [(ENTRY, ENTRY.replace("d->width * (d->last - level[1])", "(level[1] < 8 ? 3 * (7 - level[1]) : 0)"))]),
    ("the digit has three bits", ["SIX"], [(ENTRY, ENTRY.replace("((1u << d->width) - 1)", "7"))]),
    ("digits from the last one on", ["BOUND"], [(ENTRY, ENTRY.replace("(d->last - level[1])", "level[1]"))]),
    ("going back ends after 7 words", ["SIX"], [(WALK, WALK.replace("d->last", "7"))]),
    ("going back ends a word early", ["SIX"], [(WALK, WALK.replace("n < d->last", "n + 1 < d->last"))]),
    ("a level at depth 7 has none below it", ["SIX"], [(NEW_LEVEL, NEW_LEVEL.replace("< d->last", "< 7"))]),
    ("a level before the last depth has none below it", ["SIX"], [(NEW_LEVEL, NEW_LEVEL.replace("< d->last", "+ 1 < d->last"))]),
    ("room for 7 Moves", ["SIX"], [(ROOM, ROOM.replace("d->last", "7")), ("NEED(w[W_MOVES] < d->last)", "NEED(w[W_MOVES] < 7)")]),
    ("room for 8 Moves", ["SIX"], [(ROOM, ROOM.replace("d->last", "8")), ("NEED(w[W_MOVES] < d->last)", "NEED(w[W_MOVES] < 8)")]),
    ("room for a Move less", ["SIX"], [(ROOM, ROOM.replace("d->last", "d->last - 1")), ("NEED(w[W_MOVES] < d->last)", "NEED(w[W_MOVES] < d->last - 1)")]),
    ("a record fits with 7 Moves", ["SIX"], [("    if (m - 1 >= d->last) return 0;\n", "    if (m - 1 >= 7) return 0;\n")]),
    ("a record fits with a Move less", ["SIX"], [("    if (m - 1 >= d->last) return 0;\n", "    if (m >= d->last) return 0;\n")]),
    # viewers: where their calls end, and with what
    ("a viewer's Look goes to Take", ["SIX"], [unended(LOOKS)]),
    ("a viewer's Tail goes to TakeTail and Level", ["SIX"], [unended(TAILS)]),
    ("a viewer places", ["LOOKED"], [unended(LOOKS), unended(TAILS), (AT_ITS_KINDS, "")]),
    ("absent a turn later", ["ABSENT_PLACED"], [
        unended(LOOKS), unended(TAILS), (AT_ITS_KINDS, ""),
        ("    case TAKETAIL:\n", "    case TAKETAIL:\n        if (views) goto absent;\n"), ("    case SETLEVEL:\n", "    case SETLEVEL:\n        if (views) goto absent;\n")]),
    ("a viewer's Look takes a used entry for empty", ["ABSENT_PLACED"], [(LOOKS, LOOKS.replace("2 * h)", "2 * h && !views)"))]),
    ("a viewer's Tail ends at any next", ["ABSENT_PLACED"], [(TAILS, TAILS.replace("word != 2 * h ||", "(word != 2 * h && !views) ||"))]),
    ("a viewer's Read passes over its pixel", ["ABSENT_PLACED"], [(SAME, SAME.replace("(nodes", "((k != READ || !views) && nodes"))]),
    ("a viewer's Follow passes over its pixel", ["ABSENT_PLACED"], [(SAME, SAME.replace("(nodes", "((k != FOLLOW || !views) && nodes"))]),
    ("shortcut 2 of a viewer, on at the level met", ["ABSENT_PLACED"], [(BACK, BACK.replace("k != PUT)", "k != PUT && !views)"))]),
    ("a viewer is told new", ["SORT"], [(FOUND, FOUND.replace("*answer = 2", "*answer = views ? 1 : 2"))]),
    ("a viewer is told full", ["SORT"], [(ABSENT, ABSENT.replace("answer = 5", "answer = 3").replace("return 0", "return 9"))]),
    ("absent in place of full", ["SORT"], [("            w[W_KIND] = IDLE, w[W_ANSWER] = 3, w[W_ANODE] = 0;\n", "            goto absent;\n")]),
    ("absent keeps the answer before", ["LAST"], [(ABSENT, ABSENT.replace(", w[W_ANSWER] = 5, w[W_ANODE] = 0", ""))]),
    ("absent is read as none", ["LAST"], [("return reply(0, w[W_ANSWER], ", "return reply(0, w[W_ANSWER] % 5, ")]),
    ("absent takes a number", ["TAKEN"], [(ABSENT, "        s->nodes_taken += s->nodes_taken < s->nodes;\n" + ABSENT)]),
    ("absent fills the next node", ["LOOKED"], [(ABSENT, "        if (s->nodes_taken < s->nodes) nodes[2 * s->nodes_taken] = w[W_PIXEL] ^ 1 << 24;\n" + ABSENT)]),
    ("absent does not fit as a last answer", ["SIX"], [(" | 1 << LEAFDRUM_ABSENT };", " };")]),
    ("a viewer's record does not fit at Follow", ["SIX"], [("1 << TAIL | 1 << FOLLOW,", "1 << TAIL,")]),
    # who they are, how many, and 17
    ("the first workers are viewers", ["REFUSED"], [("return i >= s->workers - s->viewers;", "return i < s->viewers;")]),
    ("a viewer fewer", ["REFUSED"], [("return i >= s->workers - s->viewers;", "return i > s->workers - s->viewers;")]),
    ("any number of viewers is taken", ["SIZES"], [(" || s->viewers > s->workers)", ")")]),
    ("a viewer more than workers is taken", ["SIZES"], [("s->viewers > s->workers)", "s->viewers > s->workers + 1)")]),
    ("all workers may not be viewers", ["SIZES"], [("s->viewers > s->workers)", "s->viewers >= s->workers)")]),
    ("the level count is without viewers", ["SIZES"], [(DIMS, DIMS.replace("+ s->workers;", "+ s->workers - s->viewers;"))]),
    ("every opening is without viewers", ["REFUSED"], [("    s.levels_taken = 1;\n", "    s.levels_taken = 1;\n    s.viewers = 0;\n")]),
    ("a placing call on a viewer is taken", ["REFUSAL"], [(ASKED, ASKED.replace("!= looks", "< looks"))]),
    ("a looking call on another worker is taken", ["REFUSAL"], [(ASKED, ASKED.replace("!= looks", "> looks"))]),
    ("17 before 5", ["REFUSAL"], [(PIXEL_ASKED + ASKED, ASKED + PIXEL_ASKED)]),
    ("17 after 7", ["REFUSAL"], [(ASKED, ""), (BUSY, BUSY + ASKED)]),
    ("a list passes over viewers", ["DONE"], [(LISTED, LISTED.replace("q == 8", "q == 8 || views"))]),
    ("a list ends with an absent", ["DONE"], [(LISTED, LISTED + "        if (answer == 5) { done++; break; }\n")]),
    ("an absent counts as a failed exchange", ["COUNTED"], [(COUNTS, COUNTS + "        if (answer == 5) exchanges++, failures++;\n")]),
    ("a listing follows no previous word", ["LIST_MISSES"], [(HANGING, "        if (w) continue;\n")]),
    ("a listing leaves out each last entry", ["LIST_MISSES"], [("1 : d.words - 2;", "1 : d.words - 3;")]),
    ("a listing refuses a reference met before", ["LIST_REFUSED"], [(FOLLOWED, FOLLOWED.replace("        }", "            else if (i != t) return (leafdrum_given){6, 0, 0};\n        }"))]),
    ("a listing gives spare nodes", ["LIST_GIVES"], [(LEAST, LEAST.replace("seen[i] && ", ""))]),
    ("a listing gives the first pixel found", ["LIST_MISSES"], [(LEAST, LEAST.replace("nodes[2 * i] < best", "best > MAXPIX"))]),
    ("a listing passes over the pixel behind its last", ["LIST_MISSES"], [(LEAST, LEAST.replace(">=", ">"))]),
    ("a listing begins with each next", ["LIST_RISES"], [(LEAST, LEAST.replace("nodes[2 * i] >= listing->place && ", ""))]),
    ("a listing gives its last pixel again", ["LIST_GIVES"], [(MOVED_ON, "    listing->place = best > MAXPIX ? LEAFDRUM_LISTING_END : best;\n")]),
    ("a listing begins anew at its end", ["LIST_END"], [(MOVED_ON, "    listing->place = best > MAXPIX ? 0 : best + 1;\n")]),
]


def read(path):
    with open(os.path.join(ROOT, path), encoding="utf-8") as f:
        return f.read()


class Failed(Exception):
    """A version that can not be judged, and why."""


def edited(text, edits):
    for old, new in edits:
        if text.count(old) != 1:
            raise Failed("by_hand.c has %d times %r" % (text.count(old), old))
        text = text.replace(old, new)
    return text


def built(text, level):
    """The path of row.c over this text of by_hand.c."""
    source, program = os.path.join(OUT, "table.c"), os.path.join(OUT, "table")
    with open(source, "w", encoding="utf-8") as f:
        f.write(text.replace('"../include/leafdrum.h"', '"%s/include/leafdrum.h"' % ROOT))
    if subprocess.run(["gcc", level, "-Wall", "-Wextra", "-Wno-unused", source, os.path.join(OUT, "row.o"), "-o", program]).returncode:
        raise Failed("not built")
    return program


def tried(program, tables):
    """What row printed, and in how many tables each check failed first."""
    try:
        done = subprocess.run([program, SEED, str(tables)], stdout=subprocess.PIPE, timeout=60)
    except subprocess.TimeoutExpired:
        raise Failed("row over it does not end within a minute")
    said = done.stdout.decode()
    found = {name: int(n) for name, n in re.findall(r"^row: ([a-z0-9 ]+): in (\d+) of", said, re.M)}
    if done.returncode != (1 if found else 0):
        raise Failed("row over it ends with status %d" % done.returncode)
    return said, found


def missed(name, by, text):
    """The checks named with a version that do not find it; prints what finds it."""
    program = built(text, "-O0")
    for tables in (100, 1000, 3000, 10000):
        _, found = tried(program, tables)
        missing = [c for c in by if checks[c] not in found]
        if not missing:
            break
    print("%s: %s, of %d tables" % (name, ", ".join("%s %d" % f for f in sorted(found.items(), key=lambda f: -f[1])) or "not found", tables))
    return missing


row, by_hand = read("tests/row.c"), read("bench/by_hand.c")
checks = dict(re.findall(r'^    \[([A-Z_]+)\] = "([^"]+)",$', row, re.M))
listed = re.findall(r"[A-Z_]+(?=,)", re.search(r"enum check \{.*?\}|$", row, re.S).group())
if not checks or set(checks) != set(listed):
    sys.exit("shortcuts: of row.c's %d checks these are not listed, or have no name: %s" % (len(listed), " ".join(sorted(set(checks) ^ set(listed)))))
os.makedirs(OUT, exist_ok=True)
subprocess.run(["gcc", "-std=c99", "-O2", "-Wall", "-Wextra", "-Werror", "-DTABLE=by_hand", "-c", os.path.join(ROOT, "tests/row.c"),
                "-o", os.path.join(OUT, "row.o")], check=True)
bad = ["no version is found by '%s'" % text for c, text in checks.items() if not any(c in by for _, by, _ in VERSIONS)]
for name, by, edits in [("by_hand.c", [], [])] + VERSIONS:
    try:
        if edits:
            bad += ["%s: not found by '%s'" % (name, checks[c]) for c in missed(name, by, edited(by_hand, edits))]
        else:
            said, found = tried(built(by_hand, "-O2"), 2000)
            print("by_hand.c: " + said.strip())
            bad += ["by_hand.c as it is does not pass"] if found else []
    except Failed as why:
        bad.append("%s: %s" % (name, why))
for line in bad:
    print("shortcuts: " + line)
if bad:
    sys.exit(1)
print("shortcuts: by_hand.c passes, %d wrong versions are found, each of %d checks finds one" % (len(VERSIONS), len(checks)))
