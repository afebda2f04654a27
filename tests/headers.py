#!/usr/bin/env python3
"""include/leafdrum.h declares what crates/export defines, and tests/header.c passes with it as C99 and as C++; with each wrong header one of these fails.
Relies on gcc, g++ and target/staticlib/libexport.a. A wrong header that does not compile by itself counts as not found. python3 tests/headers.py [-v]"""
import os
import re
import subprocess
import sys

ROOT = os.path.dirname(os.path.dirname(os.path.abspath(__file__)))
OUT = os.path.join(ROOT, "target/tests/headers")
HEADER, TEST, PROGRAM = (os.path.join(OUT, p) for p in ("include/leafdrum.h", "tests/header.c", "header"))
STRICT = ["-pedantic", "-Wall", "-Wextra", "-Werror"]
LANGUAGES = {"C": ["gcc", "-x", "c", "-std=c99"], "C++": ["g++", "-x", "c++", "-std=c++20"]}

WORKERS = "    uint32_t workers;      /* 1 to 16 */\n"
LIMIT = "    uint32_t limit;        /* chain limit, 1 to 8 */\n"
NODES = "    uint32_t nodes;        /* 1 to 4096 */\n"
NODES_TAKEN = "    uint32_t nodes_taken;  /* set by leafdrum_open, counted up by turns; it has spare nodes too and is no flagged count */\n"
LEVELS_TAKEN = "    uint32_t levels_taken; /* set by leafdrum_open, counted up by turns */\n"
VIEWERS = "    uint32_t viewers;      /* how many of the last workers are viewers, 0 to workers */\n"
WIDTH = "    uint32_t width;        /* digit width in bits, one of the four below */\n"
NUMBER = "    uint32_t number;           /* 0: carried out; else one of the refusals above */\n"
ANSWER = "    uint32_t answer;           /* one of the answers above; 0 for a refusal other than \"full\", an opening and a list */\n"
NODE = "    uint32_t node;             /* the node of \"new\" and \"found\", else 0 */\n"
TURNS = "    uint32_t turns;            /* turns done by leafdrum_turns, else 0 */\n"
DONE = "    uint32_t exchanges_done;   /* of these turns: exchanges that were done, else 0 */\n"
FAILED = "    uint32_t exchanges_failed; /* of these turns: exchanges that failed, else 0 */\n"
SETTINGS = "    leafdrum_settings settings;\n"
START = "leafdrum_start(leafdrum_settings settings, uint32_t worker, uint32_t row, uint32_t column, "
VIEW = START.replace("start", "view")
CONSTANTS = "LEAFDRUM_NONE = 0, LEAFDRUM_NEW = 1, LEAFDRUM_FOUND = 2, LEAFDRUM_FULL = 3, LEAFDRUM_OPEN = 4, LEAFDRUM_ABSENT = 5"
REFUSALS = {"SETTINGS": 1, "AREA": 2, "COUNTS": 3, "WORKER": 4, "PIXEL": 5, "MEMORY": 6, "BUSY": 7, "IDLE": 8, "FULL": 9, "PLACE": 11, "SORT": 17}
AREAS = "LEAFDRUM_AREAS uint32_t *nodes, size_t node_words, uint32_t *levels, size_t level_words, uint32_t *workers, size_t worker_words"
LIST = "const uint8_t *list, size_t count, uint32_t limit, "
WIDTHS = "LEAFDRUM_WIDTH_2 = 2, LEAFDRUM_WIDTH_3 = 3, LEAFDRUM_WIDTH_4 = 4, LEAFDRUM_WIDTH_6 = 6"
RECORD = "LEAFDRUM_WORKER_WORDS 256"
LEVEL = "LEAFDRUM_LEVEL_WORDS(width) (2 + (1 << (width)))"
COUNT = "LEAFDRUM_LEVEL_COUNT(workers, limit, nodes, width) (1 + (24 / (width) - 1) * ((nodes) / (limit)) + (workers))"
OF_NODES = "LEAFDRUM_NODE_AREA(nodes) (2 * (nodes))"
OF_LEVELS = "LEAFDRUM_LEVEL_AREA(workers, limit, nodes, width) (LEAFDRUM_LEVEL_WORDS(width) * LEAFDRUM_LEVEL_COUNT(workers, limit, nodes, width))"
OF_WORKERS = "LEAFDRUM_WORKER_AREA(workers) (LEAFDRUM_WORKER_WORDS * (workers))"

PLACE = "    uint32_t place;\n"
GIVEN_NUMBER = "    uint32_t number; /* 0: carried out; else one of the refusals above, and the record stays as it was */\n"
GIVEN_ANSWER = "    uint32_t answer; /* one of the three above */\n"
GIVEN_PIXEL = "    uint32_t pixel;  /* row * 4096 + column of a pixel, else 0 */\n"
ENDS = "LEAFDRUM_LISTING_START = 0, LEAFDRUM_LISTING_END = 16777217"
GIVEN = "LEAFDRUM_GIVEN_REFUSED = 0, LEAFDRUM_GIVEN_PIXEL = 1, LEAFDRUM_GIVEN_END = 2"
NEXT_LEVELS = "const uint32_t *levels, size_t level_words"
NEXT_NODES = "const uint32_t *nodes, size_t node_words"
NEXT = "leafdrum_next(leafdrum_settings settings, leafdrum_listing *listing, " + NEXT_NODES + ", " + NEXT_LEVELS + ")"
COUNT_NUMBER = "    uint32_t number; /* 0: carried out; else one of the refusals above */\n"
COUNT_COUNT = "    uint32_t count;  /* 0 of a refusal */\n"
FLAGGED = "leafdrum_flagged(leafdrum_settings settings, " + NEXT_NODES + ", " + NEXT_LEVELS + ")"

# A wrong header: its name and its edit. Those in NAMES differ in names of parameters alone, which no program can see.
WRONG = [
    ("settings: workers after limit", WORKERS + LIMIT, LIMIT + WORKERS),
    ("settings: limit after nodes", LIMIT + NODES, NODES + LIMIT),
    ("settings: nodes after nodes_taken", NODES + NODES_TAKEN, NODES_TAKEN + NODES),
    ("settings: nodes_taken after levels_taken", NODES_TAKEN + LEVELS_TAKEN, LEVELS_TAKEN + NODES_TAKEN),
    ("settings: levels_taken after viewers", LEVELS_TAKEN + VIEWERS, VIEWERS + LEVELS_TAKEN),
    ("settings: viewers after width", VIEWERS + WIDTH, WIDTH + VIEWERS),
    ("settings: viewers behind the workers", WORKERS + LIMIT + NODES + NODES_TAKEN + LEVELS_TAKEN + VIEWERS, WORKERS + VIEWERS + LIMIT + NODES + NODES_TAKEN + LEVELS_TAKEN),
    ("settings: viewers before what an opening sets", NODES_TAKEN + LEVELS_TAKEN + VIEWERS, VIEWERS + NODES_TAKEN + LEVELS_TAKEN),
    ("settings: no viewers, as before document 02's request 06", VIEWERS, ""),
    ("settings: viewers of 8 bits", VIEWERS, VIEWERS.replace("uint32_t", "uint8_t")),
    ("settings: viewers of 64 bits", VIEWERS, VIEWERS.replace("uint32_t", "uint64_t")),
    ("settings: viewers and width of 16 bits each", VIEWERS + WIDTH, (VIEWERS + WIDTH).replace("uint32_t", "uint16_t")),
    ("settings: width first", WORKERS + LIMIT + NODES + NODES_TAKEN + LEVELS_TAKEN + VIEWERS + WIDTH, WIDTH + WORKERS + LIMIT + NODES + NODES_TAKEN + LEVELS_TAKEN + VIEWERS),
    ("settings: width before what an opening sets", NODES_TAKEN + LEVELS_TAKEN + VIEWERS + WIDTH, WIDTH + NODES_TAKEN + LEVELS_TAKEN + VIEWERS),
    ("settings: limit and width exchanged", LIMIT + NODES + NODES_TAKEN + LEVELS_TAKEN + VIEWERS + WIDTH, WIDTH + NODES + NODES_TAKEN + LEVELS_TAKEN + VIEWERS + LIMIT),
    ("settings: no width, as before document 02's request 08", WIDTH, ""),
    ("settings: width of 8 bits", WIDTH, WIDTH.replace("uint32_t", "uint8_t")),
    ("settings: width of 64 bits", WIDTH, WIDTH.replace("uint32_t", "uint64_t")),
    ("settings: no levels_taken", LEVELS_TAKEN, ""),
    ("settings: a word more", WIDTH, WIDTH + "    uint32_t more;\n"),
    ("settings: workers of 8 bits", WORKERS, WORKERS.replace("uint32_t", "uint8_t")),
    ("settings: nodes of 64 bits", NODES, NODES.replace("uint32_t", "uint64_t")),
    ("reply: number after answer", NUMBER + ANSWER, ANSWER + NUMBER),
    ("reply: answer after node", ANSWER + NODE, NODE + ANSWER),
    ("reply: node after turns", NODE + TURNS, TURNS + NODE),
    ("reply: turns after exchanges_done", TURNS + DONE, DONE + TURNS),
    ("reply: exchanges_done after exchanges_failed", DONE + FAILED, FAILED + DONE),
    ("reply: exchanges_failed after settings", FAILED + SETTINGS, SETTINGS + FAILED),
    ("reply: no turns", TURNS, ""),
    ("reply: no exchanges_failed", FAILED, ""),
    ("reply: no exchanges, as before document 02's request 10", DONE + FAILED, ""),
    ("reply: exchanges_done of 64 bits", DONE, DONE.replace("uint32_t", "uint64_t")),
    ("reply: number of 64 bits", NUMBER, NUMBER.replace("uint32_t", "uint64_t")),
    ("reply: number of 16 bits", NUMBER, NUMBER.replace("uint32_t", "uint16_t")),
    ("constants: none and open exchanged", CONSTANTS, CONSTANTS.replace("NONE = 0", "NONE = 4").replace("OPEN = 4", "OPEN = 0")),
    ("constants: new and found exchanged", "NEW = 1, LEAFDRUM_FOUND = 2", "NEW = 2, LEAFDRUM_FOUND = 1"),
    ("constants: found and full exchanged", "FOUND = 2, LEAFDRUM_FULL = 3", "FOUND = 3, LEAFDRUM_FULL = 2"),
    ("constants: full and open exchanged", "FULL = 3, LEAFDRUM_OPEN = 4", "FULL = 4, LEAFDRUM_OPEN = 3"),
    ("constants: full is 9", "FULL = 3", "FULL = 9"),
    ("constants: full and absent exchanged", CONSTANTS, CONSTANTS.replace("FULL = 3", "FULL = 5").replace("ABSENT = 5", "ABSENT = 3")),
    ("constants: open and absent exchanged", "OPEN = 4, LEAFDRUM_ABSENT = 5", "OPEN = 5, LEAFDRUM_ABSENT = 4"),
    ("constants: absent is 17", "ABSENT = 5", "ABSENT = 17"),
    ("constants: no absent", ", LEAFDRUM_ABSENT = 5", ""),
    ("widths: 2 is 1", "WIDTH_2 = 2", "WIDTH_2 = 1"),
    ("widths: 3 and 4 exchanged", "WIDTH_3 = 3, LEAFDRUM_WIDTH_4 = 4", "WIDTH_3 = 4, LEAFDRUM_WIDTH_4 = 3"),
    ("widths: 4 is the entries of its levels", "WIDTH_4 = 4", "WIDTH_4 = 16"),
    ("widths: 6 is 5", "WIDTH_6 = 6", "WIDTH_6 = 5"),
    ("widths: numbered from 0", WIDTHS, re.sub(r" = \d", "", WIDTHS)),
    ("widths: no 6", ", LEAFDRUM_WIDTH_6 = 6", ""),
    ("words: 128 a worker", RECORD, RECORD.replace("256", "128")),
    ("words: 10 a level", LEVEL, LEVEL.replace("(2 + (1 << (width)))", "(10 + 0 * (width))")),
    ("words: a level without its depth", LEVEL, LEVEL.replace("2 +", "1 +")),
    ("words: a level has an entry for each bit", LEVEL, LEVEL.replace("1 << ", "")),
    ("levels: 7 at every width", COUNT, COUNT.replace("24 / (width) - 1", "7 + 0 * (width)")),
    ("levels: one for each depth", COUNT, COUNT.replace(" - 1", "")),
    ("levels: no root", COUNT, COUNT.replace("(1 + ", "(")),
    ("levels: none for the workers", COUNT, COUNT.replace(" + (workers)", " + 0 * (workers)")),
    ("levels: the quotient of nodes and limit is not whole", COUNT, COUNT.replace("((nodes) / (limit))", "(nodes) / (limit)")),
    ("levels: the quotient of nodes and limit is rounded up", COUNT, COUNT.replace("((nodes) / (limit))", "(((nodes) + (limit) - 1) / (limit))")),
    ("levels: workers and limit exchanged", COUNT, COUNT.replace("workers, limit, nodes", "limit, workers, nodes")),
    ("levels: asked of the library, no constant", COUNT, COUNT[:COUNT.index(" (1 +")] + " leafdrum_level_count((leafdrum_settings){workers, limit, nodes, 0, 0, 0, width})"),
    ("areas: a word a node", OF_NODES, OF_NODES.replace("2 * ", "")),
    ("areas: four words a node", OF_NODES, OF_NODES.replace("2 *", "4 *")),
    ("areas: ten words a level", OF_LEVELS, OF_LEVELS.replace("LEAFDRUM_LEVEL_WORDS(width)", "10")),
    ("areas: the levels of one worker", OF_LEVELS, OF_LEVELS.replace("COUNT(workers", "COUNT(1")),
    ("areas: the levels of chain limit 4", OF_LEVELS, OF_LEVELS.replace("COUNT(workers, limit", "COUNT(workers, 4")),
    ("areas: 128 words a worker", OF_WORKERS, OF_WORKERS.replace("LEAFDRUM_WORKER_WORDS", "128")),
    ("areas: a word more for the workers", OF_WORKERS, OF_WORKERS.replace(" * (workers)", " * (workers) + 1")),
    # an argument or a whole without its brackets
    ("brackets: width in the words of a level", LEVEL, LEVEL.replace("<< (width)", "<< width")),
    ("brackets: width in the levels", COUNT, COUNT.replace("/ (width)", "/ width")),
    ("brackets: nodes in the levels", COUNT, COUNT.replace("(nodes) /", "nodes /")),
    ("brackets: limit in the levels", COUNT, COUNT.replace("/ (limit)", "/ limit")),
    ("brackets: workers in the levels", COUNT, COUNT.replace("+ (workers)", "+ workers")),
    ("brackets: nodes in the nodes' area", OF_NODES, OF_NODES.replace("* (nodes)", "* nodes")),
    ("brackets: workers in the workers' area", OF_WORKERS, OF_WORKERS.replace("* (workers)", "* workers")),
] + [("brackets: round the whole of " + text.split("(")[0], text, re.sub(r"^(\S+\([\w, ]+\)) \((.*)\)$", r"\1 \2", text))
     for text in (LEVEL, COUNT, OF_NODES, OF_LEVELS, OF_WORKERS)] + [
    ("refusals: %s by one more" % name.lower(), "LEAFDRUM_REFUSED_%s = %d" % (name, n), "LEAFDRUM_REFUSED_%s = %d" % (name, n + 1)) for name, n in REFUSALS.items()] + [
    ("areas: no length of the levels", AREAS, AREAS.replace(", size_t level_words", "")),
    ("areas: length before its area", AREAS, AREAS.replace("uint32_t *nodes, size_t node_words", "size_t node_words, uint32_t *nodes")),
    ("areas: length of 32 bits", AREAS, AREAS.replace("size_t node_words", "uint32_t node_words")),
    ("areas: levels of 64 bits", AREAS, AREAS.replace("uint32_t *levels", "uint64_t *levels")),
    ("start: no column", START, START.replace("uint32_t column, ", "")),
    ("start: row and column of 16 bits", START, START.replace("uint32_t row, uint32_t column", "uint16_t row, uint16_t column")),
    ("view: no column", VIEW, VIEW.replace("uint32_t column, ", "")),
    ("view: row and column of 16 bits", VIEW, VIEW.replace("uint32_t row, uint32_t column", "uint16_t row, uint16_t column")),
    ("view: worker of 8 bits", VIEW, VIEW.replace("uint32_t worker", "uint8_t worker")),
    ("view: gives the answer alone", "leafdrum_reply leafdrum_view", "uint32_t leafdrum_view"),
    ("view: not declared", "leafdrum_reply leafdrum_view", "leafdrum_reply leafdrum_look"),
    ("turn: worker of 8 bits", "leafdrum_turn(leafdrum_settings settings, uint32_t worker", "leafdrum_turn(leafdrum_settings settings, uint8_t worker"),
    ("turn: settings lent", "leafdrum_turn(leafdrum_settings settings", "leafdrum_turn(leafdrum_settings *settings"),
    ("turns: limit before count", LIST, "const uint8_t *list, uint32_t limit, size_t count, "),
    ("turns: no limit", LIST, LIST.replace("uint32_t limit, ", "")),
    ("turns: entries of 32 bits", LIST, LIST.replace("uint8_t", "uint32_t")),
    ("last: no worker", "leafdrum_last(leafdrum_settings settings, uint32_t worker, ", "leafdrum_last(leafdrum_settings settings, "),
    ("last: gives the answer alone", "leafdrum_reply leafdrum_last", "uint32_t leafdrum_last"),
    ("listing: place of 16 bits", PLACE, PLACE.replace("uint32_t", "uint16_t")),
    ("listing: place of 64 bits", PLACE, PLACE.replace("uint32_t", "uint64_t")),
    ("listing: a word before the place", PLACE, "    uint32_t more;\n" + PLACE),
    ("listing: a word behind the place", PLACE, PLACE + "    uint32_t more;\n"),
    ("listing: start and end exchanged", ENDS, ENDS.replace("START = 0", "START = 16777217").replace("END = 16777217", "END = 0")),
    ("listing: start is 1", "START = 0", "START = 1"),
    ("listing: end is the greatest pixel's place", "LISTING_END = 16777217", "LISTING_END = 16777216"),
    ("listing: end is one more", "LISTING_END = 16777217", "LISTING_END = 16777218"),
    ("listing: end is all bits", "LISTING_END = 16777217", "LISTING_END = -1"),
    ("listing: no end", ", LEAFDRUM_LISTING_END = 16777217", ""),
    ("given: refused and pixel exchanged", GIVEN, GIVEN.replace("REFUSED = 0", "REFUSED = 1").replace("PIXEL = 1", "PIXEL = 0")),
    ("given: pixel and end exchanged", "PIXEL = 1, LEAFDRUM_GIVEN_END = 2", "PIXEL = 2, LEAFDRUM_GIVEN_END = 1"),
    ("given: refused and end exchanged", GIVEN, GIVEN.replace("REFUSED = 0", "REFUSED = 2").replace("END = 2", "END = 0")),
    ("given: end is 11", "GIVEN_END = 2", "GIVEN_END = 11"),
    ("given: no end", ", LEAFDRUM_GIVEN_END = 2", ""),
    ("given: number after answer", GIVEN_NUMBER + GIVEN_ANSWER, GIVEN_ANSWER + GIVEN_NUMBER),
    ("given: answer after pixel", GIVEN_ANSWER + GIVEN_PIXEL, GIVEN_PIXEL + GIVEN_ANSWER),
    ("given: number and pixel exchanged", GIVEN_NUMBER + GIVEN_ANSWER + GIVEN_PIXEL, GIVEN_PIXEL + GIVEN_ANSWER + GIVEN_NUMBER),
    ("given: no pixel", GIVEN_PIXEL, ""),
    ("given: no number", GIVEN_NUMBER, ""),
    ("given: pixel of 16 bits", GIVEN_PIXEL, GIVEN_PIXEL.replace("uint32_t", "uint16_t")),
    ("given: pixel of 64 bits", GIVEN_PIXEL, GIVEN_PIXEL.replace("uint32_t", "uint64_t")),
    ("given: a word more", GIVEN_PIXEL, GIVEN_PIXEL + "    uint32_t more;\n"),
    ("next: listing by value", NEXT, NEXT.replace("leafdrum_listing *listing", "leafdrum_listing listing")),
    ("next: listing is constant", NEXT, NEXT.replace("leafdrum_listing *", "const leafdrum_listing *")),
    ("next: the place in the listing's stead", NEXT, NEXT.replace("leafdrum_listing *", "uint32_t *")),
    ("next: listing before the settings", NEXT, NEXT.replace("leafdrum_settings settings, leafdrum_listing *listing", "leafdrum_listing *listing, leafdrum_settings settings")),
    ("next: settings lent", NEXT, NEXT.replace("leafdrum_settings settings", "leafdrum_settings *settings")),
    ("next: nodes are not constant", NEXT, NEXT.replace("const uint32_t *nodes", "uint32_t *nodes")),
    ("next: levels are not constant", NEXT, NEXT.replace("const uint32_t *levels", "uint32_t *levels")),
    ("next: nodes of 64 bits", NEXT, NEXT.replace("uint32_t *nodes", "uint64_t *nodes")),
    ("next: length of the nodes of 32 bits", NEXT, NEXT.replace("size_t node_words", "uint32_t node_words")),
    ("next: length of the levels of 32 bits", NEXT, NEXT.replace("size_t level_words", "uint32_t level_words")),
    ("next: no length of the levels", NEXT, NEXT.replace(", size_t level_words", "")),
    ("next: no levels", NEXT, NEXT.replace(", " + NEXT_LEVELS, "")),
    ("next: all three areas", NEXT, NEXT[:NEXT.index("const")] + "LEAFDRUM_AREAS)"),
    ("next: gives the pixel alone", "leafdrum_given leafdrum_next", "uint32_t leafdrum_next"),
    ("next: gives a reply", "leafdrum_given leafdrum_next", "leafdrum_reply leafdrum_next"),
    ("next: not declared", "leafdrum_given leafdrum_next", "leafdrum_given leafdrum_list"),
    ("count: number after count", COUNT_NUMBER + COUNT_COUNT, COUNT_COUNT + COUNT_NUMBER),
    ("count: no number", COUNT_NUMBER, ""),
    ("count: no count", COUNT_COUNT, ""),
    ("count: number of 16 bits", COUNT_NUMBER, COUNT_NUMBER.replace("uint32_t", "uint16_t")),
    ("count: count of 16 bits", COUNT_COUNT, COUNT_COUNT.replace("uint32_t", "uint16_t")),
    ("count: count of 64 bits", COUNT_COUNT, COUNT_COUNT.replace("uint32_t", "uint64_t")),
    ("count: a word before the number", COUNT_NUMBER, "    uint32_t more;\n" + COUNT_NUMBER),
    ("count: a word more", COUNT_COUNT, COUNT_COUNT + "    uint32_t more;\n"),
    ("count: has the settings, as a reply", COUNT_COUNT, COUNT_COUNT + SETTINGS),
    ("flagged: settings lent", FLAGGED, FLAGGED.replace("leafdrum_settings settings", "leafdrum_settings *settings")),
    ("flagged: a listing too", FLAGGED, FLAGGED.replace("settings settings, ", "settings settings, leafdrum_listing *listing, ")),
    ("flagged: nodes are not constant", FLAGGED, FLAGGED.replace("const uint32_t *nodes", "uint32_t *nodes")),
    ("flagged: levels are not constant", FLAGGED, FLAGGED.replace("const uint32_t *levels", "uint32_t *levels")),
    ("flagged: levels of 64 bits", FLAGGED, FLAGGED.replace("uint32_t *levels", "uint64_t *levels")),
    ("flagged: length of the nodes of 32 bits", FLAGGED, FLAGGED.replace("size_t node_words", "uint32_t node_words")),
    ("flagged: length of the levels of 32 bits", FLAGGED, FLAGGED.replace("size_t level_words", "uint32_t level_words")),
    ("flagged: no length of the nodes", FLAGGED, FLAGGED.replace(", size_t node_words", "")),
    ("flagged: no levels", FLAGGED, FLAGGED.replace(", " + NEXT_LEVELS, "")),
    ("flagged: all three areas", FLAGGED, FLAGGED[:FLAGGED.index("const")] + "LEAFDRUM_AREAS)"),
    ("flagged: gives the count alone", "leafdrum_count leafdrum_flagged", "uint32_t leafdrum_flagged"),
    ("flagged: gives a reply", "leafdrum_count leafdrum_flagged", "leafdrum_reply leafdrum_flagged"),
    ("flagged: gives what a next gives", "leafdrum_count leafdrum_flagged", "leafdrum_given leafdrum_flagged"),
    ("flagged: not declared", "leafdrum_count leafdrum_flagged", "leafdrum_count leafdrum_counted"),
    ("level_count: 16 bits", "uint32_t leafdrum_level_count", "uint16_t leafdrum_level_count"),
    ("no extern \"C\"", "extern \"C\" {", "extern \"C++\" {"),
    ("guard: its name is not defined", "#define LEAFDRUM_H\n", ""),
    ("guard: another name is defined", "#define LEAFDRUM_H\n", "#define LEAFDRUM\n"),
    ("areas: nodes after levels", AREAS, AREAS.replace("nodes, size_t node_words, uint32_t *levels, size_t level_words", "levels, size_t level_words, uint32_t *nodes, size_t node_words")),
    ("areas: levels after workers", AREAS, AREAS.replace("levels, size_t level_words, uint32_t *workers, size_t worker_words", "workers, size_t worker_words, uint32_t *levels, size_t level_words")),
    ("start: row after column", START, START.replace("row, uint32_t column", "column, uint32_t row")),
    ("start: worker after row", START, START.replace("worker, uint32_t row", "row, uint32_t worker")),
    ("view: row after column", VIEW, VIEW.replace("row, uint32_t column", "column, uint32_t row")),
    ("view: worker after row", VIEW, VIEW.replace("worker, uint32_t row", "row, uint32_t worker")),
    ("next: nodes after levels", NEXT, NEXT.replace(NEXT_NODES + ", " + NEXT_LEVELS, NEXT_LEVELS + ", " + NEXT_NODES)),
    ("flagged: nodes after levels", FLAGGED, FLAGGED.replace(NEXT_NODES + ", " + NEXT_LEVELS, NEXT_LEVELS + ", " + NEXT_NODES)),
]
NAMES = {"areas: nodes after levels", "areas: levels after workers", "start: row after column", "start: worker after row", "view: row after column", "view: worker after row",
         "next: nodes after levels", "flagged: nodes after levels"}


def read(path):
    with open(os.path.join(ROOT, path), encoding="utf-8") as f:
        return f.read()


def write(path, text):
    os.makedirs(os.path.dirname(path), exist_ok=True)
    with open(path, "w", encoding="utf-8") as f:
        f.write(text)


def defined():
    """The declarations that the Rattle source asks for, each as C without blanks."""
    c_name = {"Settings": "leafdrum_settings", "LeafdrumReply": "leafdrum_reply", "Listing": "leafdrum_listing", "LeafdrumGiven": "leafdrum_given",
              "Count": "leafdrum_count", "&mut Listing": "leafdrum_listing*", "u32": "uint32_t", "Nothing": "NONE"}
    lengths = {"list": "count", "nodes": "node_words", "levels": "level_words", "workers": "worker_words"}
    source = read("crates/export/src/lib.rt")
    found = []

    def parameter(name, kind):
        slices = {"&mut [u32]": "uint32_t*%s,size_t%s", "&[u32]": "constuint32_t*%s,size_t%s", "&[u8]": "constuint8_t*%s,size_t%s"}
        return slices[kind] % (name, lengths[name]) if kind in slices else c_name[kind] + name

    listing = read("crates/listing/src/lib.rt")
    for struct, text in (("Settings", read("crates/settings/src/lib.rt")), ("LeafdrumReply", source), ("Listing", listing), ("LeafdrumGiven", source), ("Count", source)):
        body = re.search(r"pub struct %s \{(.*?)\n\}" % struct, text, re.S).group(1)
        fields = "".join("%s%s;" % (c_name[kind], name) for name, kind in re.findall(r"pub (\w+): (\w+),", body))
        found.append("typedefstruct{%s}%s;" % (fields, c_name[struct]))
    for name, given, kind in re.findall(r'pub extern "C" fn (\w+)\((.*?)\) -> (\w+)', source, re.S):
        found.append("%s%s(%s);" % (c_name[kind], name, ",".join(parameter(*p) for p in re.findall(r"(\w+): ([^,]+?)(?:,|$)", given))))
    answers = re.findall(r"Answer::(\w+)(?:\(_\))? => (\d)", re.search(r"fn answer_no(.*?)\n\}", source, re.S).group(1))
    found.append("enum{%s};" % ",".join("LEAFDRUM_%s=%s" % (c_name.get(a, a).upper(), n) for a, n in answers))
    widths = re.findall(r"pub const (WIDTH_\d+): u32 = (\d+);", read("crates/settings/src/lib.rt"))
    found.append("enum{%s};" % ",".join("LEAFDRUM_%s=%s" % width for width in widths))
    # "0 is start" is said of the record; the end lies past all pixels
    greatest = re.search(r"pub const MAX_PIXEL: u32 = (\d+);", read("crates/settings/src/lib.rt")).group(1)
    past = re.search(r"const END: u32 = Settings::MAX_PIXEL \+ (\d+);", listing).group(1)
    found.append("enum{LEAFDRUM_LISTING_START=0,LEAFDRUM_LISTING_END=%d};" % (int(greatest) + int(past)))
    given_name = {"Err(r)": "REFUSED", "Ok(Some(pixel))": "PIXEL", "Ok(None)": "END"}
    given = re.findall(r"((?:Ok|Err)\(\S+\)) => Self \{[^}]*?answer: (\d),", source)
    found.append("enum{%s};" % ",".join("LEAFDRUM_GIVEN_%s=%s" % (given_name[case], n) for case, n in given))
    # each refusal of the source but the text program's own, and README's table has the same
    enum = re.search(r"pub enum Refusal \{(.*?)\n\}", read("crates/settings/src/lib.rt"), re.S).group(1)
    refusals = [("LEAFDRUM_REFUSED_" + name.upper(), n) for name, n in re.findall(r"(\w+) = (\d+),", enum) if name != "Line"]
    listed = re.findall(r"^\| (\d+) \| `(LEAFDRUM_REFUSED_\w+)` \|", read("README.md"), re.M)
    if sorted(refusals) != sorted((name, n) for n, name in listed):
        sys.exit("headers: README's table has other refusals than the enum of crates/settings")
    found.append("enum{%s};" % ",".join("%s=%s" % refusal for refusal in refusals))
    return sorted(found)


def declared(header):
    """The header's declarations without comments and blanks, its areas written out."""
    text = re.sub(r"/\*.*?\*/", "", header, flags=re.S)
    areas = re.search(r"#define LEAFDRUM_AREAS (.*)", text).group(1)
    text = re.sub(r"^#.*$", "", text, flags=re.M).replace("LEAFDRUM_AREAS", areas)
    text = re.sub(r'extern "C" \{\s*', "", text, count=1)
    text = re.sub(r"\s+", "", text)
    return sorted(re.findall(r"(?:typedefstruct|enum)\{[^}]*\}\w*;|\w+\([^)]*\);", text))


def runs(words):
    """What the command prints where it fails, or None."""
    done = subprocess.run(words, stdout=subprocess.PIPE, stderr=subprocess.STDOUT, timeout=60)
    return None if done.returncode == 0 else done.stdout.decode(errors="replace") or "status %d" % done.returncode


def compiles(command):
    alone = os.path.join(OUT, "alone.c")
    write(alone, '#include "include/leafdrum.h"\nint main(void) { return 0; }\n')
    return runs(command + STRICT + ["-fsyntax-only", alone]) is None


def finds(header):
    """How header.c finds this header wrong, or None: as C first, as C++ where C finds nothing."""
    write(HEADER, header)
    for language, command in LANGUAGES.items():
        if runs(command + STRICT + [TEST, "-x", "none", os.path.join(ROOT, "target/staticlib/libexport.a"), "-o", PROGRAM]) is not None:
            return "not built as " + language if compiles(command) else "no header in " + language
        said = runs([PROGRAM])
        if said is not None:
            return "run as %s: %s" % (language, said.splitlines()[0])
    return None


right = read("include/leafdrum.h")
write(TEST, read("tests/header.c"))
way = finds(right)
bad = ["header.c fails: " + way] if way else []
if not compiles(["g++", "-x", "c++", "-std=c++11"]):
    bad.append("include/leafdrum.h is not C++11")
if declared(right) != defined():
    bad += ["include/leafdrum.h does not say " + d for d in defined() if d not in declared(right)] or ["include/leafdrum.h declares more than crates/export defines"]
ways = {"not built": 0, "run": 0, "names": 0}
for name, old, new in [] if bad else WRONG:  # wrong headers are edits of a right one
    if right.count(old) != 1:
        sys.exit("headers: %s: the header has %d times %r" % (name, right.count(old), old))
    wrong = right.replace(old, new)
    if wrong == right:
        sys.exit("headers: %s: the edit changes nothing" % name)
    way = finds(wrong)
    if name in NAMES and not way and declared(wrong) != defined():
        way = "names"
    if "-v" in sys.argv:
        print("%s: %s" % (name, way))
    kind = next((k for k in ways if (way or "").startswith(k)), None)
    if kind:
        ways[kind] += 1
    else:
        bad.append("%s: %s" % (name, way or "not found"))
for line in bad:
    print("headers: " + line)
if bad:
    sys.exit(1)
print("headers: header.c passes as C99 and as C++, the header is as crates/export; %d wrong headers are found: %d not built, %d when run, %d by a name"
      % (len(WRONG), ways["not built"], ways["run"], ways["names"]))
