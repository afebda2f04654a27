#!/usr/bin/env python3
"""Writes docs/TRACE.md: the race, a chain move and a viewer beside it turn by turn, with the words that change. python3 tools/trace.py > docs/TRACE.md"""
import os
import sys
from states import LEVEL_WORDS, NONE, ROOT, ref, states

HEAD = """# Turn by turn

Written by `python3 tools/trace.py` from the library's own words; the tests compare it with a new run.

Each row is a start or one turn of the worker that the text names, refused ones too: the kind of turn, the words that changed in nodes and levels, the worker's record after it.
`n3` is node 3 (reference 7), `L1` is level 1 (reference 2).
"""
# a text, the first of its lines that is shown, and what stands above
PARTS = [
    ("examples/race.txt", 2, """
## The race: a failed exchange gives the word it met

The text is `{name}`: two workers place (0,0). Worker 1's Put finds node 0 where it expects level 0. It acts on that word as Read does, in the same turn: the node has the
call's pixel, so the call ends "found", and the node that the worker took stays held, now spare. The turn after it is refused: the worker has no call open.

"""),
    ("examples/move.txt", 2, """
## A chain move

The text is `{name}`: chain limit 2, (0,0) and (64,0) are placed by worker 0 and stand in one chain of level 0, because their first digits are the same; then worker 0
places (128,0), and worker 1 looks for (64,0) in the middle of the Move.

"""),
    ("examples/viewer.txt", 20, """
## A viewer beside the move

The text is `{name}`: the same chain move, with worker 1 a viewer; its lines 2 to 19 are those above. The viewer looks (64,0) up while the chain moves, and finds it in the new level. It
looks (128,0) up where worker 0 is about to take a node for it: where another worker would go to Take the call ends "absent", in the turn that looked. Its third call is open while worker 0
puts the node, and finds it. None of its turns changes a word of nodes or levels. After line 30 it stands at n0, whose next refers to the new level by then; the node that it looks for lies there:

![a viewer amid the Move](pictures/viewer.svg)

"""),
]


def named(area, k):
    if area == "node":
        return "n%d.%s" % (k // 2, "next" if k % 2 else "pixel")
    g, word = divmod(k, LEVEL_WORDS)
    return "L%d.%s" % (g, ["previous", "depth"][word] if word < 2 else word - 2)


def flat(st, area):
    return [w for row in getattr(st, area + "s") for w in row]


def shown(area, k, word):
    plain = (area == "node" and k % 2 == 0) or (area == "level" and k % LEVEL_WORDS < 2)
    return ("none" if word == NONE else str(word)) if plain else ref(word)


def changes(before, st):
    """The words of nodes and levels that this line changed or brought."""
    out = []
    for area in ("node", "level"):
        old, new = flat(before, area), flat(st, area)
        fresh = [k for k in range(len(old), len(new))]
        for k, word in enumerate(new):
            if k < len(old) and old[k] != word:
                out.append("%s: %s → %s" % (named(area, k), shown(area, k, old[k]), shown(area, k, word)))
        if fresh and area == "node":
            out.append("new " + ", ".join("%s = %s" % (named(area, k), shown(area, k, new[k])) for k in fresh))
        if fresh and area == "level":
            g = fresh[0] // LEVEL_WORDS
            previous, depth, entry = new[fresh[0]:fresh[0] + 3]
            out.append("new L%d: previous L%d, depth %d, every entry %s" % (g, previous, depth, ref(entry)))
    return "; ".join(out) or "none"


def record(st, i):
    """The words of worker i's record that the kind uses."""
    w = st.worker(i)
    out = [w["kind"]]
    if w["kind"] != "Idle":
        out.append("level L%d" % w["level"])
    if w["kind"] in ("Tail", "TakeTail", "Append", "Level", "Close", "Follow", "SetTail", "SetAppend", "SetLevel", "SetClose", "SetFollow"):
        out += ["node n%d" % w["node"], "count %d" % w["count"]]
    if w["held_node"]:
        out.append("holds n%d" % (w["held_node"] - 1))
    if w["held_level"]:
        out.append("holds L%d" % (w["held_level"] - 1))
    for home, child, count, *nodes in w["list"]:
        out.append("Move L%d to L%d [%s]" % (home, child, " ".join("n%d" % n for n in nodes[:count])))
    return ", ".join(out)


def rows(name, first):
    """The table of a text's lines from this one on, counted from 1."""
    with open(os.path.join(ROOT, name), "rb") as text_file:
        found = states(text_file.read())
    print("| line | text | turn | words changed in nodes and levels | record after it | answer |\n|---|---|---|---|---|---|")
    for k in range(first - 1, len(found)):
        before, st = found[k - 1], found[k]
        i = int(st.line.split(",")[1])
        kind = "start" if st.line[0] in "cv" else before.worker(i)["kind"]
        answer = ["", "new n%d" % st.reply[2], "found n%d" % st.reply[2], "full", "", "absent"][st.reply[1]]
        if st.reply[0] not in (0, 9):
            kind, answer = "none", "refused, %d" % st.reply[0]
        print("| %d | `%s` | %s | %s | %s | %s |" % (k + 1, st.line, kind, changes(before, st), record(st, i), answer))


def main():
    print(HEAD, end="")
    for name, first, head in PARTS:
        print(head.format(name=name), end="")
        rows(name, first)


if __name__ == "__main__":
    main()
