#!/usr/bin/env python3
"""Draws the table after a text (or after its first N lines) as SVG: python3 tools/draw.py TEXT [N] > OUT.svg
Levels with their entries, the chains that hang in them, and what each worker is amid. All of it from the library's own words."""
import sys
from states import ref, states

ROW, BOX, NODE = 20, 86, 92


def text(x, y, s, size=12, colour="#222", weight="normal"):
    s = s.replace("&", "&amp;").replace("<", "&lt;")
    return '<text x="%d" y="%d" font-size="%d" fill="%s" font-weight="%s">%s</text>' % (x, y, size, colour, weight, s)


def box(x, y, w, h, fill, stroke="#444"):
    return '<rect x="%d" y="%d" width="%d" height="%d" rx="4" fill="%s" stroke="%s"/>' % (x, y, w, h, fill, stroke)


def arrow(x1, y1, x2, y2):
    return '<line x1="%d" y1="%d" x2="%d" y2="%d" stroke="#444" marker-end="url(#a)"/>' % (x1, y1, x2, y2)


def draw_level(st, g, x, y):
    """Level g with its used entries and their chains; returns the shapes, and the height."""
    previous, depth, *entries = st.levels[g]
    used = [e for e, word in enumerate(entries) if word != 2 * g]
    rows = used or [None]
    high = ROW * len(rows) + 24
    out = [box(x, y, BOX, high, "#eef3fb"), text(x + 6, y + 16, "L%d  depth %d" % (g, depth), 12, "#123", "bold")]
    for k, e in enumerate(rows):
        top = y + 24 + ROW * k
        if e is None:
            out.append(text(x + 6, top + 14, "empty", 11, "#888"))
            continue
        chain, last = st.chain(entries[e])
        out.append(text(x + 6, top + 14, "%d: %s" % (e, ref(entries[e])), 11))
        for j, i in enumerate(chain):
            at = x + BOX + 22 + (NODE + 18) * j
            out += [arrow(at - (22 if j == 0 else 18), top + 9, at, top + 9), box(at, top, NODE, 18, "#fdf6e3"),
                    text(at + 4, top + 13, "n%d  pixel %d" % (i, st.nodes[i][0]), 10)]
        if chain:
            at = x + BOX + 22 + (NODE + 18) * len(chain)
            out.append(text(at - 14, top + 13, "→ L%d" % (last >> 1), 10, "#a33" if last != 2 * g else "#888"))
    return out, high


def amid(st, i):
    """What worker i is amid, in one line."""
    w = st.worker(i)
    if w["kind"] == "Idle":
        said = ["none", "new n%d" % w["answer_node"], "found n%d" % w["answer_node"], "full", "", "absent"][w["answer"]]
        line = "idle, last answer " + said
    else:
        line = "%s, pixel %d, level L%d" % (w["kind"], w["pixel"], w["level"])
    if w["held_node"]:
        line += ", holds n%d" % (w["held_node"] - 1)
    if w["held_level"]:
        line += ", holds L%d" % (w["held_level"] - 1)
    for home, child, count, *nodes in w["list"]:
        line += "; moves the chain of L%d to L%d, to be set: %s" % (home, child, " ".join("n%d" % n for n in nodes[:count]) or "none")
    return "%s %d: %s" % ("viewer" if st.views(i) else "worker", i, line)


def draw(st, title):
    longest = max([len(st.chain(e)[0]) for lv in st.levels for e in lv[2:]] + [1])
    column = BOX + 60 + (NODE + 18) * longest
    places, out, bottom = {}, [], 0
    for g, lv in enumerate(st.levels):
        x = 16 + column * lv[1]
        y = places.get(lv[1], 40)
        shapes, high = draw_level(st, g, x, y)
        out += shapes
        places[lv[1]] = y + high + 14
        bottom = max(bottom, places[lv[1]])
    lines = [amid(st, i) for i in range(st.settings[0])]
    out += [text(16, bottom + 18 + 17 * k, s) for k, s in enumerate(lines)]
    wide = max(16 + column * (1 + max(lv[1] for lv in st.levels)), 20 + 7 * max(map(len, lines)))
    high = bottom + 24 + 17 * len(lines)
    head = ('<svg xmlns="http://www.w3.org/2000/svg" width="%d" height="%d" font-family="sans-serif"><defs><marker id="a" markerWidth="8" '
            'markerHeight="8" refX="7" refY="3" orient="auto"><path d="M0,0 L7,3 L0,6 z" fill="#444"/></marker></defs>'
            '<rect width="100%%" height="100%%" fill="white"/>' % (wide, high))
    return "\n".join([head, text(16, 24, title, 14, "#000", "bold")] + out + ["</svg>"]) + "\n"


def main():
    if len(sys.argv) < 2:
        sys.exit("usage: draw.py TEXT [N]")
    with open(sys.argv[1], "rb") as text_file:
        found = states(text_file.read())
    count = int(sys.argv[2]) if len(sys.argv) > 2 else len(found)
    if not 1 <= count <= len(found):
        sys.exit("draw.py: the text has a table after lines 1 to %d" % len(found) if found else "draw.py: the text opens no table")
    st = found[count - 1]
    sys.stdout.write(draw(st, "after line %d: %s" % (count, st.line)))


if __name__ == "__main__":
    main()
