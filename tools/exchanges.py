#!/usr/bin/env python3
"""How often exchanges fail, as a picture: python3 tools/exchanges.py > OUT.svg; as docs/RETRIES.md: python3 tools/exchanges.py text > docs/RETRIES.md
Relies on exchanges.c, which runs five loads through the library and writes what its lists of turns report, and on states.py, which builds it."""
import math
import subprocess
import sys
from states import program

# in the order of exchanges.c: name, colour, what it is
LOADS = [
    ("race", "#b3261e", "all workers report one pixel, then all the next one, one turn each in order: all look, all take a node, all put it"),
    ("one pixel", "#c77700", "the same, with any worker at each turn"),
    ("neighbours", "#6a3fa0", "each reports any of eight pixels that differ in the last digit alone, chain limit 1: chains move down to the last level, and exchanges fail inside Moves too"),
    ("column", "#1b6ca8", "each reports the next pixel of a bad column of 64"),
    ("scattered", "#2e7d32", "each reports any pixel of the panel, 256 in a table"),
]
CREW = 16
GREY = "#666"


def measured():
    """By load and number of workers the exchanges done and failed, in all tables so far, after each table."""
    out = subprocess.run([program("exchanges")], stdout=subprocess.PIPE, check=True).stdout.decode()
    runs = {}
    for line in out.splitlines():
        load, crew, done, failed = map(int, line.split())
        run = runs.setdefault((load, crew), [])
        done_before, failed_before = run[-1] if run else (0, 0)
        if failed - failed_before > (crew - 1) * (done - done_before):
            sys.exit("exchanges.py: %d failed and %d done in a table with %d workers" % (failed - failed_before, done - done_before, crew))
        run.append((done, failed))
    return runs


def text(x, y, s, colour="#222", anchor="start", size=12, more=""):
    s = s.replace("&", "&amp;").replace("<", "&lt;")
    return '<text x="%.1f" y="%.1f" font-size="%d" fill="%s" text-anchor="%s"%s>%s</text>' % (x, y, size, colour, anchor, more, s)


def line(x1, y1, x2, y2, colour="#ddd", more=""):
    return '<line x1="%.1f" y1="%.1f" x2="%.1f" y2="%.1f" stroke="%s"%s/>' % (x1, y1, x2, y2, colour, more)


def curve(points, colour, more=""):
    return '<polyline points="%s" fill="none" stroke="%s" stroke-width="1.5"%s/>' % (" ".join("%.1f,%.1f" % p for p in points), colour, more)


def dot(x, y, colour):
    return '<circle cx="%.1f" cy="%.1f" r="3" fill="%s"/>' % (x, y, colour)


class Panel:
    """A field with its axes. `x` and `y` give places on the picture for values."""

    def __init__(self, left, right, x, y):
        self.left, self.right, self.top, self.bottom = left, right, 62, 392
        self.x = lambda v: left + (right - left) * x(v)
        self.y = lambda v: self.bottom - (self.bottom - self.top) * y(v)

    def axes(self, title, across, up, x_ticks, y_ticks):
        out = [text(self.left - 46, 26, title, "#000", size=14, more=' font-weight="bold"')]
        for v, name in y_ticks:
            out += [line(self.left, self.y(v), self.right, self.y(v)), text(self.left - 7, self.y(v) + 4, name, GREY, "end", 11)]
        for v, name in x_ticks:
            out += [line(self.x(v), self.bottom, self.x(v), self.bottom + 5, GREY), text(self.x(v), self.bottom + 19, name, GREY, "middle", 11)]
        return out + [line(self.left, self.bottom, self.right, self.bottom, GREY), line(self.left, self.top, self.left, self.bottom, GREY),
                      text((self.left + self.right) / 2, self.bottom + 40, across, anchor="middle"), text(self.left - 46, self.top - 14, up)]

    def ends(self, labels):
        """Labels at the right edge, each at its value or just below the one before it."""
        out, at = [], self.top - 20
        for value, name, colour in sorted(labels, reverse=True):
            at = max(self.y(value) + 4, at + 15)
            out.append(text(self.right + 9, at, name, colour))
        return out


def sequences(runs):
    """With 16 workers, failed against done, table after table."""
    most_done, most_failed = 400, 3000
    p = Panel(66, 396, lambda v: v / most_done, lambda v: v / most_failed)
    out = p.axes("16 workers, table after table", "exchanges done", "exchanges failed", [(v, str(v)) for v in range(0, 401, 100)],
                 [(v, "{:,}".format(v)) for v in range(0, 3001, 500)])
    cut = most_failed / (CREW - 1)
    out.append(line(p.x(0), p.y(0), p.x(cut), p.y(most_failed), "#000", ' stroke-dasharray="5,4"'))
    out.append(text(p.x(cut) + 8, p.top + 14, "bound: 15 × done"))
    labels = []
    for k, (name, colour, _) in enumerate(LOADS):
        run = [(0, 0)] + runs[k, CREW]
        inside = [(d, f) for d, f in run if d <= most_done and f <= most_failed]
        if k == 0:
            out += [dot(p.x(d), p.y(f), colour) for d, f in inside[1:]] + [text(p.x(100) + 9, p.y(1500) + 4, name, colour)]
            continue
        # up to the edge, on the way to the first table beyond it
        (d, f), (d_next, f_next) = inside[-1], run[len(inside)]
        edge = f + (f_next - f) * (most_done - d) / (d_next - d)
        out.append(curve([(p.x(d), p.y(f)) for d, f in inside + [(most_done, edge)]], colour))
        labels.append((edge, name, colour))
    return out + p.ends(labels)


def by_workers(runs):
    """With 1 to 16 workers, how many failed for each one done; the axis upwards is logarithmic."""
    low, high = math.log10(0.003), math.log10(25)
    p = Panel(586, 870, lambda v: (v - 1) / (CREW - 1), lambda v: (math.log10(v) - low) / (high - low))
    out = p.axes("1 to 16 workers", "workers", "failed for each exchange done", [(v, str(v)) for v in (1, 2, 4, 6, 8, 10, 12, 14, 16)],
                 [(v, str(v)) for v in (0.01, 0.03, 0.1, 0.3, 1, 3, 10)])
    out.append(curve([(p.x(n), p.y(n - 1)) for n in range(2, CREW + 1)], "#000", ' stroke-dasharray="5,4"'))
    out.append(text(p.x(3), p.y(13), "bound: placing workers − 1", "#000"))
    labels = []
    for k, (name, colour, _) in enumerate(LOADS):
        rates = [(n, runs[k, n][-1][1] / runs[k, n][-1][0]) for n in range(1, CREW + 1)]
        shown = [(p.x(n), p.y(rate)) for n, rate in rates if rate > 0]
        out += ([curve(shown, colour)] if k else []) + [dot(x, y, colour) for x, y in shown]
        labels.append((rates[-1][1], name, colour))
    if all(runs[k, 1][-1][1] == 0 for k in range(len(LOADS))):
        out.append(text(p.right, p.bottom - 8, "with 1 worker none fails", GREY, "end", 11))
    return out + p.ends(labels)


def picture(runs):
    head = '<svg xmlns="http://www.w3.org/2000/svg" width="960" height="446" font-family="sans-serif"><rect width="100%" height="100%" fill="white"/>'
    return "\n".join([head] + sequences(runs) + by_workers(runs) + ["</svg>"]) + "\n"


DOCUMENT = """# How often exchanges fail

Written by `python3 tools/exchanges.py text` from what the library's lists of turns report; the tests compare it with a new run.

An exchange is the one access by which a turn puts a node or a level where others look for it: Put, Append and Close, and the same inside a Move. It fails if another worker was there first;
the turn then acts on the word that it met. In every sequence from an opening, failed exchanges are at most (placing workers − 1) × those done; with one placing worker none fails, and viewers make none.
The bound is reached: where {crew} workers race for one pixel, one exchange is done and {others} fail.

![exchanges failed against exchanges done, and the bound](pictures/exchanges.svg)

How many fail for each one done, over {enough} done and more; each table runs from its opening until every call has ended, its lists of random workers but for the race:

| load | {heads} workers |
|---|{rules}
{rows}

{loads}

Each list of turns tells both numbers for its own turns: `exchanges_done` and `exchanges_failed` of its reply.
"""


def rate(run):
    done, failed = run[-1]
    if failed % done == 0:
        return str(failed // done)
    return ("%.2f" if failed > done / 10 else "%.3f") % (failed / done)


def document(runs):
    crews = (1, 2, 4, 8, 16)
    rows = ["| %s | %s |" % (name, " | ".join(rate(runs[k, n]) for n in crews)) for k, (name, _, _) in enumerate(LOADS)]
    rows.append("| **bound** | %s |" % " | ".join("**%d**" % (n - 1) for n in crews))
    return DOCUMENT.format(crew=CREW, others=CREW - 1, enough="{:,}".format(min(run[-1][0] for run in runs.values())), heads=" | ".join(map(str, crews)),
                           rules="---|" * len(crews), rows="\n".join(rows), loads="\n".join("- *%s*: %s;" % (name, what) for name, _, what in LOADS)[:-1] + ".")


if __name__ == "__main__":
    sys.stdout.write(document(measured()) if sys.argv[1:] == ["text"] else picture(measured()))
