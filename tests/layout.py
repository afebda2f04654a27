#!/usr/bin/env python3
"""docs/LAYOUT.md against the library: at each digit width words are read where the page says they stand, in calls whose turns document 01 tells; its other
numbers are measured where the library can be asked for them, else typed in. Then numbers are changed, names and contents exchanged: each must be noticed.
Relies on tests/library.py."""
import ctypes
import re
import sys

from library import ANSWERS, Table, Word, level_count, read

WIDTHS = [w for w in range(99) if level_count(1, 1, 1, w)]
MARK = 0xABCD0000  # stands, with its place added, in each word behind a record's head before the first turn

# What the page says of a word in its content column, by the name that the facts below have for the word; the name column of the workers has the same names.
CONTENTS = {
    "Nodes": {"pixel": "pixel number of node i", "next": "next: a reference"},
    "Levels": {"previous": "number of the previous level (not a reference)", "depth": "depth", "entry": "entry e, "},
    "Workers": {
        "kind": "the kind of the next turn",
        "pixel": "the call's pixel number",
        "level": "H in a search; in a Move the level that the node N is set into",
        "node": "R, the node whose next is read",
        "count": "R's place in its chain",
        "held node": "of the node in hand (Put, Append) or spare",
        "held level": "of the level in hand (Close, SetClose) or spare",
        "answer": "of the last ended call",
        "answer's node": "of \"new\" and \"found\"",
        "Moves": "how many Moves are open, one inside another",
        "Move j: home": "the level H whose chain moves",
        "Move j: child": "the level G that it moves to",
        "Move j: count": "how many nodes are remembered",
        "Move j: nodes": "the remembered nodes' numbers, in the chain's order",
    },
}


# The page.

def number(text):
    return int(text.replace(",", ""))


def formula(text, known):
    """'S g + 2 + e' as the number before each letter, and the number alone under ''; `known` are the letters that stand for numbers."""
    found = {"": 0}
    for term in text.split("+"):
        count, letter = 1, ""
        for part in term.split():
            if part in known or not part.isalpha():
                count *= known[part] if part in known else number(part)
            else:
                letter = part
        found[letter] = found.get(letter, 0) + count
    return found


def value(of, **letters):
    return sum(n * ({"": 1} | letters).get(letter, 0) for letter, n in of.items())


class Misread(Exception):
    """What the page does not say."""


class Layout:
    """Where LAYOUT.md places what at a width, and by which numbers. `widths` has the rows of its table of widths."""

    def __init__(self, text, width):
        self.flat = " ".join(text.split())
        self.width, self.widths = width, [list(map(int, row)) for row in re.findall(r"^\|%s (\d+) to (\d+) \|$" % (r" (\d+) \|" * 4), text, re.M)]
        self.known = next(({"S": row[2], "D": row[3]} for row in self.widths if row[0] == width), None)
        if not self.known:
            raise Misread("no row for width %d" % width)
        self.places, self.unused = {}, []
        for title, contents in CONTENTS.items():
            self.places[title] = dict(self.rows(text, title, contents))
            for word in contents:
                if word not in self.places[title]:
                    raise Misread("%s: no row says '%s'" % (title, contents[word]))
        self.head = {word: first[""] for word, (first, _) in self.places["Workers"].items() if not word.startswith("Move j")}
        self.worker_words, = self.says(r"Worker i's words begin at (N) i, at every width\.")
        self.kinds = self.named(r"Kinds: (.*?)\.") | self.named(r"\| (\d+ idle), ")
        self.answers = self.named(r"of the last ended call: (.*?) \|")
        self.none, = self.says(r"\(not a reference\); (N): none")
        self.level, self.node, self.node_more = self.says(r"A reference is (N) g for level g and (N) i \+ (N) for node i\.")
        self.held = {name: self.says(r"\| %s \| number \+ (N) of [^|]*; (N): none \|" % name) for name in ("held node", "held level")}

    def rows(self, text, title, contents):
        """The words of the table below a heading, each with the formulas of its first and its last place."""
        body = re.search(r"^## %s\b[^\n]*\n(.*?)(?=^## |\Z)" % title, text, re.M | re.S)
        if not body:
            raise Misread("no heading '%s'" % title)
        for row in re.findall(r"^\|(.*)\|$", body.group(1), re.M)[2:]:
            try:
                place, *name, content = (cell.strip() for cell in row.split("|"))
                first, last = (formula(p, self.known) for p in (place.split(" to ") * 2)[:2])
            except ValueError:
                raise Misread("%s: no place and content in the row %s" % (title, row.strip()))
            word = next((w for w, said in contents.items() if said in content), "")
            if name not in ([], [word]) or (content == "not used") == bool(word):
                raise Misread("%s: name and content of word %s do not belong together: %s" % (title, place, row.strip()))
            if word:
                yield word, (first, last)
            else:
                self.unused += range(first[""], last[""] + 1)

    def part(self, pattern):
        """The parts of a sentence; (N) stands for a number."""
        found = re.search(pattern.replace("(N)", r"(\d+(?:,\d{3})*)"), self.flat)
        if not found:
            raise Misread("no sentence '%s'" % pattern.replace("\\", ""))
        return found.groups()

    def says(self, pattern):
        return tuple(map(number, self.part(pattern)))

    def named(self, pattern):
        """The names that stand behind numbers in a part of the page."""
        return {name: int(n) for n, name in re.findall(r"(\d+) (\w+)", self.part(pattern)[0])}

    def at(self, title, word, **letters):
        return value(self.places[title][word][0], **letters)

    def order(self, title):
        """The names of a table in the order of their places."""
        return sorted(self.places[title], key=lambda word: self.at(title, word))

    def covered(self, moves):
        """The words of a record that the table of words names, in order."""
        found = list(self.unused)
        for first, last in self.places["Workers"].values():
            for j in range(moves if "j" in first else 1):
                found += range(value(first, j=j), value(last, j=j) + 1)
        return sorted(found)

    def place(self, fact):
        """The area and the place in it that a fact is about, and the word that stands there if the fact holds."""
        what, i, name, *more, word = fact
        if isinstance(word, tuple):
            word = self.level * word[1] if word[0] == "level" else self.node * word[1] + self.node_more
        if what == "node":
            return 0, self.at("Nodes", name, i=i), word
        if what == "level":
            return 1, self.at("Levels", name, g=i, e=sum(more)), self.none if word is None else word
        if what == "move":
            return 2, self.worker_words * i + self.at("Workers", "Move j: " + name, j=more[0]) + sum(more[1:]), word
        word = self.kinds.get(word) if name == "kind" else self.answers.get(word) if name == "answer" else word
        if name in self.held:
            word = self.held[name][1] if word is None else word + self.held[name][0]
        return 2, self.worker_words * i + self.head[name], word


# Calls whose turns document 01 tells.

class Watched(Table):
    """A table and its moments: what its areas held, and the facts that should be read from them. `turned` are the words of a record that turns have changed."""

    def __init__(self, layout, *sizes, viewers=0):
        self.moments, self.turned, self.worker_words = [], set(), layout.worker_words
        super().__init__(*sizes, layout.width, viewers=viewers)
        self.entries = range(2 ** layout.width)
        for i in range(self.settings.workers):
            for k in range(max(layout.head.values()) + 1, self.worker_words):
                self.areas[2][self.worker_words * i + k] = MARK + k
        for i in range(self.settings.workers):
            self.shows(i, kind="idle", answer="none", held_node=None, held_level=None, Moves=0)
        self.sees(("level", 0, "previous", None), ("level", 0, "depth", 0), *[("level", 0, "entry", e, ("level", 0)) for e in self.entries])

    def pixel(self, *digits):
        """The pixel with these digits from depth 0 on, each of at most two bits; the others are 0."""
        return sum(digit << 24 - self.settings.width * (d + 1) for d, digit in enumerate(digits))

    def ask(self, name, *given):
        before = list(self.areas[2])
        refused_by = super().ask(name, *given)
        if name == "turn":
            self.turned |= {at - self.worker_words * given[0] for at, word in enumerate(self.areas[2]) if word != before[at]}
        return refused_by

    def sees(self, *facts):
        self.moments.append(([list(area) for area in self.areas], self.settings.workers, facts))

    def shows(self, i, **words):
        self.sees(*[("worker", i, name.replace("_", " "), word) for name, word in words.items()])

    def move(self, i, j, home, child, nodes, count=None):
        self.sees(("move", i, "home", j, home), ("move", i, "child", j, child), ("move", i, "count", j, len(nodes) if count is None else count),
                  *[("move", i, "nodes", j, k, n) for k, n in enumerate(nodes)])

    def begin(self, i, pixel):
        views = i >= self.settings.workers - self.settings.viewers
        if self.ask("view" if views else "start", i, pixel >> 12, pixel & 4095):
            sys.exit("layout: a start is refused by %d" % self.reply.number)
        self.shows(i, kind="Look", pixel=pixel, level=0, Moves=0)

    def turns(self, i, kinds):
        """Turns of worker i, of these kinds."""
        for kind in kinds.split():
            self.shows(i, kind=kind)
            if self.ask("turn", i) not in (0, 9):
                sys.exit("layout: %s is refused by %d" % (kind, self.reply.number))

    def ends(self, i, answer, node):
        if (ANSWERS[self.reply.answer], self.reply.node) != (answer, node):
            sys.exit("layout: %s, %d answered where %s, %d is due" % (ANSWERS[self.reply.answer], self.reply.node, answer, node))
        self.sees(("worker", i, "kind", "idle"), ("worker", i, "answer", answer), ("worker", i, "answer's node", node))

    def call(self, i, pixel, kinds, answer, node):
        self.begin(i, pixel)
        self.turns(i, kinds)
        self.ends(i, answer, node)


def chains(layout):
    """A chain of three; a race whose loser keeps a spare node; a full table."""
    t = Watched(layout, 3, 4, 5)
    a, b, c, d = t.pixel(1, 2, 3), t.pixel(1, 3, 0, 1), t.pixel(1), t.pixel(2)
    t.call(2, a, "Look Take Put", "new", 0)
    t.call(2, a, "Look Read", "found", 0)
    t.call(2, b, "Look Read Tail TakeTail Append", "new", 1)
    t.begin(1, c)
    t.turns(1, "Look Read Tail Follow Tail TakeTail")
    t.shows(1, kind="Append", pixel=c, level=0, node=1, count=2, held_node=2)
    t.turns(1, "Append")
    t.ends(1, "new", 2)
    t.sees(("node", 0, "pixel", a), ("node", 1, "pixel", b), ("node", 2, "pixel", c), ("node", 0, "next", ("node", 1)), ("node", 1, "next", ("node", 2)),
           ("node", 2, "next", ("level", 0)), ("level", 0, "entry", 1, ("node", 0)))
    t.begin(0, d)
    t.begin(1, d)
    t.turns(0, "Look Take")
    t.turns(1, "Look Take")
    t.shows(1, kind="Put", held_node=4)
    t.turns(0, "Put")
    t.ends(0, "new", 3)
    t.turns(1, "Put")
    t.ends(1, "found", 3)
    t.shows(1, held_node=4)
    t.call(1, t.pixel(3), "Look Take Put", "new", 4)
    t.shows(1, held_node=None)
    t.call(1, t.pixel(0), "Look Take", "full", 0)
    return t


def looked_up(layout):
    """A viewer's calls: in the chain it is absent below the limit, and at the limit."""
    t = Watched(layout, 2, 2, 5, viewers=1)
    t.call(1, t.pixel(1), "Look", "absent", 0)
    for k in range(2):
        t.call(0, t.pixel(1, k), "Look Take Put" if k == 0 else "Look Read Tail TakeTail Append", "new", k)
        t.call(1, t.pixel(1, 2), "Look Read Tail" + " Follow Tail" * k, "absent", 0)
        t.call(1, t.pixel(1, k), "Look Read" + " Tail Follow" * k, "found", k)
    t.call(1, t.pixel(2), "Look", "absent", 0)
    return t


def one_node_moves(layout):
    t = Watched(layout, 3, 1, 6)
    t.call(2, t.pixel(1, 2, 3), "Look Take Put", "new", 0)
    t.begin(2, t.pixel(1, 3, 0, 1))
    t.turns(2, "Look Read Tail Level")
    t.shows(2, kind="Close", level=0, node=0, count=1, held_level=1, Moves=0)
    t.turns(2, "Close")
    t.shows(2, kind="ChainHead", held_level=None, Moves=1)
    t.move(2, 0, 0, 1, [0] * 8, 0)
    t.turns(2, "ChainHead ChainNext SetNext SetLook SetPut MoveEnd")
    t.shows(2, kind="Look", level=1, Moves=0)
    t.turns(2, "Look Take Put")
    t.ends(2, "new", 1)
    t.sees(("level", 0, "entry", 1, ("level", 1)), ("level", 1, "previous", 0), ("level", 1, "depth", 1), ("level", 1, "entry", 2, ("node", 0)),
           ("level", 1, "entry", 3, ("node", 1)), *[("level", 1, "entry", e, ("level", 1)) for e in t.entries if e not in (2, 3)],
           ("node", 0, "next", ("level", 1)))
    return t


def three_nodes_move(layout):
    """The three have the same second digit, so they stand in one chain again."""
    t = Watched(layout, 1, 3, 6)
    t.call(0, t.pixel(1, 1), "Look Take Put", "new", 0)
    t.call(0, t.pixel(1, 1, 1), "Look Read Tail TakeTail Append", "new", 1)
    t.call(0, t.pixel(1, 1, 2), "Look Read Tail Follow Tail TakeTail Append", "new", 2)
    t.begin(0, t.pixel(1, 2))
    t.turns(0, "Look Read Tail Follow Tail Follow Tail Level Close ChainHead ChainNext ChainNext ChainNext")
    t.move(0, 0, 0, 1, [0, 1, 2])
    t.turns(0, "SetNext SetLook SetPut SetNext SetLook SetRead SetTail SetAppend")
    t.move(0, 0, 0, 1, [0])
    t.turns(0, "SetNext SetLook SetRead SetTail SetFollow SetTail")
    t.shows(0, kind="SetAppend", level=1, node=1, count=2, Moves=1)
    t.turns(0, "SetAppend MoveEnd Look Take Put")
    t.ends(0, "new", 3)
    return t


def eight_nodes_move(layout):
    t = Watched(layout, 1, 8, 12)
    t.call(0, t.pixel(3), "Look Take Put", "new", 0)
    t.call(0, t.pixel(1, 1), "Look Take Put", "new", 1)
    for k in range(1, 8):
        t.call(0, t.pixel(1, 1) + k, "Look Read Tail " + "Follow Tail " * (k - 1) + "TakeTail Append", "new", k + 1)
    t.begin(0, t.pixel(1, 2))
    t.turns(0, "Look Read Tail " + "Follow Tail " * 7 + "Level Close ChainHead" + " ChainNext" * 8)
    t.move(0, 0, 0, 1, [1, 2, 3, 4, 5, 6, 7, 8])
    return t


def move_inside_a_move(layout):
    """Worker 1 places a pixel in the new level just before worker 0 sets a node there."""
    t = Watched(layout, 2, 1, 6)
    t.call(0, t.pixel(1, 1), "Look Take Put", "new", 0)
    t.begin(0, t.pixel(1, 2))
    t.turns(0, "Look Read Tail Level Close ChainHead ChainNext SetNext")
    t.call(1, t.pixel(1, 1, 1), "Look Read Tail Follow Look Take Put", "new", 1)
    t.turns(0, "SetLook SetRead SetTail SetLevel")
    t.shows(0, kind="SetClose", level=1, node=1, held_level=2, Moves=1)
    t.turns(0, "SetClose ChainHead ChainNext")
    t.shows(0, kind="SetNext", level=2, Moves=2)
    t.move(0, 0, 0, 1, [0])
    t.move(0, 1, 1, 2, [1])
    t.turns(0, "SetNext SetLook SetPut MoveEnd SetNext SetLook SetPut MoveEnd Look Take Put")
    t.ends(0, "new", 2)
    t.sees(("level", 2, "previous", 1), ("level", 2, "depth", 2), ("level", 2, "entry", 0, ("node", 0)), ("level", 2, "entry", 1, ("node", 1)))
    return t


def all_moves(layout):
    """The same again in each new level, down to the last: worker 1's k-th pixel shares its first k + 1 digits with the node that worker 0 sets there."""
    t, most = Watched(layout, 2, 1, 16), 24 // layout.width - 1
    t.call(0, 0, "Look Take Put", "new", 0)
    t.begin(0, t.pixel(0, 1))
    t.turns(0, "Look Read Tail Level Close ChainHead ChainNext SetNext")
    for k in range(1, most):
        pixel = t.pixel(0, 0, *[1] * k)
        t.ask("start", 1, pixel >> 12, pixel & 4095)
        while ANSWERS[t.reply.answer] == "open":
            t.ask("turn", 1)
        t.ends(1, "new", k)
        t.turns(0, "SetLook SetRead SetTail SetLevel SetClose ChainHead ChainNext SetNext")
    t.shows(0, kind="SetLook", level=most, Moves=most)
    t.sees(("level", most, "previous", most - 1), ("level", most, "depth", most))
    for j in range(most):
        t.move(0, j, j, j + 1, [j])
    return t


# Numbers that the library shows.

class Measured:
    """At one width the lengths that it asks for, the words that it writes, the records that it takes."""

    def __init__(self, layout, tables):
        self.layout, self.width = layout, layout.width
        self.node_words, self.level_words, self.worker_words = (self.least(k) // n for k, n in enumerate((5, level_count(3, 2, 5, self.width), 3)))
        self.zeroed = sum(word == 0 for word in Table(3, 2, 5, self.width).areas[2]) // 3
        self.started = self.written_by_a_start()
        self.turned = sorted(set().union(*[t.turned for t in tables]) - set(range(layout.at("Workers", "Move j: home"), self.worker_words)))
        self.answers, self.viewers_answers = ([n for n in range(99) if self.takes(0, answer=n, viewers=v)] for v in (0, 1))
        kinds = [k for k in range(1, 99) if any(self.takes(k, moves=m) for m in ([], [0], [1]))]
        moves = {k: next(m for m in ([], [0], [1]) if self.takes(k, moves=m)) for k in kinds}
        self.viewers_kinds = [k for k in kinds if self.takes(k, moves=moves[k], viewers=1)]
        self.last_kind = max(kinds)
        self.pixel = self.most(lambda n: self.takes(1, pixel=n))
        self.counted = [k for k in kinds if not self.takes(k, count=0, moves=moves[k])]
        self.count, = {self.span(lambda n: self.takes(k, count=n, moves=moves[k])) for k in self.counted}
        self.searching = [k for k in kinds if moves[k] == []]
        self.empty = [k for k in kinds if moves[k] == [0]]
        self.holding = [k for k in kinds if moves[k] == [1]]
        self.inner, = {self.span(lambda n: self.takes(k, moves=[n])) for k in self.holding}
        self.outer, = {self.span(lambda n: self.takes(k, moves=[n] + moves[k])) for k in self.empty + self.holding}
        self.moves, = {self.span(lambda n: n and self.takes(k, moves=[1] * (n - 1) + moves[k])) for k in self.empty + self.holding}
        self.most_nodes = max(n for n in range(20) if self.takes(self.holding[0], moves=[n], limit=8))
        self.last_depth = max(n for n in range(20) if self.looks_at(n))

    def least(self, area):
        """The least length of an area that an opening takes."""
        return 1 + self.most(lambda n: Table(3, 2, 5, self.width, [n if k == area else 4000 for k in range(3)]).opened == 2, 4000)

    @staticmethod
    def most(holds, below=2 ** 32):
        low, high = 0, below
        while high - low > 1:
            middle = (low + high) // 2
            low, high = (middle, high) if holds(middle) else (low, middle)
        return low

    @staticmethod
    def span(holds):
        found = [n for n in range(16) if holds(n)]
        return (found[0], found[-1]) if found == list(range(found[0], found[-1] + 1)) else None

    def takes(self, kind, answer=0, pixel=0, count=1, moves=(), limit=3, viewers=0):
        """Whether the record of the last worker fits its layout: its last answer is read. `moves` has how many nodes each Move remembers."""
        t, lay = Table(2, limit, 5, self.width, viewers=viewers), self.layout
        for name, word in (("kind", kind), ("answer", answer), ("pixel", pixel), ("count", count), ("Moves", len(moves))):
            t.areas[2][lay.worker_words + lay.head[name]] = word
        for j, n in enumerate(moves):
            t.areas[2][lay.worker_words + lay.at("Workers", "Move j: count", j=j)] = n
        return t.ask("last", 1) == 0

    def looks_at(self, depth):
        """Whether a level of this depth is looked at: the root with another depth."""
        t = Table(1, 1, 1, self.width)
        t.areas[1][self.layout.at("Levels", "depth")] = depth
        t.ask("start", 0, 0, 0)
        return t.ask("turn", 0) == 0

    def written_by_a_start(self):
        t, lay = Table(2, 3, 5, self.width), self.layout
        before = [MARK + k for k in range(lay.worker_words)]
        before[lay.head["kind"]], before[lay.head["answer"]] = 0, 2
        t.areas[2][lay.worker_words:2 * lay.worker_words] = before
        t.ask("start", 1, 1, 1)
        return [k for k in range(lay.worker_words) if t.areas[2][lay.worker_words + k] != before[k]]

    def picture(self, lay):
        """The page's picture, without its blanks: names in the order of the tables' places, numbers as they are measured."""
        node, moved = " ".join(lay.order("Nodes")), [w[8:] for w in lay.order("Workers") if w.startswith("Move j")]
        level = " ".join(lay.order("Levels")[:-1])
        head = sorted(lay.head, key=lay.head.get)
        unused = [k for k in lay.unused if k < lay.at("Workers", "Move j: home")]
        home = [lay.at("Workers", "Move j: home", j=j) for j in range(self.moves[1] + 1)]
        return " ".join([
            "nodes | %s | %s | %s | ... %d words a node node 0 node 1 node 2" % (node, node, node, self.node_words),
            "levels | %s %s | %s ... %d words a level" % (level, " ".join("e%d" % e for e in range(self.level_words - 2)), level, self.level_words),
            "level 0: the root level 1 workers | worker 0: %d words | worker 1: %d words | ..." % (self.worker_words, self.worker_words),
            "a worker | " + " | ".join("%d %s" % (k, {"answer's node": "its node"}.get(name, name)) for k, name in enumerate(head)),
            "| %d-%d - | | %d Move 0: %s n0 .. n%d" % (unused[0], unused[-1], home[0], " ".join(moved[:-1]), self.most_nodes - 1),
            "| %d Move 1: the same | ... | %d Move %d | %d-%d - |" % (home[1], home[-2], len(home) - 2, home[-1], self.worker_words - 1),
            "the outermost Move the Move inside it"])

    def sentences(self):
        """Sentences of the page with the numbers that they should have."""
        kinds = {name: k for name, k in self.layout.kinds.items() if k in self.viewers_kinds}
        # the formulas' numbers are those by which what was measured comes out
        by_width = (2 + 2 ** self.width, 24 // self.width - 1, 24 // self.width - 1) == (self.level_words, self.last_depth, self.moves[1])
        return [
            (r"All words are (N)-bit unsigned\.", [8 * ctypes.sizeof(Word)]),
            (r"A level has S = (N) \+ (N)\^w words, depths run from (N) to D = (N) / w − (N), and at most D Moves are open one inside another\.",
             by_width and [2, 2, 0, 24, 1]),
            (r"At width (N): ```", [3]),
            (r"two pixels in one chain of level (N)\.", [0]),
            (r"## Nodes: (N) words each", [self.node_words]),
            (r"## Levels: S words each", []),
            (r"\| entry e, (N) to (N)\^w − (N): a reference \|", by_width and [0, 2, 1]),
            (r"pixel p's entry is its digit there: p / (N)\^\((N) − w × \(d \+ (N)\)\) mod (N)\^w\.", [2, 24, 1, 2]),
            (r"## Workers: (N) words each", [self.worker_words]),
            (r"An opening zeroes all (N);", [self.zeroed]),
            (r"\| (N) idle, (N) to (N) the kind of the next turn", [0, 1, self.last_kind]),
            (r"R's place in its chain, from (N); past the limit it stays at limit \+ (N) \|", [self.count[0], self.count[1] - 3]),
            (r"\| of \"new\" and \"found\"; (N) with \"full\" and \"absent\" \|", [0]),
            (r"how many Moves are open, one inside another: (N) to D \|", [0]),
            (r"Move (N) is the outermost \|", [0]),
            (r"how many nodes are remembered, (N) to (N) \|", [0, self.most_nodes]),
            (r"Kinds:" + r" (N) \w+,?" * len(self.searching) + r" \(searching\);" + r" (N) \w+,?" * (self.last_kind - len(self.searching)) + r" \(moving\)\.",
             self.searching + sorted(self.empty + self.holding)),
            (r"A start changes words (N), (N), (N) and (N): kind Look, the pixel, level (N), no Move\.", self.started + [0]),
            (r"A turn changes words (N) and (N) to (N) as its kind says", bounds(self.turned)),
            (r"a new Move is written with count (N) and eight zeros", [0]),
            (r"- Idle: answer (N) to (N); of a viewer" + either(self.viewers_answers) + r"\.", bounds(self.answers) + self.viewers_answers),
            (r"- A viewer's open call: kind%s \(%s\)\." % (either(self.viewers_kinds), ", ".join(sorted(kinds, key=kinds.get))), self.viewers_kinds),
            (r"- Open: pixel ≤ (N)\. At a node of a chain \(kinds (N) to (N) and (N) to (N)\): count (N) to limit \+ (N)\.",
             [self.pixel] + bounds(self.counted) + [self.count[0], self.count[1] - 3]),
            (r"- Searching: no Move\. Moving: (N) to D Moves; each but the innermost remembers (N) to limit nodes; the innermost remembers (N) to limit nodes "
             r"in kinds (N) to (N) and none in (N) and (N)\.", [self.moves[0], self.outer[0], self.inner[0]] + bounds(self.holding) + self.empty),
            (r"- A kind number above (N) does not fit\.", [self.last_kind]),
        ]


def bounds(numbers):
    """The first and the last number of each unbroken row."""
    return [n for n in numbers if n - 1 not in numbers or n + 1 not in numbers]


def either(numbers):
    """The pattern of so many numbers, the last behind "or"."""
    return ",".join([" (N)"] * (len(numbers) - 1)) + " or (N)"


def misplaced(lay, tables):
    """Facts that the words at the page's places do not show, one by one."""
    seen = set()
    for areas, workers, facts in (moment for t in tables for moment in t.moments):
        seen.update(fact[3] for fact in facts if fact[2] == "kind")
        for fact in facts:
            area, at, word = lay.place(fact)
            if at >= len(areas[area]) or areas[area][at] != word:
                yield "%s: word %d is not %s" % (fact, at, word)
        for at in (lay.worker_words * i + k for i in range(workers) for k in lay.unused):
            if at >= len(areas[2]) or areas[2][at] != MARK + at % lay.worker_words:
                yield "word %d is used" % at
    if seen != set(lay.kinds):
        yield "no call had the kinds %s" % sorted(set(lay.kinds) ^ seen)


def mismeasured(lay, measured):
    """What the page says otherwise than the library shows it, one by one."""
    row = [lay.width, measured.level_words - 2, measured.level_words, measured.last_depth, lay.at("Workers", "Move j: home", j=measured.moves[1]), measured.worker_words - 1]
    if row not in lay.widths:
        yield "no row of the widths is %s" % row
    if [row[0] for row in lay.widths] != WIDTHS:
        yield "the widths are not %s" % WIDTHS
    if lay.covered(measured.moves[1]) != list(range(measured.worker_words)):
        yield "the table of words does not name each of %d words once" % measured.worker_words
    elif lay.width == 3 and "``` %s ```" % measured.picture(lay) not in lay.flat:
        yield "the picture is not: " + measured.picture(lay)
    for pattern, numbers in measured.sentences():
        try:
            if list(lay.says(pattern)) != numbers:
                yield "'%s' has %s, not %s" % (pattern.replace("\\", ""), list(lay.says(pattern)), numbers)
        except Misread as what:
            yield str(what)


def other_words(lay):
    """What bench/by_hand.c numbers otherwise: it has the same record."""
    hand = read("bench/by_hand.c")
    short = {"held node": "HNODE", "held level": "HLEVEL", "answer's node": "ANODE"}
    for start, prefix, names in (("enum kind { ", "", lay.kinds), ("enum { ", "W_", lay.head)):
        wanted = ", ".join(prefix + short.get(name, name).upper() for name in sorted(names, key=names.get))
        if start + wanted + " };" not in hand:
            yield "bench/by_hand.c has not %s%s };" % (start, wanted)


def wrong(text, shown):
    """What a page says otherwise than the library, one by one. `shown` has the tables and the measures of each width."""
    try:
        for width, (tables, measured) in shown.items():
            lay = Layout(text, width)
            for said in (mismeasured(lay, measured), misplaced(lay, tables)):
                yield from ("width %d: %s" % (width, what) for what in said)
    except Misread as what:
        yield str(what)


def wrong_pages(text):
    """Pages with one number higher or lower by one, or with two names or contents exchanged, and what was done."""
    for m in re.finditer(r"\d+(?:,\d{3})*", text):
        old = number(m.group())
        for new in (old - 1, old + 1) if old else (1,):
            yield "%d for %r" % (new, text[m.start():m.start() + 20]), text[:m.start()] + format(new, "," if "," in m.group() else "d") + text[m.end():]
    for m in re.finditer(r"\b(inn|out)(?=ermost\b)", text):
        yield "another end for %r" % text[m.start():m.start() + 20], text[:m.start()] + {"inn": "out", "out": "inn"}[m.group()] + text[m.end():]
    # neighbours: kinds and answers behind their numbers, kinds without them, words of the picture
    name = r"([A-Z]\w+|none|new|found|full|absent)"
    picture = re.search(r"```.*?```", text, re.S)
    patterns = [(r"(?<=\d )%s((?:,| \(\w+\);)\s\d+ )%s\b" % (name, name), len(text)), (r"\b([A-Z][a-z]\w+)(, )([A-Z][a-z]\w+)\b", len(text)),
                (r"\b([A-Za-z]\w*)([^A-Za-z]+)([A-Za-z]\w*)", picture.end())]
    for pattern, until in patterns:
        at = 0
        while m := re.compile(pattern).search(text, at, until):
            at = m.end(1)
            if m.start() > picture.start() and m.group(1) != m.group(3):
                yield "%s for %s" % (m.group(3), m.group(1)), text[:m.start()] + m.group(3) + m.group(2) + m.group(1) + text[m.end():]
    # and the cells of two rows, in each column but that of the places
    lines = text.split("\n")
    for k, (one, two) in enumerate(zip(lines, lines[1:])):
        cells = one.split("|"), two.split("|")
        for c in range(2, len(cells[0]) - 1) if one.startswith("| ") and two.startswith("| ") else ():
            if cells[0][c] != cells[1][c]:
                rows = ["|".join(row[:c] + [other[c]] + row[c + 1:]) for row, other in (cells, cells[::-1])]
                yield "%s for %s" % (cells[1][c], cells[0][c]), "\n".join(lines[:k] + rows + lines[k + 2:])


def main():
    page = read("docs/LAYOUT.md")
    shown = {}
    try:
        for width in WIDTHS:
            layout = Layout(page, width)
            tables = [calls(layout) for calls in (chains, looked_up, one_node_moves, three_nodes_move, eight_nodes_move, move_inside_a_move, all_moves)]
            bad = list(misplaced(layout, tables))
            if bad:
                break
            shown[width] = tables, Measured(layout, tables)
        bad = bad or list(wrong(page, shown)) + list(other_words(layout))
    except Misread as what:
        bad = [str(what)]
    if not bad:
        tried = list(wrong_pages(page))
        bad = ["not noticed: " + what for what, text in tried if not any(wrong(text, shown))]
    for line in bad[:9]:
        print("layout: " + line)
    if bad:
        sys.exit(1)
    print("layout: LAYOUT.md is as the library shows at %d widths in %d moments; %d wrong numbers, names and contents are noticed"
          % (len(shown), sum(len(t.moments) for tables, _ in shown.values() for t in tables), len(tried)))


if __name__ == "__main__":
    main()
