#!/usr/bin/env python3
"""Document 01: "A turn makes one shared access and the private work around it." In the text of the 22 turns, and of a viewer's two functions, no way makes a second one: the word that is asked is
the one that is acted on, and what a failed exchange met is the word that it gave. Of branches the dearest counts; a loop or recursion with an access counts as many.
Relies on `nodes` and `levels` as the names of the areas and on a function's braces in lines of their own. Texts with a second access must be noticed."""
import pathlib
import re
import sys

ROOT = pathlib.Path(__file__).resolve().parent.parent
# what these functions of areas count, whatever they call: filling a node or level is one access; pixel, depth and previous words are private
ACCESSES, PRIVATE = "exchange cell_at next_at set_cell set_next fill_node fill_level".split(), "pixel_at depth_at previous_at".split()
# a method's name has its dot, as a field's has
TURNS = [("worker", "." + name) for name in "look take put read tail take_tail append level close follow".split()] + [
    ("mover", "." + name) for name in ("chain_head chain_next set_next_word set_look set_put set_read set_tail set_append set_level set_close set_follow "
                                       "move_end").split()]
# a viewer's Look and Read, and its Tail and Follow
VIEWS = [("worker", ".view_entry"), ("worker", ".view_next")]
MANY = 100
# a crate, a text of it, what takes its place, and the turns that make more than one access then
WRONG = [
    ("worker", " put_met(s, h, word, nodes, levels)\n", " let again = cell_at(x, nodes, levels);\n put_met(s, h, again, nodes, levels)\n", ["put"]),
    ("mover", " let g = level_ref(h.held_level - 1);\n", " let g = level_ref(h.held_level - 1);\n let before = next_at(nodes, h.node);\n", ["set_close"]),
    ("mover", " Some(child) if before & ref_taken(s, word) =>", " Some(child) if before & ref_taken(s, next_at(nodes, h.node)) =>", ["set_append", "set_close", "set_follow"]),
    ("mover", " let h = met_head(h, more(s, h.count), child, word);\n", " let h = met_head(h, more(s, h.count), child, next_at(nodes, h.node));\n", ["set_append", "set_close", "set_follow"]),
    ("worker", " compares_ref(s, word, nodes) =>", " compares_ref(s, next_at(nodes, h.node), nodes) =>", ["append", "close", "follow", "view_next"]),
    ("worker", " Ok(met(s, h, more(s, h.count), child, word, ", " Ok(met(s, h, more(s, h.count), child, next_at(nodes, h.node), ", ["append", "close", "follow", "view_next"]),
    ("worker", " peek_met(true, before, s, h, word, Kind::Take,", " peek_met(true, before, s, h, next_at(nodes, h.node), Kind::Take,", ["view_entry"]),
]


def grouped(words):
    """The words up to a closing bracket, each bracket within as a list that begins with it."""
    found = []
    for word in words:
        if word in (")", "]", "}"):
            break
        found.append([word] + grouped(words) if word in ("(", "[", "{") else word)
    return found


class Source:
    def __init__(self, texts):
        self.bodies, self.imports, self.counts = {}, {}, {("areas", name): int(name in ACCESSES) for name in ACCESSES + PRIVATE}
        for crate, text in texts.items():
            found = re.findall(r"^( *)(?:pub )?fn (\w+)\(.*?^\1\{\n(.*?)^\1\}", text, re.M | re.S)
            if len(found) != len(re.findall(r"\bfn \w", text)):
                sys.exit("reads: not every function of %s is read" % crate)
            for indent, name, body in found:
                words = iter(re.findall(r"\.\.|\.?\w+|=>|\S", re.sub(r"//.*", "", body).replace("::", ".")))
                self.bodies.setdefault((crate, "." * bool(indent) + name), []).extend(grouped(words))
            for source, names in re.findall(r"^use (\w+)::\{?([\w,\s]+)\}?;", text, re.M):
                self.imports.update({(crate, name): (source, name) for name in re.findall(r"\w+", names)})

    def called(self, key, given=()):
        key = key if key in self.bodies else self.imports.get(key, key)
        if key in self.bodies and key not in self.counts:
            self.counts[key] = MANY
            self.counts[key] = self.most(key[0], self.bodies[key])
        # what stands elsewhere makes an access if it is given an area
        return self.counts.get(key, int("nodes" in given or "levels" in given))

    def most(self, crate, words):
        """The most accesses on a way through these words."""
        total, at = 0, 0
        while at < len(words):
            word, after = words[at], words[at + 1] if at + 1 < len(words) else ""
            count, at = self.branches(crate, words, at + 1) if word in ("if", "while", "for", "match") else (0, at + 1)
            if isinstance(word, list):
                count = self.most(crate, word[1:])
            elif after[:1] == ["("] and re.match(r"\.?\w", word):
                count = self.called((crate, word), after)
            total += count + (word in ("nodes", "levels") and after[:1] == ["["])
        return total

    def branches(self, crate, words, at):
        """The most accesses of the if, while, for or match before this place, and where it ends."""
        block = next(k for k in range(at, len(words)) if words[k][0] == "{")
        asked, done, end = self.most(crate, words[at:block]), self.most(crate, words[block][1:]), block + 1
        if words[at - 1] == "match":
            done = self.arms(crate, words[block][1:])
        if words[end:end + 1] == ["else"]:
            other, end = self.branches(crate, words, end + 2) if words[end + 1] == "if" else (self.most(crate, words[end + 1][1:]), end + 2)
            done = max(done, other)
        return (asked + done) * (MANY if words[at - 1] in ("while", "for") else 1), end

    def arms(self, crate, words):
        """The most accesses of the arms of a match. The tests of the arms before it stand on the way to an arm."""
        tests, dearest, at = 0, 0, 0
        while "=>" in words[at:]:
            to = words.index("=>", at)
            test = words[at:to]
            tests += self.most(crate, test[test.index("if") + 1:]) if "if" in test else 0
            at = to + 2 if words[to + 1][0] == "{" else words.index(",", to) if "," in words[to:] else len(words)
            dearest = max(dearest, tests + self.most(crate, words[to + 1:at]))
            at += words[at:at + 1] == [","]
        return dearest

    def not_one(self):
        return {name[1:]: self.called((crate, name)) for crate, name in TURNS + VIEWS if self.called((crate, name)) != 1}


texts = {crate: (ROOT / "crates" / crate / "src/lib.rt").read_text(encoding="utf-8") for crate in ("worker", "mover", "steps", "areas")}
bad = ["%s makes %d shared accesses, not one" % turn for turn in Source(texts).not_one().items()]
for crate, old, new, turns in [] if bad else WRONG:
    if texts[crate].count(old) != 1 or [*Source(dict(texts, **{crate: texts[crate].replace(old, new)})).not_one()] != turns:
        bad.append("not noticed in %s by the text of %s: %s" % (" and ".join(turns), crate, new))
if bad:
    sys.exit("\n".join("reads: " + line for line in bad))
print("reads: %d turns and %d functions of viewers, one access each; %d wrong texts noticed" % (len(TURNS), len(VIEWS), len(WRONG)))
