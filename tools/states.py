"""The table's words after each line of a text, from the library itself: builds words.c over the static library and reads what it writes."""
import glob
import os
import subprocess

ROOT = os.path.dirname(os.path.dirname(os.path.abspath(__file__)))
KINDS = ("Idle Look Take Put Read Tail TakeTail Append Level Close Follow ChainHead ChainNext SetNext SetLook SetPut SetRead "
         "SetTail SetAppend SetLevel SetClose SetFollow MoveEnd").split()
WORDS = "kind pixel level node count held_node held_level answer answer_node moves".split()
NONE = 4294967295
LEVEL_WORDS = 2 + 2 ** 3  # at the text program's width


def program(name):
    """The path of tools/NAME.c compiled over the library; built anew where the code, the library or that file is newer."""
    lib, src, out = (os.path.join(ROOT, p) for p in ("target/staticlib/libexport.a", "tools/%s.c" % name, "target/" + name))
    code = glob.glob(os.path.join(ROOT, "crates/*/src/*.rt"))
    if not os.path.exists(lib) or os.path.getmtime(lib) < max(map(os.path.getmtime, code)):
        subprocess.run(["sh", "tools/build.sh"], cwd=ROOT, check=True, stdout=2)
    if not os.path.exists(out) or os.path.getmtime(out) < max(os.path.getmtime(lib), os.path.getmtime(src)):
        subprocess.run(["gcc", "-O2", "-Wall", "-Wextra", src, lib, "-o", out], check=True)
    return out


class State:
    """What the areas hold after one line."""

    def __init__(self, line, reply):
        self.line, self.reply = line, reply
        self.nodes, self.levels, self.workers, self.settings = [], [], [], []

    def worker(self, i):
        """Worker i's words by name, its kind as a name, and its Moves from the outermost in."""
        w = self.workers[i]
        d = dict(zip(WORDS, w))
        d["kind"] = KINDS[w[0]] if w[0] < len(KINDS) else str(w[0])
        d["list"] = [w[16 + 11 * j:27 + 11 * j] for j in range(w[9])]
        return d

    def views(self, i):
        """Whether worker i is a viewer."""
        return i >= self.settings[0] - self.settings[5]

    def chain(self, word):
        """The nodes from a reference on, and the reference behind the last of them."""
        found = []
        while word & 1 and len(found) < 200:
            found.append(word >> 1)
            word = self.nodes[word >> 1][1]
        return found, word


def states(text):
    """The state after each line of a text in bytes, refused lines too; none where its first line is refused."""
    out = subprocess.run([program("words")], input=text, stdout=subprocess.PIPE, check=True).stdout.decode()
    found = []
    for row in out.splitlines():
        word, _, rest = row.partition(" ")
        if word == "line":
            found.append(State(rest, None))
        elif word == "reply":
            found[-1].reply = tuple(map(int, rest.split()))
        elif word == "settings":
            found[-1].settings = list(map(int, rest.split()))
        elif word in ("node", "level", "worker"):
            getattr(found[-1], word + "s").append(list(map(int, rest.split()))[1:])
    return found


def ref(word, level=None):
    """A reference as text: L3, n5; a dot where it is the level's own."""
    if word == NONE:
        return "none"
    if word & 1:
        return "n%d" % (word >> 1)
    return "·" if level is not None and word == 2 * level else "L%d" % (word >> 1)
