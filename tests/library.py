"""The library for the tests in Python: its functions, and tables over lent areas of any length.
Relies on target/staticlib/libexport.a, which gcc makes a shared object of."""
import ctypes
import os
import subprocess

ROOT = os.path.dirname(os.path.dirname(os.path.abspath(__file__)))
ANSWERS = ["none", "new", "found", "full", "open", "absent"]
Word = ctypes.c_uint32


class Settings(ctypes.Structure):
    _fields_ = [(name, Word) for name in ("workers", "limit", "nodes", "nodes_taken", "levels_taken", "viewers", "width")]


class Reply(ctypes.Structure):
    _fields_ = [(name, Word) for name in ("number", "answer", "node", "turns", "exchanges_done", "exchanges_failed")] + [("settings", Settings)]


def read(path):
    with open(os.path.join(ROOT, path), encoding="utf-8") as f:
        return f.read()


def loaded():
    path = os.path.join(ROOT, "target/tests/libleafdrum.so")
    os.makedirs(os.path.dirname(path), exist_ok=True)
    subprocess.run(["gcc", "-shared", "-o", path, "-Wl,--whole-archive", os.path.join(ROOT, "target/staticlib/libexport.a"), "-Wl,--no-whole-archive"], check=True)
    lib = ctypes.CDLL(path)
    for name in ("open", "start", "view", "turn", "last"):
        getattr(lib, "leafdrum_" + name).restype = Reply
    lib.leafdrum_level_count.restype = Word
    return lib


LIB = loaded()


def level_count(workers, limit, nodes, width=3, viewers=0):
    return LIB.leafdrum_level_count(Settings(workers, limit, nodes, 0, 0, viewers, width))


class Table:
    """A table over nodes, levels and workers of such lengths, at least as long as it needs where none are given; every word is 77 before the opening, whose
    number `opened` keeps."""

    def __init__(self, workers, limit, nodes, width=3, lengths=None, viewers=0):
        self.settings = Settings(workers, limit, nodes, 0, 0, viewers, width)
        lengths = lengths or (64 + 2 * nodes, (2 + 2 ** width) * level_count(workers, limit, nodes, width) + 64, 256 * workers + 64)
        self.areas = [(Word * n)(*[77] * n) for n in lengths]
        self.opened = self.ask("open")

    def ask(self, name, *given):
        lent = [x for area in self.areas for x in (area, ctypes.c_size_t(len(area)))]
        self.reply = getattr(LIB, "leafdrum_" + name)(self.settings, *map(Word, given), *lent)
        if self.reply.number in (0, 9):
            self.settings = self.reply.settings
        return self.reply.number
