#!/usr/bin/env python3
"""The states that the pictures and the trace are drawn from are the program's: for each text of examples/ they refuse the lines that the program refuses, with
its numbers, and end with the counts of its end line."""
import glob
import os
import subprocess
import sys

ROOT = os.path.dirname(os.path.dirname(os.path.abspath(__file__)))
sys.path.insert(0, os.path.join(ROOT, "tools"))
from states import states  # noqa: E402


def differs(path):
    """What the states of a text say that the program does not, or None."""
    with open(path, "rb") as text_file:
        text = text_file.read()
    said = subprocess.run([os.path.join(ROOT, "leafdrum")], input=text, stdout=subprocess.PIPE, check=True).stdout.decode().splitlines()
    found = states(text)
    refused = ["refused,%d,%d" % (k + 1, st.reply[0]) for k, st in enumerate(found) if st.reply[0] not in (0, 9)]
    end = ["end,%d,%d" % tuple(found[-1].settings[3:5])] if found else []
    if not found:
        refused = [row for row in said if row in ("refused,1,%s" % row.split(",")[-1], "refused,0,10")]
    wanted = [row for row in said if row.startswith(("refused,", "end,"))]
    return None if refused + end == wanted else (refused + end, wanted)


texts = sorted(glob.glob(os.path.join(ROOT, "examples/*.txt")))
bad = [(t, d) for t in texts for d in [differs(t)] if d]
for t, d in bad:
    print("states: %s: drawn %s, printed %s" % (os.path.relpath(t, ROOT), *d))
if bad or not texts:
    sys.exit(1)
print("states: %d texts are drawn as the program reads them" % len(texts))
