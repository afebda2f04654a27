#!/usr/bin/env python3
"""What README.md, docs/ and the header's comments say: links, names before links, the race, the viewer's text, the memory to lend at each width, counts; and that each file of tests/
is run.
Relies on tests/library.py, the program, crates.txt, crates/*/must-fail and tests/run.sh."""
import glob
import os
import re
import subprocess
import sys

from library import ROOT, Table, level_count, read

COUNTS = "no one two three four five six seven eight nine ten".split()
bad = []


def declared(name, text):
    return re.search(r"(?:\bfn |\bpub |\bconst |^)(?:record |data |struct |enum )?" + re.escape(name) + r"(?![\w-])", text, re.M)


links = names = 0
for path in ["README.md"] + sorted(os.path.relpath(p, ROOT) for p in glob.glob(os.path.join(ROOT, "docs/*.md"))):
    text = read(path)
    for target in re.findall(r"\]\(([^)#:]+)\)", text):
        links += 1
        if not os.path.exists(os.path.join(ROOT, os.path.dirname(path), target)):
            bad.append("%s links to %s, which is not there" % (path, target))
    several = r"((?:`[\w-]+`, )*`[\w-]+`)\s+"
    pairs = [(said, os.path.join(os.path.dirname(path), t)) for said, t in re.findall(several + r"in\s+\[[^]]*\]\(([^)#:]+\.(?:antt|rt))\)", text)]
    pairs += re.findall(several + r"(?:of|in)\s+`(crates/[^`]+\.(?:antt|rt))`", text)
    for said, target in pairs:
        for name in re.findall(r"`([\w-]+)`", said):
            names += 1
            if not os.path.exists(os.path.join(ROOT, target)) or not declared(name, read(target)):
                bad.append("%s: %s is not declared in %s" % (path, name, target))
if names < 10:
    bad.append("only %d names stand before links: they are written in another way than this test reads" % names)

readme, header = read("README.md"), read("include/leafdrum.h")


def prints(text):
    return subprocess.run([os.path.join(ROOT, "leafdrum")], input=text.encode(), stdout=subprocess.PIPE, check=True).stdout.decode()


race = re.search(r"\$ \./leafdrum < (examples/race\.txt)\n(.*?)```", readme, re.S)
if not race or prints(read(race.group(1))) != race.group(2):
    bad.append("README.md does not show the race that the program prints")
viewer = re.search(r"\n(`s,.*`) \(one a line\) prints\n\n```\n(.*?)```", readme, re.S)
if not viewer or prints("".join(line + "\n" for line in re.findall(r"`([^`]+)`", viewer.group(1)))) != viewer.group(2):
    bad.append("README.md does not show what the program prints for the viewer's text")


def worth(formula, **values):
    """What '1 + (24 / width − 1) × (nodes / limit) + workers' is worth; 0 where it is no formula in the names of these values."""
    terms = formula.replace("`", "").replace("×", "*").replace("/", "//").replace("−", "-").replace("^", "**")
    known = set(re.findall(r"[a-z_]+", terms)) <= set(values)
    return eval(terms, {}, values) if known and re.fullmatch(r"[\w\s+*/()-]+", terms) else 0


def memory():
    """What README.md says of the memory to lend otherwise than the library asks for it, in the worked size at each width and in others."""
    widths = [w for w in range(99) if level_count(1, 1, 1, w)]
    row = r"\| %s \| ([^|\n]*) \| `(\w+)` \|\n"
    table = re.search(r"\| area \| words \| macro \|\n\|[-|]*\|\n" + row % "nodes" + row % "levels" + row % "workers", readme)
    worked = re.search(r"With ([\d,]+) nodes, chain limit (\d+) and (\d+) workers:\n\n\|[^\n]*\|\n\|[-|]*\|\n((?:\|[^\n]*\|\n)*)", readme)
    if not table or not worked:
        return ["README.md does not have its sizes in the form that this test reads"]
    wrong = ["include/leafdrum.h has no macro " + name for name in table.groups()[1::2] if not re.search(r"^#define %s\(" % name, header, re.M)]
    formulas = table.groups()[::2]
    each_level, _, of_count = formulas[1].partition(" × `leafdrum_level_count`, which is ")
    nodes, limit, workers = (int(n.replace(",", "")) for n in worked.groups()[:3])
    rows = []
    for n, l, w, width in [(*size, width) for size in ((11, 2, 3), (1, 8, 1), (63, 8, 5), (4096, 1, 16), (nodes, limit, workers)) for width in widths]:
        size = {"nodes": n, "limit": l, "workers": w, "width": width}
        count, words = level_count(**size), worth(each_level, **size)
        if worth(of_count, **size) != count:
            wrong.append("README.md: '%s' are not the %d levels of %s" % (of_count, count, size))
        lengths = [worth(formulas[0], **size), words * count, worth(formulas[2], **size)]
        # nothing less, nothing more: the opening takes these lengths, and refuses each area with a word less by 2
        tried = [Table(lengths=[max(n - (k == less), 0) for k, n in enumerate(lengths)], **size).opened for less in (None, 0, 1, 2)]
        if tried != [0, 2, 2, 2]:
            wrong.append("README.md: %s is not what the library asks for with %s" % (", ".join(formulas), size))
        if (n, l, w) == (nodes, limit, workers):
            of_levels = "{:,} × {:,} = {:,}".format(words, count, lengths[1])
            rows.append("| {} | {:,} | {} | {:,} | {:,} | {:,} |\n".format(width, lengths[0], of_levels, lengths[2], sum(lengths), 4 * sum(lengths)))
    if worked.group(4) != "".join(rows):
        wrong.append("README.md: the worked memory is\n%s, not\n%s" % ("".join(rows), worked.group(4)))
    depths = tuple(24 // w for w in widths)
    said = [("README.md", readme, "at most %d, %d, %d and %d" % depths),
            ("include/leafdrum.h", header, "an entry for each value of a digit, %d, %d, %d or %d, and the table at most %d, %d, %d or %d levels" % (*(2 ** w for w in widths), *depths))]
    return wrong + ["%s does not say of the levels: %s" % (path, what) for path, text, what in said if what not in " ".join(text.split())]


bad += memory()
ranges = re.findall(r"uint32_t (\w+); +/\* (?:chain limit, )?(\d+) to (\d+) \*/", header)
for field, low, high in ranges:
    tried = (int(low) - 1, int(low), int(high), int(high) + 1)
    if [n for n in tried if level_count(**{"workers": 1, "limit": 1, "nodes": 1, field: n})] != [*tried[1:3]]:
        bad.append("include/leafdrum.h: %s is not in range from %s to %s" % (field, low, high))
viewers = [n for n in range(9) if level_count(5, 1, 1, viewers=n)]
if "/* how many of the last workers are viewers, 0 to workers */" not in header or viewers != list(range(6)):
    bad.append("include/leafdrum.h does not say how many of 5 workers may be viewers, which are %s" % viewers)
if len(ranges) != 3:
    bad.append("include/leafdrum.h tells %d ranges, not those of workers, limit and nodes" % len(ranges))
functions = len(re.findall(r"^\w+ leafdrum_\w+\(", header, re.M))
if "declares %s functions" % COUNTS[functions] not in readme:
    bad.append("README.md does not say that the header declares %s functions" % COUNTS[functions])

crates = len([line for line in read("crates.txt").splitlines() if line and not line.startswith("#")])
edits = len(glob.glob(os.path.join(ROOT, "crates/*/must-fail/*.edit")))
last = "rt: ok; handles allowed: none; must-fail edits: %d refused; ..\n%d passed, 0 failed\n" % (edits, crates + edits)
if last not in readme:
    bad.append("README.md does not show the test command's last lines:\n" + last.strip())

for test in re.findall(r"tests/(\w+\.\w+)", read("tests/run.sh")):
    if not re.search(r"`(?:tests/)?%s`" % re.escape(test), readme):
        bad.append("README.md does not say what tests/%s does" % test)


def run_from(path, reached):
    """Adds the files of tests/ that this one runs, reads or imports: what it names outside its comments, and what cargo takes by itself."""
    if path in reached or not os.path.isfile(os.path.join(ROOT, path)):
        return
    reached.add(path)
    comments = r"/\*.*?\*/" if path.endswith((".c", ".h")) else r"^\s*//.*?$" if path.endswith(".rs") else r'""".*?"""|^\s*#.*?$'
    text = re.sub(comments, "", read(path), flags=re.M | re.S)
    found = re.findall(r"tests/[\w./]+", text)
    found += ["tests/%s.py" % name for name in re.findall(r"^(?:from|import) (\w+)", text, re.M)]
    found += [os.path.join(os.path.dirname(path), name + ".rs") for name in re.findall(r"^mod (\w+);", text, re.M)]
    if path.endswith("/Cargo.toml"):
        found += [os.path.join(os.path.dirname(path), name) for name in ("Cargo.lock", "build.rs", "src/main.rs")]
    for name in found:
        run_from(name, reached)


reached = set()
run_from("tests/run.sh", reached)
for folder, _, files in os.walk(os.path.join(ROOT, "tests")):
    for path in (os.path.relpath(os.path.join(folder, name), ROOT) for name in files if not folder.endswith("__pycache__")):
        if path not in reached:
            bad.append("%s is run by nothing that tests/run.sh runs" % path)

for line in bad:
    print(line)
if bad:
    sys.exit(1)
print("README and docs: %d links, %d names, the race, the viewer's text, the memory to lend, %d crates and %d edits hold; %d files of tests/ are run"
      % (links, names, crates, edits, len(reached)))
