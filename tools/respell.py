#!/usr/bin/env python3
"""Brings the repository's own definitions and lemmas to today's spelling: snake case, and a dash where it joins the names of two functions, as in `length-fill`.
Relies on nothing. It was run once, at the top of the repository, after the kit's script; it rewrites specs/, proofs/ and the clauses of src/ in place.
usage: python3 tools/respell.py [--names FILE]   (FILE gets a line for each name that changed: the old one, a tab, the new one)"""
import glob
import os
import re
import sys

PART = r"[^\s(){}.;,@\"«»\[\]\\]+"
USE = re.compile(r"^\s*(?:pub |ghost |unfoldable )*use ([^\s{]+?)(?:\.\{([^}]*)\}|\.(%s))?(?: as (%s))?;?\s*$" % (PART, PART), re.M)
# std's functions whose names a lemma's name is made of
WORDS = set("length get_or set sets take drop replicate append cons nil snoc map reverse mem suc zero add sub mul div mod pow le lt eqb leb ltb eq min max not and or".split())
LOWER = re.compile(r"[a-zα-ω]")


def read(path):
    with open(path, encoding="utf-8") as f:
        return f.read()


def snake(part):
    """nodeTaken -> node_taken; a word that begins with a capital is a type's and keeps it."""
    if not LOWER.match(part):
        return part
    return re.sub(r"(?<=[a-z0-9ᴰ'])([A-Z])", lambda m: "_" + m[1].lower(), part)


def is_own(module):
    return module.startswith("Rattle.") and module.split(".")[1] in CRATES


def code_of(text):
    """The text with comments and strings blanked."""
    return re.sub(r"--[^\n]*|\"[^\"\n]*\"", lambda m: " " * len(m[0]), text)


def declared(text):
    """What the text of an .antt file declares at its top, in records, data types and where-blocks, and functions among it."""
    code = code_of(text)
    names, functions = set(), set()
    for row in code.split("\n"):
        words = row.split(" : ")[0].split(" = ")[0].split("(")[0].split("{")[0].split() if " : " in row or row.endswith(" :") or " = " in row else []
        kept = [x for x in words if x not in ("unfoldable", "abbrev", "pub", "ruleset", ":", "=")]
        if not kept or any(not re.fullmatch(PART, x) for x in kept):
            continue
        # before a colon each word is declared, before an equals sign the first
        colon = " : " in row.split(" = ")[0] or row.endswith(" :")
        found = kept if colon else kept[:1]
        names.update(found)
        if "unfoldable" in words or "abbrev" in words:
            functions.update(found)
    return names, functions


CRATES = {line.split()[0].rstrip(":") for line in read("crates.txt").splitlines() if line.strip() and not line.startswith("#")}
ANTT = sorted(p for p in glob.glob("crates/*/specs/**/*.antt", recursive=True) + glob.glob("crates/*/proofs/**/*.antt", recursive=True))
RT = sorted(glob.glob("crates/*/src/**/*.rt", recursive=True))
DECLARED, FUNCTIONS = set(), set(WORDS)
for path in ANTT:
    if "/proofs/" in path and path.count("/") > 3:
        continue
    d, f = declared(read(path))
    DECLARED |= d
    FUNCTIONS |= {snake(x) for x in f if "-" not in x}


# definitions that were spelled in camel case
CAMEL = {n for n in DECLARED if re.match(r"[a-z][a-z0-9]*[A-Z]", n) and "-" not in n}


def respelled(name):
    parts = [snake(p) for p in name.split("-")]
    if "" in parts or len(name) < 2:
        return name
    out = parts[0]
    for before, after in zip(parts, parts[1:]):
        dash = (before in FUNCTIONS or not LOWER.match(before)) and after in FUNCTIONS
        out += ("-" if dash else "_") + after
    return out


# A lemma that would have its function's name gets `_lem`.
TAKEN = {respelled(n) for n in DECLARED if "-" not in n and (n in CAMEL or respelled(n) != n)}
CHANGES = {n: respelled(n) for n in DECLARED}
CHANGES = {n: new + "_lem" if new in TAKEN and respelled(n) == new and n not in CAMEL else new for n, new in CHANGES.items()}
CHANGES = {n: new for n, new in {**CHANGES, "is-pixel": "is_pixel_number"}.items() if n != new}


def theirs(text):
    """The names that a file imports from elsewhere."""
    found = set()
    for module, names, one, other in USE.findall(text):
        if not is_own(module):
            found.update(n.split(" as ")[-1].strip() for n in names.split(",") if n.strip())
            found.update(x for x in (one, other) if x)
    return found


def turn(text, path):
    out = theirs(text)
    generated = "/proofs/" in path and path.count("/") > 3

    speaks_of_results = re.search(r"\.Operations\.\{[^}]*\bresult\b", text) or path.endswith("rules/specs/Operations.antt")

    def word(t, before):
        # `result` is what a clause calls the value that comes back
        if t == "result":
            return "result_of" if speaks_of_results and not before.endswith(".") else t
        if t in out or (before.endswith(".") and re.search(r"(?:^|[\s(])(?:tie|goal|mathlib|lib|native|borrow|Prim|mir)(?:\.[^\s(){},;]+)*\.$", before)):
            return t
        return CHANGES.get(t, t)

    def line(m):
        t = m[0]
        if t.startswith("--"):
            return re.sub(r"`[^`]*`", lambda k: re.sub(PART, lambda w: CHANGES.get(w[0], w[0]), k[0]), t)
        return t

    lines = []
    for row in text.split("\n"):
        m = re.match(r"^\s*(?:pub |ghost |unfoldable )*use (\S+)", row)
        if m and not is_own(m[1].rstrip(";")) and not m[1].startswith("Rattle."):
            lines.append(row)
            continue
        if m and m[1].startswith("Rattle.std"):
            lines.append(row)
            continue
        cut = row.find("--") if path.endswith(".antt") else row.find("// ")
        body, note = (row, "") if cut < 0 else (row[:cut], row[cut:])
        if path.endswith(".antt") or re.match(r"^\s*(?:ghost use|requires|ensures)", row):
            start = body.find("{") + 1 if m else 0
            body = body[:start] + re.sub(PART, lambda w: word(w[0], body[: start + w.start()]) if not (generated and body[: start + w.start()].endswith("c.")) else w[0], body[start:])
        note = re.sub(r"`[^`]*`", lambda k: re.sub(PART, lambda w: CHANGES.get(w[0], w[0]), k[0]), note)
        lines.append(body + note)
    return "\n".join(lines)


def main():
    if len(sys.argv) == 3 and sys.argv[1] == "--names":
        with open(sys.argv[2], "w", encoding="utf-8") as f:
            f.writelines("%s\t%s\n" % x for x in sorted(CHANGES.items()))
    for path in ANTT + RT:
        old = read(path)
        new = turn(old, path)
        both = {}
        for a, b in zip(re.findall(PART, code_of(old)), re.findall(PART, code_of(new))):
            both.setdefault(b, set()).add(a)
        for b, group in both.items():
            if len(group) > 1:
                print("%s: %s fall together as %s" % (path, ", ".join(sorted(group)), b))
        if new != old:
            with open(path, "w", encoding="utf-8") as f:
                f.write(new)


main()
