#!/usr/bin/env python3
"""Brings this repository's own definitions and lemmas to the spelling of today's Rattle.

usage: python3 tools/respell.py [--table]     at the top of the repository, once, after the kit's port.py

Names in camel case or with dashes become snake case; types, facts and modules keep their capitals. A lemma that would then have a
definition's name gets `_lem`. Names of functions, of exported C symbols and what stands in strings stay. Edits that must fail and the pages
are respelled with the code (in pages and comments, names in backticks). With --table the names are printed, and nothing is written.
"""
import collections
import glob
import re
import sys

NAME = r"[^\s(){}.;,:\[\]λ◌«»\"`]+"
TOKEN = re.compile(r"[^\s(){}.;,:\[\]\"`«»]+")
HEAD = re.compile(r"^\s*((?:abbrev |pub |unfoldable )*)(" + NAME + r")((?: " + NAME + r")*) : (.*)")
TYPE = re.compile(r"^\s*(?:abbrev |pub )*(?:record|data) (" + NAME + ")")
WORDS = set("abbrev pub unfoldable record data where module infix infixl infixr use let in elim as open unfolding mod absurd rw simp cc search".split())


def snake(name):
    out = []
    for part in name.replace("getD", "get_or").split("-"):
        if not part[:1].isupper():
            part = re.sub(r"([a-z0-9])([A-Z])", lambda m: m.group(1) + "_" + m.group(2).lower(), part)
        out.append(part)
    return "_".join(out)


def heads(path):
    """The names that a file defines, each with the text after its colon, and whether it is a record's field."""
    record = -1
    for line in open(path, encoding="utf-8"):
        if not line.strip() or line.strip().startswith("--"):
            continue
        deep = len(line) - len(line.lstrip())
        if deep <= record:
            record = -1
        m = HEAD.match(line.rstrip("\n"))
        if TYPE.match(line):
            record = deep if "record " in line else -1
        elif m:
            for n in [m.group(2)] + m.group(3).split():
                if n not in WORDS and not n[0].isupper():
                    yield n, m.group(4), record >= 0


def lent(path, crates):
    """The names that a file has from the kit's libraries: these are not ours."""
    out = set()
    for m in re.finditer(r"^(?:ghost |pub )*use ([^\s{]+)\.\{([^}]*)\}", open(path, encoding="utf-8").read(), re.M):
        parts = m.group(1).split(".")
        if not (parts[0] == "Rattle" and parts[1] in crates):
            out |= {n.strip() for n in m.group(2).split(",")}
    return out


def table(root):
    """The new names of the repository, and of each proof of a function."""
    names, own, lemmas, fields = set(), {}, set(), set()
    for p in sorted(glob.glob(root + "/crates/*/*/**/*.antt", recursive=True)):
        if "/out/" in p:
            continue
        if p.endswith("/Proof.antt"):
            mine = {n for n, t, _ in heads(p) if not t.startswith("tie.") and "statement M" not in t}
            own[p] = {n: snake(n) for n in mine if snake(n) != n}
        else:
            found = {n for n, _, field in heads(p) if not field}
            fields |= {n for n, _, field in heads(p) if field}
            names |= found
            if "/proofs/" in p:
                lemmas |= found
    new = {n: snake(n) for n in names | fields if snake(n) != n}
    for n in sorted(fields & names):
        if "-" in n and n in new:
            print("a field and a definition:", n, file=sys.stderr)
    free, new = {n: t for n, t in new.items() if n not in names}, {n: t for n, t in new.items() if n in names}
    taken = collections.Counter(list(new.values()) + [n for n in names if n not in new])
    for n in sorted(new):
        if taken[new[n]] > 1 and "-" in n:
            new[n] += "_lem"
        elif taken[new[n]] > 1 and new[n] in lemmas and new[n] not in new:
            new[new[n]] = new[n] + "_lem"
    after = collections.Counter(list(new.values()) + [n for n in names if n not in new])
    clash = sorted(n for n in after if after[n] > 1)
    if clash:
        sys.exit("names fall together: " + " ".join(clash))
    return new | free, own


def turned(text, new, local, mark="--"):
    def word(m):
        t = m.group(0)
        if t in new and (t != snake(t) or (mark == "--" and text[m.start() - 1 : m.start()] != ".")):
            return new[t]
        if t in local and text[m.start() - 1 : m.start()] != ".":
            return local[t]
        return t

    return TOKEN.sub(word, text)


def ticks(text, new):
    return re.sub(r"`[^`\n]+`", lambda m: turned(m.group(0), new, {}, ""), text)


def code(text, new, local, mark):
    out = []
    for line in text.split("\n"):
        at = line.find(mark) if mark == "//" or line.lstrip().startswith(mark) else -1
        if at < 0:
            out.append(turned(line, new, local, mark))
        else:
            out.append(turned(line[:at], new, local, mark) + ticks(line[at:], new))
    return "\n".join(out)


def edit(text, new):
    out, mark = [], "//"
    for line in text.split("\n"):
        if line.startswith("file: "):
            mark = "--" if line.endswith(".antt") else "//"
        if line.startswith(("old: ", "new: ")):
            line = line[:5] + code(line[5:], new, {}, mark)
        out.append(line)
    return "\n".join(out)


def main():
    new, own = table(".")
    crates = {p.split("/")[1] for p in glob.glob("crates/*/src")}
    if "--table" in sys.argv:
        for n in sorted(new):
            print(n, new[n])
        return
    for p in sorted(glob.glob("crates/**/*.*", recursive=True) + glob.glob("docs/**/*.md", recursive=True) + ["README.md"]):
        if "/out/" in p or not p.endswith((".antt", ".rt", ".edit", ".md")):
            continue
        text = open(p, encoding="utf-8").read()
        kept = lent(p, crates) if p.endswith((".antt", ".rt")) else ()
        ours = {n: t for n, t in new.items() if n not in kept}
        if p.endswith(".antt"):
            to = code(text, ours, own.get("./" + p, {}), "--")
        elif p.endswith(".rt"):
            to = code(text, ours, {}, "//")
        elif p.endswith(".edit"):
            to = edit(text, new)
        else:
            to = ticks(text, new)
        if to != text:
            open(p, "w", encoding="utf-8").write(to)


main()
