#!/usr/bin/env python3
"""Brings the repository's own definitions and lemmas to today's spelling: functions, lemmas, fields and constructors of
antt in snake case, types and modules as they are. Run once, at the top, right after the kit's port.py: a tree that is
turned already, one with docs/PORT.md, is refused. A lemma that would take the name of the definition that it is about
gets `_lem` behind it. Functions of src/, exported names, strings, inputs and outputs keep their names. Proof files of a
function (proofs/F/) keep the names of goals, which are Rattle's."""
import collections
import os
import re
import sys

HEAD = re.compile(
    r"^(?: {0,6})(?:(?:abbrev|unfoldable|data|record|pub)\s+)*([^\s:(){}=.]+)(?:\s+[({].*)?\s+:(?:\s|$)")
RULES = re.compile(r"^(?:pub\s+)?ruleset\s+(?:pub\s+)?([^\s(){}=.]+)")
ALIAS = re.compile(r"^use Rattle\.\S+ as ([\w-]+)$")
GOAL = re.compile(r":\s+(?:\([^)]*\)\s+→\s+)*tie\.")
WORD = re.compile(r"(?<![^\s(){}.;,@\"«»`\[\]])[^\s(){}.;,@\"«»`\[\]]+(?![^\s(){}.;,@\"«»`\[\]])")
# these fall together with a definition that the same file sees; the second is a field in one crate and a lemma in another
BY_HAND = {"good-window": "window_good", "table-in": "table_in_lem"}
BY_HAND_IN = {
    "./crates/load_plan/": {"table-in": "table_in_file"},
    # the kit's script has turned this law's name already, and the definition's falls together with it
    "./crates/string_table/proofs/": {"same_bytes": "same_bytes_lem"},
    "./crates/marks/proofs/": {"bit-or": "bit_or_power", "bit_or": "bit_or"},
}


def files(*ends):
    for folder, dirs, names in os.walk("."):
        dirs[:] = sorted(d for d in dirs if d not in ("out", "target", ".git"))
        for n in sorted(names):
            if n.endswith(ends):
                yield os.path.join(folder, n)


def snake(name):
    if name[0].isupper() and "-" not in name:
        return name
    return re.sub(r"([a-z0-9])([A-Z])", lambda m: m.group(1) + "_" + m.group(2).lower(), name.replace("-", "_"))


def own_names():
    found = collections.defaultdict(set)
    for path in files(".antt"):
        of_function = path.count("/") > 4
        with open(path, encoding="utf-8") as f:
            for line in f:
                m = ALIAS.match(line)
                if m:
                    found[m.group(1)].add(path)
                if line.startswith(("use ", "--")):
                    continue
                m = HEAD.match(line) or RULES.match(line)
                if m and not (of_function and (GOAL.search(line) or m.group(1).startswith(("decreases-", "invariant-", "Inv-", "μ-")))):
                    found[m.group(1)].add(path)
    return found


def table(found):
    taken = {n for n in found if snake(n) == n} | {snake(n) for n in found if "-" not in n}
    rows = {}
    for n in found:
        s = snake(n)
        if n.endswith("-spec") and all(p.count("/") > 4 for p in found[n]):
            s = n[:-5].replace("-", "_") + "_spec"
        elif "-" in n and s in taken:
            s += "_lem"
        s = BY_HAND.get(n, s)
        if s != n:
            rows[n] = s
    return rows


def steps():
    """What Rattle calls the steps of a proof: the functions and locals of src/, with dashes as the older Rattle had them."""
    found = set()
    for path in files(".rt"):
        with open(path, encoding="utf-8") as f:
            found |= set(re.findall(r"\b(?:fn|let|let mut)\s+(\w+)", f.read()))
    return {n.replace("_", "-") for n in found}


def borrowed(text):
    """What a file brings in from a library: these words keep their spelling there."""
    found = set()
    for path, items in re.findall(r"^use ([^\s{]+)\.\{([^}]*)\}", text, re.M):
        if not path.startswith("Rattle.") or path.startswith("Rattle.std"):
            found |= {i.strip() for i in items.split(",")}
    return found


def turned(text, rows, kept=()):
    theirs = borrowed(text)

    def word(m):
        if m[0] in theirs:
            return m[0]
        if m[0] in kept and m.start() and text_of[0][m.start() - 1] == ".":
            return m[0]
        return rows.get(m[0], m[0])

    text_of = [text]
    lines = []
    for line in text.split("\n"):
        text_of[0] = line
        new = WORD.sub(word, line)
        grown = len(new) - len(line)
        # a table in a header comment keeps its columns
        if line.startswith("--") and grown > 0:
            new = re.sub(r"(?<=\S)   *(?=\S)", lambda m: " " * max(2, len(m[0]) - grown), new, count=1)
        lines.append(new)
    return "\n".join(lines)


def turned_page(text, rows, known):
    """The code spans of a page: a word turns if its new spelling is a name that is defined."""
    def word(m):
        return rows.get(m[0]) or (snake(m[0]) if snake(m[0]) in known else m[0])

    return re.sub(r"`[^`\n]+`", lambda m: WORD.sub(word, m[0]), text)


def main():
    if os.path.exists("docs/PORT.md"):
        sys.exit("respell: this tree is turned already (docs/PORT.md)")
    found = own_names()
    rows = table(found)
    known = set(found) | set(rows.values())
    kept = steps()
    changed = 0
    for path in files(".antt", ".rt", ".edit", ".md"):
        with open(path, encoding="utf-8") as f:
            old = f.read()
        mine = dict(rows)
        for start, names in BY_HAND_IN.items():
            if path.startswith(start):
                mine.update(names)
        if path.endswith(".md"):
            new = turned_page(old, mine, known)
        elif path.endswith(".rt"):
            # a name with a dash can only be antt's there: rt fmt puts spaces about a minus
            new = turned(old, mine)
        else:
            new = turned(old, mine, kept if "/proofs/" in path and path.count("/") > 4 else ())
        if new != old:
            changed += 1
            with open(path, "w", encoding="utf-8") as f:
                f.write(new)
    print("respell: %d names, %d files" % (len(rows), changed))
    if "--table" in sys.argv:
        print("\n".join("%s\t%s" % r for r in sorted(rows.items())))


main()
