#!/usr/bin/env python3
"""Respells the repository's own definitions and lemmas as today's Rattle does: words in snake case. Run once, after port.py, at the top.

A definition or lemma of specs/ or proofs/ whose name is in lower camel case, or has dashes, gets underscores. Where that is already a word somewhere
(a function of src/ as a rule), a definition takes `_of` behind it (`_value` in place of `_of` where it ends so), and a lemma keeps its dashes. Functions of
src/, exported names, strings, inputs and outputs are as they were. The names that moved are written to docs/PORT-NAMES.txt.

It also gives each crate the line `#![tactic(auto)]`, and derives Clone and Copy, where port.py wrote Drop: the older Rattle copied such values by itself.
"""
import glob
import os
import re
import sys

ROOT = sys.argv[1] if len(sys.argv) > 1 else "."
WORD = re.compile(r"[^\s(){}\[\].;,:\"`]+")
DECLARED = re.compile(r"^\s*(?:(?:abbrev|unfoldable|data|record|ruleset|pub|opaque) )*([^\s(){}\[\].;,:\"]+) :(?: |$)")


def read(p):
    with open(p, encoding="utf-8") as f:
        return f.read()


def write(p, t):
    with open(p, "w", encoding="utf-8") as f:
        f.write(t)


def plain(p, t):
    return re.sub(r"--.*" if p.endswith(".antt") else r"//.*", "", t)


def shared(p):
    """Whether a file's names can be cited by others: specs/, and proofs/ but for the folders of functions."""
    below = re.split(r"/(?:specs|proofs)/", p, maxsplit=1)[1]
    return "/" not in below


def snake(n):
    n = re.sub(r"([a-z0-9'])([A-Z])", r"\1_\2", n)
    return n.lower()


def main():
    files = sorted(p for p in glob.glob(ROOT + "/crates/**/*", recursive=True) if p.endswith((".antt", ".rt")) and "/out/" not in p)
    crates = set(os.listdir(ROOT + "/crates"))
    declared, words, foreign = {}, set(), set()
    for p in files:
        t = plain(p, read(p))
        words |= set(WORD.findall(t))
        for m in re.finditer(r"use ([^\s{;]+?)\.?\{([^}]*)\}", t):
            parts = m.group(1).split(".")
            if not (parts[0] == "Rattle" and len(parts) > 1 and parts[1] in crates):
                foreign |= {n.strip() for n in m.group(2).replace(" as ", ",").split(",")}
        if p.endswith(".antt") and shared(p):
            for line in t.split("\n"):
                m = DECLARED.match(line)
                if m:
                    declared.setdefault(m.group(1), set()).add(p)
    table, kept, taken = {}, [], set()
    for n in sorted(declared):
        if not n[0].islower() or n in foreign:
            continue
        if re.search(r"[a-z0-9'][A-Z]", n):
            s = snake(n).replace("-", "_") if "-" in n else snake(n)
            if s in words or s in taken:
                s = s[:-3] + "_value" if s.endswith("_of") else s + "_of"
            if s in words or s in taken:
                s = snake(n) + "_given"
        elif "-" in n and re.fullmatch(r"[a-z0-9'-]+", n):
            s = n.replace("-", "_")
            if s in words or s in taken:
                kept.append(n)
                continue
        else:
            continue
        assert s not in words and s not in taken, (n, s)
        table[n] = s
        taken.add(s)
    for p in files:
        t = read(p)
        new = WORD.sub(lambda m: table.get(m.group(0), m.group(0)), t)
        if p.endswith(".rt"):
            new = new.replace("#[derive(Drop)]", "#[derive(Clone, Copy)]")
            if os.path.basename(p) in ("lib.rt", "main.rt") and "#![tactic" not in new:
                lines = new.split("\n")
                at = next(i for i, line in enumerate(lines) if not line.startswith("//"))
                lines[at:at] = ["", "#![tactic(auto)]", ""] if lines[at].strip() else ["", "#![tactic(auto)]"]
                new = "\n".join(lines)
        if new != t:
            write(p, new)
    camel = {n: s for n, s in table.items() if re.search(r"[A-Z]", n)}
    pages = sorted(glob.glob(ROOT + "/docs/**/*.md", recursive=True) + glob.glob(ROOT + "/*.md") + glob.glob(ROOT + "/crates/*/must-fail/*.edit"))
    for p in pages:
        if p.endswith("CHANGELOG.md"):
            continue
        t = read(p)
        names = table if p.endswith(".edit") else {**camel, **{n: s for n, s in table.items() if n.count("-")}}
        if p.endswith(".edit"):
            new = WORD.sub(lambda m: names.get(m.group(0), m.group(0)), t)
        else:
            new = re.sub(r"`([^`\n]+)`", lambda m: "`" + WORD.sub(lambda w: names.get(w.group(0), w.group(0)), m.group(1)) + "`", t)
        if new != t:
            write(p, new)
    os.makedirs(ROOT + "/docs", exist_ok=True)
    write(ROOT + "/docs/PORT-NAMES.txt", "".join(f"{n} {s}\n" for n, s in sorted(table.items())))
    print(len(table), "names;", len(kept), "lemmas keep their dashes:", *kept)


main()
