#!/usr/bin/env python3
"""Counts, for docs/DESIGN-PASS.md, the places of each of its points in crates/*/src. design_places.py [TOP] [POINT]: TOP is a tree (default .), POINT a
number: its places one by one. A place counted here is a place to look at; the page says of each kind what became of it."""
import collections
import pathlib
import re
import sys

TOP = pathlib.Path(sys.argv[1] if len(sys.argv) > 1 else ".")
ONLY = sys.argv[2] if len(sys.argv) > 2 else None
FILES = sorted(TOP.glob("crates/*/src/*.rt"))


def lines():
    for f in FILES:
        for n, line in enumerate(f.read_text().splitlines(), 1):
            yield f.relative_to(TOP), n, line.split("//")[0] if line.lstrip().startswith("//") else line


def grep(pattern):
    p = re.compile(pattern)
    return [f"{f}:{n}: {line.strip()}" for f, n, line in lines() if p.search(line)]


def functions():
    """Each function of src: its place, its name, its head up to the body, its body."""
    head = re.compile(r"^\s*(?:pub )?(?:extern \"C\" )?fn (\w+)", re.M)
    for f in FILES:
        text = f.read_text()
        for m in head.finditer(text):
            i = text.find("\n{", m.start())
            j = text.find("\n    {", m.start())
            at = min(x for x in (i, j, len(text)) if x >= 0)
            if at == len(text):
                continue
            at = text.index("{", at)
            depth, k = 0, at
            while True:
                depth += {"{": 1, "}": -1}.get(text[k], 0)
                k += 1
                if depth == 0:
                    break
            yield f.relative_to(TOP), text.count("\n", 0, m.start()) + 1, m.group(1), text[m.start():at], text[at:k]


def shape(body):
    """A body with names and numbers taken out, so that bodies that differ in them alone are the same."""
    body = re.sub(r"//[^\n]*", "", body)
    return " ".join("x" if re.match(r"\w", t) else t for t in re.findall(r"\w+|\S", body))


def twins():
    groups = collections.defaultdict(list)
    for f, n, name, head, body in functions():
        s = shape(body)
        if len(s.split()) >= 16:
            groups[s].append(f"{f}:{n}: {name}")
    return [", ".join(g) for g in groups.values() if len(g) > 1]


def facts():
    uses = collections.defaultdict(list)
    for f, n, name, head, body in functions():
        said = " ".join(re.findall(r"requires (?:\w+ )?\{([^}]*)\}", head))
        for w in set(re.findall(r"\b([A-Z]\w+)\b", said)):
            uses[w].append(name)
    return [f"{w}: {len(u)} functions" for w, u in sorted(uses.items()) if len(u) >= 3]


def travellers():
    uses = collections.Counter()
    for f, n, name, head, body in functions():
        ps = re.findall(r"(\w+): [&\w\[]", head[head.find("("):head.find("\n    requires") if "\n    requires" in head else None])
        for i in range(len(ps) - 2):
            uses[tuple(ps[i:i + 3])] += 1
    return [f"{', '.join(p)}: {c} functions" for p, c in sorted(uses.items()) if c >= 5]


POINTS = {
    "1": [("own enums", lambda: grep(r"\benum \w+")),
          ("flags in structs", lambda: grep(r"^\s+(pub )?\w+: bool,$") + grep(r"^\s+pub (held|on|allowed): u8,")),
          ("answers beside values", lambda: grep(r"^\s+pub answer: Answer,")),
          ("constants for kinds", lambda: grep(r"const (CODE|TYPE|ERROR|SA_TYPE|AUTH|TEK|AUTH_EVENT|TEK_EVENT|SLOT|INSIDE|ONCE|REPEATED|ON|OFF|HELD|NOT_HELD|UP|DOWN|BARRED|ALLOWED|HEAD_END|MODEM|DONE|NOT_A_BLOCK|OUTPUT_TOO_SHORT|FRAME_TOO_SHORT|OUT_OF_LIMITS|WRONG_LENGTH|UNKNOWN_SAID|NO_KEY_FOR_FRAME|DIGEST_NO|DIGEST_YES)(_\w+)?: (u8|usize|u16) =")),
          ("answers asked by a flag or a number", lambda: grep(r"is_done\(|answer_number\(|\.fits\b|\.is_\w+\b(?!\()|\.found\b"))],
    "2": [("groups of functions of one shape", twins)],
    "3": [("while loops", lambda: grep(r"^\s*while ")),
          ("for over an index", lambda: grep(r"^\s*for \w+ in .*\.\.")),
          ("places written out one by one", lambda: grep(r"\b\w+\((?:[^()]*, )?3(?:, [^()]*)?\)|\[3\]|3 < n"))],
    "4": [("equality and conversion by hand", lambda: grep(r"fn (same\w*|number|answer_number|called_number|opening_number|to_u8|to_u16|as_u32|tek_number|receiver|holds_octet|starts_with|wrapped|maximum|difference|own_len)\b"))],
    "5": [("facts in the contracts of three or more", facts), ("three parameters in a row in five or more", travellers)],
    "6": [("counts beside arrays, parallel arrays", lambda: grep(r"^\s+pub (count|used|modems|saids|suites): "))],
    "7": [("arms that only call", lambda: grep(r"^\s+\w+::\w+ => \w+\(.*\),$"))],
    "8": [("files of answers", lambda: [str(p.relative_to(TOP)) for p in sorted(TOP.glob("crates/*/proofs/**/Answers.antt"))]),
          ("files of invariants", lambda: [str(p.relative_to(TOP)) for p in sorted(TOP.glob("crates/*/proofs/**/Invariants.antt"))])],
}

for point, kinds in POINTS.items():
    if ONLY and ONLY != point:
        continue
    for kind, places in kinds:
        found = places()
        print(f"{point} {kind}: {len(found)}")
        if ONLY:
            for p in found:
                print("   ", p)
