#!/usr/bin/env python3
"""Puts the first error of each edit that docs/TRACE.md quotes into its block there, as `rt ci` or `rt must-fail` gave it, without the names of libraries.
`tools/first_errors.py FILE`, with what one of them printed, at the repository's top."""
import re
import sys
import textwrap

sys.dont_write_bytecode = True
from edit_logs import edits

LIBRARIES = r"(?:Rattle\.\w+|mathlib|native|lib|borrow|Prim)(?:\.[A-Z]\w*)*\.(?:proofs\.|specs\.)*"

said_of = {(crate, name): said for crate, name, _, _, said in edits(open(sys.argv[1], errors="replace").read())}


def block(match):
    said = said_of.get((match.group(2), match.group(3)))
    if said is None:
        print("nothing was said of %s/%s" % (match.group(2), match.group(3)))
        return match.group(0)
    place, _, rest = re.sub(LIBRARIES, "", said).removeprefix("note: ").removeprefix("./").partition(": ")
    return "%s\n\n```\n%s\n%s\n```" % (match.group(1), place, "\n".join(textwrap.wrap(rest, 140, break_long_words=False)))


text = open("docs/TRACE.md").read()
text = re.sub(r"(`crates/(\w+)/must-fail/([\w-]+)\.edit`[^\n]*)\n\n```\n.*?\n```", block, text, flags=re.S)
open("docs/TRACE.md", "w").write(text)
