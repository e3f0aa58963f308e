#!/usr/bin/env python3
"""Looks up every file that docs/TRACE.md cites, and every name cited with its file: a definition or law has to be declared there, a function,
struct or table of Rattle too. Ends with 1 where one is not there or a place was left to be filled in. Run it at the repository's top."""
import os
import re
import sys

# What stands before a name that a file declares, and after it; in other files a name has to be there as a word.
DECLARED = {
    ".antt": (r"^ *(?:abbrev |unfoldable )?(?:pub )?(?:record |data )?", r"(?= |:)"),
    ".rt": (r"(?:fn|struct|enum|const) ", r"(?!\w)"),
}
WORD = (r"(?<![\w-])", r"(?![\w-])")

text = open("docs/TRACE.md").read()
cited, wrong = 0, text.count("to be filled in")
for part in re.findall(r"`([^`\n]+)`", text):
    path, _, names = part.partition(" ")
    if "/" not in path or "*" in path or path.endswith("/"):
        continue
    found = [p for p in (path, "crates/" + path, "crates/" + path + ".edit") if os.path.isfile(p)]
    if not found:
        if not os.path.isdir(path) and not os.path.isdir("crates/" + path):
            print("no such file: " + part)
            wrong += 1
        continue
    inside = open(found[0]).read()
    for name in filter(None, re.split(r", ?", names)):
        cited += 1
        before, after = DECLARED.get(os.path.splitext(found[0])[1], WORD)
        if not re.search(before + re.escape(name) + after, inside, re.M):
            print("no such name: %s in %s" % (name, found[0]))
            wrong += 1
print("docs/TRACE.md: %d names cited, %d wrong" % (cited, wrong))
sys.exit(wrong > 0)
