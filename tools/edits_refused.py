#!/usr/bin/env python3
"""Reads what `rt ci` or `rt must-fail` printed: each must-fail edit has to be refused at a fact that no longer holds. Ends with 1 where the first error of
one shows neither two sides that differ nor a goal that is false, but something else: a name or a place that is not there, or a step of the prover that gave
up before it came to a fact; and where an edit of crates/ was not tried. `tools/edits_refused.py FILE`."""
import glob
import os
import re
import sys

sys.dont_write_bytecode = True
from edit_logs import edits

# Two sides that were computed and differ, or are printed
SIDES = r"the two types (?:first |)differ|the two types are `|expected type `"
# Values at which all that is known holds and the goal does not
GOAL = r"the facts known there allow values|the goal does not follow|the goal fails, at `"
# A name, a field or a place that is not there, and a tactic that stopped on its own, whatever else the error says
OTHER = r"not in scope|is no library|no module|is not declared|has no field|has no `|(?:met|stopped at) a bound of its own|not admitted"

text = open(sys.argv[1], errors="replace").read()
tried, wrong = set(), 0
for crate, name, refused, note, said in edits(text):
    tried.add("crates/%s/must-fail/%s.edit" % (crate, name))
    if not refused or note or not re.search(SIDES + "|" + GOAL, said) or re.search(OTHER, said):
        print("refused at no fact: %s/%s: %s %s" % (crate, name, note, said[:200]))
        wrong += 1
left = sorted(set(glob.glob("crates/*/must-fail/*.edit")) - tried)
for edit in left:
    print("not tried: " + edit)
print("%d edits, %d of them not refused at a fact, %d not tried" % (len(tried), wrong, len(left)))
sys.exit(wrong > 0 or bool(left) or not tried)
