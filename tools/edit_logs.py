"""What `rt ci` and `rt must-fail` say of the must-fail edits, a line each. Used by edits_refused.py and first_errors.py."""
import re

LINE = re.compile(r"^rt: must-fail (\w+)/(\S+)\.edit: (.*)$", re.M)
REFUSED = re.compile(r"refused, as it must be(?: \((.*?)\))?(?:: (.*))?$")


def edits(text):
    """Each edit that was tried: crate, name, whether it was refused, what rt notes of the refusal in brackets, and its first error as far as rt gives it."""
    for crate, name, said in LINE.findall(text):
        found = REFUSED.match(said)
        yield crate, name, bool(found), (found and found.group(1)) or "", (found and found.group(2)) or said
