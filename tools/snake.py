#!/usr/bin/env python3
"""Brings the names that this repository defines in specs/ and proofs/ to today's spelling.

Words are in snake case, facts and types in camel case. A dash stays where it joins two names that stand by
themselves, as in `get_or-listed`; any other becomes an underscore. Functions, types, fields and constants of src/
keep their names, and so does what Rattle makes of them. Run once, at the top, after the toolchain's port script:

    tools/snake.py [--dry]

It turns specs/, proofs/, the clauses of src/, and the edits of must-fail/ and of tests/edits.
"""
import glob
import re
import sys

FILES = [
    "crates/*/specs/**/*.antt",
    "crates/*/proofs/**/*.antt",
    "crates/*/src/**/*.rt",
    "crates/*/must-fail/*.edit",
    "tests/edits/**/*.edit",
]
# a name as antt reads it
WORD = re.compile(r"[^\s(){}\[\].,;:→λ⌜⌝\"«»|↦=×⊎≡≢≤<>+*/%^∷!&?←]+")
DEFINED = re.compile(r"(?m)^( *)((?:abbrev |unfoldable |pub )*)([^\s:(){}.⌜\"]+)(?: \{[^}]*\})? :(?: |$)((?:.*)(?:\n\1 +.*)*)")
# a name that an import gives
GIVEN = re.compile(r"(?<=[\w'] as )([a-z][\w']*)")
NAMED = re.compile(r"(?m)^ *(?:pub )?(?:data|record) ([^\s:(){}]+)")
# words of the library that a dash joins to a name
LIBRARY = set(
    "length take drop map set sets eqb leb ltb get_or append eq ne lt le add mul sub true false nil cons zero suc"
    " some none if rw".split()
)
# what the port script turned in uses and left in names
RESPELLED = {"getD": "get_or"}
# where two names would fall together, or a name would be hidden by one of src/
CHOSEN = {
    "alike": "alike",
    "allPlaced": "all_placed_answer",
    "entryRegister": "entry_register_of",
    "from6C00": "from_6c00",
    "inUse": "in_use_of",
    "keptByte": "kept_byte_of",
    "loadLine": "load_line_of",
    "noChange": "empty_change",
    "noGap": "no_gap_answer",
    "noHandle": "no_handle_answer",
    "on_line": "on_line_lem",
    "past-6C00": "past_6c00",
    "placeAfter": "place_after_edit",
    "split-high": "split_high_fits",
    "split-line": "split_line_fits",
    "split-low": "split_low_fits",
}


def snake(part):
    part = RESPELLED.get(part, part)
    if not part[:1].islower():
        return part
    part = re.sub(r"([a-z0-9])([A-Z])", lambda m: m[1] + "_" + m[2].lower(), part)
    return re.sub(r"([A-Z])([A-Z])", lambda m: m[1] + m[2].lower(), part)


def files(patterns):
    return sorted(f for p in patterns for f in glob.glob(p, recursive=True))


def defined():
    """Each name that specs/ and proofs/ define, and whether it is a fact."""
    found = {}
    for name in files(FILES[:2]):
        text = open(name).read()
        if re.search(r"(?m)^use \S+ as (goal|tie)$", text):
            continue
        for m in GIVEN.finditer(text):
            found.setdefault(m[1], False)
        for m in DEFINED.finditer(text):
            # a signature stands at the margin, in a module, a where, a record or a data
            fact = re.search(r"(→|^)\s*Type \d\s*$", m[4].strip()) is not None
            found[m[3]] = found.get(m[3], False) or fact
        for m in NAMED.finditer(text):
            found.setdefault(m[1], False)
    return found


def spelled(names):
    """The new spelling of each name that has one."""
    alone = {snake(n) for n in names if "-" not in n} | LIBRARY
    turned = {}
    for name, fact in names.items():
        if name in CHOSEN:
            turned[name] = CHOSEN[name]
            continue
        if not re.match(r"[A-Za-z]", name) or not re.fullmatch(r"[\w'\-]+", name):
            continue
        parts = [snake(p) for p in name.split("-")]
        new = parts[0]
        for left, right in zip(parts, parts[1:]):
            new += ("-" if left in alone and right in alone else "_") + right
        if new != name:
            turned[name] = new
    taken = {turned.get(n, n) for n in names if "-" not in n}
    for name, new in turned.items():
        if "-" in name and "-" not in new and new in taken:
            turned[name] = new + "_lem"
    return turned


def clashes(turned):
    """Files in which two names would fall together."""
    said = []
    for name in files(FILES[:3]):
        words = set(WORD.findall(open(name).read()))
        new = {}
        for word in words:
            new.setdefault(turned.get(word, word), []).append(word)
        said += [(sorted(olds), name) for olds in new.values() if len(olds) > 1]
    return said


def main():
    turned = spelled(defined())
    for olds, name in clashes(turned):
        print("falls together:", " ".join(olds), "in", name)
    if "--dry" in sys.argv:
        for old, new in sorted(turned.items()):
            print(old, new)
        return
    for name in files(FILES):
        text = open(name, newline="").read()
        new = WORD.sub(lambda m: turned.get(m[0], m[0]), text)
        if new != text:
            open(name, "w", newline="").write(new)


main()
