#!/usr/bin/env python3
"""Spells the names of our own definitions and lemmas as this Rattle does, in specs/, proofs/ and the clauses of src/.

usage: python3 tools/respell.py      at the top of the repository, once, after port.py

Definitions, record fields and lemmas are in snake case; a dash stays only where it joins two definitions, as in
`length-listed`. Names of types, facts and modules stay, and so do functions of src/, strings, inputs and outputs.
The script stops before it writes anything if two names would fall together in one crate. A second run changes nothing.
"""

import os
import re
import sys

# A definition and what it is a lemma about: the dash stays, or what stands for the older name of std's word.
JOINED = {
    "length-lattice": "length-lattice",
    "length-listed": "length-listed",
    "length-patched": "length-patched",
    "map-seen": "map-seen",
    "set-listed": "set-listed",
    "set-patched": "set-patched",
    "take-set": "take-set",
    "all-nth": "All-slice_get",
    "nth-counted": "slice_get-counted",
    "nth-counted-past": "slice_get-counted_past",
    "nth-listed": "slice_get-listed",
    "nth-listed-past": "slice_get-listed_past",
    "nth-outside": "slice_get-outside",
    "nth_inside": "slice_get-inside",
    "nth-patched": "slice_get-patched",
    "nth-patched-none": "slice_get-patched_none",
}

# Aliases of imports, by what stands for them: those by which clauses named a lemma with a dash are no longer needed.
ALIASES = {
    "sound-listed as soundListed": "sound_listed",
    "sound-patched as soundPatched": "sound_patched",
    "sound-lattice as soundLattice": "sound_lattice",
    "request as requestOf": "request as request_of",
    "ghosts as feesKind": "ghosts as fees_kind",
}

# A module named for std's older word: the file and each mention of it.
MODULES = {("nets", "Nth"): "SliceGet"}

NAME = r"[A-Za-z_0-9']+(?:-[A-Za-z_0-9']+)*"
TOKEN = re.compile(r"«[^»]*»|\"(?:[^\"\\]|\\.)*\"|" + NAME)
DECLARED = re.compile(r"(?m)^\s*(?:abbrev )?(?:unfoldable )?(?:pub )?(" + NAME + r") :")
FIELD = re.compile(r"(?m)^  pub (" + NAME + r") :")


def texts(crate):
    for folder, dirs, files in os.walk(os.path.join("crates", crate)):
        dirs[:] = sorted(d for d in dirs if d not in ("out", "must-fail"))
        for f in sorted(files):
            if f.endswith((".antt", ".rt")):
                yield os.path.join(folder, f)


def snake(name):
    return re.sub(r"(?<=[a-z0-9])([A-Z])", lambda m: "_" + m[1].lower(), name).replace("-", "_")


def names_of(crate):
    """The new spelling of each definition, lemma and field that a crate declares."""
    definitions, fields = {}, {}
    for path in texts(crate):
        if not path.endswith(".antt") or re.search(r"/proofs/.*/(Answers|Invariants)\.antt$", path):
            continue
        with open(path, encoding="utf-8") as f:
            text = f.read()
        own_fields = set(FIELD.findall(text))
        for name in own_fields:
            fields[name] = snake(name)
        for name in DECLARED.findall(text):
            if name in JOINED.values() or not name[0].islower() or name in own_fields:
                continue
            definitions[name] = JOINED.get(name, snake(name))
    changed = lambda of: {old: new for old, new in of.items() if old != new}
    return changed(definitions), changed(fields)


def respelled(text, definitions, fields):
    def one(found):
        word = found[0]
        if word[0] in "\"«":
            return word
        after_dot = found.start() > 0 and text[found.start() - 1] == "."
        if word in fields and (after_dot or word not in definitions):
            return fields[word]
        if word in definitions and not after_dot:
            return definitions[word]
        if word in definitions and after_dot and re.search(r"(specs|proofs)(\.\w+)*\.$", text[: found.start()][-80:]):
            return definitions[word]
        return word

    for (crate, old), new in MODULES.items():
        text = re.sub(r"\b%s\.proofs\.%s\b" % (crate, old), f"{crate}.proofs.{new}", text)
    for old, new in ALIASES.items():
        text = text.replace(old, new)
        text = re.sub(r"\b%s\b" % old.split(" as ")[1], new.split(" as ")[-1], text)
    return TOKEN.sub(one, text)


def main():
    crates = [line.split(":")[0].strip() for line in open("crates.txt", encoding="utf-8") if ":" in line and not line.startswith("#")]
    definitions, fields = {}, {}
    for crate in crates:
        d, f = names_of(crate)
        definitions.update(d)
        fields.update(f)
    clashes = []
    for crate in crates:
        words = set()
        for path in texts(crate):
            if path.endswith(".antt") and not re.search(r"/proofs/.*/(Answers|Invariants)\.antt$", path):
                with open(path, encoding="utf-8") as f:
                    words.update(DECLARED.findall(f.read()))
        own, _ = names_of(crate)
        spelled = {}
        for word in sorted(words):
            new = own.get(word, word)
            if new in spelled and spelled[new] != word:
                clashes.append(f"{crate}: {spelled[new]} and {word} would both be {new}")
            spelled[new] = word
    if clashes:
        print("\n".join(clashes), file=sys.stderr)
        raise SystemExit(1)
    for (crate, old), new in MODULES.items():
        folder = os.path.join("crates", crate, "proofs")
        if os.path.exists(os.path.join(folder, old + ".antt")):
            os.rename(os.path.join(folder, old + ".antt"), os.path.join(folder, new + ".antt"))
            lib = os.path.join(folder, "Lib.antt")
            with open(lib, encoding="utf-8") as f:
                text = f.read()
            with open(lib, "w", encoding="utf-8") as f:
                f.write(re.sub(r"(?m)^((?:pub )?mod )%s$" % old, r"\g<1>" + new, text))
    for crate in crates:
        for path in texts(crate):
            with open(path, encoding="utf-8") as f:
                old = f.read()
            new = respelled(old, definitions, fields)
            if new != old:
                with open(path, "w", encoding="utf-8") as f:
                    f.write(new)
                print(path)


main()
