#!/usr/bin/env python3
"""Brings the repository's own definitions and lemmas to today's spelling: words in snake case.

usage: python3 tools/respell.py        at the top of the repository, once, after port.py

A name that this repository's .antt files declare (a definition, a lemma, a record's field, a local of `where`, a `let`'s)
loses its dashes (those of OTHERWISE get another name), `getD` in it becomes `get_or` and `maskL` becomes `mask_l`, in every .antt and .rt file of crates/.
Names that Rattle makes (goals, steps of the code, invariants) stay. Names that would fall together are listed, and nothing is written.
"""

import collections
import os
import re
import sys

WORD = r"[^\s(){}\[\].;,@\"|]+"
DECLARED = re.compile(r"^\s*(?:(?:abbrev|unfoldable|pub|ruleset)\s+)*(" + WORD + r"(?:\s+" + WORD + r")*)\s+:\s+(.*)$")
BOUND = re.compile(r"\blet (" + WORD + r")\s*[:=]")


def files(kinds):
    for folder, dirs, names in os.walk("crates"):
        dirs[:] = sorted(d for d in dirs if d != "out")
        for name in sorted(names):
            if name.endswith(kinds):
                yield os.path.join(folder, name)


def read(path):
    with open(path, encoding="utf-8") as f:
        return f.read()


# where the snake case name is a function of src/, a generated step, a field of a struct or a word of the library already
OTHERWISE = {
    "burst-bits": "burst_length",
    "burst-line": "line_of_burst",
    "wrong-bits": "wrong_count",
    "product-log": "product_log_lem",
    "weight-log": "weight_log_lem",
    "bit-xor": "bit_of_xor",
}


def snake(name):
    if name in OTHERWISE:
        return OTHERWISE[name]
    return name.replace("getD", "get_or").replace("maskL", "mask_l").replace("-", "_")


def changes(name):
    # an operator, a number or a sign is no word
    return re.fullmatch(r"[a-zA-Zℕ][\wℕ']*(-[\wℕ']+)*", name) is not None and snake(name) != name


def declared():
    own, made = set(), set()
    for path in files(".antt"):
        for line in read(path).split("\n"):
            if line.lstrip().startswith("--"):
                continue
            own.update(n for n in BOUND.findall(line) if changes(n))
            found = DECLARED.match(line)
            if found:
                to = made if found.group(2).startswith("goal.") else own
                to.update(n for n in found.group(1).split() if changes(n))
    return own - made, own & made


# names that a file takes from the library
def foreign(text):
    found = set()
    for module, names in re.findall(r"\buse ([\w.]+)\.\{([^}]*)\}", text):
        crate = module.split(".")[1] if module.startswith("Rattle.") else ""
        if not os.path.isdir(os.path.join("crates", crate)) or not crate:
            found.update(n.strip() for n in names.split(","))
    return found


# the name at this place is that of a step of the code, as in c.step and w.step
def step(text, at):
    return re.search(r"(?<![\w'.-])(c|w|l|goal)\.$", text[max(0, at - 8) : at]) is not None


def main():
    own, both = declared()
    if both:
        print("also names that Rattle makes, left: " + " ".join(sorted(both)))
    texts = {path: read(path) for path in files((".antt", ".rt"))}
    # names that fall together: the new spelling stands already in a file that has the old one
    bad = 0
    fallen = collections.defaultdict(list)
    for name in sorted(own):
        fallen[snake(name)].append(name)
    for new, olds in sorted(fallen.items()):
        if len(olds) > 1:
            print("fall together: " + " ".join(olds))
            bad += 1
    word = re.compile(r"(?<![\w'-])([a-zA-Z][\w']*(?:-[\w']+)+|getD[\w'-]*|maskL[\w'-]*)(?![\w'-])")
    for path, text in texts.items():
        here = {n for n in word.findall(text) if n in own} - foreign(text)
        for name in sorted(here):
            if re.search(r"(?<![\w'-])" + re.escape(snake(name)) + r"(?![\w'-])", text):
                print(f"{path}: {snake(name)} stands already beside {name}")
                bad += 1
    if bad and "--anyway" not in sys.argv:
        raise SystemExit(f"{bad} places: nothing was written")
    turned = 0
    for path, text in texts.items():
        answers = os.path.basename(path) in ("Answers.antt", "Invariants.antt", "Proof.antt")
        theirs = foreign(text)
        new = word.sub(lambda m: snake(m.group(1)) if m.group(1) in own - theirs and not (answers and step(text, m.start())) else m.group(1), text)
        if new != text:
            turned += 1
            with open(path, "w", encoding="utf-8") as f:
                f.write(new)
    print(f"{len(own)} names, {turned} files")


main()
