#!/usr/bin/env python3
"""Spells the definitions and lemmas of this repository in snake case: usage: tools/snake_names.py, once, after port.py.

A name that begins with a small letter and has a capital after a letter or digit becomes words joined by `_`: `dataIn`
is `data_in`, `bytes-bigEndian` is `bytes-big_endian`. Types and modules keep their spelling, and so do numbers and
the strings of src/. Files: crates/*/specs, proofs, src and must-fail; in README.md and docs/ what stands between
backquotes.
"""

import glob
import re
import sys

NAME = re.compile(r"(?<![\w'·-])[a-z_][A-Za-z0-9_']*(?:-[A-Za-z0-9_']+)*")
# Lemmas that would have the name of the definition that they speak of, and the crate of each.
LEMMAS = {"map_of": "geometry", "all_seen": "light", "moved_before": "laws", "all_pass": "no_room"}
CAMEL = re.compile(r"(?<=[a-z0-9])(?=[A-Z])")
STRING = re.compile(r'"(?:\\.|[^"\\\n])*"')
QUOTED = re.compile(r"`[^`\n]+`")


def part(word):
    """One part between dashes: types keep their capitals."""
    if word[:1].isupper() or not CAMEL.search(word):
        return word
    return CAMEL.sub("_", word).lower()


def spelled(m):
    return "-".join(part(w) for w in m[0].split("-"))


def outside_strings(text):
    out, at = [], 0
    for m in STRING.finditer(text):
        out += [NAME.sub(spelled, text[at : m.start()]), m[0]]
        at = m.end()
    return "".join(out) + NAME.sub(spelled, text[at:])


def lemmas():
    for name, crate in LEMMAS.items():
        for path in glob.glob(f"crates/{crate}/proofs/**/*.antt", recursive=True):
            old = open(path, encoding="utf-8").read()
            new = re.sub(rf"(?<![\w'·.-]){name}(?![\w'-])", name + "_lem", old)
            if new != old:
                open(path, "w", encoding="utf-8").write(new)


def main():
    lemmas()
    names, fall = {}, []
    for folder in ("specs", "proofs"):
        for path in glob.glob(f"crates/*/{folder}/**/*.antt", recursive=True):
            for m in NAME.finditer(open(path, encoding="utf-8").read()):
                names.setdefault(spelled(m), set()).add(m[0])
    for new, olds in sorted(names.items()):
        if len(olds) > 1:
            fall.append(f"{new}: {' '.join(sorted(olds))}")
    if fall:
        print("named as a function of src/ that they say the answer of:\n" + "\n".join(fall))
    turned = {"crates/*/specs/**/*.antt": outside_strings, "crates/*/proofs/**/*.antt": outside_strings, "crates/*/src/**/*.rt": outside_strings, "crates/*/must-fail/*.edit": outside_strings}
    turned |= dict.fromkeys(("README.md", "docs/**/*.md", "oracle/**/*.md"), lambda t: QUOTED.sub(lambda m: NAME.sub(spelled, m[0]), t))
    n = 0
    for pattern, turn in turned.items():
        for path in glob.glob(pattern, recursive=True):
            old = open(path, encoding="utf-8").read()
            new = turn(old)
            if new != old:
                open(path, "w", encoding="utf-8").write(new)
                n += 1
    print(f"{n} files")
    return 0


if __name__ == "__main__":
    sys.exit(main())
