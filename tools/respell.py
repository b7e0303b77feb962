#!/usr/bin/env python3
"""Brings the names of this repository's own definitions and lemmas to the spelling of its toolchain.

    tools/respell.py        at the top of the repository, once, after the toolchain's own script

Words are in snake case (`state-of` is `state_of`), facts and types in camel case (`First-wrong` is
`FirstWrong`), and a field that ended in `?` ends in `_is`. Source names, strings and comments stay,
and so do the toolchain's names. It stops, and writes nothing, where two names would fall together.
"""
import re
import sys
from pathlib import Path

ROOT = Path(__file__).resolve().parents[1]
GENERATED = ("Answers.antt", "Invariants.antt", "Choices.antt")
TOKEN = re.compile(r"""[^\s(){}\[\];,.:"∷λ⌜⌝«»]+""")
DEFINITION = re.compile(r"^(?:abbrev |unfoldable )?(?:pub )?(?:record |data )?([^\s(){};,:.]+) ?(?:[^:=]*):(?!=)")
FIELD = re.compile(r"^\s+(?:pub )?([^\s(){};,:.]+) :")
RENAMED = re.compile(r"([^\s{},]+) as ([^\s{},]+)")
# variables of proofs whose names have a dash
LOCAL = {"in-own", "next-to"}


def texts():
    for pattern in ("crates/*/specs/**/*.antt", "crates/*/proofs/**/*.antt", "crates/*/src/**/*.rt"):
        yield from sorted(ROOT.glob(pattern))


def own_names():
    names = set(LOCAL)
    for path in texts():
        source = path.suffix == ".rt"
        for line in path.read_text().splitlines():
            if line.startswith(("use ", "ghost use ")):
                names.update(m.group(2) for m in RENAMED.finditer(line))
            if source or path.name in GENERATED or line.startswith(("use ", "--", "pub mod", "mod ")):
                continue
            names.update(m.group(1) for m in (DEFINITION.match(line), FIELD.match(line)) if m)
    return names


def respelled(name):
    name = name.replace("?", "_is")
    if "-" not in name:
        return name
    if name[0].isupper():
        return "".join(word[:1].upper() + word[1:] for word in name.split("-"))
    return name.replace("-", "_")


def parts(line, source):
    """The parts of a line that hold names, and those that don't: strings and comments."""
    pattern = r'("(?:\\.|[^"\\])*"|//.*)' if source else r"(--.*)"
    return re.split(pattern, line)


def main():
    names = {n for n in own_names() if n != "?"}
    turned = {}
    for name in sorted(names):
        turned.setdefault(respelled(name), []).append(name)
    clashes = {new: old for new, old in turned.items() if len(old) > 1}
    if clashes:
        sys.exit(f"these would fall together: {clashes}")
    changed = {n: respelled(n) for n in names if respelled(n) != n}
    for path in texts():
        source = path.suffix == ".rt"
        old = path.read_text()
        lines = []
        for line in old.split("\n"):
            cut = parts(line, source)
            cut[::2] = [TOKEN.sub(lambda m: changed.get(m.group(0), m.group(0)), part) for part in cut[::2]]
            lines.append("".join(cut))
        new = "\n".join(lines)
        if new != old:
            path.write_text(new)
    print(f"{len(changed)} names respelled")


if __name__ == "__main__":
    main()
