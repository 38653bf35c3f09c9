#!/usr/bin/env python3
"""In proof files of functions, gives names of the code their own spelling: a step or goal that was `digit-count` is `digit_count`.

usage: python3 tools/keep_source_names.py        at the top of the repository, once, after respell_names.py
"""

import glob
import re

# Words of the kit's own in names of steps.
KITS = ["in_default", "in_ok", "in_err", "from_residual", "type_inv", "invariant_of", "slice_bounds", "offset_bounds"]
KITS += [f"{kind}_{step}" for kind in ("overflow", "nonzero") for step in ("add", "sub", "mul", "shl", "shr", "cast", "step", "div", "rem")]


def read(path):
    with open(path, encoding="utf-8") as f:
        return f.read()


def main():
    words = set()
    for path in glob.glob("crates/*/src/**/*.rt", recursive=True):
        for line in read(path).split("\n"):
            if not line.startswith("ghost use"):
                words |= set(re.findall(r"(?<![A-Za-z0-9_'])(?:[a-z][a-z0-9]*(?:_[a-z0-9]+)+|[A-Z][A-Z0-9]*(?:_[A-Z0-9]+)+)(?![A-Za-z0-9_])", line))
    # a name of a step that begins with one of these is a word of the kit's with a name behind it
    turns = {w.replace("_", "-"): w for w in words if w.split("_")[0] not in ("then", "else", "if", "loop", "in")}
    turns |= {w.replace("_", "-"): w for w in KITS}
    pattern = re.compile(r"(?<![A-Za-z0-9_])(?:%s)(?![A-Za-z0-9_])" % "|".join(sorted(map(re.escape, turns), key=len, reverse=True)))
    for path in sorted(glob.glob("crates/*/proofs/*/**/*.antt", recursive=True)):
        text = read(path)
        lines = [l if l.startswith("use Rattle.std") or l.lstrip().startswith("--") else pattern.sub(lambda m: turns[m[0]], l) for l in text.split("\n")]
        # a parameter that no code uses begins with an underscore
        new = "\n".join(lines).replace(".args.-", ".args._")
        if new != text:
            with open(path, "w", encoding="utf-8") as f:
                f.write(new)


if __name__ == "__main__":
    main()
