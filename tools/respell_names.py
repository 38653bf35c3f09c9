#!/usr/bin/env python3
"""Respells the definitions and lemmas of crates/ as the kit's library spells its own: words in snake case, types in camel case.

usage: python3 tools/respell_names.py        at the top of the repository, once, right after the kit's port.py

A name is taken as ours where a file below specs/ or proofs/ declares it: a definition, a lemma, a field, a constructor or a local name.
Names of generated goals and of the library keep their spelling, as do all names of code in src/.
"""

import collections
import glob
import os
import re
import sys

# Lemmas whose names would fall together with a definition used beside them, and a predicate that is a word elsewhere: file, old name, new name.
APART = [
    ("reasons/specs/Small.antt", "journals", "Journals"),
    ("calls/proofs/Promises.antt", "is-named", "is_named_by_tag"),
    ("collect/proofs/Leaves.antt", "leaf-acts", "leaf_acts_begin"),
    ("reasons/proofs/Escaping.antt", "active-at", "active_at_row"),
    ("image_check/proofs/Whole.antt", "letter-of", "letter_of_rank"),
    ("image_check/proofs/Whole.antt", "rank-of", "rank_of_its_letter"),
    ("image_check/proofs/Whole.antt", "goes_on", "goes_on_within"),
    ("image_check/proofs/Leaves.antt", "words-of", "words_of_bytes"),
    ("image_tables/proofs/Holding.antt", "scopes-in", "scopes_stay_in"),
    ("image_tables/proofs/Holding.antt", "functions-in", "functions_stay_in"),
    ("image_tables/proofs/Holding.antt", "panels-in", "panels_stay_in"),
    ("image_encode/proofs/Fields.antt", "identifier-fits", "identifier_fits_or_absent"),
    ("image_encode/proofs/Fields.antt", "number_fits", "number_fits_or_absent"),
]
# Predicates that were spelled like words, and the word of an operator that is ours.
OTHERS = {"readies": "Readies", "thenAll": "then_all"}

CRATES = {os.path.basename(p) for p in glob.glob("crates/*")}

TOKEN = re.compile(r"[^\s(){}\[\].,;`\"]+")
DECLARED = re.compile(r"^(?:abbrev |unfoldable )*(?:pub )?(?:abbrev |unfoldable )*(data |record )?([^\s:(){}]+)\s*(.*)$")
MEMBER = re.compile(r"^\s+(?:abbrev |pub |unfoldable )*([^\s:(){}]+)\s*:(?:\s|$)(.*)$")
LOCAL = re.compile(r"(?<![^\s(])let ([^\s:=(){}]+)|[({]([a-z][^\s:(){}]*) : ")
RENAMED = re.compile(r" as ([^\s,;}]+)")
GOAL = re.compile(r"^:\s*goals?[A-Za-z]*\.\S+\s*$")
IMPORT = re.compile(r"^(?:pub )?(?:ghost )?use ([^\s{;]+?)(?:\.\{([^}]*)\})?(?: as (\S+?))?;?$")


def snake(name):
    name = name.replace("-", "_").replace("\u2032", "'")
    return re.sub(r"(?<=[a-z0-9])([A-Z])", lambda m: "_" + m[1].lower(), name)


def unlike(name):
    first = name.lstrip("\u25cc")[:1]
    return "-" in name or "\u2032" in name or (first.islower() and re.search(r"[A-Z]", name) is not None)


def read(path):
    with open(path, encoding="utf-8") as f:
        return f.read()


def declared(text):
    """The names that an antt file declares, those of generated goals aside."""
    for line in text.split("\n"):
        if line.startswith("use "):
            yield from RENAMED.findall(line)
        if not line.strip() or line.startswith(("use ", "pub use ", "--", "mod ", "pub mod ", "unfolding", "infix", "open ")):
            continue
        if not line.startswith(" "):
            m = DECLARED.match(line)
            if m and (m[1] or (m[3].startswith(":") and not GOAL.match(m[3]))):
                yield m[2]
        elif (m := MEMBER.match(line)) and not GOAL.match(":" + m[2]):
            yield m[1]
        yield from (a or b for a, b in LOCAL.findall(line))


def library(text):
    """The names that a file takes from the library."""
    out = set()
    for line in text.split("\n"):
        m = IMPORT.match(line.strip())
        if m and m[2] and m[1].split(".")[:2][-1] not in CRATES:
            for part in m[2].split(","):
                out.add(part.strip().split(" as ")[-1].strip())
    return out


def turn(text, names, kept, code):
    def one(m):
        t = m[0]
        return t if t in kept or t not in names else names[t]

    lines = []
    for line in text.split("\n"):
        mark = "//" if code else "--"
        at = line.find(mark)
        # a word of a comment is left where it may be English
        head, tail = (line, "") if at < 0 else (line[:at], line[at:])
        head = TOKEN.sub(one, head)
        tail = re.sub(r"[A-Za-z0-9_]+", lambda m: names.get(m[0], m[0]) if re.search(r"[a-z][A-Z]", m[0]) and m[0] not in kept else m[0], tail)
        lines.append(head + tail)
    return "\n".join(lines)


def main():
    antt = sorted(glob.glob("crates/*/specs/**/*.antt", recursive=True) + glob.glob("crates/*/proofs/**/*.antt", recursive=True))
    if not antt:
        sys.exit("respell_names: run it at the top of the repository")
    names = dict(OTHERS)
    for path in antt:
        for name in declared(read(path)):
            if unlike(name):
                names[name] = snake(name)
    apart = collections.defaultdict(dict)
    for path, old, new in APART:
        crate = path.split("/")[0]
        apart[crate][old] = (path, new)
    rest = glob.glob("crates/*/src/**/*.rt", recursive=True) + glob.glob("crates/*/must-fail/*.edit")
    for path in antt + sorted(rest):
        text = read(path)
        own = dict(names)
        crate = path.split("/")[1]
        for old, (at, new) in apart[crate].items():
            module = os.path.basename(at)[: -len(".antt")]
            if path == "crates/" + at or re.search(r"use Rattle\.%s\.(?:specs|proofs)\.%s\.\{[^}]*(?<![\w-])%s(?![\w-])" % (crate, module, re.escape(old)), text):
                own[old] = new
        new = turn(text, own, library(text), not path.endswith(".antt"))
        if new != text:
            with open(path, "w", encoding="utf-8") as f:
                f.write(new)
    for path in ["README.md", *sorted(glob.glob("docs/*.md"))]:
        if os.path.basename(path).startswith("PORT"):
            continue
        text = read(path)
        new = re.sub(r"`[^`\n]+`", lambda m: TOKEN.sub(lambda t: names.get(t[0], t[0]) if t[0] not in OTHERS else t[0], m[0]), text)
        if new != text:
            with open(path, "w", encoding="utf-8") as f:
                f.write(new)


if __name__ == "__main__":
    main()
