#!/usr/bin/env python3
"""Brings the names of definitions and lemmas to today's spelling: words in snake case, as `closeOf` to `close_of`.

usage: python3 tools/respell.py            at the top of the repository, behind port.py: rewrites files in place, and says what it left

A name is what a file of specs/ or proofs/ declares: a definition, a lemma, a constructor or a field. It is respelled part by part, as a dash joins
parts, wherever it stands as a whole word in Rattle and antt, in the edits of must-fail/ and between backticks in the documents. Types, modules and
facts keep their capitals. The functions of src/, exported names, strings, inputs and outputs keep their names: none of them has a capital within it.
"""

import collections
import glob
import re
import sys

DECLARED = re.compile(r"^(?:(?:pub |abbrev |unfoldable )*)([^\s:(){}]+)(?: [({].*)? : ")
MEMBER = re.compile(r"^  (?:pub )?([^\s:(){}]+) : ")
WORD = re.compile(r"[\w'\u2032\u2124\u2115-]+")
# What would fall together with another name. A lemma that would have its function's name gets `_lem`.
APART = {"tooLong": "too_long_name"}
LEMMAS = {"answer_at": "laws.specs.laws.Lift", "sum_over": "contract_price.specs.laws.Numbers", "is_digit": "numerals.specs.laws.Numerals"}
CAMEL = re.compile(r"^[a-z][A-Za-z0-9]*[A-Z][A-Za-z0-9']*$")


def antt():
    return sorted(glob.glob("crates/*/specs/**/*.antt", recursive=True) + glob.glob("crates/*/proofs/**/*.antt", recursive=True))


def snake(part):
    return re.sub(r"(?<=[a-z0-9])([A-Z])", lambda m: "_" + m.group(1).lower(), part)


def names():
    """Each part that is respelled, and how."""
    found = {}
    for path in antt():
        for line in open(path, encoding="utf-8"):
            if line.startswith(("use ", "--")):
                continue
            m = DECLARED.match(line) or MEMBER.match(line)
            for part in m.group(1).split("-") if m else ():
                if CAMEL.match(part):
                    found[part] = APART.get(part, snake(part))
    return found


def lemmas_apart(path, text):
    """In the file that declares such a lemma, and in those that import it."""
    for name, module in LEMMAS.items():
        own = path == "crates/" + module.replace(".", "/") + ".antt"
        if own or re.search(r"Rattle\." + re.escape(module) + r"\.\{[^}]*\b" + name + r"\b", text):
            text = re.sub(r"(?<![\w.-])" + name + r"(?![\w'-])", name + "_lem", text)
    return text


def respelled(text, parts):
    def word(m):
        return "-".join(parts.get(p, p) for p in m.group(0).split("-"))
    return WORD.sub(word, text)


def in_backticks(text, parts):
    """Fenced blocks and what stands between backticks."""
    out, fenced = [], False
    for line in text.split("\n"):
        if line.lstrip().startswith("```"):
            fenced = not fenced
        elif fenced:
            line = respelled(line, parts)
        else:
            line = re.sub(r"`[^`]*`", lambda m: respelled(m.group(0), parts), line)
        out.append(line)
    return "\n".join(out)


def declared():
    """Where each name is declared: to see names that fall together."""
    where = collections.defaultdict(set)
    for path in antt():
        for line in open(path, encoding="utf-8"):
            m = None if line.startswith(("use ", "--", " ")) else DECLARED.match(line)
            if m:
                where[m.group(1)].add(path)
    return where


def main():
    parts = names()
    before = declared()
    for old, new in sorted(parts.items()):
        if new in before and new not in LEMMAS:
            print(f"look: {old} becomes {new}, which {', '.join(sorted(before[new]))} declares")
    back = collections.defaultdict(set)
    for old, new in parts.items():
        back[new].add(old)
    for new, olds in sorted(back.items()):
        if len(olds) > 1:
            print(f"look: {', '.join(sorted(olds))} fall together in {new}")
    changed = 0
    paths = antt() + sorted(glob.glob("crates/*/src/**/*.rt", recursive=True) + glob.glob("crates/*/must-fail/*.edit"))
    pages = ["README.md", "CONTRIBUTING.md"] + sorted(glob.glob("docs/**/*.md", recursive=True) + glob.glob("*/README.md"))
    for path in paths + pages:
        text = open(path, encoding="utf-8").read()
        new = in_backticks(text, parts) if path in pages else respelled(lemmas_apart(path, text), parts)
        if new != text:
            open(path, "w", encoding="utf-8").write(new)
            changed += 1
    print(f"respell: {len(parts)} parts of names, {changed} files")


if __name__ == "__main__":
    sys.exit(main())
