#!/usr/bin/env python3
"""Respells this repository's own names of specs/ and proofs/ in snake case; types and modules keep their capitals.

usage: python3 tools/port_names.py            at the top, once, after the kit's own script
       python3 tools/port_names.py --list     prints each old name with the new one and changes nothing

Names that a function's source has, and those that the checker makes from it, are not among them: a goal's name in proofs/F/Proof.antt is left.
"""
import collections
import os
import re
import sys

SIGNATURE = re.compile(r"^(\s*)(?:(?:abbrev|unfoldable|pub)\s+)*([^\s(){};.,:λ→=]+)((?:\s+[^\s(){};.,:λ→=]+)*)\s*:\s+(.*)")
KIND = re.compile(r"^\s*(?:pub )?(?:data|record) (\S+)")
TOKEN = re.compile(r"[^\s(){}\[\];,.:\"`|]+")
# Names that would fall on one that means something else. A lemma that would have its definition's name gets _lem besides.
APART = {
    "count-of": "count_of_lem",
    "in-range": "in_range_lem",
    "noNumber": "no_drawn_number",
    "parts-of": "parts_of_lem",
    "result-of": "result_of_lem",
    "tooLong": "too_long_refusal",
    "tooMany": "too_many_refusal",
    "value-at": "value_at_lem",
}
# A field of two records, which would hide the definition that its own type names.
FIELD = (re.compile(r"\b(header|h|w)\.start_fits\b(?!\.)"), r"\1.fits_start"), (re.compile(r"\bstart_fits(?= = (?:not-false|rw) | : startFits)"), "fits_start")


def files(ends):
    for folder, dirs, names in os.walk("crates"):
        dirs[:] = sorted(d for d in dirs if d != "out")
        for name in sorted(names):
            if name.endswith(ends):
                yield os.path.join(folder, name)


def made(kind):
    """Whether what stands behind the colon is a goal's type or a function's statement, so that the name is the checker's."""
    return re.match(r"tie\.|goal\.|\{M : Type 1\} → statement M", kind) is not None


def declared():
    names = set()
    for path in files(".antt"):
        with open(path, encoding="utf-8") as file:
            for line in file:
                if line.lstrip().startswith("--") or re.match(r"(pub )?use ", line):
                    continue
                kind = KIND.match(line)
                if kind:
                    names.add(kind[1])
                    continue
                said = SIGNATURE.match(line)
                if said and not made(said[4]):
                    names.update([said[2], *said[3].split()])
    return names


def spelled(name):
    if name in APART:
        return APART[name]
    if re.match(r"[A-Z]", name) and "-" not in name:
        return name
    name = name.replace("-", "_")
    name = re.sub(r"(?<=[a-z0-9])([A-Z])", lambda it: "_" + it[1].lower(), name)
    return re.sub(r"(?<=[a-z])ℤ", "_ℤ", name)


def turned(text, names, plain):
    """text with each of names respelled; in a comment a name with a dash only between backticks, where it is no English word."""
    def one(line):
        code, mark, comment = line.partition(plain)
        if mark and code.count('"') % 2:
            code, mark, comment = line, "", ""
        code = TOKEN.sub(lambda it: names.get(it[0], it[0]), code)
        comment = TOKEN.sub(lambda it: names.get(it[0], it[0]) if "-" not in it[0] else it[0], comment)
        comment = re.sub(r"`([^`]*)`", lambda it: "`" + TOKEN.sub(lambda t: names.get(t[0], t[0]), it[1]) + "`", comment)
        return code + mark + comment
    return "\n".join(one(line) for line in text.split("\n"))


def main(words):
    old = declared()
    names = {name: spelled(name) for name in old if spelled(name) != name}
    defined = {new for name, new in names.items() if "-" not in name}
    names.update({name: new + "_lem" for name, new in names.items() if "-" in name and new in defined})
    if "--list" in words:
        together = collections.defaultdict(list)
        for name in old:
            together[names.get(name, name)].append(name)
        for name in sorted(names):
            print(name, names[name])
        for new, those in sorted(together.items()):
            if len(those) > 1:
                print("together:", new, *sorted(those))
        return
    for path in files((".antt", ".rt", ".edit")):
        with open(path, encoding="utf-8") as file:
            text = file.read()
        new = text
        if path.endswith(".antt"):
            for field, instead in FIELD:
                new = field.sub(instead, new)
        new = turned(new, names, "--" if path.endswith(".antt") else "//")
        if new != text:
            with open(path, "w", encoding="utf-8") as file:
                file.write(new)


main(sys.argv[1:])
