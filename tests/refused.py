#!/usr/bin/env python3
"""Holds docs/STATEMENTS.md against what rt says of the must-fail edits:

    tests/refused.py SAID [ROOT]

SAID is a file with what `rt ci`, or `rt must-fail`, printed. The table whose last column is "refused in" has a row for every edit, and names the
proof in which rt says that the edit is refused: that of the first error of its own, one that is no mere consequence of a name that is gone. Says a
sentence for each row that lacks or is wrong, with the row as it should be. refused_test.py tries it."""
import re
import sys
from pathlib import Path

STATEMENTS = "docs/STATEMENTS.md"
ROW = re.compile(r"^\| `(\w+)` \((\w+)\) \| (.*) \|$")
# Not where a proof file names what the edit took away, and nothing else was found.
REFUSED = re.compile(r"refused, as it must be(?: \(only by a limit [^)]*\))?: (.*)")
# The files in which the proof of a function stands, in a folder of its own.
OF_A_FUNCTION = {"Proof.antt", "Invariants.antt", "Answers.antt"}


def source_of(root, crate, modules, function):
    """The file of the modules, where it declares the function, else the first of the crate that does."""
    src = root / "crates" / crate / "src"
    for path in [src / ("/".join(modules or ["lib"]) + ".rt"), *sorted(src.glob("**/*.rt"))]:
        if path.is_file() and re.search(rf"\bfn {function}\b", path.read_text(encoding="utf-8")):
            return path.relative_to(root).as_posix()
    return f"crates/{crate}/src"


def function(root, crate, modules):
    """How the table names a function, of which the last of its modules may be the type that owns it, as XFromY owns a conversion to X."""
    *modules, name = modules
    owner = modules.pop() if modules and modules[-1][0].isupper() else ""
    kind = re.match(r"(\w+?)From[A-Z]", owner)
    return f"`{(kind[1] if kind else owner) + '::' if owner else ''}{name}` (`{source_of(root, crate, modules, name)}`)"


def at_line(root, crate, file, number):
    """How the table names the function in which a line of a source stands, attributes before it included; an edit moves no line."""
    path = root / "crates" / crate / file
    lines = path.read_text(encoding="utf-8").split("\n") if path.is_file() else []
    while lines[number - 1:] and lines[number - 1].lstrip().startswith("#["):
        number += 1
    names, owner = [], ""
    for line in lines[:number]:
        block = re.match(r"impl\b[^{]*?(\w+)(?:<[^{}]*?>)?\s*\{", line)
        owner = block[1] + "::" if block else "" if line.startswith("}") else owner
        names += [owner + name for name in re.findall(r"^\s*(?:pub(?:\(\w+\))?\s+)?(?:extern \"C\" )?(?:const )?fn (\w+)", line)]
    return f"`{names[-1]}` (`crates/{crate}/{file}`)" if names else None


def place(root, crate, said):
    """How the table names the proof in which an error stands: a function, or a law and its file."""
    source = re.match(r"(?:note: )?(?:\./)?(src/\S+?):(\d+):\d+:", said)
    if source:
        return at_line(root, crate, source[1], int(source[2]))
    proof = re.match(r"(?:note: )?(?:\./)?proofs/(\S+?):\d+:\d+: error: `([^`]+)`:", said)
    if not proof:
        return None
    *modules, last = proof[1].split("/")
    return function(root, crate, modules) if last in OF_A_FUNCTION else f"`{proof[2]}` ({crate} `{last.removesuffix('.antt')}`)"


def told(said):
    """Of each edit, by its crate and label, what rt says of it."""
    return {(crate, label): text for crate, label, text in re.findall(r"^(?:rt: )?must-fail (\w+)/(\w+)\.edit: (.*)$", said, re.M)}


def stated(root):
    """Of each edit, by its crate and label, what the table says."""
    text = (root / STATEMENTS).read_text(encoding="utf-8")
    _, _, table = text.partition("| refused in |\n")
    rows = (ROW.match(line) for line in table.partition("\n\n")[0].split("\n"))
    return {(row[2], row[1]): row[3] for row in rows if row}


def lacks(root, said):
    rows, tried, found = stated(root), told(said), []
    for edit in sorted(root.glob("crates/*/must-fail/*.edit")):
        crate, label = edit.parts[-3], edit.stem
        text = tried.get((crate, label), "")
        refused = REFUSED.fullmatch(text)
        where = refused and place(root, crate, refused[1])
        if not where:
            found.append(f"{edit.relative_to(root)} was not refused by an error of its own: {text or 'rt says nothing of it'}")
        elif rows.get((crate, label)) != where:
            found.append(f"{STATEMENTS} should say: | `{label}` ({crate}) | {where} |")
    edits = {(edit.parts[-3], edit.stem) for edit in root.glob("crates/*/must-fail/*.edit")}
    found += [f"{STATEMENTS} has a row for `{label}` ({crate}), and there is no such edit" for crate, label in sorted(rows.keys() - edits)]
    return found, len(rows)


def main():
    said = Path(sys.argv[1]).read_text(encoding="utf-8", errors="replace")
    found, rows = lacks(Path(sys.argv[2] if len(sys.argv) > 2 else "."), said)
    for sentence in found:
        print(f"refused: {sentence}")
    print(f"refused: {rows} wrong programs and the proofs that refused them; {len(found)} lacks")
    return 1 if found else 0


if __name__ == "__main__":
    sys.exit(main())
