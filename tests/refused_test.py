#!/usr/bin/env python3
"""Tries refused.py on a small repository: a right table passes, and each lack is told."""
import sys
import tempfile
from pathlib import Path

import refused

OF_EDIT = "rt: must-fail sums/place_dropped.edit: "
WRONG = "refused, as it must be: "
LAW_SAID = f"{WRONG}./proofs/AnswerLaws.antt:3:1: error: `sum_refused`: expected type `a`, but this has type `b`"
LAW = "`sum_refused` (sums `AnswerLaws`)"
PROOF_SAID = f"{WRONG}./proofs/Meter/start/Answers.antt:5:1: error: `returns`: expected type `a`, but this has type `b`"
SOURCE_SAID = f"{WRONG}note: src/lib.rt:%d:5: it is not proved that what the function ensures holds when it returns (`returns`); the facts"
FUNCTION = "`Meter::start` (`crates/sums/src/lib.rt`)"
BEYOND = "`beyond` (`crates/sums/src/lib.rt`)"
LIMIT_SAID = LAW_SAID.replace(WRONG, "refused, as it must be (only by a limit of the prover, which gave no verdict, so this says less): ")
GONE_SAID = LAW_SAID.replace(WRONG, "refused, as it must be (only because a proof file names what the edit took away, so this says little): ")
SOURCE = """impl Meter {
    pub fn start(self)
        ensures { result ≡ self }
    {
        self
    }
}

#[inline]
pub(crate) fn beyond() {}
"""


def lacks(cell, said=LAW_SAID, label="place_dropped"):
    """What is told of a table with this cell, and of what rt said of the edit."""
    with tempfile.TemporaryDirectory() as folder:
        root = Path(folder)
        files = {"docs/STATEMENTS.md": f"| wrong program | refused in |\n|---|---|\n{cell}\n\nafter\n",
                 f"crates/sums/must-fail/{label}.edit": "",
                 "crates/sums/src/lib.rt": SOURCE}
        for path, text in files.items():
            (root / path).parent.mkdir(parents=True, exist_ok=True)
            (root / path).write_text(text, encoding="utf-8")
        return refused.lacks(root, f"rt: sums proved\n{OF_EDIT}{said}\nrt: ok\n")[0]


def row(proof):
    return f"| `place_dropped` (sums) | {proof} |"


def unrefused(said):
    return f"crates/sums/must-fail/place_dropped.edit was not refused by an error of its own: {said}"


CASES = [
    (lacks(row(LAW)), []),
    (lacks(row(FUNCTION), PROOF_SAID), []),
    (lacks(row(FUNCTION), SOURCE_SAID % 2), []),
    (lacks(row(FUNCTION), SOURCE_SAID % 5), []),
    (lacks(row(BEYOND), SOURCE_SAID % 9), []),
    (lacks(row(BEYOND), SOURCE_SAID % 10), []),
    (lacks(row(LAW), LIMIT_SAID), []),
    (lacks(row("`sum_single` (sums `Unique`)")), [f"docs/STATEMENTS.md should say: {row(LAW)}"]),
    (lacks(row("`start` (`crates/sums/src/lib.rt`)"), PROOF_SAID), [f"docs/STATEMENTS.md should say: {row(FUNCTION)}"]),
    (lacks(row(FUNCTION), SOURCE_SAID % 9), [f"docs/STATEMENTS.md should say: {row(BEYOND)}"]),
    (lacks(""), [f"docs/STATEMENTS.md should say: {row(LAW)}"]),
    (lacks(row(LAW), GONE_SAID), [unrefused(GONE_SAID)]),
    (lacks(row(LAW), "BAD EDIT: the text of 'old:' stands nowhere"), [unrefused("BAD EDIT: the text of 'old:' stands nowhere")]),
    (lacks(row(LAW), "NOT REFUSED: the crate is still proved"), [unrefused("NOT REFUSED: the crate is still proved")]),
    (lacks(row(LAW), label="place_kept"), ["crates/sums/must-fail/place_kept.edit was not refused by an error of its own: rt says nothing of it",
                                           "docs/STATEMENTS.md has a row for `place_dropped` (sums), and there is no such edit"]),
]
wrong = [(found, wanted) for found, wanted in CASES if found != wanted]
for found, wanted in wrong:
    print(f"refused_test: told {found}, and wanted was {wanted}")
print(f"refused_test: {len(CASES)} cases, {len(wrong)} wrong")
sys.exit(1 if wrong else 0)
