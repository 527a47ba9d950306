#!/usr/bin/env python3
"""Sees house.py miss what is taken away: in a copy of the repository one thing is changed at a time, and the sentence that names it must be among
the lacks, where it is not among those of the untouched copy."""
import re
import shutil
import sys
import tempfile
from collections import Counter
from pathlib import Path

import house

ROOT = Path(__file__).resolve().parent.parent
SUMS, RECORD, METER = "crates/sums/src/lib.rt", "crates/record/src/lib.rt", "crates/meter/src/lib.rt"
UNIQUE = "crates/sums/proofs/Unique.antt"
PUBLISHED, ENTRIES = "crates/ploegelster_c/src/published.rt", "crates/ploegelster/src/published.rt"
CONDITION1, CONDITION2 = house.CONDITION1, "crates/acceptance/proofs/Condition2.antt"
GROUNDS = house.GROUNDS
HEADER, RULES, STATEMENTS = house.HEADER, house.RULES, house.STATEMENTS
EDIT = "crates/meter/must-fail/gap_keeps_the_stretch.edit"
RUST = next(path for path in house.House(ROOT, []).files("rust/**/boundary.rs"))
CARGO = next(path for path in house.House(ROOT, []).files("rust/**/Cargo.toml") if '\nversion = "' in (ROOT / path).read_text())

# What is changed: a file, a piece of its text and what comes in its place (no piece: a file is added; nothing in its place: it is deleted).
# Then what must be said.
CASES = [
    # functions
    (SUMS, "m: u64) -> SumAnswer\n", "m: u64) -> SumAnswer\n    requires { 1 ≤ m }\n",
     "pub fn allan_sum of crates/sums/src/lib.rt has a requires"),
    (RECORD, "ensures { result ≡ in_range x }", "", "pub fn in_range of crates/record/src/lib.rt has no ensures"),
    (RECORD, "ensures { result ≡ in_range x }", "// ensures { result ≡ in_range x }",
     "pub fn in_range of crates/record/src/lib.rt has no ensures"),
    (METER, "ensures { result ≡ report_answer self }", "", "pub fn Meter::report of crates/meter/src/lib.rt has no ensures"),
    (METER, "impl Meter {", "impl Meter {\n    pub fn spare(self) {}\n",
     "pub fn Meter::spare of crates/meter/src/lib.rt has no theorem spare_single"),
    ("crates/plot/src/dots.rt", "fn dot_of(", "pub fn dot_of(", "pub fn dot_of of crates/plot/src/dots.rt has a requires"),
    ("crates/phr/src/header.rt", "pub(crate) fn said(", "pub fn said(", None),
    ("crates/printed/src/print.rt", "pub(crate) fn of(", "pub fn of(", "pub fn Verdict::of of crates/printed/src/print.rt has no ensures"),
    ("crates/files/src/lib.rt", "ensures { OnOk result (IsUtf8 name.now) }", "", "pub fn open of crates/files/src/lib.rt has no ensures"),
    (SUMS, "mod totals;", "mod totals;\npub use totals::Record;", "`pub use totals::Record;` of crates/sums/src/lib.rt hides"),
    (PUBLISHED, '#[unsafe(no_mangle)]\npub extern "C" fn plg_time_fraction', 'pub extern "C" fn plg_time_fraction',
     "fn plg_time_fraction of crates/ploegelster_c/src/published.rt has a head"),
    (PUBLISHED, '#[unsafe(no_mangle)]\npub extern "C" fn plg_time_fraction', '#[unsafe(no_mangle)]\nextern "C" fn plg_time_fraction',
     "fn plg_time_fraction of crates/ploegelster_c/src/published.rt has a head"),
    (SUMS, "pub fn allan_sum(samples: &[i64],", "pub fn allan_sum(pair: (u64, u64), samples: &[i64],",
     "fn allan_sum of crates/sums/src/lib.rt has a head"),
    ("crates.txt", "meter:", "# meter:", "crates/meter is not in crates.txt"),
    ("crates.txt", "mending: laws", "mending: files laws", "crates/mending uses files, which is for programs alone"),
    # their theorems
    ("crates/sums/proofs/Lib.antt", "pub mod Unique", "", "pub fn allan_sum of crates/sums/src/lib.rt has no theorem allan_sum_single"),
    (UNIQUE, "pub allan_sum_single :", "pub allan_sum_one :", "pub fn allan_sum of crates/sums/src/lib.rt has no theorem allan_sum_single"),
    (UNIQUE, "pub allan_sum_single :", "-- pub allan_sum_single :", "pub fn allan_sum of crates/sums/src/lib.rt has no theorem allan_sum_single"),
    (UNIQUE, "allan-sum-kinds.r allan-sum.Post", "allan-sum-kinds.r modified-sum.Post",
     "pub fn allan_sum of crates/sums/src/lib.rt has no theorem allan_sum_single"),
    (CONDITION1, "pub allan_sum_settled :", "pub allan_sum_calm :", "pub fn allan_sum of crates/sums/src/lib.rt has no theorem allan_sum_settled or"),
    (CONDITION1, "pub wide_sum_one_answer :", "pub wide_sum_answer :", "pub fn sum of crates/wide/src/lib.rt has no theorem wide_sum_settled or"),
    (CONDITION1, "pub meter_start_settled :", "pub start_settled :",
     "pub fn Meter::start of crates/meter/src/lib.rt has no theorem meter_start_settled or"),
    (CONDITION1, "pub remove_drift_past :", "pub remove_drift_beyond :",
     "pub fn remove_drift of crates/drift/src/lib.rt has no theorem remove_drift_past"),
    (GROUNDS, "pub allan_sum_grounds :", "pub allan_sum_reasons :", "pub fn allan_sum of crates/sums/src/lib.rt has no theorem allan_sum_grounds"),
    (GROUNDS, "pub size_refusal_grounds :", "pub size_grounds :",
     "pub fn size_refusal of crates/record/src/lib.rt has no theorem size_refusal_grounds"),
    (GROUNDS, "plg-bars-kinds.r plg-bars.Post", "plg-bars-kinds.r bars.Post",
     "pub fn plg_bars of crates/ploegelster/src/drawing.rt has no theorem plg_bars_grounds"),
    (CONDITION1, "pub plg_bars_settled :", "pub plg_bars_calm :",
     "pub fn plg_bars of crates/ploegelster/src/drawing.rt has no theorem plg_bars_settled or"),
    (CONDITION1, "pub plg_allan_sum_is :", "pub plg_allan_sum_was :",
     "pub fn plg_allan_sum of crates/ploegelster/src/published.rt has no theorem plg_allan_sum_is or"),
    (CONDITION1, "≡ allan-sum.Post", "≡ plg-allan-sum.Post",
     "pub fn plg_allan_sum of crates/ploegelster/src/published.rt has no theorem plg_allan_sum_is or"),
    (CONDITION1, "pub plg_bars_tells :", "pub plg_bars_told :",
     "pub fn plg_bars of crates/ploegelster/src/drawing.rt has no theorem plg_bars_is or plg_bars_tells"),
    # exported functions
    (PUBLISHED, "ensures { result ≡ time_fraction_answer (value sum) m count }", "ensures { result ≡ allan_fraction_answer (value sum) m count }",
     "pub fn plg_time_fraction of crates/ploegelster_c/src/published.rt has not the contract of pub fn plg_time_fraction of crates/ploegelster/src/"),
    (PUBLISHED, "ensures { result ≡ time_fraction_answer (value sum) m count }", "",
     "pub fn plg_time_fraction of crates/ploegelster_c/src/published.rt has no ensures"),
    (PUBLISHED, "ghost use Rattle.wide.specs.Wide.{value}", "ghost use Rattle.wide.specs.Halves.{value}",
     "pub fn plg_time_fraction of crates/ploegelster_c/src/published.rt has value from Rattle.wide.specs.Halves.value, and"),
    (PUBLISHED, "use wide::Wide;", "use laws::Wide;",
     "pub fn plg_time_fraction of crates/ploegelster_c/src/published.rt has Wide from crates/laws/src/lib.rt, and"),
    (ENTRIES, '#[unsafe(no_mangle)]\npub extern "C" fn plg_time_fraction', "fn plg_time_fraction",
     "pub fn plg_time_fraction of crates/ploegelster_c/src/published.rt has 0 public functions of its own name"),
    (HEADER, "plg_drawn_answer plg_drawn_number(uint64_t r);", "", "plg_drawn_number is exported and not declared in include/ploegelster.h"),
    (HEADER, "plg_drawn_answer plg_drawn_number(", "plg_drawn_answer plg_spare(uint64_t r);\nplg_drawn_answer plg_drawn_number(",
     "plg_spare is declared in include/ploegelster.h and not exported"),
    (HEADER, "/* ---- answers */", "static inline int plg_spare(int x) { if (x) { return plg_spare(0); } return 0; }", None),
    (RUST, "fn plg_drawn_number(", "fn drawn_number(", "plg_drawn_number is exported and not declared in " + RUST),
    (RUST, "fn plg_drawn_number(", "fn plg_spare();\n    pub fn plg_drawn_number(", "plg_spare is declared in " + RUST + " and not exported"),
    (RULES, "| `plg_drift_figure` |", "| the drift figure |", "plg_drift_figure is exported and not in a table of refusals of docs/RULES.md"),
    (RULES, "| `plg_drift_figure` |", "| `plg_drift_figure`, `plg_spare` |", "plg_spare is in a table of refusals of docs/RULES.md and not exported"),
    (STATEMENTS, "| `Meter::report` | 7 |", "| report | 7 |", "plg_meter_report is exported and not in a table of refusals of docs/STATEMENTS.md"),
    (STATEMENTS, "| `Meter::report` | 7 |", "| `Meter::spare` | 7 |",
     "plg_meter_spare is in a table of refusals of docs/STATEMENTS.md and not exported"),
    (RULES, "| `plg_drift_figure` | 2; 1", "| `plg_drift_figure` | 1; 2",
     "plg_drift_figure refuses 1, 2, 3 by docs/RULES.md, and 2, 1, 3 by docs/STATEMENTS.md"),
    (HEADER, "Refuses 5, 6 (ring below 3m)", "Refuses 6 (ring below 3m), 5",
     "plg_meter_start refuses 5, 6 by docs/RULES.md, and 6, 5 by include/ploegelster.h"),
    (RULES, "| `plg_channel_gap` (K13) | 11; 7", "| `plg_channel_gap` (K13) | 12; 7",
     "plg_channel_gap refuses 12, 7 by docs/RULES.md, and 11, 7 by docs/STATEMENTS.md"),
    # what they take and answer
    (HEADER, "plg_noise_type(uint64_t r1, uint64_t r2)", "plg_noise_type(uint64_t r2, uint64_t r1)",
     "plg_noise_type of include/ploegelster.h does not take"),
    (HEADER, "plg_bars(uint64_t r, int64_t alpha", "plg_bars(uint64_t r, uint64_t alpha", "plg_bars of include/ploegelster.h does not take"),
    (HEADER, "uint64_t high, low; } plg_wide", "uint64_t low, high; } plg_wide", "plg_allan_sum of include/ploegelster.h does not have the answer"),
    (HEADER, "plg_part allan, modified;", "plg_part allan;", "plg_meter_report of include/ploegelster.h does not have the answer"),
    (HEADER, "plg_wide a, b;", "plg_wide b, a;", "plg_meter_report of include/ploegelster.h does not take"),
    (METER, "    pub window: i64,", "    pub window: u64,", "plg_meter_report of include/ploegelster.h does not take"),
    (METER, "#[repr(C)]\n#[derive(Clone, Copy)]\npub struct Meter {", "#[derive(Clone, Copy)]\npub struct Meter {",
     "struct Meter of crates/meter/src/lib.rt goes to C and has no repr(C)"),
    # what docs/STATEMENTS.md names
    (CONDITION2, "pub bars_published :", "pub bars_printed :", "`bars_published` does not stand in crates/acceptance/proofs/Condition2.antt"),
    ("crates/acceptance/proofs/Lib.antt", "pub mod Condition2\n", "", "`bars_published` does not stand in crates/acceptance/proofs/Condition2.antt"),
    ("crates/record/specs/Refusals.antt", "pub in_range :", "pub is_in_range :", "`in_range` does not stand in crates/record/specs/Refusals.antt"),
    ("crates/plot/specs/Drawn.antt", "pub record GreatestDouble ", "pub record LargestDouble ",
     "`GreatestDouble` does not stand in crates/plot/specs/Drawn.antt"),
    ("crates/noise/src/lib.rt", "const BOUNDS:", "const BOUND:", "`BOUNDS` does not stand in crates/noise/src/lib.rt"),
    (METER, "pub const MOST_SAMPLES:", "pub const SAMPLES:", "`Meter::MOST_SAMPLES` does not stand in crates/meter/src/lib.rt"),
    ("crates/plot/src/dots.rt", "    TooFew,\n}", "}", "`enum Dot { Drawn(f64), Nought, TooFew }` does not stand in crates/plot/src/dots.rt"),
    (STATEMENTS, "(sums `PublishedLaws`)", "(sums `PrintedLaws`)", "crates/sums/proofs/PrintedLaws.antt is not there"),
    (STATEMENTS, "| `Condition3.antt` |", "| `Condition4.antt` |", "crates/acceptance/proofs/Condition4.antt is not there"),
    (STATEMENTS, "There are no exceptions.", "There are no exceptions but `spare_law`.",
     "`spare_law` has no place, here or elsewhere in the document"),
    (STATEMENTS, "| `root` |", "| `roots` |", "`roots` is no public function of wide"),
    (STATEMENTS, "| `root` |", "| the root |", "pub fn root of crates/wide/src/lib.rt stands in no table of functions of docs/STATEMENTS.md"),
    (STATEMENTS, "`gap_keeps_the_window` (meter)", "`gap_keeps_the_window` (sums)", "`gap_keeps_the_window` does not stand in crates/sums/must-fail/"),
    (STATEMENTS, "| `root` |", "| `root` | |", "the row has 5 cells, and its table has 4 columns"),
    (STATEMENTS, "`gap_keeps_the_window` (meter)", "`gap_keeps_the_window`", "`gap_keeps_the_window` has no crate beside it"),
    # must-fail edits
    (EDIT, "", None, "`gap_keeps_the_stretch` does not stand in crates/meter/must-fail/"),
    (EDIT.replace("gap_keeps_the_stretch", "spare"), None, "", "crates/meter/must-fail/spare.edit is not named in docs/STATEMENTS.md"),
    (EDIT.replace("gap_keeps_the_stretch", "spare"), None, "", "crates/meter has 9 must-fail edits, and 8 are the most"),
    # versions and documents
    (CARGO, '\nversion = "', '\nversion = "9', f"{CARGO} has version 9"),
    (HEADER, "#define PLG_VERSION_MINOR", "#define PLG_MINOR", "include/ploegelster.h does not define PLG_VERSION_MAJOR"),
    ("README.md", "# Ploegelster\n", "# Ploegelster\n\nSee `examples/quartz.c`.\n", "README.md:3: examples/quartz.c is not there"),
    ("README.md", "# Ploegelster\n", "# Ploegelster\n\nSee `crates/inspect/out/inspect`, which a check leaves.\n", None),
    ("README.md", "# Ploegelster\n", "# Ploegelster\n\nSee `/usr/include/stdio.h`.\n", "README.md:3: /usr/include/stdio.h is not there"),
    ("CONTRIBUTING.md", "## Versions\n", "## Versions\n\nSee `rust/src/quartz.rs`.\n", "rust/src/quartz.rs is not there"),
]


def copy(folder):
    """The repository's files, without what builds have made."""
    return shutil.copytree(ROOT, folder, ignore=shutil.ignore_patterns(".git", "target", "out", "__pycache__"))


def change(root, path, old, new):
    """Makes the change, and gives what undoes it."""
    file = root / path
    text = file.read_text(encoding="utf-8") if file.exists() else None
    assert old is None or text is not None and old in text, f"{path} has no {old!r} to change"
    if new is None:
        file.unlink()
    else:
        file.write_text(new if old is None else text.replace(old, new, 1), encoding="utf-8")
    return lambda: file.unlink() if text is None else file.write_text(text, encoding="utf-8")


def lacks(root, symbols):
    return [re.sub(r":\d+: ", ": ", sentence, count=1) for sentence in house.looked_over(root, symbols).lacks]


def expect(what, before, after, sentence):
    """The sentence is new; without one nothing is new."""
    new = list((Counter(after) - Counter(before)).elements())
    wanted = re.sub(r":\d+: ", ": ", sentence, count=1) if sentence else None
    if wanted and not any(wanted in said for said in new) or not wanted and new:
        sys.exit(f"house_test: {what}\n  should say: {sentence or 'nothing'}\n  says: " + "\n        ".join(new or ["nothing"]))


def main():
    symbols = {f.name for f in house.public_functions(house.House(ROOT, [])) if f.exported}
    one = min(symbols)
    with tempfile.TemporaryDirectory() as folder:
        root = copy(Path(folder) / "copy")
        before = lacks(root, symbols)
        expect("a symbol taken away", before, lacks(root, symbols - {one}), f"{one} is exported and not among the archive's symbols")
        expect("a symbol more", before, lacks(root, symbols | {"plg_spare"}), "plg_spare is among the archive's symbols and not exported")
        for path, old, new, sentence in CASES:
            undo = change(root, path, old, new)
            expect(f"{path}: {old!r} becomes {new!r}", before, lacks(root, symbols), sentence)
            undo()
        assert lacks(root, symbols) == before
        (Path(folder) / "empty").mkdir()
        for kind in ("functions", "exports", "theorems", "definitions", "edits"):
            expect("an empty folder", [], lacks(Path(folder) / "empty", []), f"no {kind} were found to look at")
    print(f"house_test: {len(CASES) + 7} changes seen")


main()
