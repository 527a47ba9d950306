#!/usr/bin/env python3
"""Holds the repository against its own word, and says a sentence for each lack:

    tests/house.py SYMBOLS [ROOT]

SYMBOLS is a file with the archive's symbols, one a line. Every public function takes every input, promises something and has its theorems. An
exported function has the contract of the one of its name, word for word. The sources, the header, the archive, the Rust declarations and the
documents name the same exported functions, with the same orders of refusals, and the header gives them the same parameters and answers. Whatever
docs/STATEMENTS.md names stands where it says, by the rules that stand there. The header has the version of the Rust packages, and no document names a
file that is not there. This reads text: whether a theorem is proved is the prover's to say. house_test.py tries it."""
import re
import sys
from collections import defaultdict, namedtuple
from pathlib import Path

MOST_EDITS = 8  # of a crate
HEADER = "include/ploegelster.h"
RULES = "docs/RULES.md"
STATEMENTS = "docs/STATEMENTS.md"
CONDITION1 = "crates/acceptance/proofs/Condition1.antt"
GROUNDS = "crates/acceptance/proofs/Grounds.antt"
# What docs/STATEMENTS.md has in backticks and no file holds: words of the languages.
PLAIN = {"requires", "ensures", "f64", "&[f64]", "&mut [i64]"}
# Where a field has one name in the sources and another in C.
C_FIELDS = {"hi": "high", "lo": "low"}
C_TYPES = {"uint64_t": "u64", "int64_t": "i64", "uint8_t": "u8", "size_t": "usize", "double": "f64"}
# The entry that an exported function is, where it has not its name: C cannot take the slice that `quieter` hands back.
ENTRIES = {"plg_quieter": "which_quieter"}
# The libraries that no entry is made of: they read, write and print for the programs. Their public functions promise something and have no theorem.
FOR_PROGRAMS = {"files", "shown"}
# The numbers of refusals, and with them those of two digits.
DIGIT, DIGITS = "[1-9]", r"[1-9]\d?"

# The clauses are the kinds of those of the contract, and the contract is its text.
Function = namedtuple("Function", "crate path owner name exported clauses parameters answer contract")


class House:
    """The repository's text, what was looked at, and what lacks."""

    def __init__(self, root, symbols):
        self.root, self.symbols = Path(root), set(symbols)
        self.lacks, self.seen, self.texts = [], defaultdict(set), {}

    def lack(self, sentence):
        if sentence not in self.lacks:
            self.lacks.append(sentence)

    def files(self, pattern):
        found = (str(path.relative_to(self.root)) for path in self.root.glob(pattern))
        return sorted(path for path in found if "target" not in path.split("/"))

    def has(self, path):
        """Whether a file or folder of the repository is there; NAME stands for any name."""
        if path.startswith("/"):
            return False
        return bool(self.files(path.replace("NAME", "*"))) if "NAME" in path else (self.root / path).exists()

    def text(self, path):
        if path not in self.texts:
            file = self.root / path
            if not file.is_file():
                self.lack(f"{path} is not there")
            self.texts[path] = file.read_text(encoding="utf-8") if file.is_file() else ""
        return self.texts[path]


# ---- functions of the sources


def source(house, path):
    """A source's text without its comments."""
    return re.sub(r"//[^\n]*", "", house.text(path))


def closed(text, start):
    """Where the brace that opens at `start` is closed."""
    depth = 0
    for at in range(start, len(text)):
        depth += (text[at] == "{") - (text[at] == "}")
        if depth == 0:
            return at + 1
    return len(text)


def clauses(text, start):
    """The clauses of a contract, by their first words, up to the body, and its text."""
    found, begins = [], start
    while (mark := re.compile(r"\b(requires|ensures)\b|\{").search(text, start)) and mark[1]:
        found.append(mark[1])
        start = closed(text, text.index("{", mark.end()))
    return found, " ".join(text[begins:start].split())


def owner_at(text, place):
    """The type in whose `impl` a place lies."""
    for block in re.finditer(r"\bimpl\b[^{]*?(\w+)(?:<[^{}]*?>)?\s*\{", text):
        if block.start() < place < closed(text, block.end() - 1):
            return block[1]
    return None


HEAD = r"""(\#\[unsafe\(no_mangle\)\]\s*)? \bpub\s ((?:[\w"]+\s)*) fn\s (\w+) [^(]* \( ([^)]*) \) (?:\s*->\s* ([^{]*?))? (?=\s*(?:requires|ensures|\{))"""


def functions_in(house, crate, path):
    """The functions of a file that are marked `pub`."""
    text = source(house, path)
    found = []
    for m in re.finditer(HEAD, text, re.X):
        if bool(m[1]) == ("extern" in m[2]):
            kinds, contract = clauses(text, m.end())
            found.append(Function(crate, path, owner_at(text, m.start()), m[3], bool(m[1]), kinds, m[4], m[5], contract))
    read = {f.name for f in found}
    for name in re.findall(r"\bpub\s+(?:[\w\"]+\s+)*fn\s+(\w+)", text) + re.findall(r"no_mangle\)?\][^{]*?\bfn\s+(\w+)", text):
        if name not in read:
            house.lack(f"fn {name} of {path} has a head that this test does not read, or one of no_mangle and extern \"C\" without the other")
    for unread in re.findall(r"\bpub use [^;]*;|\bmod \w+\s*\{|\bpub trait \w+", text):
        again = re.match(r"pub use (\w+)::", unread)
        if again and re.search(rf"^pub mod {again[1]};", text, re.M):
            continue  # what the module has is read with the module
        house.lack(f"`{unread}` of {path} hides public functions from this test")
    return found


def public_files(house, crate, path="lib.rt"):
    """The files that `pub mod` leads to."""
    yield f"crates/{crate}/src/{path}"
    for name in re.findall(r"^pub mod (\w+);", source(house, f"crates/{crate}/src/{path}"), re.M):
        folder = "" if path == "lib.rt" else path[:-3] + "/"
        yield from public_files(house, crate, f"{folder}{name}.rt")


def public_functions(house):
    """Of every library crate of the entries: what other crates can call, and what the static library exports to C."""
    found, static = [], re.findall(r"^(\w+) staticlib\b", house.text("crates.txt"), re.M)
    for crate in sorted({path.split("/")[1] for path in house.files("crates/*/src/lib.rt")} - FOR_PROGRAMS):
        paths = house.files(f"crates/{crate}/src/**/*.rt")
        public, text = set(public_files(house, crate)), "".join(source(house, path) for path in paths)
        for path in paths:
            for f in functions_in(house, crate, path):
                f = f._replace(exported=f.exported and crate in static)
                reached = path in public and (not f.owner or re.search(rf"\bpub (struct|enum) {f.owner}\b", text))
                found += [f] if reached or f.exported else []
    house.seen["functions"] |= {told(f) for f in found}
    return found


def full_name(f):
    return f"{f.owner}::{f.name}" if f.owner else f.name


def told(f):
    return f"pub fn {full_name(f)} of {f.path}"


def check_crates(house):
    """The prover is told of every crate."""
    listed = re.findall(r"^(\w+)(?: [\w=]+)*:", house.text("crates.txt"), re.M)
    for path in house.files("crates/*"):
        if path.split("/")[1] not in listed:
            house.lack(f"{path} is not in crates.txt")


def check_uses(house):
    """What is made for programs is used by programs alone."""
    for crate, used in re.findall(r"^(\w+)(?: [\w=]+)*:(.*)", house.text("crates.txt"), re.M):
        if not house.has(f"crates/{crate}/src/main.rt"):
            for name in sorted(FOR_PROGRAMS & set(used.split())):
                house.lack(f"crates/{crate} uses {name}, which is for programs alone")


def check_contract(house, f):
    if "requires" in f.clauses:
        house.lack(f"{told(f)} has a requires")


def check_promises(house):
    """Whatever is marked `pub` promises something, in the programs too and where no other crate reaches it."""
    for path in house.files("crates/*/src/**/*.rt"):
        for f in functions_in(house, path.split("/")[1], path):
            if "ensures" not in f.clauses:
                house.lack(f"{told(f)} has no ensures")


# ---- exported functions and those whose contract they have


def ghost_names(house, path):
    """Where each name of a file's contracts comes from."""
    found = {}
    for module, names in re.findall(r"^ghost use ([^;{]+)\.\{([^}]*)\};", source(house, path), re.M):
        found |= {name.split(" as ")[-1].strip(): f"{module}.{name.split(' as ')[0].strip()}" for name in names.split(",")}
    return found


def head(f):
    """The parameters, the answer and the contract, spaced alike."""
    return re.findall(r"(\w+): ([^,]+)", " ".join(f.parameters.split())), f.answer, f.contract


def check_exported(house, f, functions):
    """An exported function promises what the one function of its name promises, in the same words, which mean the same; that one is given."""
    entries = [g for g in functions if g.name == f.name and not (g.exported or g.owner)]
    if len(entries) != 1:
        house.lack(f"{told(f)} has {len(entries)} public functions of its own name to have the contract of, and one is wanted")
        return None
    entry = entries[0]
    if head(f) != head(entry):
        house.lack(f"{told(f)} has not the contract of {told(entry)}")
    ours, theirs = ghost_names(house, f.path), ghost_names(house, entry.path)
    for word in sorted(set(re.findall(r"[^\s(){}\[\],;.]+", f.contract)) & (ours.keys() | theirs.keys())):
        if ours.get(word) != theirs.get(word):
            house.lack(f"{told(f)} has {word} from {ours.get(word)}, and {told(entry)} from {theirs.get(word)}")
    for name in sorted(set(re.findall(r"\b[A-Z]\w+", f"{f.parameters} {f.answer}"))):
        places = [declared_fields(house, path, name)[0] for path in (f.path, entry.path)]
        if places[0] != places[1]:
            house.lack(f"{told(f)} has {name} from {places[0]}, and {told(entry)} from {places[1]}")
    return entry


# ---- their theorems


def contract_name(house, f, path):
    """What a file of proofs calls the function's own contract."""
    modules = f.path.split("/src/")[1][:-3].split("/")
    parts = ([] if modules == ["lib"] else modules) + ([f.owner] if f.owner else []) + [f.name]
    named = rf"^use Rattle\.{f.crate}\.proofs\.{'[.]'.join(parts)}\.Reads as (\S+)$"
    found = re.search(named, house.text(path), re.M)
    return found and found[1]


def theorem_name(name, this):
    """A theorem's name over a contract that the file calls THIS, in the words of theorems: in-range, or in_range_lem, is in_range."""
    return name.replace("THIS", this.replace("-", "_").removesuffix("_lem"))


def has_theorem(house, f, path, name, begins):
    """Whether the file has the theorem, which has this name and begins so, over the function's own contract, which both call THIS."""
    this = contract_name(house, f, path)
    if not this or not is_proved(house, path):
        return False
    return bool(re.search(f"^pub {theorem_name(name, this)} : {begins}".replace("THIS", this), house.text(path), re.M))


def check_theorem(house, f, path, *theorems):
    """The file has one of the theorems, each a name and how it begins."""
    this = contract_name(house, f, path)
    for name, begins in theorems:
        if has_theorem(house, f, path, name, begins):
            house.seen["theorems"].add(f"{path} {theorem_name(name, this)}")
            return
    wanted = " or ".join(theorem_name(name, this or "NAME") for name, _ in theorems)
    house.lack(f"{told(f)} has no theorem {wanted} over its own contract in {path}")


def refuses(house, f):
    """Whether the answer has a number and a place that are not handed in."""
    fields = {name for name, _ in declared_fields(house, f.path, (f.answer or "").strip())[2]}
    return {"number", "place"} <= fields and not re.search(r"\bnumber:", f.parameters)


def check_theorems(house, f, is_exported):
    of_this = r".* THIS\.Post\b"
    check_theorem(house, f, f"crates/{f.crate}/proofs/Unique.antt", (f.name + "_single", "Single" + of_this))
    if is_exported:
        entry = ENTRIES.get(f.name, f.name.removeprefix("plg_"))
        own = "THIS_is", rf"THIS\.Post ≡ {entry.replace('_', '[-_]')}\.Post$"
        check_theorem(house, f, CONDITION1, own, ("THIS_tells", "Always" + of_this))
        if has_theorem(house, f, CONDITION1, *own):
            return  # all that is said of the entry's contract is said of this one
    check_theorem(house, f, CONDITION1, ("THIS_settled", "Settled" + of_this), ("THIS_one_answer", "Single" + of_this))
    if "&mut [" in f.parameters:
        check_theorem(house, f, CONDITION1, ("THIS_past", "Always" + of_this))
    if refuses(house, f):
        check_theorem(house, f, GROUNDS, ("THIS_grounds", "Always" + of_this))


# ---- exported functions


def header_text(house):
    """The header without comments, lines of the preprocessor, and functions that it defines itself."""
    text = re.sub(r"/\*.*?\*/", "", house.text(HEADER), flags=re.S)
    text = re.sub(r"^#(?:.*\\\n)*.*$", "", text, flags=re.M)
    while own := re.search(r"\bstatic inline\b[^{;]*\{", text):
        text = text[:own.start()] + text[closed(text, own.end() - 1):]
    return text


def header_functions(house):
    """Each function of the header: the type of its answer, and its parameters."""
    found = re.findall(r"([\w *]+?)\s*\b(plg_\w+)\s*\(([^()]*)\)", header_text(house))
    return {name: (answer.strip(), parameters) for answer, name, parameters in found}


def rust_functions(house):
    """The functions of the one Rust file boundary.rs that declares what C calls, and its path."""
    paths = [path for path in house.files("rust/**/boundary.rs") if 'extern "C"' in house.text(path)]
    if len(paths) != 1:
        house.lack(f"rust/ has {len(paths)} files boundary.rs with a block extern \"C\", and one is wanted")
    text = "".join(source(house, path) for path in paths)
    blocks = [text[m.start():closed(text, m.end() - 1)] for m in re.finditer(r'extern "C" \{', text)]
    return set(re.findall(r"\bfn (\w+)", "".join(blocks))), " ".join(paths) or "rust/"


def refusal_orders(house, path, digit=DIGIT):
    """Each table that says what is refused: the functions of its first column, with the numbers in their order."""
    found = {}
    for header, rows in tables(house.text(path)):
        at = [i for i, cell in enumerate(header) if cell.startswith("refuses")]
        for _, row in rows if at else []:
            for name in re.findall(r"`([^`]+)`", row[0]):
                found[name] = re.findall(rf"(?:^|[,;] |then | or )({digit})\b", row[at[0]])
    return found


def entry_orders(house, digit=DIGIT):
    """The same of docs/STATEMENTS.md by the names in C, where a function that refuses otherwise in C has its own row."""
    found = refusal_orders(house, STATEMENTS, digit)
    exported = {name: order for name, order in found.items() if name.startswith("plg_")}
    return {"plg_" + name.replace("::", "_").lower(): order for name, order in found.items() if name not in exported} | exported


def header_orders(house, digit=DIGIT):
    """The same of the comments of the header."""
    found, before = {}, []
    for comment, name in re.findall(r"/\*\*((?:(?!\*/).)*)\*/\s*\w+ (plg_\w+)\(", house.text(HEADER), re.S):
        said = re.sub(r"\([^()]*(?:\([^()]*\)[^()]*)*\)|\bnever \d", "", comment.partition("Refuses ")[2])
        before = found[name] = before if said.startswith("as the") else re.findall(rf"\b{digit}\b", said)
    return found


def check_orders(house):
    """What is refused, in which order, is said alike in the rules, the statements and the header; so it is with the numbers of two digits."""
    for digit in (DIGIT, DIGITS):
        rules = refusal_orders(house, RULES, digit)
        for path, orders in ((STATEMENTS, entry_orders(house, digit)), (HEADER, header_orders(house, digit))):
            for name in sorted(rules.keys() & orders.keys()):
                if rules[name] != orders[name]:
                    house.lack(f"{name} refuses {', '.join(rules[name])} by {RULES}, and {', '.join(orders[name])} by {path}")


def compare(house, exported, others, where):
    for name in sorted(exported - others):
        house.lack(f"{name} is exported and not {where}")
    for name in sorted(others - exported):
        house.lack(f"{name} is {where} and not exported")


def check_exports(house, functions):
    exported = {f.name for f in functions if f.exported}
    house.seen["exports"] |= exported
    compare(house, exported, set(header_functions(house)), f"declared in {HEADER}")
    compare(house, exported, house.symbols, "among the archive's symbols")
    declared, path = rust_functions(house)
    compare(house, exported, declared, f"declared in {path}")
    if house.text(RULES):
        compare(house, exported, set(refusal_orders(house, RULES)), f"in a table of refusals of {RULES}")
    compare(house, exported, set(entry_orders(house)), f"in a table of refusals of {STATEMENTS}")
    compare(house, exported, set(header_orders(house)), f"told of in a comment of {HEADER}")
    check_orders(house)


# ---- the header's types


def c_structs(house):
    """Each struct of the header: its fields, a name and a type each."""
    found = {}
    for body, name in re.findall(r"typedef struct \{([^}]*)\} (\w+);", header_text(house)):
        found[name] = [(field.strip(), line.split()[0]) for line in body.split(";") if line.strip()
                       for field in line.split(maxsplit=1)[1].split(",")]
    return found


def c_layout(structs, kind, name=""):
    """A C type as it lies in memory: its innermost fields in their order, each with the names that lead to it and its type."""
    if kind in structs:
        return [leaf for field, inner in structs[kind] for leaf in c_layout(structs, inner, f"{name}.{field}")]
    return [(name, C_TYPES.get(kind, kind))]


def c_parameter(structs, text):
    """One parameter of the header: its name, and its layout or what it points to."""
    known = re.fullmatch(r"((?:const )?\w+) (\*?)(\w+)", " ".join(text.split()))
    if not known:
        return text
    kind, star, name = known.groups()
    layout = c_layout(structs, kind.removeprefix("const "))
    return (name, f"{'const' if kind.startswith('const ') else 'mut'} {layout[0][1]}") if star else (name, layout)


def declared_fields(house, path, name):
    """Of a struct that a source declares or uses: the file that declares it, whether it is laid out as C has it, and its fields."""
    declared = re.search(rf"((?:#\[[^\]]*\]\s*)*)pub struct {name} \{{([^}}]*)\}}", source(house, path))
    if declared:
        return path, "#[repr(C)]" in declared[1], re.findall(r"pub (\w+): ([^,]+),", declared[2])
    used = re.search(rf"^use ([\w:]+)::(?:\{{[^}}]*\b)?{name}\b(?:[^}}]*\}})?;", source(house, path), re.M)
    if not used:
        return path, True, []
    crate, *modules = used[1].split("::")
    crate = path.split("/")[1] if crate == "crate" else crate
    return declared_fields(house, f"crates/{crate}/src/{'/'.join(modules or ['lib'])}.rt", name)


def struct_fields(house, path, name):
    """The file that declares a struct that goes to C, and its fields."""
    path, as_in_c, fields = declared_fields(house, path, name)
    if not as_in_c:
        house.lack(f"struct {name} of {path} goes to C and has no repr(C)")
    return path, fields


def layout(house, path, kind, name=""):
    """A type of the sources as it lies in memory."""
    if kind in C_TYPES.values():
        return [(name, kind)]
    declared, fields = struct_fields(house, path, kind)
    return [leaf for field, inner in fields for leaf in layout(house, declared, inner, f"{name}.{C_FIELDS.get(field, field)}")]


def c_parameters(house, f):
    """The parameters as C hands them over: a slice is a pointer and a length."""
    for name, kind in re.findall(r"(\w+): (&?(?:mut )?[\w\[\]]+)", f.parameters):
        if kind.startswith("&"):
            yield name, f"{'mut' if 'mut ' in kind else 'const'} {kind[kind.index('[') + 1:-1]}"
            yield f"{name}_length", [("", "usize")]
        else:
            yield name, layout(house, f.path, kind)


def check_types(house, functions):
    """Each declaration of the header has the parameters and the answer of the exported function, innermost field by field."""
    declared, structs = header_functions(house), c_structs(house)
    for f in functions:
        if f.exported and f.name in declared:
            answer, handed = declared[f.name]
            if [c_parameter(structs, text) for text in handed.split(",")] != list(c_parameters(house, f)):
                house.lack(f"{f.name} of {HEADER} does not take the parameters that it has in {f.path}")
            if c_layout(structs, answer) != layout(house, f.path, f.answer):
                house.lack(f"{f.name} of {HEADER} does not have the answer that it has in {f.path}")


# ---- documents


def blocks(text):
    """The pieces of a document, with the number of the line where each begins: a heading, a paragraph, or the rows of a table."""
    text = re.sub(r"^```.*?^```$", lambda m: "\n" * m[0].count("\n"), text, flags=re.M | re.S)
    piece, start = [], 0
    for number, line in enumerate(text.splitlines() + [""], 1):
        if piece and (not line.strip() or line[0] == "#" or piece[0][0] == "#" or (line[0] == "|") != (piece[0][0] == "|")):
            yield start, piece
            piece = []
        if line.strip():
            start = start if piece else number
            piece.append(line)


def table(start, piece):
    """A table's header, and its rows with the number of the line of each."""
    rows = [[cell.strip() for cell in line.strip().strip("|").split("|")] for line in piece]
    return rows[0], list(enumerate(rows[2:], start + 2))


def tables(text):
    return [table(start, piece) for start, piece in blocks(text) if piece[0][0] == "|"]


def is_path(word):
    return "/" in word or re.search(r"\.(antt|rt|rs|py|md|h|c|toml|txt)$", word)


# ---- docs/STATEMENTS.md, by its section "How a name has its place"


class Reader:
    """What the document names: where each name has its place, and the names that stand without one."""

    def __init__(self, house, functions):
        self.house = house
        self.crates = {path.split("/")[1] for path in house.files("crates/*")}
        self.functions = functions
        self.placed = {full_name(f) for f in functions}
        self.mentioned, self.listed, self.edits = [], set(), set()
        self.section = []

    def lack(self, line, sentence):
        self.house.lack(f"{STATEMENTS}:{line}: {sentence}")

    def path(self, line, path):
        self.house.seen["paths"].add(path)
        if not self.house.has(path):
            self.lack(line, f"{path} is not there")

    def name(self, line, name, places):
        """The name stands in one of the places."""
        self.placed.add(name)
        places = [place for place in places if self.house.has(place)]
        found = [place for place in places if stands_in(self.house, name, place)]
        for place in found[:1]:
            if place.endswith("/must-fail/"):
                self.edits.add(f"{place}{name}.edit")
            else:
                self.house.seen["theorems" if "/proofs/" in place else "definitions"].add(f"{place} {name}")
        if len(found) > 1:
            self.lack(line, f"`{name}` stands in {' and in '.join(found)}, and one is meant")
        if not found:
            self.lack(line, f"`{name}` does not stand in {' or '.join(places) or 'a file that is there'}")

    def words(self, line, text, column="", places=()):
        """The names of a sentence or a cell. A place in brackets is that of the names before it; the others have the places of their row or column."""
        waiting = []
        for crate, file, edits, word in re.findall(r"\((?:(\w+) )?`([^`]+)`\)|\((\w+)\)|`([^`]+)`", text):
            if edits and column != "edits":
                continue
            if word or not (crate or edits or is_path(file)):
                waiting += self.word(line, word or file)
                continue
            here = place_of(crate, file, edits, column)
            if not any(self.house.has(place) for place in here):
                self.lack(line, f"{' or '.join(here)} is not there")
            for name in waiting:
                self.name(line, name, here)
            waiting = []
        for name in waiting:
            if places:
                self.name(line, name, places)
            elif column == "edits":
                self.lack(line, f"`{name}` has no crate beside it")
            else:
                self.mentioned.append((line, name))

    def word(self, line, word):
        """The word, where it is a name that needs a place."""
        if word in PLAIN or word in self.crates:
            return []
        if is_path(word):
            self.path(line, word)
            return []
        return [word]

    def function_names(self, line, cell):
        """The functions of a crate that the section's heading names."""
        for name in re.findall(r"`([^`]+)`", cell):
            found = [f for f in self.functions if full_name(f) == name and f.crate in self.section]
            self.listed |= {told(f) for f in found}
            if not found:
                self.lack(line, f"`{name}` is no public function of {' or '.join(self.section)}")

    def row(self, line, header, row):
        folder = {cell.split()[0]: re.findall(r"`([^`]+)`", cell) for cell in header if cell}
        files = [file for cell, head in zip(row, header) if head.startswith("file") for file in re.findall(r"`([^`]+)`", cell)]
        files = [(folder["file"] or [""])[0] + file for file in files]
        for file in files:
            self.path(line, file)
        for cell, head in zip(row, header):
            if head == "function":
                self.function_names(line, cell)
            elif "must-fail" in head:
                self.words(line, cell, "edits", [word for word in re.findall(r"`([^`]+)`", head)])
            elif not head.startswith("file"):
                self.words(line, cell, head, files)

    def piece(self, start, piece):
        if piece[0][0] == "|":
            header, rows = table(start, piece)
            self.words(start, " ".join(header))
            for line, row in rows:
                self.row(line, header, row)
                if len(row) != len(header):
                    self.lack(line, f"the row has {len(row)} cells, and its table has {len(header)} columns")
            return
        if piece[0][0] == "#":
            self.section = [word for word in re.findall(r"`([^`]+)`", piece[0]) if word in self.crates]
        for sentence in re.split(r"(?<=\.)\s", " ".join(piece)):
            self.words(start, sentence)


def place_of(crate, file, edits, column):
    """The files that a place in brackets may mean: (`path`), (crate `File`), or (crate) beside must-fail edits."""
    if edits:
        return [f"crates/{edits}/must-fail/"]
    if not crate:
        return [file]
    folders = {"theorem": ["proofs"], "definition": ["specs"]}.get(column.split(" ")[0], ["specs", "proofs"])
    return [f"crates/{crate}/{folder}/{file}.antt" for folder in folders]


def stands_in(house, name, place):
    if place.endswith("/must-fail/"):
        return house.has(f"{place}{name}.edit")
    if place.endswith(".antt"):
        return is_stated(house.text(place), name) and is_proved(house, place)
    return place.endswith(".rt") and is_declared(source(house, place), name)


def is_stated(text, name):
    """A line gives the name its type; NAME stands for any name."""
    names = re.findall(r"^ *(?:abbrev |unfoldable )?pub (?:(?:record|data) )?(\S+)(?= :| \()", text, re.M) + re.findall(r"^ *(\S+)(?= : )", text, re.M)
    return name in names or "NAME" in name and any(re.fullmatch(name.replace("NAME", ".+"), other) for other in names)


def is_proved(house, path):
    """The folder's Lib.antt takes the file in."""
    folder, _, file = path.rpartition("/")
    return bool(re.search(rf"^pub mod {file[:-5]}$", house.text(f"{folder}/Lib.antt"), re.M))


def is_declared(text, name):
    """A source declares the name, in its type's own block where it is written Type::name, or has the code that is quoted."""
    owner, _, item = name.rpartition("::")
    if " " in name:
        return name in " ".join(text.split()).replace(", }", " }")
    found = [m.start() for m in re.finditer(rf"\b(?:fn|const|struct|enum) {item}\b", text)]
    return any(owner_at(text, place) == (owner or None) for place in found)


def check_statements(house, functions):
    reader = Reader(house, functions)
    for start, piece in blocks(house.text(STATEMENTS)):
        reader.piece(start, piece)
    for line, name in reader.mentioned:
        if name not in reader.placed:
            reader.lack(line, f"`{name}` has no place, here or elsewhere in the document")
    in_c = {f.name for f in functions if f.exported}
    for f in functions:
        if f.name not in in_c and told(f) not in reader.listed:
            house.lack(f"{told(f)} stands in no table of functions of {STATEMENTS}")
    check_edits(house, reader.edits)


def check_edits(house, named):
    for crate in house.files("crates/*"):
        edits = house.files(f"{crate}/must-fail/*.edit")
        house.seen["edits"] |= set(edits)
        if len(edits) > MOST_EDITS:
            house.lack(f"{crate} has {len(edits)} must-fail edits, and {MOST_EDITS} are the most")
        for edit in edits:
            if edit not in named:
                house.lack(f"{edit} is not named in {STATEMENTS}")


# ---- versions, and what the documents say of files


def check_versions(house):
    macros = [re.search(rf"^#define PLG_VERSION_{part} (\d+)$", house.text(HEADER), re.M) for part in ("MAJOR", "MINOR", "PATCH")]
    version = ".".join(macro[1] for macro in macros if macro)
    if not all(macros):
        house.lack(f"{HEADER} does not define PLG_VERSION_MAJOR, PLG_VERSION_MINOR and PLG_VERSION_PATCH")
    for path in house.files("rust/**/Cargo.toml"):
        given = re.findall(r'^version\s*=\s*"([^"]*)"', house.text(path), re.M)
        house.seen["versions"] |= {path} if given else set()
        if "[package]" in house.text(path) and not given and "version.workspace" not in house.text(path):
            house.lack(f"{path} has no version")
        for other in given:
            if all(macros) and other != version:
                house.lack(f"{path} has version {other}, and {HEADER} has {version}")


def check_documents(house):
    for path in ["README.md", "CONTRIBUTING.md", *house.files("docs/**/*.md")]:
        for start, piece in blocks(house.text(path)):
            for line, text in enumerate(piece, start):
                check_line(house, path, line, text)


def check_line(house, path, line, text):
    for word in re.findall(r"`([^`\s]+)`", text):
        if (re.search(r"/.*\.\w+$", word) or word.startswith("crates/")) and not re.search(r"^target/|/out/", word):
            house.seen["paths"].add(word)
            if not house.has(word):
                house.lack(f"{path}:{line}: {word} is not there")


# ----


def looked_over(root, symbols):
    """The house after every check."""
    house = House(root, symbols)
    check_crates(house)
    check_uses(house)
    check_promises(house)
    functions = public_functions(house)
    entries = [check_exported(house, f, functions) for f in functions if f.exported]
    for f in functions:
        check_contract(house, f)
        if not f.exported:
            check_theorems(house, f, f in entries)
    check_exports(house, functions)
    check_types(house, functions)
    check_statements(house, functions)
    check_versions(house)
    check_documents(house)
    for kind in ("functions", "exports", "theorems", "definitions", "edits", "versions", "paths"):
        if not house.seen[kind]:
            house.lack(f"no {kind} were found to look at")
    return house


def main():
    symbols = Path(sys.argv[1]).read_text(encoding="ascii").split()
    house = looked_over(sys.argv[2] if len(sys.argv) > 2 else Path(__file__).resolve().parent.parent, symbols)
    for sentence in house.lacks:
        print(f"house: {sentence}")
    print("house: looked at " + ", ".join(f"{len(found)} {kind}" for kind, found in house.seen.items()) + f"; {len(house.lacks)} lacks")
    sys.exit(1 if house.lacks else 0)


if __name__ == "__main__":
    main()
