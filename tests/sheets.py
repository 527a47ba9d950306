#!/usr/bin/env python3
"""Runs the program `sheet`, crates/sheet/out/sheet, and compares its standard output byte for byte with what the second implementation's program of
the same name prints for the same files; its standard error is compared too. The sheets of a few files are held against docs/RULES.md besides, as they
stand here. With the word `write` it writes the shipped files and the stored run anew. Nothing here is shared with the library."""
import os
import random
import subprocess
import sys
import tempfile
import time

from record_files import END, NOBODY, ROOT, Room, changed, same, sound, write_data

CRATE = os.path.join(ROOT, "crates/sheet")
# As long as a record on a sheet can be; what follows the next byte changes nothing.
LONGEST = 32784



def counted(data, count):
    """The same with another count in its header."""
    return changed(changed(data, 6, count % 256), 7, count // 256)


SQUARES = sound(0, [0, 1, 4, 9, 16, 25])
FILES = {
    "squares.phr": SQUARES,
    "pulse.phr": sound(0, [0, 0, 0, 1, 0, 0, 0]),
    "straight.phr": sound(0, [5, 8, 11, 14, 17, 20]),
    "constant.phr": sound(0, [-7] * 13, 0),
    "turns.phr": sound(0, [0, 1, 0, 1, 0]),
    "ends.phr": sound(0, [END, -END, END], 0),
    "hash.phr": sound(0, [i * i * 7919 % 1009 - 500 for i in range(100)]),
    "readings.phr": sound(1, [3, -1, 4, 1, -5, 9, -2, 6]),
    "started.phr": sound(1, [-1, 1, -4, 2], END),
    "two.phr": sound(0, [1, -1]),
    "beyond.phr": sound(0, [1, -1, END + 1, 0]),
    "steep.phr": sound(1, [0, 1, 1, -5], END - 1),
    "start-of-phase.phr": sound(0, [1, 2, 3], 256),
    "many.phr": counted(SQUARES, 4097),
    "cut.phr": SQUARES[:-1],
}
STORED = list(FILES)

# Sheets by the rules: of the first, and of the figures that stand there for others.
RULES = {
    "squares.phr": "1 2/1 4 1482910 2/3 4 856158 -2\n2 8/1 2 2965820 32/3 1 3424634 -\ntotal 6 5\n",
    "pulse.phr": "1 3/5 5 812223 1/5 5 468937 1\n2 1/6 3 428079 1/6 2 428079 -\ntotal 8 7\n",
    "straight.phr": "1 0/1 4 0 0/1 4 0 r8\n2 0/1 2 0 0/1 1 0 -\ntotal 6 5\n",
    "constant.phr": "1 0/1 11 0 0/1 11 0 r8\n2 0/1 9 0 0/1 8 0 r8\n4 0/1 5 0 0/1 2 0 -\ntotal 25 21\n",
    "turns.phr": "1 2/1 3 1482910 2/3 3 856158 -\n2 0/1 1 0 r1 r1 r1 -\ntotal 4 3\n",
    "ends.phr": "1 9671406556917033397649408/1 1 3260954456333195553 9671406556917033397649408/3 1 1882712933179080188 -\ntotal 1 1\n",
    "two.phr": "refused 1 at 0\ntotal 0 0\n",
    "beyond.phr": "refused 3 at 2\ntotal 0 0\n",
    "steep.phr": "refused 3 at 2\ntotal 0 0\n",
    "start-of-phase.phr": "refused 9 at 8\ntotal 0 0\n",
    "many.phr": "refused 2 at 0\ntotal 0 0\n",
    "cut.phr": "refused 9 at 55\ntotal 0 0\n",
    "missing.phr": "refused 9 at 0\ntotal 0 0\n",
    "two.phr squares.phr cut.phr squares.phr":
        "refused 1 at 0\n1 2/1 4 1482910 2/3 4 856158 -2\n2 8/1 2 2965820 32/3 1 3424634 -\nrefused 9 at 55\n"
        "1 2/1 4 1482910 2/3 4 856158 -2\n2 8/1 2 2965820 32/3 1 3424634 -\ntotal 12 10\n",
}


# ---- what is right


class Second:
    """The second implementation's program, which prints a sheet for each line of names."""

    def __init__(self, folder):
        run = ["cargo", "run", "--release", "--offline", "--quiet", "--package", "independent", "--bin", "sheet"]
        run += ["--manifest-path", os.path.join(ROOT, "rust/Cargo.toml"), "--", "-"]
        self.child = subprocess.Popen(run, cwd=folder, stdin=subprocess.PIPE, stdout=subprocess.PIPE)

    def sheet(self, names):
        """The sheet of these files; no name is empty or has a space in it."""
        self.child.stdin.write((" ".join(names) + "\n").encode())
        self.child.stdin.flush()
        lines = []
        while not lines or not lines[-1].startswith(b"total "):
            lines.append(self.child.stdout.readline())
            if not lines[-1]:
                sys.exit("the second implementation's program ended")
        return b"".join(lines)

    def end(self):
        same("what follows the last sheet", self.child.communicate(timeout=60)[0], b"")
        same("the status of the second implementation's program", self.child.returncode, 0)


def failed(name, why):
    return f"sheet: {name}: {why}\n"


MISSING = "No such file or directory"


# ---- runs


class Both(Room):
    """A room in which both programs print the sheets of the same files."""

    def __init__(self, folder):
        super().__init__(folder, "sheet")
        self.second, self.files, self.sheets = Second(folder), 0, []

    def start(self, names, **how):
        return self.child(names, **{"stdout": subprocess.PIPE, "stderr": subprocess.PIPE, **how})

    def said(self, what, child, out, err):
        """The program says this, and no more."""
        found = child.communicate(timeout=120)
        same(f"{what}: standard output", found[0], out)
        same(f"{what}: standard error", found[1].decode(), err)
        self.ended(child)

    def run(self, what, names, err="", known=None, **how):
        """The sheet of these files; `known` names such as both programs can read alike, where these are not."""
        child = self.start(names, **how)
        right = self.second.sheet(known or names)
        self.said(what, child, right, err)
        self.files += len(names)
        self.sheets.append(right.decode())

    def run_all(self, what, files, at_once):
        """The sheets of these files' bytes, so many on a sheet."""
        for first in range(0, len(files), at_once):
            names = []
            for i, data in enumerate(files[first:first + at_once]):
                names.append(f"file{i}.phr")
                self.write(names[-1], data)
            self.run(f"{what}, from number {first}", names)


def shipped(room):
    data = os.path.join(CRATE, "data")
    same("the shipped files", {name: open(os.path.join(data, name), "rb").read() for name in sorted(os.listdir(data))}, dict(sorted(FILES.items())))
    for names, text in RULES.items():
        same(f"the rules, {names}", room.second.sheet(names.split()).decode(), text)
    for name in FILES:
        room.run(name, [name])
    room.run("the shipped files in turn", list(FILES))
    room.run("one file many times", ["squares.phr", "many.phr"] * 40)


SMALL = [sound(0, [1, -1, 4]), sound(1, [2 * END, -1], -END), sound(0, [END, -END, 0], 0), sound(1, [-END, 1, 1])]


def cuts(room):
    """Every beginning of small files of both versions and kinds, and tails behind them."""
    for data in SMALL:
        room.run_all(f"{data.hex(' ')} cut", [data[:length] for length in range(len(data))], 50)
        room.run_all(f"{data.hex(' ')} with a tail", [data + b"\x7f" * more for more in range(18)], 18)


def changes(room):
    """Every byte of them changed: the highest bit turned, or one added."""
    for data in SMALL:
        places = [(place, other) for place, byte in enumerate(data) for other in (byte ^ 0x80, (byte + 1) % 256)]
        room.run_all(f"{data.hex(' ')} changed", [changed(data, place, other) for place, other in places], 50)


def orders(room):
    """Two faults at once: the first by the rules is told."""
    files = {
        "9 at 8": counted(sound(0, [1, 2, 3], 256), 4097),
        "2 at 0": counted(sound(1, [2 * END + 1, 2, 3], END + 1), 4096),
        "9 at 15": counted(sound(1, [1, 2, 3], END + 1), 4096)[:15],
        "9 at 40": sound(1, [2 * END + 1, 2, 3], END + 1) + b"\0",
        "3 at 0": sound(1, [1, 2 * END + 1, 3], END + 1),
        "3 at 2": sound(1, [1, 1, 2 * END + 1], END),
        "3 at 1": sound(0, [0, END + 1]),
    }
    room.run_all("two faults", list(files.values()), len(files))
    same("two faults", room.sheets[-1], "".join(f"refused {line}\n" for line in files) + "total 0 0\n")


def drawn(draw):
    """A file by lot, of either version: records that lie still, wander or jump, every third then damaged in a byte, cut off or with a tail."""
    kind, size = draw.randrange(2), 2 ** draw.randrange(0, 41)
    steps = [draw.randint(-size, size) for _ in range(draw.choice([3, 8, 30, 100]) + draw.randrange(10))]
    values = [sum(steps[:i]) for i in range(len(steps))] if kind == 0 and draw.randrange(2) else steps
    values = [0] * len(steps) if draw.randrange(12) == 0 else values
    data = sound(kind, values[:draw.choice([2, 400, 400, 400])], draw.choice([None, kind * draw.randint(-size, size)]))
    if draw.randrange(3) == 0:
        place = draw.choice([7, draw.randrange(8), draw.randrange(len(data))])
        data = draw.choice([changed(data, place, draw.randrange(256)), data[:place], data + draw.randbytes(place)])
    return data


def drawn_files(room):
    draw = random.Random(1)
    before = len(room.sheets)
    for at_once in 1, 2, 3, 5, 8, 13, 21, 34, 55, 300:
        room.run_all("drawn files", [drawn(draw) for _ in range(at_once)], at_once)
    lines = "".join(room.sheets[before:])
    for part in ("refused 1 at 0", "refused 2 at 0", "refused 3 at ", "refused 9 at ", " r1 r1 r1 -\n", " r8\n", " -\n", " -2\n", " -1\n", " 0\n", " 1\n",
                 " 2\n"):
        same(f"{part!r} in drawn lines", part in lines, True)


def long_files(room):
    """Files as long as can be on a sheet and longer: a byte, a value or much more."""
    swing = [(-1) ** i * END for i in range(4097)]
    draw = random.Random(2)
    noise = [draw.randint(-END, END) for _ in range(4096)]
    longest = sound(0, noise, 0)
    same("the longest file", len(longest), LONGEST)
    readings = [2 * step for step in swing[:4095]]
    sound_files = [sound(0, swing[:4096]), longest, sound(1, swing[:4095]), sound(1, readings, -END)]
    room.run_all("the longest files", sound_files, 1)
    room.run_all("a value less", [sound(0, noise[1:]), sound(1, readings[2:], -END)], 2)
    room.run_all("a value too many", [sound(0, swing), sound(0, swing, 0), sound(1, swing[:4096]), sound(1, swing[:4096], 5)], 4)
    room.run_all("a value too many in the header alone", [counted(data, 4097 - data[5]) for data in sound_files], 4)
    for more in 1, 2, 7, 8, 65536, 10**6:
        room.run_all(f"long files and {more} bytes", [data + b"\xff" * more for data in sound_files], 4)
    for data in SQUARES, sound(1, [3, -1, 4], 5):
        for length in LONGEST - 1, LONGEST, LONGEST + 1, LONGEST + 2, LONGEST + 3, 10**5, 3 * 10**6:
            room.run_all(f"a short file with a tail up to {length}", [data + b"\x7f" * (length - len(data))], 1)
    far = 7 * 10**17
    room.run_all("long and damaged", [
        longest[:-1],
        sound(0, noise[1:] + [far], 0),
        sound(0, [far] + noise[1:]),
        sound(1, readings[:2000] + [far] + readings[2001:], -END),
        sound(1, readings[:-1] + [-1], -END),
        sound(1, readings, far),
        changed(longest, 4, 1),
        changed(longest, 15, 1),
    ], 1)


def troubles(room):
    """A file that cannot be opened or read, alone and among others."""
    os.mkdir(room.path("folder"))
    room.write("denied.phr", SQUARES)
    os.chmod(room.path("denied.phr"), 0)
    for name, why, how in (("missing.phr", MISSING, {}), ("", MISSING, {}), ("folder", "Is a directory", {}), ("cut.phr/x", "Not a directory", {}),
                           ("denied.phr", "Permission denied", NOBODY), ("n" * 256, "File name too long", {}), ("n" * 4096, "File name too long", {})):
        around = ["squares.phr", name, "two.phr", name, "hash.phr"]
        known = ["squares.phr", "missing.phr", "two.phr", "missing.phr", "hash.phr"]
        room.run(f"{name[:20]!r}: {why}", [name], failed(name, why), ["missing.phr"], **how)
        room.run(f"{name[:20]!r} among others: {why}", around, 2 * failed(name, why), known, **how)
    said = failed("a", MISSING) + failed("folder", "Is a directory") + failed("b", MISSING)
    room.run("several that are not there", ["a", "squares.phr", "folder", "b"], said)
    room.run("a name too long to take", ["squares.phr", "n" * 4097], failed("argument 2", "File name too long"), ["squares.phr", "missing.phr"])


def full_disk(room):
    with open("/dev/full", "w") as full:
        child = room.start(["squares.phr", "two.phr"], stdout=full)
        said = child.communicate(timeout=60)[1].decode()
        room.ended(child)
    same("a full disk", set(said.splitlines(True)), {failed("standard output", "No space left on device")})


def pipes(room):
    """A pipe is read in however small pieces it comes; it may be closed behind the longest file."""
    os.mkfifo(room.path("pipe"))
    long = sound(0, [i % 5 for i in range(4096)], 0)
    for what, pieces in {
        "a pipe": [SQUARES],
        "a pipe, byte by byte": [bytes([byte]) for byte in SQUARES],
        "a long pipe in three pieces": [long[:9], long[9:20000], long[20000:]],
        "a pipe beyond the longest file": [long, b"\1", b"\2" * 10**5, b"\3"],
        "an empty pipe": [],
    }.items():
        room.write("whole.phr", b"".join(pieces))
        child = room.start(["two.phr", "pipe", "squares.phr"])
        try:
            with open(room.path("pipe"), "wb", buffering=0) as pipe:
                for piece in pieces:
                    pipe.write(piece)
                    time.sleep(0.002)
        except BrokenPipeError:
            same(f"{what}: how much was read", sum(map(len, pieces)) > LONGEST, True)
        room.said(what, child, room.second.sheet(["two.phr", "whole.phr", "squares.phr"]), "")


def words_of_its_own(room):
    """Only `--help` alone is a word of the program; every other is a file's name."""
    room.said("no words", room.start([]), b"", "usage: sheet FILE.. (sheet --help says more)\n")
    child = room.start(["--help"])
    text, none = child.communicate(timeout=60)
    room.ended(child)
    same("help, standard error", none, b"")
    usage = b"usage: sheet FILE.."
    same("the help begins with the usage", text[:len(usage)], usage)
    for word in "-h", "-", "--", "-help", "--version", "help":
        room.run(f"the word {word}", [word], failed(word, MISSING))
    room.run("help and a file", ["--help", "squares.phr"], failed("--help", MISSING))
    room.run("a file and help", ["squares.phr", "--help", "-"], failed("--help", MISSING) + failed("-", MISSING))
    for name in "-h", "-", "--help":
        room.write(name, SQUARES)
        room.run(f"a file named {name}", [name, "two.phr"])
    room.run("a file named -", ["-"], known=["squares.phr"])
    same("the help with a file of that name", room.start(["--help"]).communicate(timeout=60), (text, b""))
    shown = "".join(f"    {line}\n" for line in RULES["squares.phr"].splitlines())
    same("the sheet of squares.phr in README.md", shown in open(os.path.join(ROOT, "README.md")).read(), True)


def main():
    data = os.path.join(CRATE, "data")
    write = sys.argv[1:] == ["write"]
    if write:
        os.makedirs(CRATE, exist_ok=True)
        write_data(data, FILES)
    second = Second(data)
    stored = second.sheet(STORED)
    second.end()
    args = "".join(f"{name}\n" for name in STORED)
    if write:
        open(os.path.join(CRATE, "args"), "w").write(args)
        open(os.path.join(CRATE, "stdout"), "wb").write(stored)
        return
    same("crates/sheet/args", open(os.path.join(CRATE, "args")).read(), args)
    same("crates/sheet/stdout", open(os.path.join(CRATE, "stdout"), "rb").read(), stored)
    with tempfile.TemporaryDirectory() as folder:
        room = Both(folder)
        for part in shipped, cuts, changes, orders, drawn_files, long_files, troubles, full_disk, pipes, words_of_its_own:
            part(room)
        room.second.end()
    print(f"sheet: {room.files} files, the {len(FILES)} shipped ones among them, on {len(room.sheets)} sheets, and {room.runs} runs agree")


main()
