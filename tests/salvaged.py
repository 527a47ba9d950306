#!/usr/bin/env python3
"""Works out again, from docs/RULES.md, what the program `salvage` makes of a damaged record file, and runs the program itself,
crates/salvage/out/salvage: its standard output and its standard error are compared whole, each apart. What came out is salvaged again, and must not
change. With the word `write` it writes the shipped files and the stored run anew. Nothing here is shared with the library; the words of a refusal are
read from the header."""
import os
import random
import subprocess
import sys
import tempfile
import termios
import time
from itertools import takewhile

from record_files import END, NOBODY, ROOT, WORDS, Room, changed, header, number_at, same, sound, write_data

CRATE = os.path.join(ROOT, "crates/salvage")
LONGEST = 262160

PAIR = sound(0, [1, -1])
BEYOND = sound(0, [1, -1, END + 1]) + bytes(4)
FILES = {
    "beyond.phr": BEYOND,
    "cut.phr": BEYOND[:28],
    "tail.phr": PAIR + b"\x7f" * 8,
    "sound.phr": PAIR,
    "started.phr": sound(1, [1, -1, 2 * END + 1], 5),
    "header.phr": changed(PAIR, 5, 2),
    "many.phr": changed(changed(PAIR, 6, 1), 7, 0x80),
    "start-far.phr": sound(1, [1, -1], -END - 1),
}
STORED = "beyond.phr"


# ---- what is right


def refused(number, place):
    return b"", f"refused {number}, {WORDS[number]}, at place {place}\n"


def salvaged(data):
    """The new file, or nothing, and the line."""
    refusal, said = header(data)
    if refusal:
        return refused(*refusal)
    version, kind, count, start = said
    if abs(start) > END:
        return refused(3, 0)
    whole = (len(data) - 8 * version) // 8
    present = [number_at(data, 8 * (version + i)) for i in range(min(count, whole))]
    kept = list(takewhile(lambda value: abs(value) <= (END if kind == 0 else 2 * END), present))
    new = sound(kind, kept, start if version == 2 else None)
    met = ", a value out of range was met" if len(kept) < len(present) else ""
    return new, f"kept {len(kept)} of {count} values, {len(data) - len(new)} bytes left over{met}\n"


def rules():
    """The examples of the rules."""
    pair = bytes.fromhex("50 48 52 01 00 00 02 00 01 00 00 00 00 00 00 00 FF FF FF FF FF FF FF FF")
    same("the rules, beyond.phr", salvaged(FILES["beyond.phr"]), (pair, "kept 2 of 3 values, 12 bytes left over, a value out of range was met\n"))
    same("the rules, cut.phr", salvaged(FILES["cut.phr"]), (pair, "kept 2 of 3 values, 4 bytes left over\n"))
    same("the rules, sound.phr", salvaged(FILES["sound.phr"]), (pair, "kept 2 of 2 values, 0 bytes left over\n"))


# ---- runs


def failed(name, why):
    return f"salvage: {name}: {why}\n"


class Apart(Room):
    """A room in which a file is salvaged, with both outputs apart."""

    def __init__(self, folder):
        super().__init__(folder, "salvage")
        self.done = set()

    def start(self, names, **how):
        return self.child(names, **{"stdout": subprocess.PIPE, "stderr": subprocess.PIPE, **how})

    def said(self, what, child, out, err):
        """The program says this, and no more."""
        found = child.communicate(timeout=60)
        same(f"{what}: standard output", found[0] or b"", out)
        same(f"{what}: standard error", (found[1] or b"").decode(), err)
        self.ended(child)

    def run(self, what, names, out, err, **how):
        self.said(what, self.start(names, **how), out, err)

    def mend(self, what, data):
        """A file is salvaged, and then what came out of it. No file is salvaged twice."""
        if data not in self.done:
            self.done.add(data)
            self.write("damaged.phr", data)
            new, line = salvaged(data)
            self.run(what, ["damaged.phr"], new, line)
            if new:
                same(f"{what}: salvaged again", salvaged(new)[0], new)
                self.mend(f"{what}: salvaged again", new)


def shipped(room):
    data = os.path.join(CRATE, "data")
    same("the shipped files", {name: open(os.path.join(data, name), "rb").read() for name in sorted(os.listdir(data))}, dict(sorted(FILES.items())))
    for name, data in FILES.items():
        room.mend(name, data)
    new, line = salvaged(FILES[STORED])
    room.run("the file first, then the line", [STORED], new + line.encode(), "", stderr=subprocess.STDOUT)


SMALL = [sound(0, [1, -1]), sound(1, [2 * END, -1]), sound(0, [END, -END], 0), sound(1, [-2 * END, 1], -END)]


def cuts(room):
    """Every beginning of small files of both versions and kinds."""
    for data in SMALL:
        for length in range(len(data) + 1):
            room.mend(f"{data.hex(' ')} cut after {length}", data[:length])


def changes(room):
    """Every byte of them changed: the highest bit turned, or one added."""
    for data in SMALL:
        for place, byte in enumerate(data):
            for other in byte ^ 0x80, (byte + 1) % 256:
                room.mend(f"{data.hex(' ')} with {other:02x} at {place}", changed(data, place, other))


def drawn(draw):
    """A file by lot, of either version: values in range and beyond it, then a byte changed, cut off or with a tail, or all of these."""
    kind, size = draw.randrange(2), 2 ** draw.randrange(38, 43)
    values = [draw.randint(-size, size) for _ in range(draw.randrange(12))]
    data = sound(kind, values, draw.choice([None, kind * draw.randint(-size, size)]))
    if draw.randrange(3) == 0:
        data = changed(data, draw.choice([7, draw.randrange(8), draw.randrange(len(data))]), draw.randrange(256))
    if draw.randrange(3) == 0:
        data = data[:draw.randrange(len(data))]
    return data + draw.randbytes(draw.choice([0, 0, draw.randrange(40)]))


def drawn_files(room):
    draw = random.Random(1)
    files = [drawn(draw) for _ in range(60)]
    lines = "".join(salvaged(data)[1] for data in files)
    for part in "kept", " 0 bytes left over", "was met", "refused 2", "refused 3", "refused 9":
        same(f"{part!r} in drawn lines", part in lines, True)
    for i, data in enumerate(files):
        room.mend(f"drawn file {i}", data)


def long_files(room):
    """Files as long as can be and longer, which are counted whole. A file is read up to the longest, and then in pieces of 65,536 bytes."""
    swing = [(-1) ** i * END for i in range(32768)]
    longest = sound(0, swing, 0)
    same("the longest file", len(longest), LONGEST)
    far = 7 * 10**17
    for data in sound(0, swing), sound(1, swing[1:]), longest, sound(1, swing[1:], -END):
        for more in 0, 1, 10**6:
            room.mend(f"a long file and {more} bytes", data + b"\xff" * more)
    for length in LONGEST - 1, LONGEST, LONGEST + 65535, LONGEST + 65536, LONGEST + 65537:
        room.mend(f"a short file with a tail up to {length}", PAIR + b"\x7f" * (length - len(PAIR)))
    for what, data in {
        "cut by a byte": longest[:-1],
        "the last value beyond": sound(0, swing[1:] + [far], 0),
        "the first value beyond": sound(1, [far] + swing[2:], 1),
        "a value in the middle beyond": sound(1, swing[:9999] + [far] + swing[10000:-1]),
        "a value too many": sound(0, swing + [0]),
        "a reading too many": sound(1, swing, 0),
        "a bad header": changed(longest, 4, 1),
        "a start beyond": sound(1, swing[1:], far),
    }.items():
        room.mend(what, data)
        room.mend(f"{what}, and a megabyte more", data + bytes(10**6))


def troubles(room):
    missing = "No such file or directory"
    os.mkdir(room.path("folder"))
    room.write("denied.phr", PAIR)
    os.chmod(room.path("denied.phr"), 0)
    room.run("missing", ["missing.phr"], b"", failed("missing.phr", missing))
    room.run("an empty name", [""], b"", failed("", missing))
    room.run("a directory", ["folder"], b"", failed("folder", "Is a directory"))
    room.run("no directory", ["cut.phr/x"], b"", failed("cut.phr/x", "Not a directory"))
    room.run("denied", ["denied.phr"], b"", failed("denied.phr", "Permission denied"), **NOBODY)
    for length in 256, 4096:
        room.run("a long name", ["n" * length], b"", failed("n" * length, "File name too long"))
    room.run("a name too long to take", ["n" * 4097], b"", failed("argument 1", "File name too long"))
    with open("/dev/full", "w") as full:
        room.run("a full disk", ["sound.phr"], b"", failed("standard output", "No space left on device"), stdout=full)
        room.run("a refusal on a full disk", ["header.phr"], b"", salvaged(FILES["header.phr"])[1], stdout=full)


def pipes(room):
    """A pipe is read to its end, in however small pieces it comes."""
    os.mkfifo(room.path("pipe"))
    for what, pieces in {
        "a pipe": [BEYOND],
        "a pipe, byte by byte": [bytes([byte]) for byte in BEYOND],
        "a pipe beyond the longest file": [sound(0, [END] * 32768, 0), b"\1", b"\2" * 10**5, b"\3"],
        "an empty pipe": [],
    }.items():
        child = room.start(["pipe"])
        with open(room.path("pipe"), "wb", buffering=0) as pipe:
            for piece in pieces:
                pipe.write(piece)
                time.sleep(0.002)
        room.said(what, child, *salvaged(b"".join(pieces)))


def beyond_32_bits(room):
    """A pipe with more bytes left over than a number of 32 bits has."""
    piece, turns = bytes(2**20), 2**12 + 1
    child = room.start(["pipe"])
    with open(room.path("pipe"), "wb") as pipe:
        pipe.write(PAIR)
        for _ in range(turns):
            pipe.write(piece)
    room.said("a very long pipe", child, PAIR, f"kept 2 of 2 values, {turns * len(piece)} bytes left over\n")


def interrupted(room):
    """A terminal gives what was typed and then an end, and has more behind it."""
    ours, theirs = os.openpty()
    settings = termios.tcgetattr(theirs)
    settings[:4] = 0, 0, settings[2], termios.ICANON
    settings[6][termios.VEOF] = b"\4"
    termios.tcsetattr(theirs, termios.TCSANOW, settings)
    os.write(ours, b"PHR\4" + b"\4" + b"more\4" + b"\4")
    name = os.ttyname(theirs)
    room.run("interrupted", [name], b"", failed(name, "the reading was interrupted"))
    os.close(ours)
    os.close(theirs)


def words_of_its_own(room):
    for words in [], ["sound.phr", "cut.phr"], ["--help", "sound.phr"], ["sound.phr", "-h"]:
        room.run(f"the words {words}", words, b"", "usage: salvage FILE >MENDED (salvage --help says more)\n")
    child = room.start(["--help"])
    text, none = child.communicate(timeout=60)
    room.ended(child)
    same("help, standard error", none, b"")
    room.run("-h", ["-h"], text, "")
    kept = "kept N of O values, L bytes left over"
    for part in ("usage: salvage FILE >MENDED\n", f"  {kept}\n", f"  {kept}, a value out of range was met\n", refused(9, 5)[1], refused(2, 0)[1],
                 refused(3, 0)[1], "nothing is written to standard output", "exit status"):
        same(f"{part!r} in the help", part in text.decode(), True)
    shown = open(os.path.join(ROOT, "README.md")).read()
    same("the line of the stored run in README.md", f"    {salvaged(FILES[STORED])[1]}" in shown, True)


def main():
    rules()
    new = salvaged(FILES[STORED])[0]
    if sys.argv[1:] == ["write"]:
        write_data(os.path.join(CRATE, "data"), FILES)
        open(os.path.join(CRATE, "args"), "w").write(f"{STORED}\n")
        open(os.path.join(CRATE, "stdout"), "wb").write(new)
        return
    same("crates/salvage/args", open(os.path.join(CRATE, "args")).read(), f"{STORED}\n")
    same("crates/salvage/stdout", open(os.path.join(CRATE, "stdout"), "rb").read(), new)
    with tempfile.TemporaryDirectory() as folder:
        room = Apart(folder)
        for part in shipped, cuts, changes, drawn_files, long_files, troubles, pipes, beyond_32_bits, interrupted, words_of_its_own:
            part(room)
    print(f"salvage: {len(room.done)} files, the {len(FILES)} shipped ones among them, and {room.runs} runs agree")


main()
