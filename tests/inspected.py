#!/usr/bin/env python3
"""Reads the record files of the program `inspect` again, from docs/RULES.md, and compares every line with the program's stored output. Then runs
the program itself, crates/inspect/out/inspect, and looks at standard output and standard error apart, write by write. With the word `write` it
writes the files anew, with `print` it prints the lines. Nothing here is shared with the library; the words of a refusal are read from the header."""
import os
import random
import re
import resource
import socket
import sys
import tempfile
from math import isqrt

from record_files import END, NOBODY, ROOT, WORDS, Room, changed, header, number_at, same, sound, write_data

CRATE = os.path.join(ROOT, "crates/inspect")
DATA = os.path.join(CRATE, "data")

SQUARES = sound(0, [0, 1, 4, 9, 16, 25])
STARTED = sound(1, [3, -1, 4], 5)
FILES = {
    "squares.phr": SQUARES,
    "pulse.phr": sound(0, [0, 0, 0, 1, 0, 0, 0]),
    "straight.phr": sound(0, [5, 8, 11, 14, 17, 20]),
    "corner.phr": sound(0, [0, 0, 10]),
    "two.phr": sound(0, [1, -1]),
    "one.phr": sound(0, [7]),
    "none.phr": sound(0, []),
    "ends.phr": sound(0, [END, -END, END]),
    "swings.phr": sound(0, [END, END, -END, -END, END, END]),
    "readings.phr": sound(1, [3, -1, 4]),
    "more-readings.phr": sound(1, [3, -1, 4, 1, -5, 9, -2, 6]),
    "steep.phr": sound(1, [2 * END, -2 * END]),
    "empty.phr": b"",
    "mark.phr": changed(SQUARES, 1, 0x68),
    "version.phr": changed(SQUARES, 3, 2),
    "version3.phr": changed(SQUARES, 3, 3),
    "version257.phr": changed(SQUARES, 4, 1),
    "kind.phr": changed(SQUARES, 5, 2),
    "header.phr": SQUARES[:7],
    "wrong-and-short.phr": changed(SQUARES, 2, 0)[:5],
    "cut.phr": SQUARES[:-1],
    "tail.phr": SQUARES + b"\0",
    "many.phr": changed(changed(SQUARES, 6, 1), 7, 0x80),
    "beyond.phr": sound(0, [0, END + 1, -END - 1]),
    "sign.phr": changed(SQUARES, 8 + 8 * 3 + 7, 0x80),
    "started.phr": STARTED,
    "started-low.phr": sound(1, [2 * END, -1, -2, -4, -8, -16], -END),
    "started-none.phr": sound(1, [], END),
    "started-steep.phr": sound(1, [0, 1], END),
    "started-phase.phr": sound(0, [0, 1, 4, 9, 16, 25], 0),
    "start-far.phr": sound(1, [0], -END - 1),
    "start-of-phase.phr": sound(0, [1, 2], 256),
    "start-cut.phr": STARTED[:15],
    "started-cut.phr": STARTED[:-1],
    "started-tail.phr": STARTED + b"\0",
    "started-many.phr": changed(STARTED, 7, 0x80),
}
MISSING = "missing.phr"


def refused(number, place=0):
    """The place is said where it means something: a byte of a file, or the index of a value."""
    kind = {3: "index", 9: "byte"}.get(number)
    return f"refused {number}, {WORDS[number]}" + (f", at {kind} {place}" if kind else "")


def read(data):
    """(number, place) where the file is refused, else (version, kind, start, values)."""
    refusal, said = header(data)
    if refusal:
        return refusal, None
    version, kind, count, start = said
    right = 8 * (version + count)
    if len(data) != right:
        return (9, min(len(data), right)), None
    if abs(start) > END:
        return (3, 0), None
    values = [number_at(data, k) for k in range(8 * version, right, 8)]
    for i, v in enumerate(values):
        if abs(v) > (END if kind == 0 else 2 * END):
            return (3, i), None
    return None, (version, kind, start, values)


def phases(start, readings):
    total, out = start, [start]
    for i, y in enumerate(readings):
        total += y
        if abs(total) > END:
            return (3, i), None
        out.append(total)
    return None, out


def deviation(total, divisor):
    """In units of 2^-20 ps, and in ps, both cut off."""
    r = isqrt(total * 2**40 // divisor)
    return f"deviation {r} ({r >> 20}.{r % 2**20 * 10**6 >> 20:06} ps)"


def figures(x):
    """The Allan ones at factor 1, the modified ones at factor 2."""
    allan, modified = refused(1), refused(1)
    if len(x) >= 3:
        count = len(x) - 2
        total = sum((x[i + 2] - 2 * x[i + 1] + x[i]) ** 2 for i in range(count))
        allan = f"sum {total} of {count}, {deviation(total, 2 * count)}"
    if len(x) >= 6:
        d = [x[i + 4] - 2 * x[i + 2] + x[i] for i in range(len(x) - 4)]
        count = len(d) - 1
        total = sum((d[j] + d[j + 1]) ** 2 for j in range(count))
        modified = f"sum {total} of {count}, time {deviation(total, 6 * 4 * count)}"
    return f"; factor 1: Allan {allan}; factor 2: modified {modified}"


def line(name, folder=DATA):
    shown = re.sub(r"[\x00-\x1f\x7f]", "?", name)
    refusal, content = read(open(os.path.join(folder, name), "rb").read())
    if refusal:
        return f"{shown}: {refused(*refusal)}\n"
    version, kind, start, values = content
    begun = f" from {start}" if version == 2 and kind == 1 else ""
    text = f"{shown}: version {version}, {('phase', 'frequency')[kind]}{begun}, {len(values)} value{'s' if len(values) != 1 else ''}"
    if kind == 1:
        refusal, values = phases(start, values)
        if refusal:
            return f"{text}; phases {refused(*refusal)}\n"
    return f"{text}{figures(values)}\n"


class Watched(Room):
    """A room in which every write of the program is seen."""

    def start(self, names, **how):
        """The program as a child, and a socket each for its two outputs, on which a write is a packet."""
        ours, theirs = zip(*(socket.socketpair(socket.AF_UNIX, socket.SOCK_SEQPACKET) for _ in range(2)))
        child = self.child(names, **{"stdout": theirs[0], "stderr": theirs[1], **how})
        for end in theirs:
            end.close()
        return child, ours

    def writes(self, child, ours):
        """Every write to standard output and every write to standard error."""
        writes = []
        for end in ours:
            end.settimeout(60)
            writes.append([packet.decode() for packet in iter(lambda: end.recv(1 << 20), b"")])
            end.close()
        self.ended(child)
        return writes

    def run(self, what, names, out, err, **how):
        said = self.writes(*self.start(names, **how))
        same(f"{what}: standard output", said[0], out)
        same(f"{what}: standard error", said[1], err)


def failed(name, what, why):
    return f"inspect: {name}: cannot be {what}: {why}\n"


def stored(room):
    """The stored run again, write by write: one for each line."""
    names = list(FILES)
    lines = [line(name) for name in names]
    gone = failed(MISSING, "opened", "no such file or directory")
    room.run("the stored run", names + [MISSING], lines, [gone])
    room.run("sound and missing", ["squares.phr", MISSING, "cut.phr"], [line("squares.phr"), line("cut.phr")], [gone])
    room.run("one missing", [MISSING], [], [gone])


def long_records(room):
    """Records as long as can be, and a byte, a value or much more beyond."""
    swing = [(-1) ** i * END for i in range(32768)]
    slope = [(-1) ** i * END for i in range(32767)]
    files = {
        "longest.phr": sound(0, swing),
        "longest-readings.phr": sound(1, slope),
        "longest-started.phr": sound(0, swing, 0),
        "longest-started-readings.phr": sound(1, slope, -END),
        "too-long-started.phr": sound(0, swing, 0) + b"\0",
        "too-long.phr": sound(0, swing) + b"\0",
        "too-many.phr": sound(0, swing + [0]),
        "too-many-readings.phr": sound(1, slope + [END]),
        "much-too-long.phr": sound(0, swing) + bytes(10**6),
    }
    for name, data in files.items():
        room.write(name, data)
    room.run("long records", list(files), [line(name, room.folder) for name in files], [])


def drawn(draw):
    """A file by lot, of either version: small values and large ones, few and many; every third is damaged in a byte or cut off."""
    kind, size = draw.randrange(2), 2 ** draw.randrange(1, 42)
    values = [draw.randint(-size, size) for _ in range(draw.randrange(40))]
    start = draw.choice([None, kind * draw.randint(-size, size)])
    data = sound(kind, values, start)
    if draw.randrange(3) == 0:
        place = draw.randrange(len(data))
        data = changed(data, place, draw.randrange(256)) if draw.randrange(2) else data[:place]
    return data


def drawn_records(room):
    draw = random.Random(1)
    names = [f"drawn{i}.phr" for i in range(300)]
    for name in names:
        room.write(name, drawn(draw))
    lines = [line(name, room.folder) for name in names]
    for part in ("version 1, phase, ", "version 1, frequency, ", "version 2, phase, ", "version 2, frequency from -", "phases refused 3",
                 "phr: refused 9", "phr: refused 3", "time deviation"):
        same(f"{part!r} in drawn lines", any(part in text for text in lines), True)
    room.run("drawn records", names, lines, [])


def names_of_files(room):
    odd = "two\nlines\tand\x7f\x1b[1m.phr"
    room.write(odd, SQUARES)
    room.run("a control byte in a name", [odd], [line(odd, room.folder)], [])
    room.run("an empty name", [""], [], [failed("", "opened", "no such file or directory")])
    for length in 256, 4095, 4096:
        name = "n" * length
        room.run("a long name", [name], [], [failed(name, "opened", "file name too long")])
    room.run("a name too long to take", ["squares.phr", "n" * 4097], [line("squares.phr")],
             [failed("argument 2", "opened", "file name too long")])


def troubles(room):
    os.mkdir(room.path("folder"))
    os.symlink("loop", room.path("loop"))
    room.write("denied.phr", SQUARES)
    os.chmod(room.path("denied.phr"), 0)
    room.run("a directory", ["folder"], [], [failed("folder", "read", "is a directory")])
    room.run("no directory", ["cut.phr/x"], [], [failed("cut.phr/x", "opened", "not a directory")])
    room.run("a number", ["loop"], [], [failed("loop", "opened", "error 40")])
    room.run("denied", ["denied.phr"], [], [failed("denied.phr", "opened", "permission denied")], **NOBODY)
    with open("/dev/full", "w") as full:
        room.run("a full disk", ["two.phr"], [], [failed("standard output", "written", "no space left on device")], stdout=full)


def open_files(room):
    """While the program reads a pipe, it is forbidden any further file."""
    os.mkfifo(room.path("pipe"))
    child, ours = room.start(["pipe", "cut.phr"])
    with open(room.path("pipe"), "wb") as pipe:
        resource.prlimit(child.pid, resource.RLIMIT_NOFILE, (3, 3))
        pipe.write(SQUARES)
    out, err = room.writes(child, ours)
    same("a pipe", out, [line("squares.phr").replace("squares.phr", "pipe")])
    same("too many files", err, [failed("cut.phr", "opened", "too many open files")])


def words_of_its_own(room):
    room.run("no argument", [], [], ["usage: inspect FILE.. (inspect --help says more)\n"])
    helps = [room.writes(*room.start([word])) for word in ("--help", "-h")]
    same("-h", helps[1], helps[0])
    same("help, standard error", helps[0][1], [])
    text = "".join(helps[0][0])
    for part in "usage: inspect FILE..\n", "2^-20 ps", "exit status", line("cut.phr")[9:], line("beyond.phr")[12:]:
        same(f"{part!r} in the help", part in text, True)
    source = open(os.path.join(ROOT, "crates/record/src/grounds.rt")).read()
    for text in [WORDS[number] for number in range(1, 10)]:
        same(f"{text!r} in crates/record/src/grounds.rt", f'=> "{text}",' in source, True)


def main():
    if sys.argv[1:] == ["write"]:
        write_data(DATA, FILES)
        open(os.path.join(CRATE, "args"), "w").write("".join(f"{name}\n" for name in [*FILES, MISSING]))
    names = open(os.path.join(CRATE, "args")).read().split()
    text = "".join(line(name) for name in names if name != MISSING)
    if sys.argv[1:]:
        sys.stdout.write(text)
        return
    same("crates/inspect/stdout", open(os.path.join(CRATE, "stdout")).read(), text)
    with tempfile.TemporaryDirectory() as folder:
        room = Watched(folder, "inspect")
        for part in stored, long_records, drawn_records, names_of_files, troubles, open_files, words_of_its_own:
            part(room)
    print(f"inspect: {len(text.splitlines())} stored lines agree, and {room.runs} runs")


main()
