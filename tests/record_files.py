"""What the tests of the programs that read record files share: files made and headers read by docs/RULES.md, the words of a refusal as the header for
C has them, and a folder in which a program is run. Nothing here is shared with the library."""
import os
import re
import shutil
import struct
import subprocess
import sys

ROOT = os.path.dirname(os.path.dirname(os.path.abspath(__file__)))
# As .ci/machine sets it where the machine is no x86-64.
EMULATOR = os.environ.get("EMULATOR", "").split()
# A user who may not read what only its owner may.
NOBODY = {"user": 65534, "group": 65534, "extra_groups": []} if os.geteuid() == 0 else {}
END = 2**40


def same(what, found, right):
    """Ends the test where the two differ, and shows them from a little before the place where they part."""
    if found != right:
        found, right = repr(found), repr(right)
        apart = len(os.path.commonprefix([found, right]))
        shown = slice(max(0, apart - 200), apart + 400)
        sys.exit(f"{os.path.basename(sys.argv[0])}: {what}\nfound: {found[shown]}\nright: {right[shown]}")


# ---- record files


def sound(kind, values, start=None):
    """A file of version 1, or of version 2 where there is a start."""
    head = [] if start is None else [start]
    return b"PHR" + struct.pack("<HBH", 1 + len(head), kind, len(values)) + b"".join(struct.pack("<q", v) for v in head + values)


def changed(data, place, byte):
    return data[:place] + bytes([byte]) + data[place + 1:]


def number_at(data, place):
    return int.from_bytes(data[place:place + 8], "little", signed=True)


def wrong_byte(data):
    """The lowest wrong byte among the first eight that are present, else the length if the header is short."""
    for place, (right, byte) in enumerate(zip((b"P", b"H", b"R", b"\1\2", b"\0", b"\0\1"), data)):
        if byte not in right:
            return place
    return len(data) if len(data) < 8 or data[3] == 2 and len(data) < 16 else None


def header(data):
    """(number, place) where the header is refused or the count that it says, else (version, kind, count, start)."""
    place = wrong_byte(data)
    if place is not None:
        return (9, place), None
    version, kind, count = data[3], data[5], int.from_bytes(data[6:8], "little")
    start = number_at(data, 8) if version == 2 else 0
    if kind == 0 and start != 0:
        return (9, 8), None
    if count > (32768 if kind == 0 else 32767):
        return (2, 0), None
    return None, (version, kind, count, start)


def words():
    """The words of each refusal's number, from the header for C."""
    text = open(os.path.join(ROOT, "include/ploegelster.h")).read()
    numbers = dict(re.findall(r"#define (PLG_[A-Z_]+) (\d+)\n", text))
    return {int(numbers[name]): said for name, said in re.findall(r'case (PLG_[A-Z_]+): return "([^"]*)";', text)}


WORDS = words()


# ---- programs


def write_data(folder, files):
    """The files of a program's folder data/, anew."""
    shutil.rmtree(folder, ignore_errors=True)
    os.mkdir(folder)
    for name, data in files.items():
        with open(os.path.join(folder, name), "wb") as file:
            file.write(data)


class Room:
    """A folder with a program and its record files, that anybody may use."""

    def __init__(self, folder, crate):
        self.folder, self.runs = folder, 0
        os.chmod(folder, 0o755)
        shutil.copytree(os.path.join(ROOT, "crates", crate, "data"), folder, dirs_exist_ok=True)
        shutil.copy(os.path.join(ROOT, "crates", crate, "out", crate), self.path("program"))
        for name in os.listdir(folder):
            os.chmod(self.path(name), 0o755)

    def path(self, name):
        return os.path.join(self.folder, name)

    def write(self, name, data):
        with open(self.path(name), "wb") as file:
            file.write(data)

    def child(self, names, **how):
        """The program as a child; `how` says where its two outputs go."""
        return subprocess.Popen([*EMULATOR, self.path("program"), *names], cwd=self.folder, stdin=subprocess.DEVNULL, **how)

    def ended(self, child):
        """The program ended as every program does, with status 0."""
        same("the status", child.wait(60), 0)
        self.runs += 1
