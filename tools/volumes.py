#!/usr/bin/env python3
"""Makes volumes and trays to test with, by docs/FORMAT.md alone.

    volumes.py format IMAGE SECTORS NAME [--bad LSN,..]
    volumes.py mkdir IMAGE PATH [options]
    volumes.py file IMAGE PATH [--size N | --from FILE] [options]
    volumes.py erase IMAGE PATH             empties the slot, frees the sectors
    volumes.py withhold IMAGE LSN,..        sets bits over sectors that nothing holds
    volumes.py patch IMAGE OUT OFFSET=HEX.. a copy with bytes changed
    volumes.py tray IMAGE TRAY --track S --interleave K [--sides 1] [--tracks N] [--bad LSN,..]
    volumes.py counted IMAGE                the volume of crates/damages/data/counted.img
    volumes.py damaged KIND IMAGE           the same, with one rule broken: twice (G), unset (H), names (E)
    volumes.py samples DIR                  counted.img, counted.tray and each damaged-KIND.img
    volumes.py crowded KIND IMAGE           T = 65,536: files, files-long, files-twice, directories or chain

Options of mkdir and file:

    --descriptor LSN            where the descriptor goes (the lowest clear sector)
    --segments 20+3,40+1        3 sectors from LSN 20, then 1 from LSN 40 (as many as the size needs, from the lowest clear run);
                                more than the size needs are spare
    --attribute=WORD            eight letters as ---wr-wr, or a number ($BF for a directory, $1B for a file)
    --owner N  --date Y,M,D,H,M  --created Y,M,D

A directory that is full grows by the lowest clear sector. Bytes of a file are text that tells its name and the line.
Sectors, offsets and numbers may be written in decimal or as 0x1F. The same command makes the same bytes.
"""

import argparse
import math
import os
import sys

SECTOR = 256
LETTERS = "dsewrewr"


class Volume:
    """The bytes of a flat image, with what docs/FORMAT.md says stands where."""

    def __init__(self, data):
        self.data = data
        self.total = self.number(0, 0, 3)
        self.map_sectors = -(-(-(-self.total // 8)) // SECTOR)
        self.root = self.number(0, 8, 3)
        self.lowest = 0

    # numbers and bytes in sectors

    def number(self, lsn, at, width):
        at += SECTOR * lsn
        return int.from_bytes(self.data[at:at + width], "big")

    def put(self, lsn, at, values):
        at += SECTOR * lsn
        self.data[at:at + len(values)] = values

    def put_number(self, lsn, at, width, value):
        self.put(lsn, at, value.to_bytes(width, "big"))

    # the map, and the sectors that are taken with it

    def taken(self, lsn):
        return self.data[SECTOR + lsn // 8] >> (7 - lsn % 8) & 1 == 1

    def take(self, lsn):
        self.data[SECTOR + lsn // 8] |= 0x80 >> lsn % 8

    def take_clear(self, lsn):
        if self.taken(lsn):
            sys.exit(f"LSN {lsn} is taken")
        self.take(lsn)

    def free(self, lsn):
        self.data[SECTOR + lsn // 8] &= ~(0x80 >> lsn % 8)
        self.lowest = min(self.lowest, lsn)

    def clear_run(self, count):
        """The lowest run of so many clear sectors."""
        while self.taken(self.lowest):
            self.lowest += 1
        start, length = self.lowest, 0
        for lsn in range(start, self.total):
            length = 0 if self.taken(lsn) else length + 1
            if length == count:
                return lsn + 1 - count
        sys.exit(f"no run of {count} clear sectors")

    # descriptors

    def segments(self, descriptor):
        found = []
        for at in range(16, SECTOR, 5):
            start, count = self.number(descriptor, at, 3), self.number(descriptor, at + 3, 2)
            if count == 0:
                break
            found.append((start, count))
        return found

    def sectors(self, descriptor):
        return [start + k for start, count in self.segments(descriptor) for k in range(count)]

    def add_segment(self, descriptor, start, count):
        at = 16 + 5 * len(self.segments(descriptor))
        self.put_number(descriptor, at, 3, start)
        self.put_number(descriptor, at + 3, 2, count)
        for lsn in range(start, start + count):
            self.take_clear(lsn)

    def make_descriptor(self, attribute, size, descriptor=None, segments=None, owner=0, date=(0,) * 5, created=(0,) * 3):
        """Takes a descriptor and its segments, and answers its LSN."""
        lsn = self.clear_run(1) if descriptor is None else descriptor
        self.put(lsn, 0, bytes(SECTOR))
        self.put(lsn, 0, bytes([attribute]))
        self.put_number(lsn, 1, 2, owner)
        self.put(lsn, 3, bytes(date))
        self.put(lsn, 8, b"\x01")
        self.put_number(lsn, 9, 4, size)
        self.put(lsn, 13, bytes(created))
        self.take_clear(lsn)
        needed = -(-size // SECTOR)
        if segments is None:
            segments = [(self.clear_run(needed), needed)] if needed else []
        for start, count in segments:
            self.add_segment(lsn, start, count)
        return lsn

    # directories

    def slot_place(self, sectors, k):
        return sectors[k // 8], 32 * (k % 8)

    def slots(self, descriptor):
        """Each slot of a directory: its place, its stored name (empty if unused), and the LSN that it names."""
        sectors = self.sectors(descriptor)
        for k in range(self.number(descriptor, 9, 4) // 32):
            lsn, at = self.slot_place(sectors, k)
            base = SECTOR * lsn + at
            yield (lsn, at), bytes(self.data[base:base + 28]), self.number(lsn, at + 29, 3)

    def add_slot(self, directory, name, descriptor, grow=None):
        """Puts a name in the first empty slot, or in a new last one."""
        for (lsn, at), stored, _ in self.slots(directory):
            if stored[0] == 0:
                return self.put_slot(lsn, at, name, descriptor)
        self.append_slot(directory, name, descriptor, grow)

    def append_slot(self, directory, name, descriptor, grow=None):
        k = self.number(directory, 9, 4) // 32
        sectors = self.sectors(directory)
        if k // 8 >= len(sectors):
            self.add_segment(directory, self.clear_run(1) if grow is None else grow, 1)
            sectors = self.sectors(directory)
        self.put_slot(*self.slot_place(sectors, k), name, descriptor)
        self.put_number(directory, 9, 4, 32 * (k + 1))

    def put_slot(self, lsn, at, name, descriptor):
        self.put(lsn, at, marked(name).ljust(28, b"\0") + b"\0" + descriptor.to_bytes(3, "big"))

    def find_slot(self, directory, name):
        for place, stored, descriptor in self.slots(directory):
            if stored.startswith(marked(name)):
                return place, descriptor
        sys.exit(f"no {name}")

    def find(self, path):
        lsn = self.root
        for name in filter(None, path.split("/")):
            lsn = self.find_slot(lsn, name)[1]
        return lsn

    def file(self, path, content, attribute=0x1B, grow=None, **details):
        parent, _, name = path.rpartition("/")
        lsn = self.make_descriptor(attribute, len(content), **details)
        for k, sector in enumerate(self.sectors(lsn)):
            self.put(sector, 0, content[SECTOR * k:SECTOR * (k + 1)])
        self.add_slot(self.find(parent), name, lsn, grow)
        return lsn

    def mkdir(self, path, attribute=0xBF, grow=None, **details):
        parent, _, name = path.rpartition("/")
        up = self.find(parent)
        lsn = self.make_descriptor(attribute, 64, **details)
        first = self.sectors(lsn)[0]
        self.put_slot(first, 0, ".", lsn)
        self.put_slot(first, 32, "..", up)
        self.add_slot(up, name, lsn, grow)
        return lsn

    def erase(self, path):
        parent, _, name = path.rpartition("/")
        (lsn, at), descriptor = self.find_slot(self.find(parent), name)
        for sector in self.sectors(descriptor) + [descriptor]:
            self.free(sector)
        self.put(lsn, at, b"\0")


def marked(name):
    stored = bytearray(name.encode("latin-1"))
    stored[-1] |= 0x80
    return bytes(stored)


def formatted(total, name, bad=()):
    map_bytes = -(-total // 8)
    m = -(-map_bytes // SECTOR)
    data = bytearray(SECTOR * total)
    data[0:3] = total.to_bytes(3, "big")
    data[4:6] = map_bytes.to_bytes(2, "big")
    data[6:8] = b"\x00\x01"
    data[8:11] = (m + 1).to_bytes(3, "big")
    data[0x0D] = 0xBF
    data[0x1F:0x1F + len(name)] = marked(name)
    volume = Volume(data)
    for lsn in [*range(m + 1), *(l for l in bad if l < total), *range(total, 8 * SECTOR * m)]:
        volume.take(lsn)
    root = volume.make_descriptor(0xBF, 64, m + 1, [(m + 2, 1)])
    volume.put_slot(m + 2, 0, ".", root)
    volume.put_slot(m + 2, 32, "..", root)
    return volume


def text(name, size):
    """Lines of 32 bytes that tell the file's name and the line."""
    lines = (f"{name[-20:]}, line {k:05}".ljust(31) + "\n" for k in range(size // 32 + 1))
    return "".join(lines).encode()[:size]


def tray(data, track, interleave, sides=1, tracks=None, bad=()):
    """The sectors of an image in a tray; sectors past the image are zero."""
    if math.gcd(track, interleave) != 1 or not 1 <= interleave <= track <= 64 or sides not in (1, 2):
        sys.exit("no such geometry")
    if tracks is None:
        tracks = -(-len(data) // (SECTOR * track * sides))
    count = tracks * sides * track
    states, sectors = bytearray(count), bytearray(SECTOR * count)
    for lsn in range(count):
        place = lsn // track * track + lsn % track * interleave % track
        states[place] = lsn in bad
        sector = data[SECTOR * lsn:SECTOR * (lsn + 1)]
        sectors[SECTOR * place:SECTOR * place + len(sector)] = sector
    return tracks.to_bytes(2, "big") + bytes([sides, track, interleave, 0, 0, 0]) + states + sectors


# the volumes that the tests have

COUNTED_BAD = (120, 122, 203, 219)


def counted():
    """T = 200: two segments of the root's directory, files in pieces, spare sectors, empty slots, nested directories, withheld sectors."""
    day = dict(date=(88, 11, 8, 21, 30), created=(88, 11, 8))
    volume = formatted(200, "Counted.88")
    batch = lambda path, size, **details: volume.file(path, text(path, size), **{"owner": 1, **day, **details})
    batch("Batch1", 300)                                                    # a half-used last sector
    batch("Batch2", 512)                                                    # whole sectors
    batch("Batch3", 0)                                                      # no byte, no segment
    batch("Batch4", 1000, descriptor=20, segments=[(30, 1), (26, 2), (40, 1)])
    batch("late_1", 700, attribute=0x03, owner=0x0102, segments=[(50, 8)])   # five spare sectors
    batch("sum$.txt", 256, attribute=0x4B, owner=0xFFFF, date=(99, 12, 31, 23, 59), created=(70, 1, 1))
    batch("spoilt.7", 900, grow=60)                                         # slot 8: a second sector, apart from the first
    batch("A.name_of_28.characters$1234", 33, segments=[(64, 1)])
    volume.mkdir("Wards", segments=[(70, 2)], owner=7, **day)
    volume.mkdir("Wards/North", segments=[(72, 2)], attribute=0x9B, owner=8, **day)  # a spare sector
    volume.mkdir("Wards/North/Booth.1", descriptor=80, segments=[(78, 1)], **day)
    batch("Wards/North/Booth.1/Batch1", 1280, segments=[(85, 1), (84, 1), (83, 1), (82, 1), (81, 1)])
    batch("Wards/North/Booth.1/batch1", 1)
    batch("Wards/North/recount", 3000)
    batch("Wards/empty", 0, segments=[(100, 2)])                            # no byte, two spare sectors
    batch("Wards/gone", 400)
    for k in range(1, 7):
        batch(f"Wards/South{k}", 40 * k)                                    # past slot 8 in the directory's one segment
    volume.mkdir("Archive", **day)
    volume.erase("Batch2")
    volume.erase("Wards/gone")
    volume.erase("Wards/South2")
    for lsn in (120, 121, 122, 199):
        volume.take(lsn)
    return volume


def damaged(kind):
    volume = counted()
    if kind == "twice":  # Batch1's last sector is also late_1's
        descriptor = volume.find("late_1")
        shared = volume.sectors(volume.find("Batch1"))[-1]
        volume.put_number(descriptor, 16 + 5, 3, shared)
        volume.put_number(descriptor, 16 + 8, 2, 1)
    elif kind == "unset":  # a sector of Batch4 looks free
        volume.free(volume.sectors(volume.find("Batch4"))[-1])
    elif kind == "names":  # Batch3 and Batch1 have one name
        (lsn, at), _ = volume.find_slot(volume.root, "Batch3")
        volume.put(lsn, at, marked("Batch1"))
    return volume


DAMAGES = ("twice", "unset", "names")


def samples(folder):
    volume = counted()
    write(os.path.join(folder, "counted.img"), volume.data)
    write(os.path.join(folder, "counted.tray"), tray(volume.data, 10, 3, 2, 11, COUNTED_BAD))
    for kind in DAMAGES:
        write(os.path.join(folder, f"damaged-{kind}.img"), damaged(kind).data)


def crowded(kind):
    """The most that a volume can have: files of no bytes in the root (long names differ in their last characters only, and the last two names
    may be one), directories of no files in it, or directories one in the other."""
    volume = formatted(65536, "Crowded")
    volume.free(volume.root + 1)
    room = volume.total - (volume.root + 1)
    if kind == "chain":
        return chain(volume, room // 2 - 1)
    each = 2 if kind == "directories" else 1
    count = max(n for n in range(room // each) if each * n + -(-(n + 2) // 8) <= room)
    first = volume.root + 1
    slots = -(-(count + 2) // 8)
    volume.put(volume.root, 16, bytes(5))
    volume.put_number(volume.root, 9, 4, 32 * (count + 2))
    volume.add_segment(volume.root, first, slots)
    volume.put_slot(first, 0, ".", volume.root)
    volume.put_slot(first, 32, "..", volume.root)
    for n in range(count):
        lsn = first + slots + each * n
        if each == 2:
            volume.make_descriptor(0xBF, 64, lsn, [(lsn + 1, 1)])
            volume.put_slot(lsn + 1, 0, ".", lsn)
            volume.put_slot(lsn + 1, 32, "..", volume.root)
        else:
            volume.make_descriptor(0x1B, 0, lsn)
        number = n - 1 if kind == "files-twice" and n == count - 1 else n
        name = f"A_long_name_for_a_batch{number:05}" if kind == "files-long" else f"Batch{number:05}"
        volume.put_slot(first + (n + 2) // 8, 32 * ((n + 2) % 8), name, lsn)
    return volume


def chain(volume, count):
    up, at = volume.root, volume.root + 1
    volume.put(up, 16, bytes(5))
    volume.add_segment(up, at, 1)
    for n in range(count):
        lsn = at + 1
        volume.make_descriptor(0xBF, 64, lsn, [(lsn + 1, 1)])
        volume.put_slot(at, 64, f"Ward{n:05}", lsn)
        volume.put_number(up, 9, 4, 96)
        volume.put_slot(lsn + 1, 0, ".", lsn)
        volume.put_slot(lsn + 1, 32, "..", up)
        up, at = lsn, lsn + 1
    return volume


# the command line

def number(word):
    return int(word, 0)


def numbers(word):
    return [number(part) for part in word.split(",") if part]


def runs(word):
    return [tuple(number(part) for part in run.split("+")) for run in word.split(",") if run]


def attribute(word):
    if word[0].isdigit() and len(word) != 8:
        return number(word)
    if len(word) != 8 or any(given not in (letter, "-") for given, letter in zip(word, LETTERS)):
        sys.exit(f"{word}: eight letters of {LETTERS}, or - in place of one")
    return sum((given != "-") << (7 - k) for k, given in enumerate(word))


def write(path, data):
    with open(path, "wb") as out:
        out.write(data)


def read(path):
    with open(path, "rb") as source:
        return bytearray(source.read())


def arguments():
    parser = argparse.ArgumentParser(description=__doc__, formatter_class=argparse.RawDescriptionHelpFormatter)
    commands = parser.add_subparsers(dest="command", required=True)

    def command(name, *words):
        added = commands.add_parser(name)
        for word in words:
            added.add_argument(word)
        return added

    made = command("format", "image", "sectors", "name")
    made.add_argument("--bad", type=numbers, default=[])
    made = command("tray", "image", "tray")
    made.add_argument("--track", type=number, required=True)
    made.add_argument("--interleave", type=number, required=True)
    made.add_argument("--sides", type=number, default=1)
    made.add_argument("--tracks", type=number)
    made.add_argument("--bad", type=numbers, default=[])
    for name in ("mkdir", "file"):
        made = command(name, "image", "path")
        made.add_argument("--descriptor", type=number)
        made.add_argument("--segments", type=runs)
        made.add_argument("--attribute", type=attribute, default=0xBF if name == "mkdir" else 0x1B)
        made.add_argument("--owner", type=number, default=0)
        made.add_argument("--date", type=numbers, default=[0] * 5)
        made.add_argument("--created", type=numbers, default=[0] * 3)
        if name == "file":
            made.add_argument("--size", type=number, default=0)
            made.add_argument("--from", dest="source")
    command("erase", "image", "path")
    command("withhold", "image", "lsns")
    command("patch", "image", "out").add_argument("changes", nargs="+")
    command("counted", "image")
    command("damaged", "kind", "image")
    command("samples", "folder")
    command("crowded", "kind", "image")
    return parser.parse_args()


def edit(given):
    """A command that changes an image in its place."""
    volume = Volume(read(given.image))
    if given.command == "erase":
        volume.erase(given.path)
    elif given.command == "withhold":
        for lsn in numbers(given.lsns):
            volume.take(lsn)
    else:
        details = {key: getattr(given, key) for key in ("descriptor", "segments", "attribute", "owner", "date", "created")}
        if given.command == "mkdir":
            volume.mkdir(given.path, **details)
        else:
            content = read(given.source) if given.source else text(given.path, given.size)
            volume.file(given.path, content, **details)
    write(given.image, volume.data)


def main():
    given = arguments()
    if given.command == "format":
        write(given.image, formatted(number(given.sectors), given.name, given.bad).data)
    elif given.command == "tray":
        write(given.tray, tray(read(given.image), given.track, given.interleave, given.sides, given.tracks, given.bad))
    elif given.command == "patch":
        data = read(given.image)
        for change in given.changes:
            at, values = change.split("=")
            values = bytes.fromhex(values)
            data[number(at):number(at) + len(values)] = values
        write(given.out, data)
    elif given.command == "counted":
        write(given.image, counted().data)
    elif given.command == "damaged":
        write(given.image, damaged(given.kind).data)
    elif given.command == "samples":
        samples(given.folder)
    elif given.command == "crowded":
        write(given.image, crowded(given.kind).data)
    else:
        edit(given)


if __name__ == "__main__":
    main()
