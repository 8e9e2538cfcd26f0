#!/usr/bin/env python3
"""Damages volumes at random, and compares the survey's answers with what oracle.py finds true.

    fuzz.py PROGRAM IMAGE [--cases 10000] [--volumes 10] [--seed 1]

PROGRAM is the program `damages`. Half of the cases are on IMAGE, the others on so many volumes that are made at random. A case changes 1 to 6 bytes or fields,
most of them in LSN 0, the map, descriptors and directories; in some cases sectors are bad too. The same seed makes the same cases.
Ends with status 1 if an answer differs.
"""

import argparse
import collections
import os
import random
import sys
import tempfile

import cases
import oracle
import volumes

SECTOR = 256


def made_volume(rng):
    """A sound volume with files in pieces, spare sectors and nested directories."""
    total = rng.choice([rng.randint(40, 250), rng.randint(40, 250), rng.randint(2040, 2120)])
    volume = volumes.formatted(total, "Fuzz")
    folders = [""]
    for k in range(rng.randint(1, min(40, total // 8))):
        parent = rng.choice(folders)
        path = f"{parent}/{rng.choice(['Batch', 'batch', 'sum$', '_.'])}{k}".lstrip("/")
        descriptor = rng.choice(clear_sectors(volume))
        volume.take(descriptor)
        pieces = pieces_of(volume, rng, rng.choice([0, 1, 1, 2, 3, 6]))
        volume.free(descriptor)
        room = SECTOR * sum(count for _, count in pieces)
        if rng.random() < 0.3 and pieces:
            volume.mkdir(path, descriptor=descriptor, segments=pieces)
            folders.append(path)
        else:
            volume.file(path, volumes.text(path, rng.randint(0, room)), descriptor=descriptor, segments=pieces)
        if rng.random() < 0.2 and path not in folders:
            volume.erase(path)
    for lsn in rng.sample(clear_sectors(volume), 3):
        volume.take(lsn)
    return volume


def clear_sectors(volume):
    return [lsn for lsn in range(volume.total) if not volume.taken(lsn)]


def pieces_of(volume, rng, count):
    """Segments of clear sectors, no two of which touch by plan."""
    pieces = []
    for _ in range(count):
        start = rng.choice(clear_sectors(volume))
        length = 1
        while length < 4 and start + length < volume.total and not volume.taken(start + length) and rng.random() < 0.5:
            length += 1
        for lsn in range(start, start + length):
            volume.take(lsn)
        pieces.append((start, length))
    for start, length in pieces:
        for lsn in range(start, start + length):
            volume.free(lsn)
    return pieces


class Damage:
    """Changes of a volume's bytes, where they tell."""

    def __init__(self, data, rng):
        self.data, self.rng = data, rng
        device = oracle.Device(bytes(data))
        root = oracle.number(data, 8, 3)
        self.total = oracle.number(data, 0, 3)
        nodes, _, _ = oracle.reach(device, root)
        self.descriptors = sorted(nodes)
        self.folders = [node for node in nodes.values() if node.is_directory]

    def place(self):
        kind = self.rng.choices(["identification", "map", "descriptor", "directory", "any"], [1, 2, 5, 5, 1])[0]
        if kind == "identification":
            return self.rng.choice([*range(11), 0x68, 0x69])
        if kind == "map":
            return SECTOR + self.rng.randrange(self.total // 8 + 2)
        if kind == "descriptor":
            at = self.rng.choice([0, 8, *range(9, 13), *range(16, 31), self.rng.randrange(SECTOR)])
            return SECTOR * self.rng.choice(self.descriptors) + at
        if kind == "directory":
            return self.slot() + self.rng.choice([0, 0, 1, 5, 28, 29, 30, 31, 31, 31, self.rng.randrange(32)])
        return self.rng.randrange(len(self.data))

    def value(self, old):
        near = [old ^ 0x80, old ^ 1 << self.rng.randrange(8), (old + 1) % 256, (old - 1) % 256]
        known = [0, 1, 2, 32, 64, 96, 0xAE, 0xFF, self.total % 256, self.rng.choice(self.descriptors) % 256]
        return self.rng.choice([*near, *known, *self.rng.choices(range(256), k=6)])

    def slot(self):
        node = self.rng.choice(self.folders)
        k = self.rng.randrange(node.size // 32)
        return SECTOR * node.sectors[k // 8][1] + 32 * (k % 8)

    def sector(self):
        return self.rng.choice([self.rng.choice(self.descriptors), self.rng.randrange(self.total + 2)])

    def field(self):
        """A whole field at its place: a segment entry, the LSN of a slot, or a name that another slot has."""
        kind = self.rng.choice(["entry", "pointer", "name"])
        if kind == "entry":
            place = SECTOR * self.rng.choice(self.descriptors) + 16 + 5 * self.rng.randrange(4)
            return place, self.sector().to_bytes(3, "big") + self.rng.choice([0, 1, 1, 1, 2, 3, 65535]).to_bytes(2, "big")
        if kind == "pointer":
            return self.slot() + 29, self.sector().to_bytes(3, "big")
        other = self.slot()
        return self.slot(), bytes(self.data[other:other + 28])

    def words(self):
        for _ in range(self.rng.choice([1, 1, 1, 2, 3, 4, 5, 6])):
            place = self.place()
            change = bytes([self.value(self.data[place])])
            if self.rng.random() < 0.2:
                place, change = self.field()
            yield f"{place // SECTOR}+{place % SECTOR}:{change.hex().upper()}"
        if self.rng.random() < 0.2:
            for _ in range(self.rng.randint(1, 3)):
                yield f"bad={self.rng.randrange(len(self.data) // SECTOR)}"


def run(program, image, count, rng):
    with open(image, "rb") as source:
        damage = Damage(source.read(), rng)
    lines = "\n".join(f"case{k} {' '.join(damage.words())}" for k in range(count))
    return cases.compare(program, image, lines)


def main():
    parser = argparse.ArgumentParser(description=__doc__, formatter_class=argparse.RawDescriptionHelpFormatter)
    parser.add_argument("program")
    parser.add_argument("image")
    parser.add_argument("--cases", type=int, default=10000)
    parser.add_argument("--volumes", type=int, default=10)
    parser.add_argument("--seed", type=int, default=1)
    given = parser.parse_args()
    rng = random.Random(given.seed)
    half = given.cases // 2
    results = [run(given.program, given.image, half, rng)]
    with tempfile.TemporaryDirectory() as folder:
        for k in range(given.volumes):
            image = os.path.join(folder, f"volume{k}.img")
            volumes.write(image, made_volume(rng).data)
            whole = cases.compare(given.program, image, "whole")
            if whole[1]["passed"] != 1:
                sys.exit("a volume that was made is not sound")
            results.append(run(given.program, image, half // given.volumes, rng))
    kinds = sum((result[1] for result in results), collections.Counter())
    print(f"{sum(result[0] for result in results)} cases: " + ", ".join(f"{kind} {n}" for kind, n in sorted(kinds.items())))
    differences = sum(result[3] for result in results)
    print(f"{differences} differences")
    sys.exit(differences > 0)


if __name__ == "__main__":
    main()
