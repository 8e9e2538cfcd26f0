#!/usr/bin/env python3
"""What a survey may truthfully answer, by docs/FORMAT.md and docs/REFUSALS.md (docs/TESTING.md names two readings that are the definitions').

    oracle.py IMAGE [--tray] [--allocation N] [--marks N] [--waiting N]

prints `passed T ROOT`, or a line for each true refusal as NUMBER PLACE LAYER [RULE]: every rule with every sector at which it is broken, and
every bad sector that had to be good. A survey answers with one of them. The refusals 20, 14 at LSN 0, 22 by rule A and 19 come alone, since they
are asked first.

A damaged volume is read as far as it can be: a sector that is bad or not on the device has no bytes, so a descriptor there holds its own sector
and names nothing, and a slot there is not judged.
"""

import argparse
import math
from collections import Counter

SECTOR = 256
NAME_BYTES = frozenset(b"ABCDEFGHIJKLMNOPQRSTUVWXYZabcdefghijklmnopqrstuvwxyz0123456789_$.")


class Device:
    """A count of sectors, a set of bad ones, and the bytes of the others."""

    def __init__(self, data, count=None, bad=frozenset(), place=lambda lsn: lsn):
        self.data, self.bad, self.place = data, bad, place
        self.count = len(data) // SECTOR if count is None else count

    def sector(self, lsn):
        if lsn >= self.count or lsn in self.bad:
            return None
        at = SECTOR * self.place(lsn)
        return self.data[at:at + SECTOR]


def number(values, at, width):
    return int.from_bytes(values[at:at + width], "big")


def open_tray(data):
    """The device that a tray is; one of no sectors if the bytes are no tray."""
    nothing = Device(b"")
    if len(data) < 8:
        return nothing
    tracks, sides, track, interleave = number(data, 0, 2), data[2], data[3], data[4]
    count = tracks * sides * track
    lawful = tracks >= 1 and sides in (1, 2) and 1 <= track <= 64 and 1 <= interleave <= track and math.gcd(track, interleave) == 1
    if not lawful or any(data[5:8]) or len(data) != 8 + 257 * count or any(state > 1 for state in data[8:8 + count]):
        return nothing
    place = lambda lsn: lsn // track * track + lsn % track * interleave % track
    return Device(data[8 + count:], count, frozenset(lsn for lsn in range(count) if data[8 + place(lsn)]), place)


class Node:
    """A reached descriptor."""

    def __init__(self, lsn, device):
        values = device.sector(lsn)
        self.lsn, self.readable = lsn, values is not None
        values = values or bytes(SECTOR)
        self.is_directory = values[0] >= 0x80
        self.links, self.size = values[8], number(values, 9, 4)
        entries = [values[at:at + 5] for at in range(16, SECTOR, 5)]
        self.segments = []
        for entry in entries:
            if not entry[3] and not entry[4]:
                break
            self.segments.append((number(entry, 0, 3), number(entry, 3, 2)))
        self.tidy = not any(values[16 + 5 * len(self.segments):])
        self.room = SECTOR * sum(count for _, count in self.segments)
        self.sectors = list(self.places(device.count))
        self.slots = dict(self.read_slots(device)) if self.is_directory else {}

    def places(self, end):
        """Each sector of the segments that is on the device, with its place in the file."""
        place = 0
        for start, count in self.segments:
            for k in range(min(count, max(0, end - start))):
                yield place + k, start + k
            place += count

    def read_slots(self, device):
        """Each slot that can be read, with its number."""
        count = min(self.size, self.room) // 32
        for place, lsn in self.sectors:
            if 8 * place < count:
                values = device.sector(lsn)
                for k in range(8 * place, min(count, 8 * place + 8)) if values else ():
                    yield k, values[k % 8 * 32:k % 8 * 32 + 32]

    def used(self):
        """The used slots, from slot 2 on."""
        return [slot for k, slot in self.slots.items() if k >= 2 and slot[0] != 0]

    def children(self):
        return [number(slot, 29, 3) for slot in self.used()]


def reach(device, root):
    """The reached descriptors by their LSN, how often each is reached, and the parents of each directory."""
    nodes, times, parents, waiting = {}, Counter([root]), {root: {root}}, [root]
    while waiting:
        lsn = waiting.pop()
        if lsn in nodes:
            continue
        nodes[lsn] = Node(lsn, device)
        for child in nodes[lsn].children():
            times[child] += 1
            if child != root:
                parents.setdefault(child, set()).add(lsn)
            waiting.append(child)
    return nodes, times, parents


def stored_name(slot):
    """A name up to its mark, as it is stored; None where 28 bytes have no mark."""
    for k, value in enumerate(slot[:28]):
        if value >= 0x80:
            return slot[:k + 1]
    return None


def is_lawful(name):
    if name is None:
        return False
    letters = name[:-1] + bytes([name[-1] - 0x80])
    return all(letter in NAME_BYTES for letter in letters) and any(letter != ord(".") for letter in letters)


def slots_right(node, parents):
    """Rule E, of the slots that can be read."""
    if min(node.size, node.room) < 64:
        return False
    here, up, used = node.slots.get(0), node.slots.get(1), node.used()
    if here is not None and not (here[0] == 0xAE and number(here, 29, 3) == node.lsn):
        return False
    if up is not None and not (up[:2] == b"\x2e\xae" and {number(up, 29, 3)} == parents):
        return False
    names = [stored_name(slot) for slot in used]
    return all(map(is_lawful, names)) and len(set(names)) == len(names) and all(slot[28] == 0 for slot in used)


def rule_a(identification, count):
    total = number(identification, 0, 3)
    return (16 <= total <= 65536 and total <= count and number(identification, 4, 2) == -(-total // 8)
            and number(identification, 6, 2) == 1 and number(identification, 0x68, 2) in (0, 256))


def broken_at(node, low, total, parents):
    """The rules B to F that are broken at a reached descriptor."""
    outside = any(not low < start or start + count > total for start, count in node.segments)
    if outside or any(not low < child < total for child in node.children()):
        yield "B"
    if not node.tidy:
        yield "C"
    if node.size > node.room or node.is_directory and (node.size % 32 or node.size < 64):
        yield "D"
    if node.is_directory and not slots_right(node, parents):
        yield "E"
    if not node.is_directory and node.links != 1:
        yield "F"


def findings(device, low, total, root):
    """Every pair of a rule and a sector that is broken, and every bad sector that had to be good."""
    nodes, times, parents = reach(device, root)
    broken, held = set(), Counter()
    if not low < root < total:
        broken.add(("B", 0))
    if nodes[root].readable and not nodes[root].is_directory:
        broken.add(("F", root))
    for lsn, node in nodes.items():
        if node.readable:
            broken.update((rule, lsn) for rule in broken_at(node, low, total, parents.get(lsn)))
        for sector in [lsn, *(sector for _, sector in node.sectors)]:
            held[sector] += times[lsn]
    broken.update(("G", sector) for sector, count in held.items() if count > 1)
    bad = set()
    for first in range(0, total, 8 * SECTOR):
        row = device.sector(1 + first // (8 * SECTOR))
        for lsn in range(first, min(total, first + 8 * SECTOR)):
            owned = lsn <= low or lsn in held
            clear = row is not None and row[lsn % (8 * SECTOR) // 8] >> (7 - lsn % 8) & 1 == 0
            if owned and clear:
                broken.add(("H", lsn))
            if (owned or clear) and lsn in device.bad:
                bad.add(lsn)
    return broken, bad


def answers(device, allocation=8, marks=None, waiting=None):
    """The true answers of a survey, as lines."""
    if not 1 <= allocation <= 255:
        return {"refused 20 0 volume"}
    identification = device.sector(0)
    if identification is None:
        return {"refused 14 0 devices"}
    if not rule_a(identification, device.count):
        return {"refused 22 0 volume A"}
    total, root = number(identification, 0, 3), number(identification, 8, 3)
    if any(length is not None and length < total for length in (marks, waiting)):
        return {"refused 19 0 volume"}
    low = -(-number(identification, 4, 2) // SECTOR)
    broken, bad = findings(device, low, total, root)
    if not broken and not bad:
        return {f"passed {total} {root}"}
    return {f"refused 22 {lsn} volume {rule}" for rule, lsn in broken} | {f"refused 14 {lsn} devices" for lsn in bad}


def main():
    parser = argparse.ArgumentParser(description=__doc__, formatter_class=argparse.RawDescriptionHelpFormatter)
    parser.add_argument("image")
    parser.add_argument("--tray", action="store_true")
    parser.add_argument("--allocation", type=int, default=8)
    parser.add_argument("--marks", type=int)
    parser.add_argument("--waiting", type=int)
    given = parser.parse_args()
    with open(given.image, "rb") as source:
        data = source.read()
    device = open_tray(data) if given.tray else Device(data)
    for line in sorted(answers(device, given.allocation, given.marks, given.waiting)):
        print(line)


if __name__ == "__main__":
    main()
