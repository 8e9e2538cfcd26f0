#!/usr/bin/env python3
"""Compares what the program `damages` answers with what oracle.py finds true.

    cases.py PROGRAM IMAGE CASES

runs PROGRAM IMAGE with the file CASES as its standard input. A pass must be the oracle's, and a refusal one of those that it has as true. Ends with
status 1 if an answer differs. The lines of a case are described by `damages` itself, when it is run with no argument.
"""

import collections
import subprocess
import sys

import oracle

SECTOR = 256
MOST = 65537


def number(word):
    return int(word) if word.isascii() and word.isdigit() else None


def changed(data, word):
    """Whether a word LSN+OFFSET:DIGITS could be carried out."""
    place, _, digits = word.partition(":")
    lsn, _, offset = place.partition("+")
    lsn, offset = number(lsn), number(offset)
    if lsn is None or offset is None or lsn > 65535 or offset > 255:
        return False
    try:
        values = bytes.fromhex(digits)
    except ValueError:
        return False
    at = SECTOR * lsn + offset
    if not digits or at + len(values) > len(data):
        return False
    data[at:at + len(values)] = values
    return True


def expected(base, words):
    """The true answers of a case."""
    data, bad, asked = bytearray(base), set(), {}
    for word in words:
        option, equals, value = word.partition("=")
        if not equals:
            lawful = changed(data, word)
        else:
            value = number(value)
            lawful = value is not None and option in ("bad", "sectors", "allocation", "marks", "waiting")
            if not lawful or option == "sectors" and value > MOST:
                return {"not a case"}
            if option == "bad":
                bad.add(value)
            elif option == "sectors":
                data = data[:SECTOR * value].ljust(SECTOR * value, b"\0")
            else:
                asked[option] = value
        if not lawful:
            return {"not a case"}
    device = oracle.Device(bytes(data), bad=frozenset(bad))
    asked = {"marks": device.count, "waiting": device.count, **asked}
    return oracle.answers(device, **asked)


def read_cases(text):
    lines = (line.strip() for line in text.splitlines())
    return [line.split() for line in lines if line and not line.startswith("#")]


def compare(program, image, text):
    """Runs the cases, prints each difference, and answers how many cases, passes, refusals by kind and differences there were."""
    with open(image, "rb") as source:
        base = source.read()
    run = subprocess.run([program, image], input=text.encode(), capture_output=True, check=True)
    answers = run.stdout.decode().splitlines()
    cases = read_cases(text)
    if len(cases) != len(answers):
        sys.exit(f"{len(cases)} cases, {len(answers)} answers")
    kinds, differences, alone = collections.Counter(), 0, 0
    for (label, *words), line in zip(cases, answers):
        told, _, answer = line.partition(": ")
        true = expected(base, words)
        if told != label or answer not in true:
            differences += 1
            print(f"{line}; true: {', '.join(sorted(true))}; case: {' '.join(words)}")
        parts = answer.split()
        kinds[f"{parts[0]} {parts[1]} {parts[4] if len(parts) > 4 else ''}".strip() if parts[0] == "refused" else parts[0]] += 1
        alone += len(true) == 1
    return len(cases), kinds, alone, differences


def report(program, image, text):
    count, kinds, alone, differences = compare(program, image, text)
    print(f"{count} cases, {alone} with one true answer: " + ", ".join(f"{kind} {n}" for kind, n in sorted(kinds.items())))
    print(f"{differences} differences")
    return differences


def main():
    if len(sys.argv) != 4:
        sys.exit(__doc__)
    program, image, cases = sys.argv[1:]
    with open(cases) as source:
        sys.exit(report(program, image, source.read()) > 0)


if __name__ == "__main__":
    main()
