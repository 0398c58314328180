#!/usr/bin/env python3
"""Writes memories for `swp tables`: make_memories.py [FOLDER]. Each is a bank full of records behind a head of version 02 in a folder of its own:
`full` has 110 pipes, which are opened and closed in turn, `syncs` sync identities, `values` session identities."""

import sys
from pathlib import Path

BANK = 32_768
PIPES = range(0x02, 0x70)


def bank(bodies):
    """A bank of generation 1 with as many of these records as it has room for."""
    records = b""
    for number, body in enumerate(bodies):
        record = bytes([0x5A, len(body)]) + number.to_bytes(2, "big") + body
        if 12 + len(records) + len(record) >= BANK:
            break
        records += record
    return (bytes([0x5A, 0x02]) + (1).to_bytes(4, "big") + bytes(6) + records).ljust(BANK, b"\xff")


def pipes():
    """Commands Create of each pipe, and then openings and closings without an end."""
    for pipe in PIPES:
        yield bytes([1, pipe, 1 + pipe % 3, 0x20 + pipe % 7, 4 + pipe % 3, 0x40 + pipe % 5])
    while True:
        for is_open in (1, 0):
            for pipe in PIPES:
                yield bytes([4, 1 + pipe % 3, pipe, is_open])


def syncs():
    for number in range(BANK):
        yield bytes([6, 1 + number % 7]) + number.to_bytes(2, "big")


def values():
    for number in range(BANK):
        yield bytes([5, 1 + number % 7, 0, 1]) + bytes([number % 256]) * 8


def main():
    folder = Path(sys.argv[1] if len(sys.argv) > 1 else ".")
    for name, bodies in (("full", pipes()), ("syncs", syncs()), ("values", values())):
        (folder / name).mkdir(exist_ok=True)
        (folder / name / "swp.nv").write_bytes(bank(bodies) + b"\xff" * BANK)


if __name__ == "__main__":
    main()
