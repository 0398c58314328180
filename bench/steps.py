#!/usr/bin/env python3
"""Prints what the same frames cost at an end of a bare link and at a node: bench/steps.py [PROGRAM]. Run it at the top of the repository,
behind a gate or ./swp-build; it wants valgrind.

Each block of lines is played a thousand times on a bare link, and on the link of a controller and one host that are up. Of a block it
prints the instructions, text included, at a node also what its turns take, which an end alone doesn't have, and the ratio without them."""

import os
import re
import subprocess
import sys
import tempfile

BARE = ["swp 1 bare 02"]
NODES = ["swp 1 hci 02", "boot 00", "boot 02", "activate 02 1A2B 01", "deliver 02h", "deliver 02c", "deliver 02h", "deliver 02c"]
NODES += ["reset 02c", "deliver 02h", "deliver 02c"]
BLOCKS = {
    "a message of one byte": ["send 02h 01 41", "deliver 02c", "deliver 02h"],
    "a message of 280 bytes, in ten fragments": ["send 02h 01 41" + "55" * 279] + ["deliver 02c", "deliver 02h"] * 3,
    "a tick": ["tick"],
}
TIMES = 1000


def counted(program, lines, folder):
    """All instructions of a schedule, and those of the turns of nodes."""
    schedule, profile = os.path.join(folder, "schedule"), os.path.join(folder, "profile")
    with open(schedule, "w", encoding="ascii") as file:
        file.write("\n".join(lines) + "\n")
    with open(schedule, "rb") as source:
        told = subprocess.run(
            ["valgrind", "--tool=callgrind", f"--callgrind-out-file={profile}", program, "replay"],
            stdin=source, stdout=subprocess.DEVNULL, stderr=subprocess.PIPE, text=True, check=True,
        )
    table = subprocess.run(["callgrind_annotate", "--inclusive=yes", profile], stdout=subprocess.PIPE, text=True, check=True).stdout
    turns = re.search(r"^ *([\d,]+) .*Node::passes", table, re.M)
    return int(re.search(r"Collected : (\d+)", told.stderr)[1]), int(turns[1].replace(",", "")) if turns else 0


def main():
    program = os.path.abspath(sys.argv[1] if len(sys.argv) > 1 else "crates/swp/out/swp")
    if not os.path.exists(program):
        sys.exit(f"{program} is not there: ./swp-build proves and builds it")
    print("| block | bare | nodes | ratio | its turns | ratio without |")
    print("|---|---|---|---|---|---|")
    with tempfile.TemporaryDirectory() as folder:
        for name, block in BLOCKS.items():
            cells = []
            for head in (BARE, NODES):
                start, before = counted(program, head, folder)
                all_of, behind = counted(program, head + block * TIMES, folder)
                cells.append(((all_of - start) / TIMES, (behind - before) / TIMES))
            (bare, _), (nodes, turns) = cells
            print(f"| {name} | {bare:,.0f} | {nodes:,.0f} | {nodes / bare:.2f} | {turns:,.0f} | {(nodes - turns) / bare:.2f} |")


if __name__ == "__main__":
    main()
