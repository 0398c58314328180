#!/usr/bin/env python3
"""Counts how often a flash is read, programmed and erased while commands are kept in a memory over it: bench/flash_figures.py PROGRAM [COMMANDS].

PROGRAM is `swp_flash`, as the gate or `.ci/build_unproved OUT swp_flash` builds it. An end of a CLF gets a session in which host 02 opens its pipe 01,
sets its session identity and closes the pipe, again and again, each of which is a command that is kept. The calls on the file are read off
`strace`: a program is a read of the old bytes and a write of the new ones, an erase is a write of a page. Nothing is claimed of wear."""

import os
import re
import subprocess
import sys
import tempfile

PAGE, PAGES = 512, 272
GROUP = 50


def unit(lpdu):
    """A unit of the byte link: the length, the LPDU, and its CRC."""
    crc = 0xFFFF
    for byte in lpdu:
        crc ^= byte << 8
        for _ in range(8):
            crc = (crc << 1 ^ (0x1021 if crc & 0x8000 else 0)) & 0xFFFF
    return len(lpdu).to_bytes(2, "big") + lpdu + (crc ^ 0xFFFF).to_bytes(2, "big")


def session(commands):
    """What host 02 sends: its identifier, which is the first command, ACT_READY, UA, and a message for each further command."""
    sent = [bytes.fromhex(text) for text in ("610001", "60", "E6")]
    for turn in range(commands - 1):
        message = (b"\x03", b"\x01\x01" + turn.to_bytes(8, "big"), b"\x04")[turn % 3]
        # each message is answered by one, which the next one acknowledges
        sent.append(bytes([0x80 | turn % 8 << 3 | turn % 8, 0x81]) + message)
    return b"".join(unit(lpdu) for lpdu in sent)


def calls_of(program, given):
    """The reads and writes of the file, each with its length and its place, and what the run wrote."""
    with tempfile.TemporaryDirectory(prefix="swp-flash-") as folder:
        words = ["strace", "-qq", "-y", "-o", f"{folder}/trace", "-e", "trace=pread64,pwrite64", program, "end", "clf", "bytes"]
        ran = subprocess.run(words, input=given, capture_output=True, cwd=folder, check=False)
        if ran.returncode != 0:
            sys.exit(f"the run ends with {ran.returncode}: {ran.stderr.decode(errors='replace')}")
        with open(f"{folder}/trace", encoding="utf-8", errors="replace") as trace:
            lines = [re.match(r"(pread64|pwrite64)\(\d+<.*/swp\.flash>, .*, (\d+), (\d+)\) = \d+$", line) for line in trace]
    return [(line[1], int(line[2]), int(line[3])) for line in lines if line], ran.stdout


def main():
    if len(sys.argv) not in (2, 3):
        sys.exit(__doc__)
    commands = int(sys.argv[2]) if len(sys.argv) == 3 else 10_000
    calls, answered = calls_of(os.path.abspath(sys.argv[1]), session(commands))
    erased = [at // PAGE for call, length, at in calls if call == "pwrite64" and length == PAGE]
    programs = sum(call == "pwrite64" and length != PAGE for call, length, _ in calls)
    reads = sum(call == "pread64" for call, _, _ in calls) - programs
    # each message is answered ANY_OK, that of an opening with a byte more, and the identifier isn't answered
    kept = len(re.findall(rb"\x00[\x03\x04][\x80-\xBF]\x81\x80", answered)) + 1
    print(f"commands {kept} reads {reads} programs {programs} erases {len(erased)}")
    times = [erased.count(page) for page in range(PAGES)]
    for start in range(0, max(times) + 1, GROUP):
        print(f"{sum(start <= count < start + GROUP for count in times)} pages were erased {start} to {start + GROUP - 1} times")


main()
