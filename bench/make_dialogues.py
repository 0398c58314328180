#!/usr/bin/env python3
"""Writes what comes to one end of a link in a dialogue, for `swp end`: make_dialogues.py PROGRAM [FOLDER].

What comes to a CLF is what host 02 puts on its link in a replay of PROGRAM: it opens its session and its pipes, reads and sets parameters, sends
data to the loopback gate and has them back, and acknowledges. What comes to a UICC is one event after another to its loopback gate, on a pipe that it
was told of, each with the number of the answer before. Both are written as units of a byte link and as a line record with two idle periods behind each
frame. Beside them stands a record of an idle line."""

import subprocess
import sys
from pathlib import Path

HERE = Path(__file__).resolve().parent
sys.path.insert(0, str(HERE.parent / "companions"))

from make_records import unit  # noqa: E402
from swp_formats import CLF, IDLE, UICC, Transcript, frame_periods  # noqa: E402

OPENED = (
    "swp 1 hci 02\nboot 00\nboot 02\nactivate 02 0002 01\ndeliver 02c\ndeliver 02h\ndeliver 02c\nreset 02c\ndeliver 02h\ndeliver 02c\n"
    "send 02h 01 03\nsettle 9\ninit 02h 0102030405060708 040004 050005\nsettle 99\nsend 02h 02 03\nsettle 9\nsend 02h 03 03\nsettle 9\n"
)
TALK = (
    "send 02h 01 0201\nsettle 9\nsend 02h 02 42" + "0123456789ABCDEF" * 3 + "\nsettle 9\nsend 02h 03 0202\nsettle 9\n"
    "send 02h 02 42" + "5A" * 100 + "\nsettle 9\nsend 02h 01 010302\nsettle 9\n"
)
TIMES = 1_900
EVENTS = 20_000
IDLE_PERIODS = 4_194_304


def sent_by_uicc(program):
    """The LPDUs of host 02 in the replay, in order."""
    schedule = OPENED + TALK * TIMES
    told = subprocess.run([program, "replay"], input=schedule, capture_output=True, text=True, check=True).stdout
    return [frame.lpdu for frame in Transcript(told.splitlines()).frames if frame.wire == UICC]


def sent_by_clf():
    """ACT_POWER_MODE, RSET, the notice of a pipe to the loopback gate of host 02, and events on it; each frame acknowledges the answers so far."""
    messages = [bytes.fromhex("81120104020402")] + [b"\x82\x42" + bytes(range(event % 26)) for event in range(EVENTS)]
    numbered = (bytes([0x80 | number % 8 << 3 | number % 8]) + message for number, message in enumerate(messages))
    return [b"\x62\x01", b"\xf9\x04\x00", *numbered]


def main():
    program, folder = sys.argv[1], Path(sys.argv[2] if len(sys.argv) > 2 else ".")
    for name, wire, lpdus in (("to_clf", UICC, sent_by_uicc(program)), ("to_uicc", CLF, sent_by_clf())):
        (folder / f"{name}.bytes").write_bytes(b"".join(map(unit, lpdus)))
        (folder / f"{name}.rec").write_bytes(b"".join(frame_periods(lpdu, wire) + bytes([IDLE, IDLE]) for lpdu in lpdus))
    (folder / "idle.rec").write_bytes(bytes([IDLE]) * IDLE_PERIODS)


if __name__ == "__main__":
    main()
