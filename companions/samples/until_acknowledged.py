"""Loses a message again and again: how many ticks pass until it is acknowledged?"""

import sys

sys.path.insert(0, "companions")
from swpbench import Replay

with Replay("bare", "02") as replay:
    entries, losses, ticks = replay("send 02h 01 03"), 0, 0
    while not entries.of("acked"):
        if entries.emitted and losses < 3:
            replay("lose 02c")
            losses += 1
        replay("deliver 02c")
        entries = replay("deliver 02h")
        if not entries.of("acked"):
            entries = replay("tick")
            ticks += 1
print(f"{losses} losses, acknowledged behind {ticks} ticks, {len(replay.schedule)} lines")
