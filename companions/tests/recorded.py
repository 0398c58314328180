"""Records and captures that are drawn from a seed: the same ones at each run."""

import bisect
import random

import support  # finds the folder of the companions
from swp_formats import CLF, PERIODS, TABLE, UICC, frame_periods

STRETCH = 20  # the longest stretch of one idle state in a drawn record


def drawn_record(seed, size=None, damage=False):
    """Frames of drawn LPDUs on both wires, idle periods, suspended and deactivated stretches; with `damage` bytes of any kind too."""
    draw = random.Random(seed)
    record, size = bytearray(), size or draw.randrange(200, 1200)
    while len(record) < size:
        kind = draw.random()
        if kind < 0.6:
            lpdu = bytes(draw.randrange(256) for _ in range(draw.choice([1, 2, 3, 9, 30])))
            record += frame_periods(lpdu, draw.choice([CLF, UICC])) + b"\x40" * draw.randrange(6)
        elif kind < 0.75:
            record += bytes(draw.choice(sorted(TABLE)) for _ in range(draw.randrange(20)))
        else:
            record += bytes([draw.choice(sorted(TABLE))]) * draw.randrange(1, STRETCH)
        if damage and draw.random() < 0.3:
            place = draw.randrange(len(record))
            record[place] = draw.choice([draw.randrange(256), draw.choice(sorted(PERIODS))])
    return bytes(record)


def wave_of(record, period):
    """The changes (time, S1 + 2 * S2) of a record and its end, in the unit of the period, which is a multiple of 4."""
    changes, last = [], None
    for place, byte in enumerate(record):
        for quarter in range(4):
            levels = byte >> (6 - 2 * quarter) & 3
            if levels != last:
                changes.append((place * period + quarter * period // 4, levels))
            last = levels
    return changes, len(record) * period


def edges_of(changes):
    """[(time, bit, level)] of each change of S1 (bit 1) and S2 (bit 2)."""
    edges, last = [], 4
    for at, levels in changes:
        edges += [(at, bit, levels & bit) for bit in (1, 2) if last == 4 or (last ^ levels) & bit]
        last = levels
    return edges


def disturbed(wave, period, seed, jitter=0.0, drift=0.0, glitches=0):
    """A wave whose edges of S1 lie up to `jitter` of a period beside their places and those of S2 up to that behind them, whose clock
    becomes slower by `drift`, and which has short glitches of S1."""
    draw = random.Random(seed)
    changes, end = wave
    edges = []
    for at, bit, level in edges_of(changes):
        moved = draw.uniform(-jitter, jitter) if bit == 1 else draw.uniform(0, jitter)
        edges.append((at * (1 + drift * at / end) + moved * period if at else 0, bit, level))
    ones = sorted(edge for edge in edges if edge[1] == 1)
    times = [edge[0] for edge in ones]
    for _ in range(glitches):
        at = draw.uniform(0.2 * period, times[-1])
        behind = bisect.bisect(times, at)
        if min(abs(times[behind - 1] - at), abs(times[behind] - at) if behind < len(times) else period) > 0.12 * period:
            level = ones[behind - 1][2]
            edges += [(at, 1, 1 - level), (at + draw.uniform(0.005, 0.04) * period, 1, level)]
    levels, moved = 0, []
    for at, bit, level in sorted(edges):
        levels = levels & ~bit | level
        moved.append((round(at), levels))
    return moved, max(round(end * (1 + drift)), moved[-1][0])


def vcd_of(wave, timescale="1 ps"):
    """A VCD of a wave, in the form of a simulator's."""
    changes, end = wave
    lines = [f"$timescale {timescale} $end", "$scope module bench $end", "$var wire 1 ! S1 $end", '$var wire 1 " S2 $end']
    lines += ["$upscope $end", "$enddefinitions $end"]
    last = 4
    for at, levels in changes:
        lines.append(f"#{at}")
        if last == 4 or (last ^ levels) & 1:
            lines.append(f"{levels & 1}!")
        if last == 4 or (last ^ levels) & 2:
            lines.append(f'{levels >> 1}"')
        last = levels
    return ("\n".join(lines) + f"\n#{end}\n").encode()


def samples_of(wave, step):
    """The levels of a wave at the multiples of a step, a byte each."""
    changes, end = wave
    samples, place, levels, at = bytearray(), 0, 0, 0
    while at < end:
        while place < len(changes) and changes[place][0] <= at:
            levels = changes[place][1]
            place += 1
        samples.append(levels)
        at += step
    return bytes(samples)


def table_of(wave, step, seed):
    """An oscilloscope's table of a wave whose unit is a picosecond: seconds, volts of S1 (1.8 V) and of S2 (0.3 V), with noise."""
    draw = random.Random(seed)
    rows = ["Time (s),CH1 (V),CH2 (V)"]
    for place, levels in enumerate(samples_of(wave, step)):
        s1 = 1.8 * (levels & 1) + draw.uniform(-0.15, 0.15)
        s2 = 0.3 * (levels >> 1) + draw.uniform(-0.03, 0.03)
        rows.append(f"{(place * step - 5_000_000) / 1e12:.9f},{s1:.3f},{s2:.3f}")
    return ("\n".join(rows) + "\n").encode()
