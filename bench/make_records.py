#!/usr/bin/env python3
"""Writes line records of 16 MB: of frames on both wires, of such frames with a bit in 600 changed, of random bits on both wires, of such bits with a
byte in 300 that is no period, and of random bytes; and what a UICC sends to a CLF over the byte link, 1 MB: it is activated, accepts the reset, and
sends one event after another, which the controller drops."""

import random
import sys
from pathlib import Path

SIZE = 16_777_216
BIT_BYTES = bytes([0x40, 0x54, 0xC0, 0xFC])  # by S1 + 2 * S2


def crc(data: bytes) -> int:
    register = 0xFFFF
    for byte in data:
        register ^= byte << 8
        for _ in range(8):
            register = ((register << 1) ^ 0x1021 if register & 0x8000 else register << 1) & 0xFFFF
    return register ^ 0xFFFF


def frame(lpdu: bytes) -> list[int]:
    bits = []
    ones = 0
    for byte in lpdu + crc(lpdu).to_bytes(2, "big"):
        for place in range(7, -1, -1):
            bit = byte >> place & 1
            bits.append(bit)
            ones = ones + 1 if bit else 0
            if ones == 5:
                bits.append(0)
                ones = 0
    return [0, 1, 1, 1, 1, 1, 1, 0] + bits + [0, 1, 1, 1, 1, 1, 1, 1]


def wire(random_numbers: random.Random) -> list[int]:
    """About a megabit of I frames with random information."""
    bits = []
    while len(bits) < 1_048_576:
        length = random_numbers.randrange(2, 31)
        first = random_numbers.randrange(0x80, 0xC0)
        bits += frame(bytes([first]) + random_numbers.randbytes(length - 1))
    return bits[:1_048_576]


def unit(lpdu: bytes) -> bytes:
    """A frame on the byte link."""
    return len(lpdu).to_bytes(2, "big") + lpdu + crc(lpdu).to_bytes(2, "big")


def sent_by_uicc() -> bytes:
    """ACT_SYNC_ID, ACT_READY, UA, and I frames of an event on pipe 01 whose numbers go round."""
    begins = unit(b"\x61\x00\x01") + unit(b"\x60") + unit(b"\xE6")
    eight = b"".join(unit(bytes([0x80 + 8 * number, 0x81, 0x41])) for number in range(8))
    return begins + eight * ((1_048_576 - len(begins)) // len(eight))


def main() -> None:
    folder = Path(sys.argv[1] if len(sys.argv) > 1 else ".")
    random_numbers = random.Random(102613)
    periods = bytes(BIT_BYTES[a + 2 * b] for a, b in zip(wire(random_numbers), wire(random_numbers)))
    (folder / "frames.rec").write_bytes((periods * 16)[:SIZE])
    damaged = bytearray(periods)
    for place in range(0, len(damaged), 600):
        at = place + random_numbers.randrange(600)
        if at < len(damaged):
            damaged[at] = BIT_BYTES[BIT_BYTES.index(damaged[at]) ^ random_numbers.choice((1, 2))]
    (folder / "damaged.rec").write_bytes((bytes(damaged) * 16)[:SIZE])
    noise = random_numbers.randbytes(1_048_576)
    bits = bytearray(BIT_BYTES[byte & 3] for byte in noise)
    (folder / "noise.rec").write_bytes(bytes(bits) * 16)
    for place in range(0, len(bits), 300):
        bits[min(place + random_numbers.randrange(300), len(bits) - 1)] = 0x01
    (folder / "breaks.rec").write_bytes(bytes(bits) * 16)
    (folder / "bytes.rec").write_bytes(random_numbers.randbytes(SIZE))
    (folder / "uicc.bytes").write_bytes(sent_by_uicc())


if __name__ == "__main__":
    main()
