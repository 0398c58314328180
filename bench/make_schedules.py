#!/usr/bin/env python3
"""Writes schedules for `swp replay`: of one-byte messages, each sent, delivered and acknowledged, of 10,000 and of 20,000 lines;
of messages of 4,096 bytes both ways; of a link that loses and damages frames and is reset; the one of a controller with three hosts that is
drawn from 0; one of 20,000 lines of a controller with seven hosts, drawn alike; one of a bare link whose busy end keeps it from settling in
20,000 rounds; one of a bare link that settles behind each message; and of a controller with seven hosts: each of which sends a message in turn, behind
which all links settle; each of which sets its session identity again and again, so that the memory is compacted; and which open and close 110 pipes."""

import sys
from pathlib import Path

HEADER = "swp 1 bare 02\n"
SHORT = "send 02h 01 03\ndeliver 02c\ndeliver 02h\n"
# A message of 4,096 bytes has 147 fragments, four of which are on their way at once.
LONG = "send 02h 01 " + "03" * 4096 + "\nsend 02c 01 " + "04" * 4096 + "\n" + "deliver 02c\ndeliver 02h\n" * 38
LOSSY = (
    "send 02h 01 03\nsend 02h 02 04\nlose 02c\ndeliver 02c\ndeliver 02h\ndeliver 02c\ndeliver 02h\n"
    "send 02c 01 05\ndamage 02h 20\ntick 10\ndeliver 02h\ndeliver 02c\n"
    "busy 02c\nsend 02h 01 06\ndeliver 02c\ndeliver 02h\nready 02c\ndeliver 02h\ndeliver 02c\ndeliver 02h\n"
    "reset 02h 3\ndeliver 02c\ndeliver 02h\n"
)


def schedule(lines: int, part: str) -> str:
    """A schedule of so many lines: the header, the part again and again, and empty lines."""
    times, left = divmod(lines - 1, part.count("\n"))
    return HEADER + part * times + "\n" * left


class Draws:
    """The numbers that are drawn one after another, as `gen_schedule` draws them."""

    def __init__(self, number: int):
        self.state = number

    def next(self) -> int:
        self.state = (self.state * 6364136223846793005 + 1442695040888963407) % 2**64
        return self.state // 2**33

    def line(self, hosts: int, more: str) -> str:
        """One line over so many hosts; `more` is what is sent now and then."""
        drawn = self.next() % 16
        host = f"0{1 + self.next() % hosts}"
        if drawn <= 4:
            return f"deliver {host}c\n"
        if drawn <= 9:
            return f"deliver {host}h\n"
        if drawn <= 11:
            return f"send {host}h 01 0201\n"
        return {12: f"send {host}h {more}\n", 13: f"lose {host}c\n", 14: "tick 3\n"}.get(drawn, f"reset {host}h\n")


def opened_nodes(count: int = 7) -> str:
    """A controller with so many hosts, each of which has opened pipe 01 and let the others in."""
    hosts = [f"0{host}" for host in range(1, count + 1)]
    text = f"swp 1 hci {' '.join(hosts)}\nboot 00\n" + "".join(f"boot {host}\n" for host in hosts)
    for host in hosts:
        others = "".join(other for other in hosts if other != host)
        text += (
            f"activate {host} 00{host} 01\ndeliver {host}c\ndeliver {host}h\ndeliver {host}c\n"
            f"reset {host}c\ndeliver {host}h\ndeliver {host}c\n"
            f"send {host}h 01 03\ndeliver {host}c\ndeliver {host}h\ndeliver {host}c\n"
            f"send {host}h 01 0103{others}\ndeliver {host}c\ndeliver {host}h\ndeliver {host}c\n"
        )
    return text


# Host 02 has a pipe made to host 01, and opens it.
JOINED = (
    "send 02h 01 10200141\ndeliver 02c\ndeliver 01h\ndeliver 01c\ndeliver 02h\ndeliver 02c\n"
    "send 02h 02 03\ndeliver 02c\ndeliver 02h\ndeliver 02c\n"
)


def drawn_schedule() -> str:
    """What `gen_schedule` draws from 0."""
    draws = Draws(0)
    return opened_nodes(3) + JOINED + "".join(draws.line(3, "02 42AA") for _ in range(2000)) + "tables 00\n"


def nodes_schedule(lines: int) -> str:
    """A controller with seven hosts, over which lines are drawn."""
    text = opened_nodes()
    draws = Draws(0)
    while text.count("\n") < lines - 1:
        text += draws.line(7, "01 0201")
    return text + "tables 00\n"


def settling_schedule(times: int) -> str:
    """A controller with seven hosts, each of which sends a command in turn; behind each all links settle."""
    return opened_nodes() + "".join(f"send 0{1 + time % 7}h 01 0201\nsettle 100\n" for time in range(times))


def compacting_schedule(lines: int) -> str:
    """A controller with seven hosts, each of which sets its session identity in turn; its memory is full behind some 2,000 commands."""
    text, time = opened_nodes(), 0
    while text.count("\n") < lines - 4:
        host = f"0{1 + time % 7}"
        text += f"send {host}h 01 0101{time % 256:02X}{'AB' * 7}\ndeliver {host}c\ndeliver {host}h\ndeliver {host}c\n"
        time += 1
    return text


def many_pipes_schedule(lines: int) -> str:
    """A controller with seven hosts that make 110 pipes between them, each of which is opened and closed in turn."""
    text = opened_nodes()
    for pipe in range(110):
        host = 1 + pipe % 7
        other = 1 + (pipe + 1 + pipe // 7 % 6) % 7
        text += f"send 0{host}h 01 10{0x20 + pipe % 16:02X}0{other}{0x40 + pipe % 8:02X}\nsettle 100\n"
    time = 0
    while text.count("\n") < lines - 4:
        pipe = time * 7 % 110
        host = 1 + pipe % 7
        text += f"send 0{host}h {pipe + 2:02X} {'03' if time % 220 < 110 else '04'}\ndeliver 0{host}c\ndeliver 0{host}h\ndeliver 0{host}c\n"
        time += 1
    return text


def main() -> None:
    folder = Path(sys.argv[1] if len(sys.argv) > 1 else ".")
    for lines in (10_000, 20_000):
        (folder / f"short{lines}.schedule").write_text(schedule(lines, SHORT))
    (folder / "long.schedule").write_text(schedule(20_000, LONG))
    (folder / "lossy.schedule").write_text(schedule(20_000, LOSSY))
    (folder / "drawn.schedule").write_text(drawn_schedule())
    (folder / "nodes20000.schedule").write_text(nodes_schedule(20_000))
    (folder / "busy.schedule").write_text(HEADER + "busy 02c\nsend 02h 01 03\nsettle 20000\n")
    (folder / "settling.schedule").write_text(settling_schedule(5_000))
    (folder / "settling_bare.schedule").write_text(schedule(20_000, "send 02h 01 03\nsettle 100\n"))
    (folder / "compacting.schedule").write_text(compacting_schedule(20_000))
    (folder / "many_pipes.schedule").write_text(many_pipes_schedule(20_000))


if __name__ == "__main__":
    main()
