"""What the companions share: line records, frames, LPDUs, packets, messages and transcripts, as docs/FORMATS.md defines them.

Records and frames: PERIODS, BYTE_OF, IDLE, crc, frame_bits, frame_periods, decode, read_record.
LPDUs and messages: control, packet, message, describe, Pipes.
Transcripts of `swp replay`: Transcript, with its steps and frames.
Programs: Refused, Options, run, binary_input, text_input.
"""

import argparse
import io
import os
import re
import sys
from bisect import bisect_right
from typing import NamedTuple

# ---- line records ---------------------------------------------------------------------------------------------------------

PERIODS = {0x40: (0, 0), 0x54: (1, 0), 0xC0: (0, 1), 0xFC: (1, 1)}  # byte: (S1, S2)
BYTE_OF = {bits: byte for byte, bits in PERIODS.items()}
IDLE, SUSPENDED, RESUME, OFF = 0x40, 0x55, 0xFF, 0x00
TABLE = frozenset(PERIODS) | {SUSPENDED, RESUME, OFF}
LIMIT = 16_777_216  # bytes of a record that `swp` reads
CLF, UICC = 1, 2  # the wire that each sends on: S1, S2
SIDES = {CLF: "CLF", UICC: "UICC"}


# ---- programs ---------------------------------------------------------------------------------------------------------------


class Refused(Exception):
    """An input that a companion refuses; its text is what the user reads."""


class Options(argparse.ArgumentParser):
    """The options of a companion. Its help is the program's own text; wrong words end it with one line and the exit status 2."""

    def __init__(self, program, text):
        super().__init__(prog=program, description=text, formatter_class=argparse.RawDescriptionHelpFormatter, add_help=False, allow_abbrev=False)
        self.add_argument("-h", "--help", action="store_true", help=argparse.SUPPRESS)

    def read(self, words=None):
        if any(word in ("-h", "--help") for word in (sys.argv[1:] if words is None else words)):
            print(self.description.strip())
            sys.exit(0)
        return self.parse_args(words)

    def error(self, message):
        print(f"{self.prog}: {message}", file=sys.stderr)
        sys.exit(2)


def run(program, main):
    """Runs a companion: what it refuses, cannot read or cannot write is one line on standard error and the exit status 1."""
    try:
        status = main()
        sys.stdout.flush()
    except Refused as fault:
        _stop(program, fault)
    except BrokenPipeError:
        os.dup2(os.open(os.devnull, os.O_WRONLY), sys.stdout.fileno())
        _stop(program, "nobody reads the output")
    except OSError as fault:
        _stop(program, f"{fault.filename}: {fault.strerror}" if fault.filename else str(fault.strerror))
    except KeyboardInterrupt:
        sys.exit(130)
    sys.exit(status)


def _stop(program, text):
    try:
        sys.stdout.flush()
    except OSError:
        pass
    print(f"{program}: {text}", file=sys.stderr)
    sys.exit(1)


def binary_input(name=None):
    """The file of this name, or standard input, for bytes."""
    return open(name, "rb") if name else sys.stdin.buffer


def text_input(name=None):
    """The file of this name, or standard input, for lines of text; a byte that is no UTF-8 comes as a replacement character."""
    return io.TextIOWrapper(binary_input(name), encoding="utf-8", errors="replace")


# ---- whole records ----------------------------------------------------------------------------------------------------------


def read_record(file):
    """The bytes of a whole record from a binary file; Refused where there are more than LIMIT."""
    record = file.read(LIMIT + 1)
    if len(record) > LIMIT:
        raise Refused(f"too much input: a record has at most {LIMIT} bytes")
    return record


# ---- frames ---------------------------------------------------------------------------------------------------------------


def _crc_row(byte):
    register = byte << 8
    for _ in range(8):
        register = (register << 1) ^ 0x1021 if register & 0x8000 else register << 1
    return register & 0xFFFF


_CRC_ROWS = [_crc_row(byte) for byte in range(256)]


def crc(data):
    """The CRC of these bytes as a number of 16 bits."""
    register = 0xFFFF
    for byte in data:
        register = (register << 8 & 0xFFFF) ^ _CRC_ROWS[register >> 8 ^ byte]
    return register ^ 0xFFFF


def stuffed(bits):
    """A text of 0 and 1 with a 0 put in after each five 1s in a row."""
    return bits.replace("11111", "111110")


def bit_text(data):
    """The bits of these bytes, the most significant first, as a text of 0 and 1."""
    return "".join(f"{byte:08b}" for byte in data)


def frame_text(lpdu):
    """The bits of the frame of an LPDU as a text: SOF, the LPDU and its CRC with stuffing, EOF."""
    return "01111110" + stuffed(bit_text(bytes(lpdu) + crc(lpdu).to_bytes(2, "big"))) + "01111111"


def frame_bits(lpdu):
    """The same as a list of numbers."""
    return [int(bit) for bit in frame_text(lpdu)]


_PUT = {CLF: str.maketrans("01", "\x40\x54"), UICC: str.maketrans("01", "\x40\xc0")}


def frame_periods(lpdu, wire):
    """The bytes of a record while this frame goes over one wire (CLF or UICC) and the other one is at 0."""
    return frame_text(lpdu).translate(_PUT[wire]).encode("latin-1")


class Heard(NamedTuple):
    """A frame or a refused one in a record, as a line of `swp decode`."""

    wire: int  # CLF (S1) or UICC (S2)
    start: int  # the place of the byte with the first bit of its SOF
    end: int  # the place of the byte that ended it
    verdict: object  # the LPDU as bytes, or the fault as `swp decode` writes it


class _Places:
    """Where the bits of a record without suspended and resume periods stood in it."""

    def __init__(self, record):
        self.begins, self.skipped, total = [], [], 0
        for run in re.finditer(rb"[\x55\xff]+", record):
            self.begins.append(run.start() - total)
            total += run.end() - run.start()
            self.skipped.append(total)

    def of(self, index):
        run = bisect_right(self.begins, index)
        return index + (self.skipped[run - 1] if run else 0)


def _wire_table(wire):
    return bytes(ord("01"[PERIODS[byte][wire - 1]]) if byte in PERIODS else ord("x") for byte in range(256))


_WIRE_TABLE = {wire: _wire_table(wire) for wire in (CLF, UICC)}
_MARK = re.compile(rb"(?<!1)111111[01]|x+")  # the end of a SOF, the seventh 1 of an EOF, a break


def _judge(content):
    """The LPDU in the bits between SOF and EOF, or their first fault."""
    bits = content.replace(b"111110", b"11111")
    count = len(bits)
    if count < 24 or count > 256:
        return f"length {min(count, 65535)}"
    if count % 8:
        return f"alignment {count}"
    data = int(bits, 2).to_bytes(count // 8, "big")
    want, got = crc(data[:-2]), int.from_bytes(data[-2:], "big")
    return data[:-2] if want == got else f"crc {want:04X} {got:04X}"


def _heard_on(wire, record, places):
    """What is heard on one wire, in order."""
    bits = record.translate(_WIRE_TABLE[wire], bytes([SUSPENDED, RESUME]))
    start = content = None  # of the open frame
    for mark in _MARK.finditer(bits):
        at, text = mark.start(), mark.group()
        if text == b"1111111":
            if start is not None:
                yield Heard(wire, start, places.of(at + 6), _judge(bits[content : max(content, at - 1)]))
            start = None
            continue
        begins = text == b"1111110"
        if start is not None:
            yield Heard(wire, start, places.of(at + 6 if begins else at), "broken")
        start = None
        if begins:
            start = places.of(at - 1 if at and bits[at - 1] == ord("0") else at)
            content = at + 7


def decode(record):
    """What `swp decode` tells of a record: a list of Heard in its order, by place of the end and S1 before S2."""
    places = _Places(record)
    heard = [h for wire in (CLF, UICC) for h in _heard_on(wire, record, places)]
    return sorted(heard, key=lambda h: (h.end, h.wire))


# ---- LPDUs and messages -----------------------------------------------------------------------------------------------------

S_FRAMES = ["RR", "REJ", "RNR", "SREJ"]
COMMANDS = {
    0x01: "ANY_SET_PARAMETER",
    0x02: "ANY_GET_PARAMETER",
    0x03: "ANY_OPEN_PIPE",
    0x04: "ANY_CLOSE_PIPE",
    0x10: "ADM_CREATE_PIPE",
    0x11: "ADM_DELETE_PIPE",
    0x12: "ADM_NOTIFY_PIPE_CREATED",
    0x13: "ADM_NOTIFY_PIPE_DELETED",
    0x14: "ADM_CLEAR_ALL_PIPE",
    0x15: "ADM_NOTIFY_ALL_PIPE_CLEARED",
}
RESPONSES = {
    0x00: "ANY_OK",
    0x01: "ANY_E_NOT_CONNECTED",
    0x02: "ANY_E_CMD_PAR_UNKNOWN",
    0x03: "ANY_E_NOK",
    0x04: "ADM_E_NO_PIPES_AVAILABLE",
    0x05: "ANY_E_REG_PAR_UNKNOWN",
    0x06: "ANY_E_PIPE_NOT_OPENED",
    0x07: "ANY_E_CMD_NOT_SUPPORTED",
    0x08: "ANY_E_INHIBITED",
    0x09: "ANY_E_TIMEOUT",
    0x0A: "ANY_E_REG_ACCESS_DENIED",
    0x0B: "ANY_E_PIPE_ACCESS_DENIED",
}
ADMINISTRATION, LOOPBACK, IDENTITY, LINK = 0, 4, 5, 6
GATES = {ADMINISTRATION: "administration", LOOPBACK: "loopback", IDENTITY: "identity management", LINK: "link management"}
STATIC_PIPES = {0: LINK, 1: ADMINISTRATION}
PARAMETERS = {
    (ADMINISTRATION, 1): "SESSION_IDENTITY",
    (ADMINISTRATION, 2): "MAX_PIPE",
    (ADMINISTRATION, 3): "WHITELIST",
    (ADMINISTRATION, 4): "HOST_LIST",
    (IDENTITY, 1): "VERSION_SW",
    (IDENTITY, 2): "HCI_VERSION",
    (IDENTITY, 3): "VERSION_HARD",
    (IDENTITY, 4): "VENDOR_NAME",
    (IDENTITY, 5): "MODEL_ID",
    (IDENTITY, 6): "GATES_LIST",
    (LINK, 1): "REC_ERROR",
}
POWER_MODES = {0: "low", 1: "full"}


def is_i_frame(lpdu):
    """Whether the LPDU is an I frame with its information field."""
    return len(lpdu) > 1 and 0x80 <= lpdu[0] <= 0xBF


def ns_of(lpdu):
    return lpdu[0] >> 3 & 7


def nr_of(lpdu):
    return lpdu[0] & 7


def control(lpdu):
    """(kind, text) of an LPDU. The kinds are I, RR, REJ, RNR, SREJ, RSET, UA, ACT, CLT and fault; the text is in the standard's words."""
    first, size = lpdu[0], len(lpdu)
    if 0x80 <= first <= 0xBF:
        return ("I", f"I({ns_of(lpdu)},{nr_of(lpdu)})") if size > 1 else ("fault", "short I frame")
    if 0xC0 <= first <= 0xDF:
        kind = S_FRAMES[first >> 3 & 3]
        return (kind, f"{kind}({nr_of(lpdu)})") if size == 1 else ("fault", f"too long {kind}")
    if first == 0xF9:
        return "RSET", f"RSET window {lpdu[1] if size > 1 else 4}"
    if first == 0xE6:
        return "UA", "UA"
    if 0x40 <= first <= 0x5F:
        return "CLT", "CLT"
    return _activation(lpdu)


def _activation(lpdu):
    first, size = lpdu[0], len(lpdu)
    again = " (again)" if first & 8 else ""
    if first in (0x60, 0x68):
        return "ACT", "ACT_READY" + again
    if first in (0x61, 0x69):
        return ("ACT", f"ACT_SYNC_ID {lpdu[1:3].hex().upper()}{again}") if size > 2 else ("fault", "short ACT_SYNC_ID")
    if first in (0x62, 0x6A):
        if size < 2:
            return "fault", "short ACT_POWER_MODE"
        return "ACT", f"ACT_POWER_MODE {POWER_MODES.get(lpdu[1], f'{lpdu[1]:02X}')}{again}"
    return "fault", f"unknown {first:02X}"


def packet(lpdu):
    """(pipe, last, data) of the packet in an I frame."""
    return lpdu[1] & 0x7F, bool(lpdu[1] & 0x80), bytes(lpdu[2:])


def _shown(data):
    text = data.hex().upper()
    return text if len(text) <= 24 else f"{text[:16]}… ({len(data)} bytes)"


def _pipe_row(row):
    return f"host {row[0]:02X} gate {row[1]:02X} → host {row[2]:02X} gate {row[3]:02X}"


def _command(code, rest, gate):
    """(name, what of the body isn't said by it) of a command."""
    name = COMMANDS.get(code, f"command {code:02X}")
    if code in (0x01, 0x02) and rest:
        return f"{name} {PARAMETERS.get((gate, rest[0]), f'{rest[0]:02X}')}", rest[1:]
    if code == 0x10 and len(rest) == 3:
        return f"{name} gate {rest[0]:02X} → host {rest[1]:02X} gate {rest[2]:02X}", b""
    if code == 0x12 and len(rest) == 5:
        return f"{name} {rest[4]:02X}: {_pipe_row(rest)}", b""
    if code in (0x11, 0x13) and len(rest) == 1:
        return f"{name} {rest[0]:02X}", b""
    if code == 0x15 and len(rest) == 1:
        return f"{name} of host {rest[0]:02X}", b""
    return name, rest


def message(pipe, body, gate=None):
    """A message in the standard's words. `gate` is the gate behind the pipe where it is known; of the pipes 00 and 01 it always is."""
    if not body:
        return "(empty)"
    gate = STATIC_PIPES.get(pipe, gate)
    kind, code, rest = body[0] >> 6, body[0] & 63, bytes(body[1:])
    if kind == 0:
        name, rest = _command(code, rest, gate)
    elif kind == 1:
        name = "EVT_POST_DATA" if code == 2 and gate == LOOPBACK else f"event {code:02X}"
    elif kind == 2:
        name = RESPONSES.get(code, f"response {code:02X}")
        if pipe == 1 and code == 0 and len(rest) == 5:
            name, rest = f"{name} pipe {rest[4]:02X}: {_pipe_row(rest)}", b""
    else:
        name = f"reserved type {code:02X}"
    return f"{name} {_shown(rest)}" if rest else name


def describe(lpdu, gate=None):
    """One line for a frame: its LPDU, and of an I frame its packet; a message of one short packet in the standard's words."""
    kind, text = control(lpdu)
    if kind != "I":
        return text
    pipe, last, data = packet(lpdu)
    if pipe >= 0x70:
        return f"{text} reserved pipe {pipe:02X}"
    if last and data and len(data) <= 9 and data[0] >> 6 < 3:
        return f"{text} pipe {pipe:02X} {message(pipe, data, gate)}"
    digits = data.hex().upper()
    shown = digits if len(digits) <= 16 else digits[:12] + "…"
    return f"{text} pipe {pipe:02X} {'last' if last else 'more'} {shown} ({len(data)} bytes)".replace("  ", " ")


class Pipes:
    """Which gates stand at the two ends of each dynamic pipe, learnt from the entries `command` of a transcript."""

    def __init__(self):
        self.ends = {}  # pipe: {host: gate}

    def learn(self, words):
        """Takes the words of an entry: `command NODE create PID HOST GATE HOST GATE` makes a pipe known, `delete` forgets it."""
        if words[0] != "command":
            return
        if words[2] == "create":
            pid, host, gate, other, other_gate = (int(word, 16) for word in words[3:8])
            self.ends[pid] = {host: gate, other: other_gate}
        elif words[2] == "delete":
            self.ends.pop(int(words[3], 16), None)
        elif words[2] == "clear":
            host = int(words[3], 16)
            self.ends = {pid: ends for pid, ends in self.ends.items() if host not in ends}

    def gate(self, pipe, receiver=None):
        """The gate behind a pipe: that of this receiving host; without one LOOPBACK where either end is it, else the destination's."""
        if pipe in STATIC_PIPES:
            return STATIC_PIPES[pipe]
        ends = self.ends.get(pipe, {})
        if LOOPBACK in ends.values():
            return LOOPBACK
        return ends.get(receiver, list(ends.values())[-1] if ends and receiver is None else None)

    def message(self, pipe, body, receiver=None):
        return message(pipe, body, self.gate(pipe, receiver))

    def describe(self, lpdu, receiver=None):
        return describe(lpdu, self.gate(lpdu[1] & 0x7F, receiver) if is_i_frame(lpdu) else None)


# ---- transcripts ------------------------------------------------------------------------------------------------------------


class Frame:
    """A frame of a transcript, and what became of it."""

    def __init__(self, number, sender, lpdu, row, tick):
        self.number, self.sender, self.lpdu = number, sender, lpdu  # sender is an end, as 02c
        self.to = sender[:2] + ("h" if sender[2] == "c" else "c")
        self.emit, self.tick = row, tick  # the row of its `emit`, and the tick there
        self.end, self.end_tick = None, None  # the row where it left the wire
        self.fate, self.cause = "on its way", ""  # or took; lost with the cause of the entry; gone with `activation` or `cut`

    @property
    def link(self):
        return self.sender[:2]

    @property
    def wire(self):
        return CLF if self.sender[2] == "c" else UICC

    def leaves(self, row, tick, fate, cause=""):
        self.end, self.end_tick, self.fate, self.cause = row, tick, fate, cause


class Step(NamedTuple):
    """A line of a transcript. kind is `line` for a line of its schedule, else the first word of the entry; words are those of either."""

    row: int  # its number from 0
    line: int  # the number of the last line of the schedule that is repeated, from 1
    tick: int  # how many ticks passed before it, as far as the text tells
    kind: str
    words: list
    text: str
    frame: object  # of `emit`, `took` and `lost`


class Transcript:
    """A transcript of `swp replay`: steps, frames, hosts (as 02), hci, and done (None where its last line is missing)."""

    def __init__(self, file):
        self.steps, self.frames, self.hosts, self.hci, self.done = [], [], [], False, None
        self._wires, self._tick, self._line, self._activation = {}, 0, 0, None
        for number, raw in enumerate(file, 1):
            try:
                self._take(raw.rstrip("\r\n"))
            except (IndexError, ValueError):
                raise Refused(f"line {number}: {raw.strip()[:60]!r} is no line of a transcript") from None
            except Refused as fault:
                raise Refused(f"line {number}: {fault}") from None

    def _take(self, text):
        if not self._line and not text.startswith("> swp "):
            raise ValueError
        words = text.split()
        if words[0] == ">":
            self._finish_activation(refused=False)
            self._add("line", words[1:], text, None, line=True)
        else:
            self._finish_activation(refused=words[0] == "no")
            self._entry(words, text)

    def _add(self, kind, words, text, frame, line=False):
        row = len(self.steps)
        if line:
            self._line += 1
            self._schedule_line(words)
        self.steps.append(Step(row, self._line, self._tick, kind, words, text, frame))

    def _schedule_line(self, words):
        if words[0] == "swp":
            self.hci, self.hosts = words[2] == "hci", words[3:]
        elif words[0] == "tick":
            self._tick += int(words[1]) if len(words) > 1 else 1
        elif words[0] == "activate":
            self._activation = words[1]

    def _entry(self, words, text):
        kind, row, frame = words[0], len(self.steps), None
        if kind == "emit":
            frame = Frame(len(self.frames) + 1, words[1], bytes.fromhex(words[2]), row, self._tick)
            self.frames.append(frame)
            self._wires.setdefault(frame.to, []).append(frame)
        elif kind in ("took", "lost"):
            frame = self._first_on_wire(words, text)
            frame.leaves(row, self._tick, kind, words[3] if kind == "lost" else "")
        elif kind == "cut":
            self._empty(None if words[1] == "00" else words[1], "cut")
        elif kind == "settled":
            self._tick += int(words[1])
        elif kind == "done":
            self.done = int(words[1])
        self._add(kind, words, text, frame)

    def _first_on_wire(self, words, text):
        wire = self._wires.get(words[1], [])
        if not wire or wire[0].lpdu != bytes.fromhex(words[2]):
            raise Refused(f"{text[:60]}: no such frame stands first on that wire")
        return wire.pop(0)

    def _finish_activation(self, refused):
        """An activation that isn't refused empties both wires of its link, without an entry."""
        link, self._activation = self._activation, None
        if link and not refused:
            self._empty(link, "activation")

    def _empty(self, link, cause):
        for to, wire in self._wires.items():
            if link is None or to[:2] == link:
                for frame in wire:
                    frame.leaves(len(self.steps), self._tick, "gone", cause)
                wire.clear()
