"""What a chart of a transcript shows, row by row. chart_svg and chart_text draw it.

A chart is a list of bands, one for each line of the schedule; a band has rows, and a row at most one text. So no two texts lie on one another."""

import re
from typing import NamedTuple

from swp_formats import PARAMETERS, Pipes, Refused, control, is_i_frame, message, ns_of, packet

DOWN = {"asked": "reset asked", "noanswer": "no answer", "peer": "reset by the peer", "act": "activation", "chain": "bad chain of packets"}
LOST = {"asked": "lost", "age": "lost: too old", "full": "lost: wire full", "none": "damaged: no frame"}
GONE = {"activation": "gone: activation", "cut": "gone with the power"}
REFUSED = {
    "off": "no power",
    "running": "it runs already",
    "inactive": "inactive",
    "not-up": "not up",
    "waiting": "it waits",
    "too-long": "too long",
    "empty": "no frame on the wire",
}


class Row(NamedTuple):
    """A row of a chart. kind is emit, took, lost, gone or on-way (frames has those meant), note (at an end or a node) or remark (of the whole)."""

    kind: str
    at: int  # the row of its step in the transcript
    text: str = ""
    tone: str = ""  # message, got, session, keep, warn, bad, soft
    mark: str = ""
    where: str = ""  # the end or node of a note
    frames: tuple = ()
    delivered: bool = False  # of took: the frame completed a message, and no row tells it


class Band:
    """What one line of the schedule caused."""

    def __init__(self, number, words, at, time=None):
        self.number, self.words, self.at, self.time, self.rows = number, words, at, time, []

    def title(self):
        return " ".join(self.words)


class Streams:
    """Which I frames go on with a message that an earlier one began: learnt from what each end emits."""

    def __init__(self):
        self.next, self.open, self.part = {}, {}, {}

    def begin(self, end):
        """A session begins at this end."""
        self.next[end], self.open[end] = 0, set()

    def goes_on(self, frame):
        """Whether the packet of this I frame, which is emitted now, goes on with a message."""
        end, number = frame.sender, ns_of(frame.lpdu)
        if number != self.next.get(end, 0):
            return self.part.get((end, number), False)  # sent again
        pipe, last, _ = packet(frame.lpdu)
        pipes = self.open.setdefault(end, set())
        on = pipe in pipes
        (pipes.discard if last else pipes.add)(pipe)
        self.next[end], self.part[end, number] = (number + 1) % 8, on
        return on


def counted(number, one, many=None):
    """A number and its noun."""
    return f"{number} {one if number == 1 else many or one + 's'}"


def short(text):
    """A text with `host 02 gate 41` as 02/41."""
    return re.sub(r"host (\w\w) gate (\w\w)", r"\1/\2", text)


def frame_label(frame, pipes, goes_on):
    """What stands on the arrow of a frame."""
    text = control(frame.lpdu)[1]
    if not is_i_frame(frame.lpdu):
        return text
    pipe, last, data = packet(frame.lpdu)
    head = f"{text} pipe {pipe:02X}"
    receiver = int(frame.to[:2], 16) if frame.to[2] == "h" else None
    gate = pipes.gate(pipe, receiver)
    if goes_on:
        return f"{head} {'last ' if last else ''}{len(data)} bytes{'' if last else ' more'}"
    if not data:
        return f"{head} {'(empty)' if last else 'header alone'}"
    if not last:
        return f"{head} {message(pipe, data[:1], gate)}, first {len(data)} bytes"
    return short(f"{head} {message(pipe, data, gate)}")


class View(NamedTuple):
    """What of a transcript is to be shown."""

    first: int = 1
    last: int = None  # without it to the end
    link: str = ""  # of this host alone


class Chart:
    """bands, the hosts left and right of the controller, the frames shown, and the states of each lifeline."""

    def __init__(self, transcript, view):
        self.transcript, self.view = transcript, view
        self.hosts = self._hosts()
        half = len(self.hosts) // 2
        self.left, self.right = self.hosts[:half], self.hosts[half:]
        self.bands, self.labels, self.frames = [], {}, []
        self.gone = {}  # by the row at which they went
        for frame in transcript.frames:
            if frame.fate == "gone":
                self.gone.setdefault(frame.end, []).append(frame)
        self._pipes, self._streams = Pipes(), Streams()
        self._blocks = self._split()
        self._range_of(view)
        self._fill()

    def _hosts(self):
        if not self.transcript.hosts:
            raise Refused("no header `> swp 1 ..`: this is no transcript")
        if self.view.link and self.view.link not in self.transcript.hosts:
            raise Refused(f"the header names no host {self.view.link}")
        return [host for host in self.transcript.hosts if self.view.link in ("", host)]

    def _split(self):
        blocks = []
        for step in self.transcript.steps:
            if step.kind == "line":
                blocks.append([step])
            elif step.kind != "done":
                blocks[-1].append(step)
        return blocks

    def _range_of(self, view):
        """Refuses lines that the transcript doesn't have."""
        for line in (view.first, view.last):
            if line is not None and not 1 <= line <= len(self._blocks):
                raise Refused(f"line {line}: the transcript has the lines 1 to {len(self._blocks)} of a schedule")
        if view.last is not None and view.first > view.last:
            raise Refused(f"line {view.first} stands behind line {view.last}")

    def _fill(self):
        last = self.view.last or len(self._blocks)
        for number, block in enumerate(self._blocks, 1):
            if number == self.view.first and number > 1:
                self._before(block[0].row)
            band = Band(number, block[0].words, block[0].row, self._time(block))
            band.rows = Rows(self, block).rows
            if self.view.first <= number <= last and not self._of_others(band):
                self.bands.append(band)
        self.begin, self.end = self._blocks[self.view.first - 1][0].row, self._blocks[last - 1][-1].row
        self.frames = [frame for frame in self.transcript.frames if self._shown(frame)]
        self._after(last)

    def _time(self, block):
        words = block[0].words
        return block[-1].tick if words[0] in ("tick", "settle") else None

    def _of_others(self, band):
        """A line that speaks of another link or host and shows nothing here."""
        words = band.words
        named = words[1] if len(words) > 1 and words[0] not in ("swp", "tick", "settle") else ""
        return bool(self.view.link and not band.rows and named and not self.has(named))

    def has(self, where):
        """Whether an end or node stands in the chart."""
        return where[:2] in self.hosts or where == "00"

    def _shown(self, frame):
        return frame.link in self.hosts and frame.emit <= self.end and (frame.end is None or frame.end >= self.begin)

    def _before(self, row):
        """A first band with the frames that are on their way as the chart begins."""
        waiting = [f for f in self.transcript.frames if f.link in self.hosts and f.emit < row and (f.end is None or f.end >= row)]
        if waiting:
            band = Band(None, ["on", "the", "way", "before"], row - 1)
            band.rows = [Row("emit", row - 1, self.labels[frame], frames=(frame,)) for frame in waiting]
            self.bands.append(band)

    def _after(self, last):
        """A last band with the frames that are still on their way, a row for each wire."""
        wires = {}
        for frame in self.frames:
            if frame.end is None or frame.end > self.end:
                wires.setdefault(frame.to, []).append(frame)
        if wires:
            band = Band(None, ["at", "the", "end"] if last == len(self._blocks) else ["after", "line", str(last)], self.end + 1)
            for frames in wires.values():
                text = counted(len(frames), "frame") + (" on its way" if len(frames) == 1 else " on their way")
                band.rows.append(Row("on-way", self.end + 1, text, "soft", frames=tuple(frames)))
            self.bands.append(band)

    # what Rows asks for

    def label(self, frame):
        goes_on = is_i_frame(frame.lpdu) and self._streams.goes_on(frame)
        self.labels[frame] = frame_label(frame, self._pipes, goes_on)
        return self.labels[frame]

    def message(self, end, pipe, digits):
        receiver = int(end[:2], 16)
        return short(self._pipes.message(int(pipe, 16), bytes.fromhex(digits), receiver))

    def learn(self, step):
        self._pipes.learn(step.words)
        if step.kind == "up":
            self._streams.begin(step.words[1])

    # lifelines

    def states(self, end):
        """[(row, state)] of an end: up, wait (for UA), down or off, from the beginning of the transcript."""
        node = "00" if end[2] == "c" else end[:2]
        state = "off" if self.transcript.hci else "up"
        changes = [(-1, state)]
        for block in self._blocks:
            for step in block:
                new = self._state_behind(step, block, end, node, state)
                if new != state:
                    state = new
                    changes.append((step.row, state))
        return changes

    def _state_behind(self, step, block, end, node, state):
        words = step.words
        if step.kind in ("booted", "cut") and words[1] == node:
            return "down" if step.kind == "booted" else "off"
        if step.kind == "line" and words[0] == "activate" and words[1] == end[:2]:
            refused = len(block) > 1 and block[1].kind == "no"
            return state if refused or state == "off" else "down"
        if len(words) < 2 or words[1] != end:
            return state
        if step.kind == "up":
            return "up"
        if step.kind in ("down", "gaveup"):
            return "down"
        return "wait" if step.kind == "emit" and step.frame.lpdu[0] == 0xF9 else state


class Rows:
    """The rows of one block of steps: a line and its entries."""

    def __init__(self, chart, block):
        self.chart, self.block, self.rows = chart, block, []
        self.claimed = set()  # emits that tell a `sent`
        for index, step in enumerate(block):
            self._gone(step)
            chart.learn(step)
            if step.kind != "line":
                self._entry(index, step)

    def _gone(self, step):
        wires = {}
        for frame in self.chart.gone.get(step.row, ()):
            if self.chart.has(frame.to):
                wires.setdefault(frame.to, []).append(frame)
        for frames in wires.values():
            text = GONE[frames[0].cause] if len(frames) == 1 else f"{len(frames)} {GONE[frames[0].cause]}"
            self.rows.append(Row("gone", step.row, text, "bad", frames=tuple(frames)))

    def _entry(self, index, step):
        if step.kind == "emit":
            text = self.chart.label(step.frame)
            if self.chart.has(step.words[1]):
                self.rows.append(Row("emit", step.row, text, frames=(step.frame,)))
        elif step.kind in ("took", "lost"):
            if self.chart.has(step.words[1]):
                self._arrival(index, step)
        elif step.kind == "no":
            self._refusal(step)
        elif step.kind == "settled":
            self.rows.append(Row("remark", step.row, f"settled: {counted(int(step.words[1]), 'round')}", "got"))
        elif not self._told_by_frames(index, step):
            self._note(step)

    def _arrival(self, index, step):
        if step.kind == "lost":
            text = LOST.get(step.words[3], f"damaged: {step.words[3]}")
            self.rows.append(Row("lost", step.row, text, "bad", frames=(step.frame,)))
            return
        got = next((s for s in self._behind(index) if s.kind == "got" and s.words[1] == step.words[1]), None)
        self.rows.append(Row("took", step.row, frames=(step.frame,), delivered=got is not None and self._is_whole(step.frame, got)))

    def _behind(self, index):
        """The entries behind a `took` up to the next one."""
        for step in self.block[index + 1 :]:
            if step.kind in ("took", "lost"):
                return
            yield step

    @staticmethod
    def _is_whole(frame, step):
        """Whether the frame carries the whole message of an entry `sent` or `got`."""
        return is_i_frame(frame.lpdu) and frame.lpdu[1:] == bytes([0x80 | int(step.words[3], 16)]) + bytes.fromhex(step.words[4])

    def _told_by_frames(self, index, step):
        """An entry of a message that an arrow of the same line tells already."""
        if step.kind == "sent":
            for other in self.block[index + 1 : index + 65]:
                if other.kind == "emit" and other.row not in self.claimed and other.words[1] == step.words[1]:
                    if self._is_whole(other.frame, step):
                        self.claimed.add(other.row)
                        return True
        elif step.kind == "got":
            before = next((self.block[at] for at in range(index - 1, 0, -1) if self.block[at].kind == "took"), None)
            return before is not None and before.words[1] == step.words[1] and self._is_whole(before.frame, step)
        elif step.kind == "turn":  # what follows tells it, unless the message came with an earlier line
            before = self.block[max(0, index - 64) : index]
            return any(s.kind == "got" and s.words[1] == step.words[1] and s.words[3:] == step.words[2:] for s in before)
        return False

    def _refusal(self, step):
        words, line = step.words[1:], self.block[0].words
        text = REFUSED.get(words[0], " ".join(words))
        if words[0] == "full":
            text = f"needs {counted(int(words[1]), 'block')}, {words[2]} spare"
        elif words[0] == "beyond":
            text = f"the frame has {words[1]} bits"
        where = line[1] if len(line) > 1 and line[0] not in ("tick", "settle") else "00"
        if self.chart.has(where):
            self.rows.append(Row("note", step.row, f"refused: {text}", "bad", "✕", where))

    def _note(self, step):
        if step.kind in TABLES:
            self._table_row(step)
            return
        note = NOTES.get(step.kind)
        if note is None:
            self.rows.append(Row("remark", step.row, step.text, "soft"))
            return
        where, mark, tone, text = note(self.chart, step.words)
        if self.chart.has(where):
            self.rows.append(Row("note", step.row, text, tone, mark, where))


    def _table_row(self, step):
        """A row of the tables of the node that the line names."""
        node = self.block[0].words[1]
        if self.chart.has(node):
            self.rows.append(Row("note", step.row, TABLES[step.kind](step.words[1:]), "soft", "·", node))


# ---- the texts of notes: (where, mark, tone, text) of the words of an entry -------------------------------------------------


def _message_note(chart, words):
    verb, mark, tone = {"sent": ("sends", "○", "message"), "got": ("got", "●", "got")}[words[0]]
    size = len(words[4]) // 2
    text = chart.message(words[1], words[3], words[4])
    many = f" ({size} bytes)" if size > 20 and not text.endswith("bytes)") else ""
    return words[1], mark, tone, f"{verb} on pipe {words[3]}: {text}{many}"


def _command_text(words):
    """What a node keeps, of the words behind `command NODE`."""
    kind = words[0]
    if kind == "create":
        return f"pipe {words[1]} made, {words[2]}/{words[3]} → {words[4]}/{words[5]}"
    if kind == "delete":
        return f"pipe {words[1]} deleted"
    if kind == "clear":
        return f"pipes of host {words[1]} cleared"
    if kind == "opened":
        return f"pipe {words[2]} of host {words[1]} {'opened' if words[3] == '01' else 'closed'}"
    if kind == "set":
        return f"{_parameter(words[2], words[3])} of {words[1]} = {words[4]}"
    return f"identifier of host {words[1]} = {words[2]}"


TABLES = {
    "pipe": lambda w: f"pipe {w[0]}: {w[1]}/{w[2]} → {w[3]}/{w[4]} {w[5]}",
    "static": lambda w: f"host {w[0]}: pipe {w[1]} opened",
    "reg": lambda w: f"{_parameter(w[1], w[2])} of {w[0]} = {w[3]}",
    "sync": lambda w: f"identifier of host {w[0]} = {w[1]}",
}


def _parameter(gate, number):
    return PARAMETERS.get((int(gate, 16), int(number, 16)), f"parameter {number}")


def _tables_note(chart, words):
    names = ("pipe", "static pipe", "parameter", "identifier")
    parts = [counted(int(word), name) for word, name in zip(words[2:], names) if word != "0"]
    return words[1], "▦", "keep", "tables: " + (", ".join(parts) or "empty")


def _init_note(chart, words):
    if words[2] == "failed":
        return words[1], "★", "bad", f"init: failed, response {words[3]}"
    text = "the same session" if words[2] == "same" else f"{counted(int(words[3]), 'pipe')} made"
    return words[1], "★", "keep", f"init: {text}"


NOTES = {
    "sent": _message_note,
    "got": _message_note,
    "turn": lambda chart, w: (w[1], "▸", "soft", f"handles on pipe {w[2]}: {chart.message(w[1], w[2], w[3])}"),
    "acked": lambda chart, w: (w[1], "✓", "soft", f"{w[3]} acknowledged"),
    "up": lambda chart, w: (w[1], "▲", "session", f"session {w[2]} up"),
    "down": lambda chart, w: (w[1], "▼", "warn", f"session ends: {DOWN.get(w[2], w[2])}"),
    "active": lambda chart, w: (w[1], "◆", "keep", "active"),
    "gaveup": lambda chart, w: (w[1], "✕", "bad", f"gave up after {counted(int(w[2]), 'try', 'tries')}"),
    "held": lambda chart, w: (w[1], "‖", "warn", f"held: needs {counted(int(w[2]), 'block')}, {w[3]} spare"),
    "drop": lambda chart, w: (w[1], "–", "warn", f"message on pipe {w[2]} dropped"),
    "ask": lambda chart, w: (f"{w[1]}c", "?", "soft", f"asks host {w[1]}"),
    "command": lambda chart, w: (w[1], "▤", "keep", "keeps: " + _command_text(w[2:])),
    "ok": lambda chart, w: (w[1], "✓", "soft", f"ANY_OK for command {w[2]}"),
    "init": _init_note,
    "cut": lambda chart, w: (w[1], "✕", "bad", "power cut"),
    "booted": lambda chart, w: (w[1], "◉", "keep", f"boots, {counted(int(w[2]), 'command')} kept"),
    "tables": _tables_note,
}
