"""Draws a chart as SVG: no scripts, no files beside it."""

import html
import math
from bisect import bisect_right

from chart_rows import counted
from swp_formats import control

INK, SOFT, FAINT, PAPER, SHADE = "#1f2933", "#5a6977", "#d5dde5", "#ffffff", "#f4f7fa"
BAD, GOOD, WARN, KEEP = "#c62828", "#2e7d32", "#a35f00", "#00695c"
RESET = "#7b1fa2"
ARROWS = {"I": "#1565c0", "RR": "#56748c", "RNR": WARN, "REJ": WARN, "SREJ": WARN, "RSET": RESET, "UA": RESET, "ACT": KEEP, "CLT": "#8d6e63", "fault": BAD}
TONES = {"message": "#1565c0", "got": GOOD, "session": "#1565c0", "keep": KEEP, "warn": WARN, "bad": BAD, "soft": SOFT}
BOLD = ("session", "bad", "warn")
SANS = "'Helvetica Neue', Arial, 'DejaVu Sans', sans-serif"
MONO = "Menlo, Consolas, 'DejaVu Sans Mono', monospace"
STYLE = (
    f"text{{font-family:{SANS};font-size:11px}}.m{{font-family:{MONO};font-size:10.5px}}.b{{font-weight:600}}.g{{fill-opacity:.84}}"
    f".arrow,.stop{{fill:none;stroke-width:1.4}}.lost{{stroke-dasharray:5 4}}.up{{fill:#cfe3f7;stroke:#8db8e2}}"
    f".wait{{fill:{PAPER};stroke:#7b1fa2;stroke-dasharray:3 2}}.down{{stroke:#93a4b3;stroke-width:1.2}}"
    f".off{{stroke:#b4c0cb;stroke-dasharray:1 5;stroke-linecap:round}}"
)
TOP, GAP = 120, 8
HEIGHTS = {"emit": 20, "took": 14, "lost": 22, "gone": 22, "on-way": 22, "note": 18, "remark": 18}
LOW = 5  # how much lower the text of a frame's end stands in its row
NODE_NAMES = {"01": "terminal", "02": "UICC"}
TURN = 0.6  # how far a frame goes level, as a part of its lane, before it goes down


def escape(text):
    return html.escape(text, quote=True)


def width_of(text, size=11.0, bold=False):
    """About how many pixels a text is wide, in the widest of the fonts named."""
    total = 0.0
    for letter in text:
        if letter in "ijlI.,:;'|!()[]/ ft-·‖":
            total += 0.37
        elif letter in "mwMWOQGD…→=●◉":
            total += 0.84
        else:
            total += 0.69 if letter.isupper() else 0.62
    return total * size * (1.08 if bold else 1.0)


def fit(text, room, size=11.0, bold=False):
    """The text, cut with … where it is wider than `room` pixels."""
    if width_of(text, size, bold) <= room:
        return text
    while text and width_of(text + "…", size, bold) > room:
        text = text[:-1]
    return text.rstrip() + "…"


def clamp(low, value, high):
    return max(low, min(value, high))


class Layout:
    """Where the lifelines stand, and how wide a text may be beside each."""

    def __init__(self, chart):
        self.chart = chart
        titles = [len(band.title()) + (8 if band.time is not None else 0) for band in chart.bands]
        titles += [len(row.text) for band in chart.bands for row in band.rows if row.kind == "remark"]
        self.gutter = 46 + 6.4 * clamp(12, max(titles, default=12), 30)
        self.rooms = {side: self._room(side) for side in ("left", "right")}
        self.x, at = {}, self.gutter + self.rooms["left"]
        for host in chart.left:
            self.x[host + "h"] = at
            at += self._lane(host)
        for index, host in enumerate(chart.left + chart.right):
            self.x[host + "c"] = at + 26 * index
        at = max(self.x.values())
        for host in chart.right:
            at += self._lane(host)
            self.x[host + "h"] = at
        self.width = at + self.rooms["right"]

    def _room(self, side):
        """Of the notes that stand outside of all lifelines."""
        outer = self.outermost(side)
        rows = [row for band in self.chart.bands for row in band.rows if row.kind == "note" and self.side(row.where) == (outer, side)]
        notes = [width_of(row.text, bold=row.tone in BOLD) for row in rows]
        return clamp(84, max(notes, default=0) + 44, 290)

    def outermost(self, side):
        """The lifeline that stands first on this side: an end of a host or `00`."""
        hosts = self.chart.left if side == "left" else self.chart.right
        return "00" if not hosts else (hosts[0] if side == "left" else hosts[-1]) + "h"

    def side(self, where):
        """(lifeline, side of it) of a note."""
        controller = where == "00" or where.endswith("c")
        if not controller:
            return where[:2] + "h", "left" if where[:2] in self.chart.left else "right"
        if not self.chart.left:
            return "00", "left"
        return "00", "left" if where[:2] in self.chart.left else "right"

    def _lane(self, host):
        """How far a host stands from the next lifeline towards the controller."""
        hosts = self.chart.left if host in self.chart.left else self.chart.right
        inner = hosts[-1] if host in self.chart.left else hosts[0]
        side = "left" if host in self.chart.left else "right"
        wide = [0.0]
        for band in self.chart.bands:
            for row in band.rows:
                if row.kind == "emit":
                    sender = row.frames[0].sender
                    if sender == host + "h" or sender[2] == "c" and host == inner and sender[:2] in hosts:
                        wide.append((width_of(row.text, 10.5) + 22) / TURN)
                elif row.kind == "note" and host == inner and self.side(row.where) == ("00", side) and self.chart.left:
                    wide.append(width_of(row.text, bold=row.tone in BOLD) + 50)
        return clamp(300, max(wide), 400)


class Drawing:
    """A chart as SVG."""

    def __init__(self, chart, title):
        self.chart, self.title, self.layout, self.out = chart, title, Layout(chart), []
        self.x = self.layout.x
        self.tops, self.grounds = {}, {}  # of rows and bands: their y; of rows: the colour behind them
        self.places = []  # (row of the transcript, y), ascending
        self.states = set()  # of the lifelines drawn
        self.bottom = self._place_rows()
        self.arrived, self.left = {}, {}
        for band in chart.bands:
            for row in band.rows:
                for index, frame in enumerate(reversed(row.frames)):  # the oldest ends farthest
                    (self.left if row.kind == "emit" else self.arrived)[frame] = (row, index)
        self.height = self.bottom + 84

    def _place_rows(self):
        y = TOP
        for index, band in enumerate(self.chart.bands):
            y += GAP
            self.tops[id(band)] = y
            self.places.append((band.at, y + 4))
            start = y
            for row in band.rows:
                if row.kind == "remark" and y == start:
                    y += 18
                self.tops[id(row)] = y
                self.grounds[id(row)] = SHADE if index % 2 == 0 else PAPER
                self.places.append((row.at, y + 8))
                y += HEIGHTS[row.kind]
            y = max(y, start + 20)
        return y + 6

    def y_of(self, row):
        """The height of a row of the transcript: that of the last one shown at or before it."""
        at = bisect_right(self.places, (row, math.inf)) - 1
        return self.places[at][1] if at >= 0 else TOP - 8

    def draw(self):
        self._title()
        self._bands()
        for end in self.x:
            self._lifeline(end)
        for frame in self.chart.frames:
            self._arrow(frame)
        for band in self.chart.bands:
            for row in band.rows:
                self._text_of(row)
        self._heads()
        self._legend()
        width, height = math.ceil(self.layout.width), math.ceil(self.height)
        return (
            f'<svg xmlns="http://www.w3.org/2000/svg" width="{width}" height="{height}" viewBox="0 0 {width} {height}" role="img">\n'
            f'<title>{escape(self.title)}</title><style>{STYLE}</style><rect width="100%" height="100%" fill="{PAPER}"/>\n' + "\n".join(self.out) + "\n</svg>\n"
        )

    def put(self, text):
        self.out.append(text)

    def text(self, x, y, text, colour=INK, size=11.0, anchor="start", style=""):
        size_of = f' style="font-size:{size:g}px"' if size != 11.0 and "m" not in style.split() else ""
        where = "" if anchor == "start" else f' text-anchor="{anchor}"'
        classes = f' class="{style}"' if style else ""
        self.put(f'<text x="{x:.1f}" y="{y:.1f}" fill="{colour}"{where}{classes}{size_of}>{escape(text)}</text>')

    def on_ground(self, row, x, text, colour, size=11.0, anchor="start", bold=False, low=0):
        """A text of a row, on the colour of its band, so that no line runs through it."""
        y, wide = self.tops[id(row)] + low, width_of(text, size, bold) + 6
        left = x - 3 if anchor == "start" else x - wide + 3
        self.put(f'<rect class="g" x="{left:.1f}" y="{y:.1f}" width="{wide:.1f}" height="14" fill="{self.grounds[id(row)]}"/>')
        self.text(x, y + 10.5, text, colour, size, anchor, "b" if bold else "")

    # ---- the parts of the picture

    def _title(self):
        run = self.chart.transcript
        self.text(24, 34, self.title, INK, 17, style="b")
        lost = sum(frame.fate == "lost" for frame in self.chart.frames)
        what = "a controller and its hosts" if run.hci else "one bare link"
        self.text(24, 54, f"{what} · {counted(len(self.chart.frames), 'frame')}, {lost} lost · time runs down", SOFT)

    def _bands(self):
        ends = [self.tops[id(band)] - 4 for band in self.chart.bands[1:]] + [self.bottom - 2]
        for index, (band, end) in enumerate(zip(self.chart.bands, ends)):
            y = self.tops[id(band)]
            if index % 2 == 0:
                self.put(f'<rect x="0" y="{y - 4:.1f}" width="100%" height="{end - y + 4:.1f}" fill="{SHADE}"/>')
            if band.number is None:
                self.text(42, y + 11, band.title(), SOFT, 10.5)
                continue
            self.text(34, y + 11, str(band.number), "#8393a1", anchor="end", style="m")
            title = band.title() if len(band.title()) <= 30 else band.title()[:29] + "…"
            self.text(42, y + 11, title, SOFT, style="m")
            if band.time is not None:
                self.text(self.layout.gutter - 14, y + 11, f"t = {band.time}", SOFT, 10, "end")
                begin, end, level = f"{self.layout.gutter:.1f}", f"{self.layout.width:.0f}", f"{y - 4:.1f}"
                self.put(f'<line x1="{begin}" y1="{level}" x2="{end}" y2="{level}" stroke="#b4c0cb" stroke-dasharray="2 5"/>')

    def _lifeline(self, end):
        state, y = None, TOP - 8
        for row, new in self.chart.states(end):
            if row >= self.chart.begin and state is not None:
                if row > self.chart.end:
                    break
                self._life(self.x[end], y, self.y_of(row), state)
                y = self.y_of(row)
            state = new
        self._life(self.x[end], y, self.bottom, state)

    def _life(self, x, y, end, state):
        if end <= y:
            return
        self.states.add(state)
        if state in ("up", "wait"):
            self.put(f'<rect class="{state}" x="{x - 4:.1f}" y="{y:.1f}" width="8" height="{end - y:.1f}" rx="2"/>')
        else:
            self.put(f'<line class="{state}" x1="{x:.1f}" y1="{y:.1f}" x2="{x:.1f}" y2="{end:.1f}"/>')

    def _arrow(self, frame):
        """From its sender level, and then down to where it was taken or went."""
        start, (row, index) = self.left.get(frame), self.arrived[frame]
        way = 1 if self.x[frame.to] > self.x[frame.sender] else -1
        x0, x1 = self.x[frame.sender] + 5 * way, self.x[frame.to] - 5 * way
        turn = x0 + way * TURN * self._lane_at(frame)
        y0 = self.tops[id(start[0])] + 16 if start else TOP - 8
        y1 = self.tops[id(row)] + (7 if row.kind == "took" else 7 + LOW)
        if row.kind != "took":
            x1 = turn + way * min(0.2 * abs(x1 - turn) + 6 * index, 0.9 * abs(x1 - turn))
        colour = ARROWS[control(frame.lpdu)[0]] if row.kind in ("took", "on-way") else BAD
        tip = f"frame {frame.number}: {frame.lpdu.hex().upper()} · {self.chart.labels[frame]} · {frame.fate} {frame.cause}".rstrip()
        dashed = "" if row.kind == "took" else " lost"
        back = 7 if row.kind == "took" else 0
        angle = math.atan2(y1 - y0, x1 - turn)
        bend = min(8.0, abs(x1 - turn) / 3, abs(turn - x0) / 3)
        path = f"M{x0:.1f} {y0:.1f}H{turn - bend * way:.1f}Q{turn:.1f} {y0:.1f} {turn + bend * math.cos(angle):.1f} {y0 + bend * math.sin(angle):.1f}"
        path += f"L{x1 - back * math.cos(angle):.1f} {y1 - back * math.sin(angle):.1f}"
        self.put(f'<path class="arrow{dashed}" d="{path}" stroke="{colour}"><title>{escape(tip)}</title></path>')
        self.put(f'<circle cx="{x0:.1f}" cy="{y0:.1f}" r="2.2" fill="{colour}"/>')
        if row.kind == "took":
            self._head(x1, y1, angle, colour, row.delivered)
        else:
            self._stop(x1, y1, row.kind, colour)

    def _lane_at(self, frame):
        """How far the next lifeline stands from the sender of a frame, on its way."""
        here, there = self.x[frame.sender], self.x[frame.to]
        between = [abs(x - here) for x in self.x.values() if min(here, there) <= x <= max(here, there) and abs(x - here) > 120]
        return min(between)

    def _head(self, x, y, angle, colour, delivered):
        corners = [(x, y)] + [(x - 9 * math.cos(angle + side), y - 9 * math.sin(angle + side)) for side in (0.38, -0.38)]
        self.put('<path d="M' + "L".join(f"{a:.1f} {b:.1f}" for a, b in corners) + f'Z" fill="{colour}"/>')
        if delivered:
            self.put(f'<circle cx="{x:.1f}" cy="{y:.1f}" r="4" fill="{GOOD}" stroke="{PAPER}"><title>message delivered</title></circle>')

    def _stop(self, x, y, kind, colour):
        """What a frame that nobody took ends in."""
        if kind == "on-way":
            self.put(f'<circle cx="{x:.1f}" cy="{y:.1f}" r="3" fill="{PAPER}" stroke="{colour}"/>')
        else:
            self.put(f'<path class="stop" d="M{x - 4:.1f} {y - 4:.1f}l8 8m-8 0l8 -8" stroke="{BAD}" style="stroke-width:2.2px"/>')

    def _text_of(self, row):
        if row.kind == "emit":
            frame = row.frames[0]
            way = 1 if self.x[frame.to] > self.x[frame.sender] else -1
            x = self._outside(frame.sender, way) + 13 * way
            text = fit(row.text, self._lane_at(frame) - abs(x - self.x[frame.sender]) - 27, 10.5)
            self.on_ground(row, x, text, ARROWS[control(frame.lpdu)[0]], 10.5, "start" if way > 0 else "end")
        elif row.kind in ("lost", "gone", "on-way"):
            self._cause(row)
        elif row.kind == "note":
            self._note(row)
        elif row.kind == "remark":
            self.on_ground(row, 42, row.text, TONES[row.tone], 10.5)

    def _outside(self, end, way):
        """Of an end of the controller, the lifeline of the outermost one on this side."""
        if end[2] == "h":
            return self.x[end]
        xs = [self.x[host + "c"] for host in self.chart.hosts]
        return max(xs) if way > 0 else min(xs)

    def _cause(self, row):
        """Towards the sender from where its frames ended."""
        frame = row.frames[-1]
        way = 1 if self.x[frame.to] > self.x[frame.sender] else -1
        turn = self.x[frame.sender] + way * (5 + TURN * self._lane_at(frame))
        reach = abs(self.x[frame.to] - 5 * way - turn)
        x = turn + way * (0.2 * reach - 10)
        self.on_ground(row, x, row.text, TONES[row.tone], 10.5, "end" if way > 0 else "start", row.tone == "bad", LOW)

    def _note(self, row):
        """Beside the lifeline of an end or a node, on the side where no other one of it stands."""
        lifeline, side = self.layout.side(row.where)
        middle = [self.x[host + "c"] for host in self.chart.hosts]
        x = self.x[lifeline] if lifeline != "00" else min(middle) if side == "left" else max(middle)
        text = f"{row.where[:2]}: {row.text}" if lifeline == "00" and len(self.chart.hosts) > 1 and row.where != "00" else row.text
        bold, room = row.tone in BOLD, self._room_beside(lifeline, side)
        text = fit(text, room, bold=bold)
        if row.text == "power cut":
            low, high = (min(middle), max(middle)) if row.where == "00" else (x, x)
            self.put(f'<rect x="{low - 11:.1f}" y="{self.tops[id(row)] + 6:.1f}" width="{high - low + 22:.1f}" height="3" fill="{BAD}"/>')
        if side == "left":
            self.on_ground(row, x - 14, f"{text} {row.mark}", TONES[row.tone], anchor="end", bold=bold)
        else:
            self.on_ground(row, x + 14, f"{row.mark} {text}", TONES[row.tone], bold=bold)

    def _room_beside(self, lifeline, side):
        if self.layout.outermost(side) == lifeline:
            return self.layout.rooms[side] - 36
        xs = sorted(self.x.values())
        middle = [self.x[host + "c"] for host in self.chart.hosts]
        here = self.x[lifeline] if lifeline != "00" else min(middle) if side == "left" else max(middle)
        beside = [x for x in xs if x < here] if side == "left" else [x for x in xs if x > here]
        return abs(here - (beside[-1] if side == "left" else beside[0])) - 40

    def _heads(self):
        xs = [self.x[host + "c"] for host in self.chart.hosts]
        hci = self.chart.transcript.hci
        ends = " ".join(host + "c" for host in self.chart.left + self.chart.right)
        self._head_box(min(xs) - 58, max(xs) + 58, "controller 00" if hci else "CLF", ends)
        for host in self.chart.hosts:
            x, name = self.x[host + "h"], NODE_NAMES.get(host)
            below = f"{host}h" + (f" · {name}" if hci and name else "")
            self._head_box(x - 58, x + 58, f"host {host}" if hci else "UICC", below)

    def _head_box(self, low, high, name, below):
        self.put(f'<rect x="{low:.1f}" y="{TOP - 48}" width="{high - low:.1f}" height="36" rx="6" fill="{INK}"/>')
        self.text((low + high) / 2, TOP - 32, name, "#ffffff", 12, "middle", "b")
        self.text((low + high) / 2, TOP - 18, below, "#b8c6d3", anchor="middle", style="m")

    def _legend(self):
        """Of what this chart has."""
        y, x = self.height - 50, 42.0
        self.put(f'<line x1="24" y1="{y - 20:.1f}" x2="{self.layout.width - 24:.0f}" y2="{y - 20:.1f}" stroke="{FAINT}"/>')
        kinds = {control(frame.lpdu)[0] for frame in self.chart.frames}
        lines = [(name, ARROWS[name]) for name in ARROWS if name in kinds]
        if any(frame.fate in ("lost", "gone") for frame in self.chart.frames):
            lines.append(("lost or damaged", BAD))
        for name, colour in lines:
            name = {"I": "I frame", "ACT": "activation"}.get(name, name)
            self.put(f'<line x1="{x:.1f}" y1="{y:.1f}" x2="{x + 22:.1f}" y2="{y:.1f}" stroke="{colour}" stroke-width="2"/>')
            self.text(x + 28, y + 4, name, SOFT, 10)
            x += 46 + width_of(name, 10)
        x, y = 46.0, y + 22
        names = {"up": "session up", "wait": "waits for UA", "down": "no session", "off": "no power"}
        for state, name in [(state, name) for state, name in names.items() if state in self.states]:
            self._life(x, y - 9, y + 9, state)
            self.text(x + 12, y + 4, name, SOFT, 10)
            x += 34 + width_of(name, 10)
        if any(row.delivered for row, _ in self.arrived.values()):
            self.put(f'<circle cx="{x:.1f}" cy="{y:.1f}" r="4" fill="{GOOD}"/>')
            self.text(x + 9, y + 4, "message delivered", SOFT, 10)
