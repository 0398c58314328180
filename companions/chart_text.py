"""Draws a chart as plain text for a terminal."""

from bisect import bisect_right

from swp_formats import Refused

LINES = {"up": "║", "wait": "┆", "down": "│", "off": "·"}
NOTES_ROOM, SHORTEST, LONGEST, BETWEEN = 20, 24, 52, 4  # columns: beside the last lifeline, of a lane, between ends of the controller
USUAL = 100  # columns of a chart that fits into them


class Plain:
    """A chart as text, at most `width` columns wide; without a width USUAL, or as many as its lifelines want."""

    def __init__(self, chart, width=None):
        self.chart = chart
        links = len(chart.hosts)
        rest = 2 + BETWEEN * (links - 1) + NOTES_ROOM
        least = 17 + rest + SHORTEST * links
        if width is not None and width < least:
            raise Refused(f"a chart of {links} link{'s' if links > 1 else ''} wants a width of {least} columns at least")
        self.width = width or max(USUAL, least)
        longest = max((len(self._words(band)) for band in chart.bands), default=0)
        self.gutter = max(17, min(31, 7 + longest, self.width - rest - SHORTEST * links))
        self._place(min(LONGEST, (self.width - rest - self.gutter) // links))
        self.states = {end: chart.states(end) for end in self.x}

    def _place(self, lane):
        self.x, at = {}, self.gutter + 2
        for host in self.chart.left:
            self.x[host + "h"] = at
            at += lane
        for index, host in enumerate(self.chart.hosts):
            self.x[host + "c"] = at + BETWEEN * index
        at = max(self.x.values())
        for host in self.chart.right:
            at += lane
            self.x[host + "h"] = at

    def draw(self):
        lines = self._heads()
        for band in self.chart.bands:
            rows = [self._row(row) for row in band.rows] or [self._lifelines(band.at)]
            if band.rows and band.rows[0].kind == "remark":
                rows.insert(0, self._lifelines(band.at))
            self._put(rows[0], 0, self._title(band))
            lines += ["".join(row).rstrip() for row in rows]
        return "\n".join(lines) + "\n"

    @staticmethod
    def _words(band):
        return band.title() + (f" t={band.time}" if band.time is not None else "")

    def _title(self, band):
        words, room = self._words(band), self.gutter - 6
        return f"{band.number or '':>4} {words if len(words) <= room else words[: room - 1] + '…'}"

    def _heads(self):
        nodes, ends = [" "] * self.width, [" "] * self.width
        middle = [self.x[host + "c"] for host in self.chart.hosts]
        hci = self.chart.transcript.hci
        self._put(nodes, (min(middle) + max(middle)) // 2 - 5, "controller" if hci else "   CLF")
        for host in self.chart.hosts:
            self._put(nodes, self.x[host + "h"] - 3, f"host {host}" if hci else " UICC")
        for end, x in self.x.items():
            self._put(ends, x - 1, end)
        return ["".join(nodes).rstrip(), "".join(ends).rstrip()]

    def _lifelines(self, at):
        row = [" "] * self.width
        for end, x in self.x.items():
            changes = self.states[end]
            row[x] = LINES[changes[bisect_right([place for place, _ in changes], at) - 1][1]]
        return row

    def _put(self, row, at, text):
        """Writes a text into a row, cut at the row's end."""
        if at + len(text) > self.width:
            text = text[: self.width - at - 1] + "…"
        row[at : at + len(text)] = text

    def _row(self, row):
        line = self._lifelines(row.at)
        if row.kind == "remark":
            self._put(line, 5, row.text)
        elif row.kind == "note":
            self._note(line, row)
        else:
            self._frame(line, row)
        return line

    def _note(self, line, row):
        controller = row.where == "00" or row.where.endswith("c")
        if controller:
            x = max(self.x[host + "c"] for host in self.chart.hosts)
            name = f"{row.where[:2]}: " if len(self.chart.hosts) > 1 and row.where != "00" else ""
        else:
            x, name = self.x[row.where[:2] + "h"], ""
        self._put(line, x + 2, f"{row.mark} {name}{row.text}")

    def _frame(self, line, row):
        frame = row.frames[0]
        low, high = sorted((self.x[frame.sender], self.x[frame.to]))
        right = self.x[frame.to] > self.x[frame.sender]
        numbers = " ".join(str(f.number) for f in row.frames[:6]) + (" .." if len(row.frames) > 6 else "")
        if row.kind == "emit":
            self._emit(line, low, high, right, f" {numbers}: {row.text} ")
            return
        if row.kind == "took":
            mark = "●" if row.delivered else "─"
            text = f"╌╌ {numbers} ─{mark}▶" if right else f"◀{mark}─ {numbers} ╌╌"
            self._put(line, high - len(text) if right else low + 1, text)
            return
        mark = "○" if row.kind == "on-way" else "✕"
        text = f"╌╌ {numbers} {mark} {row.text}" if right else f"{row.text} {mark} {numbers} ╌╌"
        self._put(line, max(low + 1, (low + high - len(text)) // 2), text[: high - low - 1])

    def _emit(self, line, low, high, right, text):
        """A line from the sender to the other end, with ╌ before that; lifelines between are crossed."""
        crossed = set(self.x.values())
        for at in range(low + 1, high):
            line[at] = "┼" if at in crossed else "─"
        line[high - 1 if right else low + 1] = "╌"
        room = high - low - 7
        text = text if len(text) <= room else text[: room - 2] + "… "
        self._put(line, low + 3 if right else high - 2 - len(text), text)
