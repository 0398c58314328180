"""Drives `swp replay` from Python, line by line: a line is played, and its entries are read, before the next one is chosen.

    from swpbench import Replay

    with Replay("bare", "02") as replay:
        replay("send 02h 01 03")
        assert replay("deliver 02c").got == [("02c", 0, 0x01, bytes.fromhex("03"))]

Where the entries of a line end is told by a second line behind each, `damage E 399`: no frame has a bit at that place, so it is always refused (`no off`,
`no empty` or `no beyond N`) and changes nothing. There is no waiting and no timeout. As a schedule has at most 20,000 lines, a run has at most 9,999 lines
of its own, the header counted. `schedule` keeps them, without those between, to be played again by `swp replay`."""

import os
import subprocess


class Ended(Exception):
    """The program ended: its exit status and the text on its standard error."""

    def __init__(self, status, text):
        super().__init__(f"{text} (exit status {status})")
        self.status, self.text = status, text


class Entries(list):
    """The entries of a line, each a list of its words."""

    def of(self, kind):
        """The words behind this one of all entries that begin with it."""
        return [entry[1:] for entry in self if entry[0] == kind]

    @property
    def got(self):
        """[(end, session, pipe, message)]"""
        return [(words[0], int(words[1]), int(words[2], 16), bytes.fromhex(words[3])) for words in self.of("got")]

    @property
    def emitted(self):
        """[(end, LPDU)]"""
        return [(words[0], bytes.fromhex(words[1])) for words in self.of("emit")]

    @property
    def refused(self):
        """The cause of `no`, or None."""
        return next((" ".join(words) for words in self.of("no")), None)


class Replay:
    """A running `swp replay`. `program` is its file; without it the variable SWP of the environment, or else `swp`."""

    def __init__(self, form, *hosts, program=None):
        words = [program or os.environ.get("SWP", "swp"), "replay"]
        self._process = subprocess.Popen(words, stdin=subprocess.PIPE, stdout=subprocess.PIPE, stderr=subprocess.PIPE)
        self._mark = f"damage {hosts[0]}c 399"
        self.schedule = []
        try:
            self.head = self(f"swp 1 {form} " + " ".join(hosts))
        except Ended:
            self.close()
            raise

    def __enter__(self):
        return self

    def __exit__(self, *_):
        self.close()

    def __call__(self, line):
        """Plays a line and gives its entries; Ended where the program ends instead."""
        try:
            self._process.stdin.write(f"{line}\n{self._mark}\n".encode())
            self._process.stdin.flush()
        except BrokenPipeError:
            pass  # what it said before it ended is read below
        entries = Entries()
        for raw in self._process.stdout:
            text = raw.decode().rstrip("\n")
            if text == "> " + self._mark:
                self._process.stdout.readline()  # its `no`
                self.schedule.append(line)
                return entries
            if not text.startswith("> "):
                entries.append(text.split())
        raise Ended(self._process.wait(), self._process.stderr.read().decode().strip())

    def close(self):
        """Ends the input, and waits until the program has ended."""
        try:
            self._process.stdin.close()
        except BrokenPipeError:
            pass
        self._process.stdout.read()
        self._process.wait()
        self._process.stdout.close()
        self._process.stderr.close()
