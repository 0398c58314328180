"""Tests for benches: swpbench, swp_test, follow, end_compare, lint_schedule, and the manual page and completion."""

import io
import re
import shutil
import subprocess
import tempfile
import unittest
from pathlib import Path

from support import COMPANIONS, EXAMPLES, ROOT, SAMPLES, SWP, companion, run, swp, transcripts

import swpbench
from swp_formats import CLF, OFF, UICC, Transcript, decode, frame_periods
from swpbench import Ended, Replay

swp_test, follow, end_compare = (companion(name) for name in ("swp_test", "follow", "end_compare"))
lint_schedule, transcript2rec = companion("lint_schedule"), companion("transcript2rec")
UNDETECTED = "damage_the_crc_does_not_show"  # a line of it ends the run


def schedules():
    return [path.with_suffix(".schedule") for path in transcripts()]


def blocks(transcript):
    """[(line, entries)], each as words, of a transcript."""
    found = []
    for line in transcript.splitlines():
        if line.startswith("> "):
            found.append((line[2:], []))
        elif not line.startswith("done "):
            found[-1][1].append(line.split())
    return found


def record_of(transcript, link):
    return bytes(transcript2rec.record_of(transcript, link, 2, False))


def recorded(lines):
    """The record of the link of a bare schedule."""
    return record_of(Transcript(io.StringIO(swp("replay", input=("swp 1 bare 02\n" + "\n".join(lines) + "\n").encode()).decode())), "02")


class LineByLine(unittest.TestCase):
    def test_every_example_says_the_same(self):
        for path in schedules():
            if path.stem == UNDETECTED:
                continue
            wanted = blocks(path.with_suffix(".transcript").read_text())
            head = wanted[0][0].split()
            with Replay(head[2], *head[3:], program=SWP) as replay:
                told = [(wanted[0][0], list(replay.head))] + [(line, list(replay(line))) for line, _ in wanted[1:]]
            self.assertEqual(told, wanted, path.stem)
            self.assertEqual(replay.schedule, [line for line, _ in wanted], path.stem)

    def test_entries_are_read(self):
        with Replay("bare", "02", program=SWP) as replay:
            self.assertEqual(replay.head.of("up"), [["02c", "0"], ["02h", "0"]])
            self.assertEqual(replay("send 02h 01 03").emitted, [("02h", bytes.fromhex("808103"))])
            self.assertEqual(replay("deliver 02c").got, [("02c", 0, 1, b"\x03")])
            self.assertIsNone(replay("deliver 02h").refused)
            self.assertEqual(replay("deliver 02h").refused, "empty")
            self.assertEqual(replay("damage 02h 399").refused, "empty")
            self.assertEqual(replay("# a comment"), [])

    def test_the_mark_is_refused_where_a_frame_stands_and_where_power_is_off(self):
        with Replay("hci", "01", "02", program=SWP) as replay:
            self.assertEqual(replay("boot 00").of("booted"), [["00", "0"]])
            self.assertEqual(replay("boot 01").of("booted"), [["01", "0"]])
            self.assertEqual(replay("activate 01 0001 01").emitted, [("01h", bytes.fromhex("610001"))])
            self.assertEqual(replay("deliver 01c").emitted, [("01c", bytes.fromhex("6201"))])

    def test_a_line_that_ends_the_run(self):
        with Replay("bare", "02", program=SWP) as replay:
            replay("send 02h 01 03")
            with self.assertRaises(Ended) as ended:
                replay("sned 02h 01 03")
            self.assertEqual((ended.exception.status, ended.exception.text), (3, "line 5: unknown word"))
        with self.assertRaises(Ended) as ended:
            Replay("bare", "08", program=SWP)
        self.assertEqual(ended.exception.status, 3)

    def test_as_many_lines_as_it_says(self):
        with Replay("bare", "02", program=SWP) as replay:
            for _ in range(9_998):
                replay("deliver 02c")
            self.assertEqual(len(replay.schedule), 9_999)
            replay("deliver 02c")
            with self.assertRaises(Ended) as ended:
                replay("deliver 02c")
            self.assertEqual(ended.exception.status, 9)


class SchedulesAsTests(unittest.TestCase):
    def setUp(self):
        folder = tempfile.TemporaryDirectory()
        self.addCleanup(folder.cleanup)
        self.folder = Path(folder.name)

    def failures(self, text, transcript=None):
        path = self.folder / "one.schedule"
        path.write_text(text)
        if transcript is not None:
            path.with_suffix(".transcript").write_text(transcript)
        test = swp_test.Test(path, SWP)
        test.judge()
        return [line.removeprefix(f"{path}:") for line in test.failures]

    def test_examples_pass(self):
        answer = run("swp_test", "--swp", SWP, *[path for path in schedules() if path.stem != UNDETECTED])
        lines = answer.stdout.decode().splitlines()
        self.assertEqual(answer.returncode, 0, answer.stdout)
        self.assertEqual(lines[0], f"1..{len(lines) - 1}")
        self.assertTrue(all(line.startswith(f"ok {number} - ") for number, line in enumerate(lines[1:], 1)))

    def test_expectations_that_hold(self):
        text = "swp 1 bare 02\n#= up 02c 0\n#= up 02h *\nsend 02h 01 03\n#= emit 02h 808103\n#! lost **\n"
        text += "\n# a comment\ndeliver 02c\n#= took **\n#= emit 02c c1\n"
        self.assertEqual(self.failures(text), [])

    def test_expectations_that_fail(self):
        send = "swp 1 bare 02\nsend 02h 01 03\n"
        there = "sent 02h 0 01 03 / emit 02h 808103"
        self.assertEqual(self.failures(send + "#= emit 02h 888103\n"), [f"3: no `emit 02h 888103` below the line above; there is: {there}"])
        self.assertEqual(self.failures(send + "#= emit **\n#= sent **\n"), ["4: no `sent **` below the line above; there is: nothing"])
        self.assertEqual(self.failures(send + "#! sent **\n"), ["3: `sent 02h 0 01 03` stands there"])
        self.assertEqual(self.failures(send + "#= emit 02h\n")[0][:20], "3: no `emit 02h` bel")
        self.assertEqual(self.failures(send + "#= emit 02h * *\n")[0][:24], "3: no `emit 02h * *` bel")

    def test_statuses(self):
        self.assertEqual(self.failures("swp 1 bare 02\nsend 02h 01 0\n#? 3\n"), [])
        self.assertEqual(self.failures("swp 1 bare 02\n#? 3\n"), ["exit status 0, want 3: "])
        self.assertEqual(self.failures("swp 1 bare 02\n#= up 02c 0\ntock\n"), ["exit status 3, want 0: line 3: unknown word"])
        self.assertEqual(self.failures("swp 1 bare 02\n#? 0\n#? 0\n"), ["more than one #?"])

    def test_a_test_that_expects_nothing_fails(self):
        self.assertEqual(self.failures("swp 1 bare 02\n"), ["nothing is expected: no transcript and no comment with #= #! or #?"])
        self.assertEqual(self.failures("swp 1 bare 02\n#=\n")[0], "2: #=: no expectation has this form here")
        self.assertEqual(self.failures("#= up 02c 0\nswp 1 bare 02\n#= up **\n"), ["1: #= up 02c 0: no expectation has this form here"])
        self.assertEqual(self.failures("swp 1 bare 02\n#? x\n")[0], "2: #? x: no expectation has this form here")

    def test_whole_transcripts(self):
        said = swp("replay", input=b"swp 1 bare 02\n").decode()
        self.assertEqual(self.failures("swp 1 bare 02\n", said), [])
        self.assertIn("-up 02h 1", self.failures("swp 1 bare 02\n", said.replace("02h 0", "02h 1")))
        many = self.failures("swp 1 bare 02\n", "> x\n" * 100)
        self.assertEqual((len(many), many[-1][-10:]), (swp_test.SHOWN + 1, "lines more"))

    def test_update_writes_transcripts_that_are_there(self):
        for name in ("kept", "none"):
            (self.folder / f"{name}.schedule").write_text("swp 1 bare 02\n#= up 02c 0\n")
        (self.folder / "kept.transcript").write_text("old\n")
        answer = run("swp_test", "--swp", SWP, "--update", self.folder)
        self.assertEqual(answer.returncode, 0, answer.stdout)
        self.assertEqual((self.folder / "kept.transcript").read_text(), "> swp 1 bare 02\nup 02c 0\nup 02h 0\ndone 2\n")
        self.assertFalse((self.folder / "none.transcript").exists())

    def test_tap_of_one_that_fails(self):
        (self.folder / "a.schedule").write_text("swp 1 bare 02\n#= up 02c 0\n")
        (self.folder / "b.schedule").write_text("swp 1 bare 02\n#= up 02c 1\n")
        answer = run("swp_test", "--swp", SWP, self.folder)
        lines = answer.stdout.decode().splitlines()
        self.assertEqual(answer.returncode, 1)
        self.assertEqual(lines[:3], ["1..2", f"ok 1 - {self.folder}/a.schedule", f"not ok 2 - {self.folder}/b.schedule"])
        self.assertEqual(lines[3][:3], "#  ")

    def test_refusals(self):
        answer = run("swp_test", self.folder)
        self.assertEqual((answer.returncode, answer.stderr), (1, b"swp_test: no file *.schedule there\n"))
        self.assertEqual(run("swp_test").returncode, 2)
        self.assertEqual(run("swp_test", self.folder / "nowhere.schedule").returncode, 1)


class Followed(unittest.TestCase):
    def walk(self, record, tries=300):
        return follow.search(follow.Capture(record), SWP, tries)

    def follows(self, record, name, tries=300):
        """The schedule of a record that is followed: it sends the frames of the record, on each side in order."""
        walk, stop = self.walk(record, tries)
        self.assertIsNone(stop, f"{name}: {stop}")
        transcript = Transcript(io.StringIO(swp("replay", input=walk.schedule().encode()).decode()))
        for wire in (CLF, UICC):
            told = [h.verdict for h in follow.Capture(record).frames if h.wire == wire]
            sent = [frame.lpdu for frame in transcript.frames if frame.wire == wire]
            self.assertEqual(sent[: len(told)], told, name)
        return walk.schedule()

    def test_every_link_of_every_example(self):
        """But those that lose their power: a bare link goes on to send."""
        followed = 0
        for path in transcripts():
            with path.open() as file:
                transcript = Transcript(file)
            cuts = {step.words[1] for step in transcript.steps if step.kind == "cut"}
            for link in transcript.hosts:
                if any(frame.link == link and frame.lpdu[0] >= 0x80 for frame in transcript.frames) and not cuts & {"00", link}:
                    self.follows(record_of(transcript, link), f"{path.stem} {link}")
                    followed += 1
        self.assertGreater(followed, 55)

    def test_what_is_written_is_a_test_that_passes(self):
        record = recorded(["send 02h 01 03", "send 02h 21 4201", "lose 02c", "deliver 02c", "deliver 02h", "deliver 02c", "deliver 02h"])
        with tempfile.TemporaryDirectory() as folder:
            path = Path(folder) / "followed.schedule"
            path.write_text(self.follows(record, "a loss"))
            test = swp_test.Test(path, SWP)
            test.judge()
            self.assertEqual(test.failures, [])
            self.assertEqual(path.read_text().count("#= emit "), len(follow.Capture(record).frames))

    def test_lost_acknowledgements(self):
        lost = recorded(["send 02h 01 03", "deliver 02c", "lose 02h", *["tick"] * 10, "deliver 02c", "deliver 02h", "send 02h 01 03", "deliver 02c"])
        self.assertIn("lose 02h", self.follows(lost, "one RR", tries=1))
        several = ["send 02h 01 03"] * 3 + ["deliver 02c"] + ["lose 02h"] * 3 + ["tick"] * 10 + ["deliver 02c", "deliver 02h"] * 2
        self.assertEqual(self.follows(recorded(several), "three RRs").count("lose 02h"), 3)

    def test_resets_that_cross_and_answers_that_are_lost(self):
        self.follows(recorded(["reset 02c", "reset 02h", "deliver 02c", "deliver 02h", "deliver 02c"]), "crossed", tries=1)
        unanswered = recorded(["reset 02c", "deliver 02h", "lose 02c", *["tick"] * 10, "deliver 02h", "deliver 02c", "send 02h 01 03", "deliver 02c"])
        self.assertIn("lose 02c", self.follows(unanswered, "a UA", tries=1))

    def test_a_busy_end(self):
        busy = ["busy 02c", "send 02h 01 03", "deliver 02c", "deliver 02h", "ready 02c", "deliver 02h", "deliver 02c", "deliver 02h"]
        schedule = self.follows(recorded(busy), "busy", tries=1)
        self.assertIn("busy 02c", schedule)
        self.assertIn("ready 02c", schedule)

    def test_a_refused_frame_is_lost(self):
        first, again = frame_periods(bytes.fromhex("808103"), UICC), frame_periods(bytes.fromhex("808103"), UICC)
        damaged = bytearray(first)
        damaged[14] ^= 0x80  # a bit of S2 turned over
        schedule = self.follows_sent(bytes(damaged) + again + frame_periods(b"\xc1", CLF))
        self.assertEqual(schedule, "swp 1 bare 02\nsend 02h 01 03\n#= emit 02h 808103\ndeliver 02c 1\n#= emit 02c C1\ndeliver 02h 1\n")

    def follows_sent(self, record):
        walk, stop = self.walk(record)
        self.assertIsNone(stop)
        return walk.schedule()

    def test_a_search_is_needed_and_bounded(self):
        with (EXAMPLES / "nodes/rec_error.transcript").open() as file:
            record = record_of(Transcript(file), "02")
        self.assertIsNotNone(self.walk(record, tries=1)[1])
        self.follows(record, "with a search", tries=300)

    def test_activation_is_passed_over(self):
        with (SAMPLES / "session.transcript").open() as file:
            record = record_of(Transcript(file), "02")
        answer = run("follow", "--swp", SWP, input=record)
        self.assertEqual((answer.returncode, answer.stderr), (0, b"follow: 25 frames followed, 3 of activation and tunnelling passed over\n"))

    def test_the_first_frame_that_our_end_would_not_send(self):
        record = frame_periods(bytes.fromhex("808103"), UICC) + frame_periods(b"\xc9", CLF)
        answer = run("follow", "--swp", SWP, "--tries", "40", input=record)
        self.assertEqual(answer.returncode, 1)
        self.assertEqual(answer.stderr.decode(), f"follow: place {len(record) - 40}: the CLF sent C9 REJ(1); our end would send C1 RR(1)\n")
        self.assertTrue(answer.stdout.startswith(b"swp 1 bare 02\nsend 02h 01 03\n#= emit 02h 808103\n"))

    def test_what_our_stack_refuses(self):
        record = frame_periods(bytes.fromhex("F90400"), CLF) * 2
        _, stop = self.walk(record + frame_periods(bytes.fromhex("808103"), CLF), tries=1)
        self.assertIn("our stack refuses `send 02c 01 03`: not-up", stop.why)

    def test_refusals(self):
        nothing = "no frame of a session stands in the record"
        for words, text in (([], nothing), (["--tries", "0"], "--tries is 1 or more"), (["nowhere"], "nowhere: No such file or directory")):
            answer = run("follow", "--swp", SWP, *words)
            self.assertEqual((answer.returncode, answer.stdout, answer.stderr.decode()), (1, b"", f"follow: {text}\n"))
        self.assertEqual(run("follow", "--tries", "x").returncode, 2)


class EndsCompared(unittest.TestCase):
    @classmethod
    def setUpClass(cls):
        with (EXAMPLES / "nodes/activation_and_first_pipe.transcript").open() as file:
            cls.record = record_of(Transcript(file), "02")

    def compare(self, role, record):
        answer = run("end_compare", "--swp", SWP, role, input=record)
        return answer.returncode, answer.stdout.decode().splitlines(), answer.stderr.decode()

    def test_our_controller_answers_as_it_did(self):
        status, lines, _ = self.compare("clf", self.record)
        self.assertEqual((status, lines[-1], len(lines)), (0, "the same 6 frames", 8))
        self.assertEqual(lines[2].split(), "155 F90400 RSET window 4 F90400 RSET window 4".split())

    def test_a_frame_that_differs(self):
        other = self.record.replace(frame_periods(b"\xc1", CLF), frame_periods(b"\xc9", CLF))
        status, lines, _ = self.compare("clf", other)
        self.assertEqual((status, lines[-1]), (1, "1 of 6 differ"))
        self.assertIn("315 | C9           REJ(1)", lines[3])

    def test_our_card_is_given_no_message(self):
        status, lines, _ = self.compare("uicc", self.record)
        self.assertEqual(status, 1)
        self.assertTrue(any(line[9] == "<" and "ANY_OPEN_PIPE" in line for line in lines[1:-1]))

    def test_refusals(self):
        self.assertEqual(self.compare("clf", b""), (1, [], "end_compare: no frame of the CLF stands in the record\n"))
        self.assertEqual(self.compare("card", b"")[0], 2)
        long = frame_periods(b"\xc1", CLF) + bytes([OFF]) * 16_777_216
        self.assertEqual(self.compare("clf", long)[2], "end_compare: too much input: a record has at most 16777216 bytes\n")

    def test_pairs(self):
        self.assertEqual(end_compare.pairs([b"a", b"b", b"c"], [b"a", b"x", b"c", b"d"]), [(" ", 0, 0), ("|", 1, 1), (" ", 2, 2), (">", None, 3)])
        self.assertEqual(end_compare.pairs([b"a", b"b"], [b"b"]), [("<", 0, None), (" ", 1, 0)])


BARE, HCI = "swp 1 bare 02\n", "swp 1 hci 02\n"
FAULTS = [  # schedule, line:column, fault, what is marked, a part of the hint
    (BARE + "send\t02h 01 03\n", "2:5", "unknown word", "→", "a tab is a letter of a word"),
    (BARE + "send 02h\t01 03\n", "2:9", "unknown word", "→", "a tab is a letter of a word"),
    ("\ufeff" + BARE, "1:1", "out of order", "?", "a byte order mark"),
    (BARE + "tick 5 # wait\n", "2:8", "unknown word", "# wait", "a comment stands on a line of its own"),
    (BARE + "Send 02h 01 03\n", "2:1", "unknown word", "Send", "small letters: `send`"),
    (BARE + "send 02H 01 03\n", "2:6", "unknown word", "02H", "as 02c: `02h`"),
    (BARE + "lose 2h\n", "2:6", "unknown word", "2h", "two digits and a small c or h"),
    ("> swp 1 bare 02\nup 02c 0\n", "1:1", "out of order", ">", "this is a transcript"),
    (BARE + "sned 02h 01 03\n", "2:1", "unknown word", "sned", "did you mean `send`?"),
    (BARE + "frobnicate\n", "2:1", "unknown word", "frobnicate", "a line begins with one of"),
    (BARE + "send 02h 01 0\n", "2:13", "bad hex in word 4", "0", "two hexadecimal digits each"),
    (BARE + "send 02h 1 03\n", "2:10", "bad hex in word 3", "1", "`send E PID HEX`"),
    (BARE + "tick 007\n", "2:6", "bad number in word 2", "007", "without sign or leading zero"),
    (BARE + "damage 02h 5 4\n", "2:14", "bad number in word 4", "4", "each above the one before it"),
    (BARE + "lose 03h\n", "2:6", "bad host 03", "03h", "the header has 02"),
    (HCI + "boot 03\n", "2:6", "bad host 03", "03", "the header has 00 02"),
    (BARE + "lose 02h 3\n", "2:10", "unknown word", "3", "too many words"),
    (BARE + "send 02h 01\n", "2:12", "unknown word", "", "too few words"),
    (BARE + "boot 00\n", "2:1", "out of order", "boot", "`boot` stands below `swp 1 hci` alone"),
    (HCI + "busy 02h\n", "2:1", "out of order", "busy", "`busy` stands below `swp 1 bare` alone"),
    ("send 02h 01 03\n", "1:1", "out of order", "send", "the first line that counts is a header"),
    ("", "1:1", "out of order", "", "the first line that counts is a header"),
    (BARE + BARE, "2:1", "out of order", "swp", "a schedule has one header"),
    ("swp 1 bear 02\n", "1:7", "unknown word", "bear", "did you mean `bare`?"),
    ("swp 2 bare 02\n", "1:5", "unknown word", "2", "the form is `swp 1 bare H`"),
    ("swp 1 bare 02 03\n", "1:15", "unknown word", "03", "the form is `swp 1 bare H`"),
    ("swp 1 hci 02 09\n", "1:14", "bad host 09", "09", "hosts are 01 to 07, ascending"),
    (HCI + "send 02c 01 03\n", "2:6", "unknown word", "02c", "a `send` is of a host's end: `02h`"),
    (BARE + "lose\u00a002h\n", "2:5", "unknown word", "?", "none of ASCII"),
    (BARE + "send 02h 01 " + "03" * 5000 + "\n", "2:1", "too long", None, "at most 9000 bytes"),
    (BARE + "tick\n" * 20_000, "20001:1", "too much input: 20001", "", "at most 20000 lines"),
    (BARE + "send 02h 01 03\ndamage 02c 24 28 35 40\n", "3:1", "damage not detected", "damage 02c 24 28 35 40", "another frame is read"),
]


class Linted(unittest.TestCase):
    def lint(self, data):
        """(line:column, fault, what is marked, hint), or None where it is sound."""
        told = subprocess.run([SWP, "replay"], input=data, capture_output=True, check=False)
        found = lint_schedule.judge(data, told.returncode, told.stderr.decode().strip())
        if found is None:
            return None
        lines = lint_schedule.report("a", found).splitlines()
        place, fault = re.fullmatch(r"a:(\d+:\d+): error: (.*)", lines[0]).groups()
        marks = re.search(r"\^+", lines[2])
        return place, fault, lines[1][marks.start() : marks.end()], lines[3].removeprefix("    hint: ") if len(lines) > 3 else ""

    def test_faults(self):
        for text, place, fault, marked, hint in FAULTS:
            found = self.lint(text.encode())
            self.assertIsNotNone(found, text[:60])
            self.assertEqual(found[:2], (place, fault), text[:60])
            if marked is not None:
                self.assertEqual(found[2], marked, text[:60])
            self.assertIn(hint, found[3], text[:60])

    def test_other_files(self):
        for data, hint in ((b"\xff\xfes\0w\0p\0", "this is UTF-16"), (b"$timescale 1 ns $end\n", "this is a VCD"), (b"PK\x03\x04..", "this is a zip")):
            self.assertIn(hint, self.lint(data)[3])

    def test_examples_are_sound(self):
        for path in schedules():
            if path.stem != UNDETECTED:
                self.assertIsNone(self.lint(path.read_bytes()), path.stem)
        self.assertIsNone(self.lint(b"swp 1 bare 02\r\ntick\r\n"))

    def test_forms_are_those_of_the_formats_document(self):
        table = (ROOT / "docs/FORMATS.md").read_text().split("## Transcript")[0]
        self.assertEqual(set(re.findall(r"^\| `(\w+)", table, re.MULTILINE)), set(lint_schedule.FORMS))

    def test_as_a_program(self):
        with tempfile.TemporaryDirectory() as folder:
            good, bad = Path(folder) / "good.schedule", Path(folder) / "bad.schedule"
            good.write_text(BARE)
            bad.write_text(BARE + "sned 02h 01 03\n")
            answer = run("lint_schedule", "--swp", SWP, good, bad)
            self.assertEqual(answer.returncode, 1)
            lines = answer.stdout.decode().splitlines()
            self.assertEqual(lines[:2], [f"{good}: sound", f"{bad}:2:1: error: unknown word"])
            self.assertEqual(lines[2:4], ["       2 | sned 02h 01 03", "         | ^^^^"])
            self.assertEqual(run("lint_schedule", "--swp", SWP, good).returncode, 0)
        self.assertEqual(run("lint_schedule", "--swp", SWP, input=BARE.encode()).stdout, b"standard input: sound\n")
        self.assertEqual(run("lint_schedule", "nowhere").stderr, b"lint_schedule: nowhere: No such file or directory\n")


class CommandLine(unittest.TestCase):
    PAGE = COMPANIONS / "man" / "swp.1"
    WORDS = COMPANIONS / "man" / "swp.bash"

    def test_the_page_has_the_words_and_statuses_of_the_program(self):
        page = self.PAGE.read_text()
        usage = subprocess.run([SWP], capture_output=True, check=False).stderr.decode()
        words = set(re.findall(r"[a-z]+", usage)) - {"usage", "swp"}
        self.assertEqual(words, {"replay", "end", "decode", "tables", "gen", "tap"})
        for word in words:
            self.assertIn(f".B swp {word}", page)
        section = (ROOT / "docs/FORMATS.md").read_text().split("\n## Statuses\n")[1].split("\n## ")[0]
        statuses = re.findall(r"^\| \w+ \| (\d+) \|", section, re.MULTILINE)
        self.assertEqual(sorted(map(int, re.findall(r"^\.B (\d+)$", page, re.MULTILINE))), sorted(map(int, statuses)))

    @unittest.skipUnless(shutil.which("groff"), "groff isn't installed")
    def test_the_page_is_set_without_a_warning(self):
        answer = subprocess.run(["groff", "-man", "-Tutf8", "-ww", self.PAGE], capture_output=True, check=False)
        self.assertEqual(answer.stderr, b"")
        self.assertIn(b"EXIT STATUS", re.sub(b"\x1b\\[[0-9;]*m|.\x08", b"", answer.stdout))

    def completed(self, *words):
        script = 'source "$0"; COMP_WORDS=("$@"); COMP_CWORD=$(($# - 1)); _swp; echo "${COMPREPLY[*]}"'
        return subprocess.run(["bash", "-c", script, self.WORDS, *words], capture_output=True, check=True).stdout.decode().split()

    def test_completion(self):
        self.assertEqual(self.completed("swp", ""), ["replay", "decode", "tap", "end", "gen", "tables"])
        self.assertEqual(self.completed("swp", "ta"), ["tap", "tables"])
        self.assertEqual(self.completed("swp", "tap", ""), ["bare", "hci"])
        self.assertEqual(self.completed("swp", "end", "u"), ["uicc"])
        self.assertEqual(self.completed("swp", "end", "clf", ""), ["bytes", "line"])
        self.assertEqual(self.completed("swp", "replay", ""), [])


if __name__ == "__main__":
    unittest.main()
