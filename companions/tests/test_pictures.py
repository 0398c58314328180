"""Pictures: chart and wave. The pictures of docs/pictures and of golden/ are drawn anew and must be the same, letter by letter."""

import re
import unittest
import xml.etree.ElementTree as ElementTree
from pathlib import Path

from support import COMPANIONS, EXAMPLES, ROOT, companion, run, swp, transcripts

from chart_rows import Chart, View
from chart_svg import Drawing
from chart_text import Plain
from swp_formats import BYTE_OF, CLF, UICC, Refused, Transcript, bit_text, crc, frame_bits

wave = companion("wave")
SVG = "{http://www.w3.org/2000/svg}"
GOLDEN = COMPANIONS / "tests" / "golden"
PICTURES = ROOT / "docs" / "pictures"
BARE = "> swp 1 bare 02\nup 02c 0\nup 02h 0\n"


def chart_of(text, **view):
    return Chart(Transcript(text.splitlines(keepends=True)), View(**view))


def example(name, **view):
    return chart_of((EXAMPLES / f"{name}.transcript").read_text(), **view)


def played(schedule):
    return swp("replay", input=schedule.encode()).decode()


def picture(chart):
    return ElementTree.fromstring(Drawing(chart, "title").draw())


def arrows(root):
    return [path for path in root.iter(SVG + "path") if path.get("class", "").split()[:1] == ["arrow"]]


def texts(root):
    return [text.text for text in root.iter(SVG + "text")]


def rows(chart):
    return [(row.kind, row.where, row.text) for band in chart.bands for row in band.rows]


def labels(chart):
    return [row.text for band in chart.bands for row in band.rows if row.kind == "emit"]


class EveryExample(unittest.TestCase):
    """Of all transcripts of the examples, drawn once."""

    @classmethod
    def setUpClass(cls):
        cls.charts = {}
        for path in transcripts():
            with path.open() as file:
                cls.charts[path.stem] = Chart(Transcript(file), View())
        cls.pictures = {name: picture(chart) for name, chart in cls.charts.items()}

    def test_there_are_examples(self):
        self.assertGreater(len(self.charts), 50)

    def test_each_emit_has_one_arrow(self):
        for path in transcripts():
            emits = len(re.findall("^emit ", path.read_text(), re.MULTILINE))
            self.assertEqual(len(arrows(self.pictures[path.stem])), emits, path.stem)
            self.assertEqual(len(labels(self.charts[path.stem])), emits, path.stem)

    def test_arrows_say_the_whole_lpdu(self):
        for name, chart in self.charts.items():
            told = [path.find(SVG + "title").text.split()[2] for path in arrows(self.pictures[name])]
            self.assertEqual(told, [frame.lpdu.hex().upper() for frame in chart.transcript.frames], name)

    def test_no_text_lies_on_another(self):
        for name, root in self.pictures.items():
            boxes = [[float(box.get(key)) for key in ("x", "y", "width", "height")] for box in root.iter(SVG + "rect") if box.get("class") == "g"]
            boxes.sort(key=lambda box: box[1])
            self.assertGreater(len(boxes), 0, name)
            for index, (x, y, width, height) in enumerate(boxes):
                for other_x, other_y, other_width, _ in boxes[index + 1 :]:
                    if other_y >= y + height:
                        break
                    apart = x + width <= other_x or other_x + other_width <= x
                    self.assertTrue(apart, f"{name}: two texts at {x:g},{y:g} and {other_x:g},{other_y:g}")

    def test_each_text_stands_within_the_picture(self):
        for name, root in self.pictures.items():
            width, height = float(root.get("width")), float(root.get("height"))
            for box in root.iter(SVG + "rect"):
                if box.get("class") == "g":
                    x, y, wide = (float(box.get(key)) for key in ("x", "y", "width"))
                    self.assertTrue(0 <= x and x + wide <= width and y + 15 <= height, f"{name}: a text at {x:g},{y:g}")

    def test_there_are_no_scripts_and_no_other_files(self):
        for name, root in self.pictures.items():
            for element in root.iter():
                self.assertIn(element.tag.removeprefix(SVG), ("svg", "title", "style", "rect", "line", "path", "circle", "text"), name)
                self.assertFalse([key for key in element.keys() if key.startswith("on") or "href" in key], name)

    def test_nothing_is_left_without_words(self):
        """Each kind of entry has words of its own, or an arrow tells it."""
        for name, chart in self.charts.items():
            self.assertEqual([row for row in rows(chart) if row[0] == "remark" and not row[2].startswith("settled: ")], [], name)

    def test_the_text_keeps_to_its_width_and_tells_each_emit(self):
        for name, chart in self.charts.items():
            for width in (None, 200):
                plain = Plain(chart, width)
                lines = plain.draw().splitlines()
                self.assertLessEqual(max(map(len, lines)), plain.width, name)
                told = [int(number) for line in lines for number in re.findall(r"[╌─┼] (\d+): ", line)]
                self.assertEqual(told, [frame.number for frame in chart.transcript.frames], name)

    def test_the_text_tells_where_each_frame_went(self):
        for name, chart in self.charts.items():
            text = Plain(chart).draw()
            took = len(re.findall("◀[─●]─ |[─●]▶", text))
            self.assertEqual(took, sum(frame.fate == "took" for frame in chart.transcript.frames), name)


class Goldens(unittest.TestCase):
    def same(self, picture, name, *words):
        drawn = run(name, *words)
        self.assertEqual(drawn.returncode, 0, drawn.stderr)
        self.assertEqual(drawn.stdout.decode(), Path(picture).read_text(encoding="utf-8"))

    def test_a_lost_frame(self):
        title = "A lost frame is rejected and sent again"
        self.same(PICTURES / "lost_frame.svg", "chart", "--title", title, EXAMPLES / "lost_frame_is_rejected_and_resent.transcript")

    def test_a_power_cut(self):
        title = "A controller loses its power while it keeps a command"
        self.same(PICTURES / "power_cut.svg", "chart", "--title", title, EXAMPLES / "nodes/cut_in_second_write_5A.transcript")

    def test_three_lifelines(self):
        self.same(GOLDEN / "off.svg", "chart", EXAMPLES / "nodes/off.transcript")

    def test_a_text(self):
        self.same(GOLDEN / "lost_frame.txt", "chart", "--text", EXAMPLES / "lost_frame_is_rejected_and_resent.transcript")

    def test_a_wave(self):
        self.same(PICTURES / "frame.svg", "wave", "8981010302")


class Charts(unittest.TestCase):
    def test_what_a_lost_frame_is_called(self):
        chart = example("lost_frame_is_rejected_and_resent")
        self.assertIn(("lost", "", "lost"), rows(chart))
        self.assertEqual(labels(chart)[3:5], ["RR(1)", "REJ(1)"])
        self.assertIn("damaged: broken", texts(picture(example("damage_breaks_a_frame"))))
        self.assertIn("lost: too old", texts(picture(example("reset_gives_up"))))
        full = chart_of(BARE + "> reset 02h\n" + "emit 02h F90400\n" * 65 + "lost 02c F90400 full\n")
        self.assertIn("lost: wire full", texts(picture(full)))

    def test_events_have_names_where_the_gate_of_their_pipe_has_them(self):
        bare = chart_of(played("swp 1 bare 02\nsend 02h 21 42\n"))
        self.assertEqual(labels(bare), ["I(0,0) pipe 21 event 02"])
        looped = labels(chart_of((COMPANIONS / "samples/session.transcript").read_text()))
        self.assertIn("I(3,3) pipe 02 EVT_POST_DATA CAFE", looped)
        between_hosts = labels(example("nodes/relays"))
        self.assertIn("I(5,4) pipe 02 event 02 BB", between_hosts)

    def test_parameters_have_names_where_the_gate_of_their_pipe_has_them(self):
        chart = chart_of(played("swp 1 bare 02\nsend 02h 01 010302\nsend 02h 21 010302\n"))
        self.assertEqual(labels(chart), ["I(0,0) pipe 01 ANY_SET_PARAMETER WHITELIST 02", "I(1,0) pipe 21 ANY_SET_PARAMETER 03 02"])

    def test_a_packet_that_goes_on_is_no_message(self):
        message = "42" + "00" * 27 + "0304"
        chart = chart_of(played(f"swp 1 bare 02\nsend 02h 21 {message}\nlose 02c\ndeliver 02c\ndeliver 02h\n"))
        first, last = "I(0,0) pipe 21 event 02, first 28 bytes", "I(1,0) pipe 21 last 2 bytes"
        self.assertEqual(labels(chart), [first, last, "REJ(0)", first, last])

    def test_messages_of_one_frame_are_told_by_it(self):
        chart = chart_of(played("swp 1 bare 02\nsend 02h 01 03\ndeliver 02c\n"))
        self.assertEqual([row for row in rows(chart) if row[0] == "note"], [("note", "02c", "session 0 up"), ("note", "02h", "session 0 up")])
        self.assertEqual([row.delivered for band in chart.bands for row in band.rows if row.kind == "took"], [True])
        waits = chart_of(played("swp 1 bare 02\n" + "send 02h 01 03\n" * 5))
        self.assertIn(("note", "02h", "sends on pipe 01: ANY_OPEN_PIPE"), rows(waits))

    def test_messages_of_several_frames_have_notes(self):
        chart = chart_of(played(f"swp 1 bare 02\nsend 02h 21 {'80' + '55' * 40}\ndeliver 02c\n"))
        told = [row[2] for row in rows(chart) if row[0] == "note" and "pipe" in row[2]]
        self.assertEqual(told, [f"{verb} on pipe 21: ANY_OK 5555555555555555… (40 bytes)" for verb in ("sends", "got")])
        self.assertEqual([row.delivered for band in chart.bands for row in band.rows if row.kind == "took"], [False, False])

    def test_sessions_waiting_and_power(self):
        chart = example("crossed_resets")
        self.assertEqual([state for _, state in chart.states("02c")], ["up", "down", "wait", "up"])
        chart = chart_of(played("swp 1 hci 02\nboot 00\nboot 02\nactivate 02 0001 01\ncut 02\n"))
        self.assertEqual([state for _, state in chart.states("02h")], ["off", "down", "off"])
        self.assertEqual([state for _, state in chart.states("02c")], ["off", "down"])
        self.assertIn(("note", "02", "power cut"), rows(chart))

    def test_an_activation_that_is_refused_changes_no_lifeline(self):
        chart = chart_of("> swp 1 hci 02\n> boot 00\nbooted 00 0\n> boot 02\nbooted 02 0\n> reset 02h\nup 02h 1\n> activate 02 0001 01\nno off\n")
        self.assertEqual([state for _, state in chart.states("02h")], ["off", "down", "up"])

    def test_frames_that_go_without_an_entry(self):
        cut = chart_of(played("swp 1 hci 02\nboot 00\nboot 02\nactivate 02 0001 01\ncut 02\n"))
        self.assertIn(("gone", "", "gone with the power"), rows(cut))
        again = chart_of(played("swp 1 hci 02\nboot 00\nboot 02\nactivate 02 0001 01\nactivate 02 0001 01\n"))
        self.assertIn(("gone", "", "gone: activation"), rows(again))
        self.assertEqual(len(arrows(picture(again))), 2)

    def test_commands_and_their_answers(self):
        told = [row[2] for row in rows(example("nodes/creation_between_hosts"))]
        for text in ("identifier of host 01 = 0001", "WHITELIST of 01 = 02", "pipe 02 made, 02/41 → 01/41"):
            self.assertIn(f"keeps: {text}", told)
        for text in ("ANY_OK for command 6", "asks host 01"):
            self.assertIn(text, told)

    def test_refused_lines_say_why_at_their_end(self):
        told = rows(example("nodes/refusals"))
        of_nodes = [("01", "no power"), ("00", "it runs already")]
        of_ends = [("02h", "inactive"), ("02h", "it waits"), ("02c", "the frame has 57 bits"), ("02h", "needs 1 block, 0 spare")]
        for where, text in of_nodes + of_ends:
            self.assertIn(("note", where, f"refused: {text}"), told)

    def test_the_tables_of_a_node(self):
        told = [row[2] for row in rows(example("nodes/relays"))]
        at = told.index("tables: 1 pipe, 2 static pipes, 1 parameter, 2 identifiers")
        below = ["pipe 02: 02/41 → 01/41 closed", "host 01: pipe 01 opened", "host 02: pipe 01 opened", "WHITELIST of 01 = 02"]
        self.assertEqual(told[at + 1 : at + 5], below)

    def test_a_message_that_is_handled_later_has_a_note(self):
        entries = "up 02c 1\n> deliver 02c\ngot 02c 1 01 03\n> tick\nturn 02c 01 03\n"
        self.assertIn(("note", "02c", "handles on pipe 01: ANY_OPEN_PIPE"), rows(chart_of("> swp 1 hci 02\n" + entries)))


class Views(unittest.TestCase):
    def test_lines_from_to(self):
        name = "nodes/users_session_over_a_cut"
        whole = example(name)
        part = example(name, first=30, last=44)
        shown = [frame for frame in whole.frames if frame.emit <= part.end and (frame.end is None or frame.end >= part.begin)]
        self.assertEqual([frame.number for frame in part.frames], [frame.number for frame in shown])
        self.assertEqual(len(arrows(picture(part))), len(shown))
        self.assertEqual([band.number for band in part.bands], [None, *range(30, 45), None])
        self.assertIn("3 frames on their way", texts(picture(part)))

    def test_a_frame_on_its_way_before_the_first_line_keeps_its_words(self):
        part = example("nodes/users_session_over_a_cut", first=30, last=30)
        self.assertEqual(part.bands[0].title(), "on the way before")
        self.assertEqual([row.text for row in part.bands[0].rows], ["I(0,0) pipe 02 ANY_OPEN_PIPE"])

    def test_one_link(self):
        chart = example("nodes/relays", link="01")
        self.assertEqual(sorted(Drawing(chart, "").x), ["01c", "01h"])
        self.assertEqual({frame.link for frame in chart.frames}, {"01"})
        self.assertFalse([row for row in rows(chart) if row[1][:2] == "02"])
        self.assertNotIn("send 02h 02 0506", [band.title() for band in chart.bands])

    def test_time_behind_ticks(self):
        self.assertIn("t = 20", texts(picture(example("both_ways_over_resets"))))
        self.assertIn("t = 11", texts(picture(example("settle_after_lost_ack"))))

    def refuses(self, words, text, input=b""):
        answer = run("chart", *words, input=input)
        self.assertEqual((answer.returncode, answer.stdout, answer.stderr.decode()), (1, b"", text + "\n"))

    def test_refusals(self):
        one = EXAMPLES / "one_message.transcript"
        self.refuses([one, "--to", "9"], "chart: line 9: the transcript has the lines 1 to 4 of a schedule")
        self.refuses([one, "--from", "0"], "chart: line 0: the transcript has the lines 1 to 4 of a schedule")
        self.refuses([one, "--from", "3", "--to", "2"], "chart: line 3 stands behind line 2")
        self.refuses([one, "--link", "05"], "chart: the header names no host 05")
        self.refuses([one, "--text", "--width", "60"], "chart: a chart of 1 link wants a width of 63 columns at least")
        self.refuses([], "chart: no header `> swp 1 ..`: this is no transcript")
        self.refuses([], "chart: line 1: 'swp 1 bare 02' is no line of a transcript", b"swp 1 bare 02\n")
        self.refuses([], "chart: line 4: took 02c C1: no such frame stands first on that wire", (BARE + "took 02c C1\n").encode())
        self.refuses(["nowhere.transcript"], "chart: nowhere.transcript: No such file or directory")

    def test_wrong_words(self):
        self.assertEqual(run("chart", "--from", "x").returncode, 2)
        self.assertEqual(run("chart", "--fr", "1").returncode, 2)

    def test_a_view_of_a_transcript_without_hosts_is_refused(self):
        with self.assertRaises(Refused):
            chart_of("")


class Waves(unittest.TestCase):
    def quarters(self, root, colour):
        """The levels of the quarters of all periods, read back from the signal of this colour."""
        levels = []
        for path in root.iter(SVG + "path"):
            if path.get("stroke") == colour:
                at, level, base = wave.LEFT, None, None
                parts = re.findall(r"([MHV])([\d.]+)(?: ([\d.]+))?", path.get("d"))
                heights = {float(part[2] or part[1]) for part in parts if part[0] != "H"}
                base = max(heights) if len(heights) > 1 else None
                for command, number, other in parts:
                    if command == "M":
                        level = float(other)
                    elif command == "V":
                        level = float(number)
                    else:
                        levels += [0 if base is None else int(level < base)] * round((float(number) - at) * 4 / wave.BIT)
                        at = float(number)
        return levels

    def test_the_waves_are_the_frame(self):
        for wire, other in ((CLF, UICC), (UICC, CLF)):
            for lpdu in (b"\xc1", bytes.fromhex("8981010302"), bytes.fromhex("80A1") + b"\xff" * 28):
                root = ElementTree.fromstring(wave.Wave(lpdu, wire).draw())
                s1, s2 = self.quarters(root, wave.CONTROL), self.quarters(root, wave.BYTES)
                self.assertEqual(len(s1), 4 * len(frame_bits(lpdu)))
                pairs = [f"{high}{low}" for low, high in zip(s1, s2)]
                record = bytes(int("".join(pairs[at : at + 4]), 2) for at in range(0, len(pairs), 4))
                told = swp("decode", input=record).decode().splitlines()
                self.assertEqual([line.split()[:3] for line in told[:-1]], [[f"s{wire}", "0", lpdu.hex().upper()]])

    def test_each_0_that_is_put_in_is_marked(self):
        lpdu = bytes.fromhex("80A1") + b"\xff" * 28
        marked = [text for text in texts(ElementTree.fromstring(wave.Wave(lpdu, CLF).draw())) if text == "(0)"]
        self.assertEqual(len(marked), len(frame_bits(lpdu)) - 16 - 8 * (len(lpdu) + 2))

    def test_parts(self):
        parts, added = wave.parts_of(b"\xc1")
        wanted = [("SOF", 0, 8), ("C1", 8, 16), ("CRC D7", 16, 24), ("CRC 62", 24, 32), ("EOF", 32, 40)]
        self.assertEqual([(name, low, high) for name, _, low, high in parts], wanted)
        self.assertEqual(added, set())
        for lpdu in (b"\x1f", b"\xff" * 30, bytes(range(20))):
            added = wave.parts_of(lpdu)[1]
            bits = "".join(str(bit) for place, bit in enumerate(frame_bits(lpdu)) if place not in added)
            self.assertEqual(bits, "01111110" + bit_text(lpdu + crc(lpdu).to_bytes(2, "big")) + "01111111")

    def test_refusals(self):
        length = "an LPDU has 1 to 30 bytes, this one"
        for word, text in (("8Z", "8Z: no LPDU in hexadecimal"), ("", f"{length} 0"), ("00" * 31, f"{length} 31")):
            answer = run("wave", word)
            self.assertEqual((answer.returncode, answer.stdout, answer.stderr.decode()), (1, b"", f"wave: {text}\n"))
        self.assertEqual(run("wave").returncode, 2)

    def test_bytes_of_periods_stand_for_their_levels(self):
        self.assertEqual(BYTE_OF, {(0, 0): 0x40, (1, 0): 0x54, (0, 1): 0xC0, (1, 1): 0xFC})


if __name__ == "__main__":
    unittest.main()
