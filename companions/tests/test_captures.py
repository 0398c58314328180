"""Captures, records and what is between them: vcd2rec, rec2vcd, from_middle, transcript2rec, lint_record and swp_formats."""

import contextlib
import io
import os
import random
import select
import shutil
import subprocess
import sys
import tempfile
import unittest
from pathlib import Path

from recorded import disturbed, drawn_record, samples_of, table_of, vcd_of, wave_of
from support import COMPANIONS, EXAMPLES, companion, run, swp, transcripts

from swp_formats import BYTE_OF, CLF, LIMIT, UICC, Refused, Transcript, control, decode, frame_bits, frame_periods, is_i_frame, message, ns_of, nr_of

vcd2rec, from_middle, transcript2rec, lint_record = (companion(name) for name in ("vcd2rec", "from_middle", "transcript2rec", "lint_record"))
PERIOD = 1_000_000  # picoseconds
SIGROK = shutil.which("sigrok-cli")


def read(capture, *words):
    """(record, notes) of a capture; a refusal is raised."""
    sink, notes = io.BytesIO(), io.StringIO()
    with contextlib.redirect_stderr(notes):
        vcd2rec.convert([str(word) for word in words], io.BytesIO(capture), sink)
    return sink.getvalue(), notes.getvalue()


def heard(record):
    return [(h.wire, h.verdict) for h in decode(record)]


def words_of(lpdu):
    """An LPDU as `swp decode` says it."""
    kind, size = control(lpdu)[0], len(lpdu)
    if kind == "fault":
        return "short" if 0x80 <= lpdu[0] <= 0xBF or lpdu[0] in (0x61, 0x62, 0x69, 0x6A) else "toolong" if 0xC0 <= lpdu[0] <= 0xDF else "unknown"
    if kind == "ACT":
        return {0: "ready", 1: f"syncid {lpdu[1:3].hex().upper()}", 2: f"power {lpdu[1:2].hex().upper()}"}[lpdu[0] & 7]
    if kind == "I":
        return f"i {ns_of(lpdu)} {nr_of(lpdu)}"
    if kind == "RSET":
        return f"rset {lpdu[1] if size > 1 else 4} {lpdu[2] if size > 2 else 0}"
    return kind.lower() if kind in ("UA", "CLT") else f"{kind.lower()} {nr_of(lpdu)}"


class Frames(unittest.TestCase):
    def test_a_record_is_decoded_as_swp_decodes_it(self):
        for seed in range(80):
            record = drawn_record(seed, damage=True)
            lines = [
                f"s{h.wire} {h.start} " + (f"{h.verdict.hex().upper()} {words_of(h.verdict)}" if isinstance(h.verdict, bytes) else h.verdict)
                for h in decode(record)
            ]
            self.assertEqual("\n".join([*lines, f"done {len(record)}"]) + "\n", swp("decode", input=record).decode(), seed)

    def test_the_frame_of_the_formats_document(self):
        self.assertEqual("".join(map(str, frame_bits(b"\xc1"))), "0111111011000001110101110110001001111111")

    def test_messages_are_said_in_the_words_of_the_standard(self):
        for pipe, digits, gate, text in [
            (0x01, "03", None, "ANY_OPEN_PIPE"),
            (0x01, "0201", None, "ANY_GET_PARAMETER SESSION_IDENTITY"),
            (0x02, "0201", None, "ANY_GET_PARAMETER 01"),
            (0x02, "0206", 5, "ANY_GET_PARAMETER GATES_LIST"),
            (0x01, "10040004", None, "ADM_CREATE_PIPE gate 04 → host 00 gate 04"),
            (0x01, "800204000402", None, "ANY_OK pipe 02: host 02 gate 04 → host 00 gate 04"),
            (0x02, "42AABB", 4, "EVT_POST_DATA AABB"),
            (0x02, "42AABB", None, "event 02 AABB"),
            (0x01, "88", None, "ANY_E_INHIBITED"),
        ]:
            self.assertEqual(message(pipe, bytes.fromhex(digits), gate), text)


class Transcripts(unittest.TestCase):
    def test_the_record_of_each_link_of_the_examples_has_its_frames_and_messages(self):
        links = 0
        for path in transcripts():
            with open(path) as file:
                transcript = Transcript(file)
            for link in transcript.hosts:
                with self.subTest(path=path.name, link=link):
                    self.link_is_whole(transcript, link)
                links += 1
        self.assertGreater(links, 70)

    def link_is_whole(self, transcript, link):
        record = bytes(transcript2rec.record_of(transcript, link, 2, False))
        self.assertLessEqual(len(record), LIMIT)
        told = [line.split()[2] for line in swp("decode", input=record).decode().splitlines()[:-1]]
        self.assertEqual(told, [frame.lpdu.hex().upper() for frame in transcript.frames if frame.link == link])
        if any(step.kind == "cut" for step in transcript.steps):
            return
        taps = [line.split()[1:] for line in swp("tap", "hci" if transcript.hci else "bare", input=record).decode().splitlines()[:-1]]
        for side in "ch":
            got = [step.words[2:] for step in transcript.steps if step.kind == "got" and step.words[1] == link + side]
            self.assertEqual([words[1:] for words in taps if words[0] == side], got)

    def test_each_frame_leaves_its_wire_as_its_entry_says(self):
        for path in transcripts():
            with open(path) as file:
                transcript = Transcript(file)
            for kind in ("took", "lost"):
                entries = [step.row for step in transcript.steps if step.kind == kind]
                self.assertEqual(sorted(frame.end for frame in transcript.frames if frame.fate == kind), entries, path.name)

    def test_an_activation_empties_the_wires_but_not_one_that_is_refused(self):
        text = "> swp 1 hci 02\n> activate 02 0001 00\n{}emit 02h 610001\n> activate 02 0001 00\n{}> deliver 02c\n"
        for refusal, fate, count in (("no off\n", "on its way", 0), ("", "gone", 2)):
            transcript = Transcript(text.format("", refusal).splitlines(True))
            self.assertEqual(transcript.frames[0].fate, fate)
            record = transcript2rec.record_of(transcript, "02", 2, False)
            self.assertEqual(record.count(0), 2 if refusal == "" else 1)

    def test_ticks_are_filled_up(self):
        transcript = Transcript("> swp 1 bare 02\nemit 02h 808103\n> tick 3\nemit 02h 808103\n> tick\nemit 02c C1\n".splitlines(True))
        starts = [h.start for h in decode(bytes(transcript2rec.record_of(transcript, "02", 2, True)))]
        self.assertEqual(starts, [2, 3 * 512, 4 * 512])
        starts = [h.start for h in decode(bytes(transcript2rec.record_of(transcript, "02", 5, False)))]
        self.assertEqual(starts, [5, 5 + 61, 5 + 61 + 61])

    def test_refusals(self):
        two = (EXAMPLES / "nodes" / "relays.transcript").read_bytes()
        for words, text, status, said in [
            ([], two, 1, "--link says which; there are: 01 02"),
            (["--link", "09"], two, 1, "--link 09: no such link in this transcript; there are: 01 02"),
            ([], b"swp 1 bare 02\n", 1, "line 1: 'swp 1 bare 02' is no line of a transcript"),
            ([], b"> swp 1 bare 02\ntook 02c 808103\n", 1, "line 2: took 02c 808103: no such frame stands first on that wire"),
            ([], b"> swp 1 bare 02\n\n", 1, "line 2: '' is no line of a transcript"),
            ([], b"", 1, "--link says which; there are: none"),
            (["nowhere"], b"", 1, "nowhere: No such file or directory"),
            (["--gap", "-1"], b"", 2, "--gap: 0 or more"),
        ]:
            told = run("transcript2rec", *words, input=text)
            self.assertEqual((told.returncode, told.stderr.decode()), (status, f"transcript2rec: {said}\n"))


class RoundTrips(unittest.TestCase):
    def test_a_record_by_way_of_a_vcd_is_the_record(self):
        for number, period in enumerate((592, 1000, 3700, 9996)):
            record = drawn_record(number, 3000)
            back = run("rec2vcd", "--period", period, *([] if number % 2 else ["--plain"]), input=record)
            self.assertEqual(back.stderr, b"")
            self.assertEqual(read(back.stdout)[0], record, period)

    def test_a_hundred_records_with_jitter_drift_and_glitches_come_back(self):
        for seed in range(100):
            record = drawn_record(1000 + seed)
            jitter, drift, glitches = 0.05 * (seed % 5 + 1) / 5, 0.05 * (seed % 3) / 2, 10 * (seed % 2)
            wave = disturbed(wave_of(record, PERIOD), PERIOD, seed, jitter, drift, glitches)
            self.assertEqual(read(vcd_of(wave))[0], record, f"seed {seed}: jitter {jitter}, drift {drift}, {glitches} glitches")

    def test_the_grid_gives_back_any_byte(self):
        draw = random.Random(7)
        record = bytes(draw.randrange(256) for _ in range(2000))
        vcd = run("rec2vcd", "--plain", "--period", 400, input=record).stdout
        self.assertEqual(read(vcd, "--grid", "--period", 400)[0], record)

    def test_a_table_of_an_oscilloscope_is_read_with_two_thresholds_a_channel(self):
        record = drawn_record(3, 700)
        table = table_of(wave_of(record, PERIOD), 62_500, 3)
        channels = ["--csv", "2,0.6,1.2", "3,0.1,0.2"]
        self.assertEqual(read(table, *channels)[0], record)
        comma = table.replace(b",", b";").replace(b".", b",")
        self.assertEqual(read(comma, *channels)[0], record)
        one = read(table, "--csv", "2,0.6,1.2", "-")[0]
        self.assertEqual([h for h in heard(one) if h[0] == CLF], [h for h in heard(record) if h[0] == CLF])
        self.assertFalse(any(byte & 0x80 for byte in one))

    @unittest.skipUnless(SIGROK, "sigrok-cli is not installed")
    def test_records_come_back_through_sigrok(self):
        with tempfile.TemporaryDirectory() as folder:
            for seed in range(3):
                record = drawn_record(2000 + seed, 400)
                Path(folder, "a.vcd").write_bytes(run("rec2vcd", "--plain", input=record).stdout)
                self.sigrok(folder, "-i", "a.vcd", "-o", "a.sr")
                piped = self.sigrok(folder, "-i", "a.sr", "-O", "vcd")
                self.assertIn(b"S1", piped)
                self.assertEqual(read(piped)[0], record)

    @unittest.skipUnless(SIGROK, "sigrok-cli is not installed")
    def test_a_hundred_records_with_jitter_and_drift_come_back_through_sigrok(self):
        form = "binary:numchannels=2:samplerate=50000000"
        with tempfile.TemporaryDirectory() as folder:
            for seed in range(100):
                record = drawn_record(1000 + seed)
                jitter, drift = 0.05 * (seed % 5 + 1) / 5, 0.05 * (seed % 3) / 2
                wave = disturbed(wave_of(record, PERIOD), PERIOD, seed, jitter, drift)
                Path(folder, "a.bin").write_bytes(samples_of(wave, PERIOD // 50))
                vcd = self.sigrok(folder, "-I", form, "-i", "a.bin", "-C", "0=S1,1=S2", "-O", "vcd")
                self.assertEqual(read(vcd)[0], record, f"seed {seed}: jitter {jitter}, drift {drift}")

    @unittest.skipUnless(SIGROK, "sigrok-cli is not installed")
    def test_samples_of_a_clock_that_is_off_come_back_through_sigrok(self):
        with tempfile.TemporaryDirectory() as folder:
            for megahertz in (12, 16, 24):
                record = drawn_record(megahertz, 600)
                Path(folder, "a.bin").write_bytes(samples_of(wave_of(record, 1_013_000), 1_000_000 / megahertz))
                form = f"binary:numchannels=2:samplerate={megahertz}000000"
                vcd = self.sigrok(folder, "-I", form, "-i", "a.bin", "-O", "vcd")
                self.assertEqual(read(vcd, "--s1", "0", "--s2", "1")[0], record, megahertz)

    def sigrok(self, folder, *words):
        return subprocess.run([SIGROK, *words], cwd=folder, capture_output=True, check=True).stdout


def bits_wave(highs, period=PERIOD):
    """A wave of S1 whose periods are high for these shares of them."""
    changes = []
    for place, high in enumerate(highs):
        changes += [(place * period, 1), (place * period + round(high * period), 0)]
    return changes, len(highs) * period


class Rules(unittest.TestCase):
    lead = [0.25, 0.75] * 16

    def test_each_share_of_a_period_is_its_bit_or_neither(self):
        shares = {0x40: (0.13, 0.25, 0.43), 0x54: (0.57, 0.75, 0.87), 0x50: (0.10, 0.44, 0.5, 0.56, 0.89)}
        for byte, high in [(byte, high) for byte, highs in shares.items() for high in highs]:
            record, notes = read(vcd_of(bits_wave(self.lead + [high] + self.lead)))
            self.assertEqual(record, b"\x40\x54" * 16 + bytes([byte]) + b"\x40\x54" * 16)
            self.assertEqual("1 periods are neither bit" in notes, byte == 0x50)

    def test_a_period_of_another_length_is_told_by_one_of_its_levels(self):
        cases = [(0.55, 0.7, b"\x50"), (0.9, 0.35, b"\x54"), (0.9, 0.5, b"\x55\x50"), (0.2, 0.45, b"\x50"), (0.2, 0.8, b"\x40")]
        for high, low, told in [*cases, (1.7, 0.3, b"\x55\x54"), (0.3, 1.7, b"\x40\0"), (1.8, 1.2, b"\x55\x54\0")]:
            changes = bits_wave(self.lead)[0]
            at = 32 * PERIOD
            behind = bits_wave(self.lead)[0]
            changes += [(at, 1), (at + round(high * PERIOD), 0)] + [(at + round((high + low) * PERIOD) + t, levels) for t, levels in behind]
            record = read(vcd_of((changes, at + round((high + low + 32) * PERIOD))))[0]
            self.assertEqual(record, b"\x40\x54" * 16 + told + b"\x40\x54" * 16, (high, low))

    def test_a_period_that_is_neither_bit_breaks_the_frame(self):
        bits = frame_bits(b"\xc1")
        highs = [0.75 if bit else 0.25 for bit in bits]
        self.assertEqual(heard(read(vcd_of(bits_wave(self.lead + highs)))[0]), [(CLF, b"\xc1")])
        highs[20] = 0.5
        self.assertEqual(heard(read(vcd_of(bits_wave(self.lead + highs)))[0]), [(CLF, "broken")])

    def test_s2_counts_where_it_is_up_for_more_than_half_of_the_high_time(self):
        for up, byte in ((0.3, 0x54), (0.4, 0xFC)):
            changes = bits_wave(self.lead)[0]
            at = 32 * PERIOD
            changes += [(at, 1), (at + 100_000, 3), (at + 100_000 + round(up * PERIOD), 1), (at + 750_000, 0)]
            self.assertEqual(read(vcd_of((changes, 33 * PERIOD)))[0][-1], byte)

    def test_idle_and_deactivated_stretches_are_counted(self):
        for middle in (b"\x55" * 9, b"\xff\x55\xff\xff", b"\0" * 9, b"\x55\0\x55\0\0", b"\xff\0", b"\x55\xff\x55\x54\0\0\0\x40", b"\x55" * 500):
            record = b"\x40\x54\xc0" * 12 + middle + b"\xfc\x40" * 6
            self.assertEqual(read(vcd_of(wave_of(record, PERIOD)))[0], record)
            for seed in range(4):
                near = b"\x40\x54\xc0" * 12 + middle[:20] + b"\xfc\x40" * 6
                wave = disturbed(wave_of(near, PERIOD), PERIOD, seed, 0.05)
                self.assertEqual(read(vcd_of(wave), "--period", 1000)[0], near)

    def test_a_line_may_begin_low_and_end_high(self):
        record = b"\0" * 5 + b"\x40\x54" * 8 + b"\x55" * 6
        self.assertEqual(read(vcd_of(wave_of(record, PERIOD)))[0], record)

    def test_glitches_are_the_level_around_them(self):
        changes = bits_wave(self.lead)[0]
        dent = [(400_000, 1), (410_000, 0)]
        self.assertEqual(read(vcd_of((sorted(changes + dent), 32 * PERIOD)))[0], b"\x40\x54" * 16)
        kept = read(vcd_of((sorted(changes + dent), 32 * PERIOD)), "--glitch", 0)[0]
        self.assertNotEqual(kept[:1], b"\x40")
        wide = [(400_000, 1), (500_000, 0)]
        self.assertNotEqual(read(vcd_of((sorted(changes + wide), 32 * PERIOD)))[0], b"\x40\x54" * 16)
        self.assertEqual(read(vcd_of((sorted(changes + wide), 32 * PERIOD)), "--glitch", 120)[0], b"\x40\x54" * 16)

    def test_the_clock_locks_anew_at_another_rate(self):
        first, second = bits_wave(self.lead)[0], bits_wave(self.lead * 2, PERIOD // 2)
        wave = first + [(32 * PERIOD + at, levels) for at, levels in second[0]], 32 * PERIOD + second[1]
        record, notes = read(vcd_of(wave))
        self.assertEqual(record[-46:], b"\x40\x54" * 23)
        self.assertIn("the period is 500.0 ns, 2000 kbit/s", notes)

    def test_stretches_are_cut_to_n_bytes(self):
        record = b"\x40\x54" * 8 + b"\x55" * 70 + b"\x54" + b"\0" * 70 + b"\x40" * 70 + b"\xff" * 9
        cut = b"\x40\x54" * 8 + b"\x55" * 3 + b"\x54" + b"\0" * 3 + b"\x40" * 70 + b"\xff" * 9
        self.assertEqual(read(vcd_of(wave_of(record, PERIOD)), "--idle", 3)[0], cut)

    def test_a_stretch_is_one_where_s2_is_up_for_a_moment(self):
        changes = bits_wave(self.lead)[0]
        at = 32 * PERIOD
        changes += [(at, 1), (at + 20_100_000, 3), (at + 20_400_000, 1), (at + 40_250_000, 0)]
        for words, count in (([], 40), (["--idle", "3"], 3), (["--idle", "30"], 30)):
            record = read(vcd_of((changes, at + 41 * PERIOD)), *words)[0]
            self.assertEqual(record, b"\x40\x54" * 16 + b"\x55" * count + b"\x40")
        grid = read(vcd_of(wave_of(b"\x55" * 9 + b"\0" * 9, PERIOD)), "--grid", "--period", 1000, "--idle", 2)[0]
        self.assertEqual(grid, b"\x55\x55\0\0")

    def test_each_start_has_its_time(self):
        for seed, words in ((5, []), (6, ["--idle", "2"])):
            record = drawn_record(seed, 3000)
            wave = disturbed(wave_of(record, PERIOD), PERIOD, seed, 0, 0.04)
            truth = [h.start * (1 + 0.04 * h.start / len(record)) * 1000 for h in decode(record)]
            with tempfile.TemporaryDirectory() as folder:
                short = read(vcd_of(wave), "--places", f"{folder}/places", *words)[0]
                rows = [line.split() for line in Path(folder, "places").read_text().splitlines()]
            times = []
            for start in (h.start for h in decode(short)):
                place, at, period = next(row for row in reversed(rows) if int(row[0]) <= start)
                times.append(int(at) + (start - int(place)) * float(period))
            self.assertEqual(len(times), len(truth))
            for told, true in zip(times, truth):
                self.assertLess(abs(told - true), 600)  # nanoseconds, of a period of a thousand


HEAD = "$timescale 1 ns $end $scope module a $end $var wire 1 ! S1 $end $var wire 1 \" S2 $end $upscope $end $enddefinitions $end\n"
BODY = "".join(f"#{1000 * k}\n1!\n#{1000 * k + 250 + 500 * (k % 2)}\n0!\n" for k in range(40))
TOLD = b"\x40\x54" * 20
CSV = ["--csv", "2,0.6,1.2", "3,0.1,0.2"]


class Inputs(unittest.TestCase):
    def whole(self, text, *words):
        return read((text + "#40000\n").encode(), *words)

    def test_signals_are_named_by_name_path_or_code(self):
        other = HEAD.replace("S1", "SWIO").replace("S2", "shunt")
        ways = [["--s1", "SWIO", "--s2", "shunt"], ["--s1", "a.SWIO", "--s2", "a.shunt"], ["--s1", "!", "--s2", '"'], ["--s1", "swio", "--s2", "Shunt"]]
        for words in ways:
            record, notes = self.whole(other + BODY, *words)
            self.assertEqual((record, "S1 is" in notes), (TOLD, False))

    def test_two_signals_of_other_names_are_taken_and_said(self):
        for names, said in ((("SWIO", "shunt"), "S1 is a.SWIO, S2 is a.shunt"), (("S1", "shunt"), "S1 is a.S1, S2 is a.shunt")):
            record, notes = self.whole(HEAD.replace("S1", names[0]).replace("S2", names[1]) + BODY)
            self.assertEqual((record, said in notes), (TOLD, True))
        turned = HEAD.replace("! S1", '" shunt').replace('" S2', "! S1")
        record, notes = self.whole(turned + BODY)
        self.assertEqual((record, "S1 is a.S1, S2 is a.shunt" in notes), (TOLD, True))
        code = HEAD.replace("! S1", "S2 S1").replace('" S2', "! S2") + BODY.replace("!", "S2")  # S2 is a code too
        self.assertEqual(self.whole(code)[0], TOLD)

    def test_levels_may_be_turned_and_s2_left_out(self):
        turned = BODY.replace("1!", "x!").replace("0!", "1!").replace("x!", "0!")
        self.assertEqual(self.whole(HEAD + turned, "--invert-s1")[0], TOLD)
        self.assertEqual(self.whole(HEAD + '#0 0"\n' + BODY, "--invert-s2")[0], b"\xc0\xfc" * 20)
        alone = HEAD.replace('$var wire 1 " S2 $end ', "")
        self.assertEqual(self.whole(alone + BODY, "--no-s2")[0], TOLD)
        self.assertEqual(self.whole(alone + BODY, "--no-s2", "--invert-s2")[0], TOLD)
        self.assertEqual(self.whole(HEAD + BODY, "--invert-s2")[0], b"\xc0\xfc" * 20)

    def test_forms_of_other_tools_are_read(self):
        first = "META samplerate: 1000000\n" + HEAD + BODY
        one_line = HEAD + BODY.replace("\n", " ")
        vectors = HEAD.replace("$upscope", "$var reg 8 # bus $end $var string 1 % text $end $var real 64 & volts $end $upscope")
        vectors += BODY.replace("#3000\n", "#3000\nb10101010 #\nshello %\nr1.5 &\n$comment #1 0! $end\n").replace("#5000\n1!", "#5000\nb1 !")
        dumped = HEAD + "#0\n$dumpvars\n0!\n0\"\n$end\n" + BODY
        for text in (first, one_line, vectors, dumped):
            self.assertEqual(self.whole(text)[0], TOLD)

    def test_what_is_not_taken_as_it_stands_is_said(self):
        record, notes = self.whole(HEAD + "#0\nx!\nz\"\n" + BODY)
        self.assertEqual((record, "2 values x or z were taken as 0" in notes), (TOLD, True))
        long = HEAD + BODY + "#40000\n1!\n#16900040000\n0!\n"
        for words, said in (([], True), (["--idle", "9"], False)):
            record, notes = read((long + "#16900041000\n").encode(), *words)
            self.assertEqual(len(record) > LIMIT, said)
            self.assertEqual("and swp reads 16777216: use --idle, or cut the capture" in notes, said)

    def test_a_stream_is_answered_while_it_is_open(self):
        program = subprocess.Popen([sys.executable, str(COMPANIONS / "vcd2rec")], stdin=subprocess.PIPE, stdout=subprocess.PIPE, stderr=subprocess.DEVNULL)
        with program.stdin, program.stdout:
            program.stdin.write(vcd_of(wave_of(b"\x40\x54\xc0" * 4000, PERIOD)))
            program.stdin.flush()
            ready = select.select([program.stdout], [], [], 60)[0]
            first = os.read(program.stdout.fileno(), 30) if ready else b"nothing in a minute"
            program.stdin.close()
            self.assertEqual(first + program.stdout.read(), b"\x40\x54\xc0" * 4000)
        self.assertEqual(program.wait(), 0)

    def test_each_refusal_is_one_line_and_what_was_read_is_written(self):
        none = "line 1: no VCD: {!r} stands before $enddefinitions"
        three = HEAD.replace("S1", "A").replace("S2", "B").replace("$upscope", "$var wire 1 # C $end $upscope")
        for text, words, said, written in [
            ("", [], "no VCD: no $enddefinitions", b""),
            ("PK\x03\x04..", [], none.format("PK\x03\x04.."), b""),
            ("swp 1 bare 02\n", [], none.format("swp"), b""),
            ("$comment", [], "line 1: the file ends inside a declaration", b""),
            (HEAD.replace("$timescale 1 ns $end", ""), [], "no $timescale in the declarations", b""),
            (HEAD.replace("1 ns", "5 ns"), [], "line 1: unknown timescale 5ns", b""),
            (HEAD.replace("1 ns", "1 min"), [], "line 1: unknown timescale 1min", b""),
            (HEAD.replace("! S1", "!"), [], "line 1: a $var wants a type, a size, a code and a name", b""),
            (HEAD + BODY, ["--s1", "CLK"], "--s1 CLK: no signal of one bit of that name; there are: a.S1, a.S2", b""),
            (HEAD.replace("S2 ", "S1 ") + BODY, ["--s1", "S1"], "--s1 S1: more than one signal of one bit of that name; there are: a.S1, a.S1", b""),
            (HEAD.replace("wire 1 !", "wire 2 !") + BODY, [], "--s1 S1: no signal of one bit of that name; there are: a.S2", b""),
            (three, [], "--s1 S1: no signal of one bit of that name; there are: a.A, a.B, a.C", b""),
            (HEAD + BODY, ["--s2", "S1"], "S1 and S2 are the same signal", b""),
            (HEAD, [], "no time in the file", b""),
            (HEAD + BODY[:BODY.index("#6000")], [], "fewer than 8 bit periods found: is S1 the right signal? else give --period", b""),
            (HEAD + BODY + "#39000\n", [], "line 162: time goes back", TOLD[:38]),
            (HEAD + BODY + "#4x\n", ["--period", "1000"], "line 162: bad time #4x", TOLD[:38]),
            (HEAD + BODY + "2!\n", ["--period", "1000"], "line 162: '2!' is no change of a signal of one bit", TOLD[:38]),
            (HEAD + BODY + "b10 !\n", ["--period", "1000"], "line 162: 'b10' is no change of a signal of one bit", TOLD[:38]),
            ("a;b\n", CSV, "no table: no line has numbers in these columns", b""),
            ("0,1,1\n1e-6,x,1\n", CSV, "line 2: no numbers in the columns 1, 2, 3", b""),
            ("0,1\n", CSV, "no table: no line has numbers in these columns", b""),
            ("0,1,1\n-1e-6,1,1\n", CSV, "line 2: time goes back", b""),
            ("0,1,1\n1e-6,nan,1\n", CSV, "line 2: a cell is no number, or seconds of 1000000000 or more", b""),
            ("0,1,1\ninf,1,1\n", CSV, "line 2: a cell is no number, or seconds of 1000000000 or more", b""),
            ("0,1,1\n1e300,1,1\n", CSV, "line 2: a cell is no number, or seconds of 1000000000 or more", b""),
            ("$" + "x" * 2_000_000, [], "no VCD: a word has more than a million letters", b""),
            ("", ["--csv", "2,0.6", "3,0.1,0.2"], "--csv: each signal is COLUMN,LOW,HIGH", b""),
            ("", ["--csv", "2,0.6,0.6", "3,0.1,0.2"], "--csv: a column is 2 or above, and LOW is below HIGH", b""),
            ("", ["--csv", "1,0.6,1.2", "3,0.1,0.2"], "--csv: a column is 2 or above, and LOW is below HIGH", b""),
        ]:
            with self.subTest(said=said):
                self.assertEqual(self.refused(text.encode("latin-1"), words), (said, written))

    def refused(self, capture, words):
        """(why a capture is refused, what was written)"""
        sink = io.BytesIO()
        with contextlib.redirect_stderr(io.StringIO()), self.assertRaises(Refused) as refusal:
            vcd2rec.convert(words, io.BytesIO(capture), sink)
        return str(refusal.exception), sink.getvalue()

    def test_a_refusal_is_one_line_and_exit_1_and_wrong_options_are_exit_2(self):
        for words, status, said in [
            ([], 1, "no VCD: no $enddefinitions"),
            (["nowhere.vcd"], 1, "nowhere.vcd: No such file or directory"),
            (["--places", "nowhere/places"], 1, "nowhere/places: No such file or directory"),
            (["--period", "0"], 2, "--period: 1 or more nanoseconds"),
            (["--idle", "-1"], 2, "--glitch and --idle: 0 or more"),
            (["--grid"], 2, "--grid wants --period"),
            (["--csv", "2,0,1", "-", "--no-s2"], 2, "--s1, --s2 and --no-s2 are for a VCD, not for --csv"),
        ]:
            told = run("vcd2rec", *words)
            self.assertEqual((told.returncode, told.stdout, told.stderr.decode()), (status, b"", f"vcd2rec: {said}\n"))

    def test_the_help_names_each_option(self):
        told = run("vcd2rec", "--help")
        self.assertEqual((told.returncode, told.stderr), (0, b""))
        for option in ("--s1", "--s2", "--no-s2", "--invert-s1", "--invert-s2", "--period", "--glitch", "--idle", "--places", "--csv", "--grid"):
            self.assertIn(option, told.stdout.decode())


class Waves(unittest.TestCase):
    record = (EXAMPLES / "both_ways_over_resets.record").read_bytes()

    def strings(self, vcd):
        """[(time, variable, text)] of the string changes."""
        names, at, found = {}, 0, []
        for line in vcd.decode().splitlines():
            words = line.split()
            if words[:2] == ["$var", "string"]:
                names[words[3]] = words[4]
            elif line.startswith("#"):
                at = int(line[1:])
            elif line.startswith("s"):
                found.append((at, names[words[1]], words[0][1:].encode().decode("unicode_escape").encode("latin-1").decode()))
        return found

    def test_frames_and_lpdus_stand_from_their_first_bit_to_the_period_behind_eof(self):
        record = b"\x40" + self.record
        vcd = run("rec2vcd", "--period", 1000, input=record).stdout
        unit = 10  # nanoseconds: the coarsest of which a quarter of 250 is a multiple
        self.assertIn(b"$timescale 10 ns $end", vcd)
        shown = self.strings(vcd)
        for h in decode(record):
            side = "clf" if h.wire == CLF else "uicc"
            self.assertIn((h.start * 1000 // unit, f"{side}_lpdu", h.verdict.hex().upper()), shown)
            self.assertTrue(any(at == (h.end + 1) * 1000 // unit and name == f"{side}_frame" for at, name, _ in shown))
        self.assertEqual([text for at, name, text in shown if at == 0 and name != "line"], ["-"] * 4)

    def test_line_states_refusals_and_bits_are_shown(self):
        record = b"\x55\x55\xff\x40" + frame_periods(b"\xc1", UICC)[:-3] + b"\x50\0"
        shown = self.strings(run("rec2vcd", "--bits", input=record).stdout)
        line = [(at // 100, text) for at, name, text in shown if name == "line"]
        self.assertEqual(line, [(0, "suspended"), (2, "resume asked"), (3, "active"), (len(record) - 2, "no period"), (len(record) - 1, "deactivated")])
        self.assertIn("refused: broken", [text for _, name, text in shown if name == "uicc_frame"])
        bits = [text for _, name, text in shown if name == "uicc_bit"]
        self.assertEqual("".join(bits), "---0" + "".join(map(str, frame_bits(b"\xc1")))[:-3] + "--")

    def test_a_frame_that_begins_in_another_is_shown_to_its_end(self):
        whole = frame_periods(b"\xc1\xff", CLF)
        record = whole[:20] + whole + b"\x40\x40"
        shown = [(at // 100, text) for at, name, text in self.strings(run("rec2vcd", input=record).stdout) if name == "clf_frame"]
        self.assertEqual(shown, [(0, "refused: broken"), (20, "too long RR"), (20 + len(whole), "-")])

    def test_messages_stand_behind_the_frame_that_acknowledges_them(self):
        shown = self.strings(run("rec2vcd", "--messages", "bare", input=self.record).stdout)
        places = [at // 100 for at, name, text in shown if name == "message" and text != "-"]
        told = [line for line in swp("tap", "bare", input=self.record).decode().splitlines() if line.startswith("got ")]
        self.assertEqual(len(places), len(told))
        for place, number in zip(places, range(1, len(told) + 1)):
            self.assertEqual(swp("tap", "bare", input=self.record[:place]).count(b"got "), number)
            self.assertEqual(swp("tap", "bare", input=self.record[: place - 1]).count(b"got "), number - 1)

    def test_plain_has_no_strings(self):
        vcd = run("rec2vcd", "--plain", input=self.record).stdout
        self.assertEqual(vcd.count(b"$var"), 2)
        self.assertNotIn(b"string", vcd)

    def test_refusals(self):
        for words, data, status, said in [
            (["--period", "1002"], b"", 2, "--period: a multiple of 4 from 4 to 1000000"),
            (["--period", "0"], b"", 2, "--period: a multiple of 4 from 4 to 1000000"),
            (["--plain", "--bits"], b"", 2, "--plain has no strings: leave out --bits and --messages"),
            ([], bytes(LIMIT + 1), 1, "too much input: a record has at most 16777216 bytes"),
            (["nowhere.rec"], b"", 1, "nowhere.rec: No such file or directory"),
            (["--messages", "bare", "--swp", "nowhere/swp"], b"\x40", 1, "nowhere/swp: No such file or directory"),
        ]:
            told = run("rec2vcd", *words, input=data)
            self.assertEqual((told.returncode, told.stdout, told.stderr.decode()), (status, b"", f"rec2vcd: {said}\n"))


class Middles(unittest.TestCase):
    names = ["numbers_wrap", "message_of_4096_bytes", "window_of_four", "lost_frame_is_rejected_and_resent", "both_ways_over_resets"]
    names += ["nodes/relays", "nodes/order_again"]

    def test_what_is_told_of_a_capture_that_begins_late_is_a_tail_of_the_whole(self):
        cuts = told = alone = 0
        for name in self.names:
            with open(EXAMPLES / f"{name}.transcript") as file:
                transcript = Transcript(file)
            record = bytes(transcript2rec.record_of(transcript, transcript.hosts[-1], 2, False))
            whole = self.taps("hci" if transcript.hci else "bare", record)
            ends = [h.end for h in decode(record)]
            begun = max((h.end for h in decode(record) if h.verdict[0] in (0xE6, 0xF9, 0x60, 0x61, 0x62)), default=0)
            for end in [end for end in ends[:-1] if end > begun][:24]:
                part = record[end + 1 :]
                late = self.taps("bare", from_middle.prepared(part, lambda text: None))
                for side in "ch":
                    self.is_tail([x for x in late if x[0] == side], [x for x in whole if x[0] == side], f"{name} from {end}")
                cuts, told, alone = cuts + 1, told + len(late), alone + len(self.taps("bare", part))
        self.assertGreater(cuts, 80)
        self.assertGreater(told, 2 * alone)

    def is_tail(self, late, whole, where):
        """A first message may be told without its front."""
        rest = whole[len(whole) - len(late) :]
        self.assertEqual(late[1:], rest[1:], where)
        if late:
            self.assertTrue(rest[0][2].endswith(late[0][2]), where)

    def taps(self, form, record):
        """[(side, pipe, message)]"""
        return [(words[1], words[3], words[4]) for words in (line.split() for line in swp("tap", form, input=record).decode().splitlines()[:-1])]

    def test_the_frames_in_front_bring_both_sides_to_their_numbers(self):
        for sent, waiting, nr in ((0, 0, 0), (5, 0, 3), (5, 2, 7), (1, 3, 1), (0, 1, 6)):
            told = decode(from_middle.frames_in_front(UICC, sent, waiting, nr))
            frames = [h.verdict for h in told if h.wire == UICC]
            answers = [h.verdict for h in told if h.wire == CLF]
            self.assertEqual([(ns_of(lpdu), nr_of(lpdu)) for lpdu in frames], [(number % 8, nr) for number in range(len(frames))])
            self.assertEqual((len(frames) % 8, len(frames) - len(answers)), (sent, waiting))
            self.assertEqual([control(lpdu)[1] for lpdu in answers], [f"RR({(number + 1) % 8})" for number in range(len(answers))])

    def test_the_notes_name_the_numbers(self):
        part = frame_periods(b"\xab\x81\x43", CLF) + frame_periods(b"\xc5", UICC) + frame_periods(b"\xc3", CLF)
        told = run("from_middle", input=part)
        notes = [f"from_middle: the {side} begins at N(S) {number}, 0 before it not acknowledged\n" for side, number in (("CLF", 5), ("UICC", 3))]
        self.assertEqual((told.returncode, told.stderr.decode()), (0, "".join(notes)))
        self.assertTrue(told.stdout.endswith(part))

    def test_a_record_that_is_too_long_is_refused(self):
        told = run("from_middle", input=bytes(LIMIT + 1))
        self.assertEqual((told.returncode, told.stdout, told.stderr), (1, b"", b"from_middle: too much input: a record has at most 16777216 bytes\n"))


class LintOfRecords(unittest.TestCase):
    def test_a_record_is_counted(self):
        path = EXAMPLES / "both_ways_over_resets.record"
        told = run("lint_record", path)
        counted = f"{path}: 1405 bytes: 1405 periods of bits, 0 suspended, 0 resume asked, 0 deactivated, 0 no period\n"
        counted += "  frames: 7 of the CLF, 9 of the UICC; refused: 0\n"
        self.assertEqual((told.returncode, told.stdout.decode(), told.stderr), (0, counted, b""))

    def test_other_files_are_named(self):
        frames = b"".join(frame_periods(bytes([0xC0 | k]), CLF) + b"\x40" * 9 for k in range(8))
        swapped = bytes(BYTE_OF[bits[::-1]] for bits in ((s1, s2) for s1, s2 in self.bits(frames)))
        cases = [
            (b"", "the file is empty"),
            (b"$date today $end", "this looks like a VCD: vcd2rec FILE > RECORD"),
            (b"PK\x03\x04rest", "this looks like a zip, perhaps a session of sigrok: sigrok-cli -i FILE -O vcd | vcd2rec > RECORD"),
            (b"> swp 1 bare 02\n", "this looks like a transcript: transcript2rec FILE > RECORD"),
            (b"swp 1 bare 02\n", "this looks like a schedule: swp replay < FILE"),
            (b"Time,CH1,CH2\n0,1,2\n", "this looks like a table of text: vcd2rec --csv COLUMN,LOW,HIGH COLUMN,LOW,HIGH FILE > RECORD"),
            (b"anything else, on\x01two lines", "more than a tenth of the bytes are no period: this is no record, or its capture had another bit period"),
            (bytes(0x54 if byte == 0x40 else 0x40 for byte in frames), "no frame, and more than a hundred periods with a 1"),
            (bytes(0x54 if byte == 0x40 else 0x40 for byte in frames), "with S1 inverted there are frames"),
            (frames + bytes(LIMIT), "swp reads 16777216 bytes at most: vcd2rec --idle 64 shortens idle line"),
        ]
        for data, said in cases:
            hints = list(lint_record.hints_of(data, lint_record.counts(data), lint_record.frames(data[:LIMIT])))
            self.assertIn(said, hints)
        quiet = b"\x40" * 5000
        self.assertEqual(list(lint_record.hints_of(quiet, lint_record.counts(quiet), lint_record.frames(quiet))), [])
        self.assertEqual(list(lint_record.hints_of(swapped, lint_record.counts(swapped), lint_record.frames(swapped))), [])
        self.assertEqual(lint_record.frames(swapped)[1], 8)

    def bits(self, record):
        by_byte = {byte: bits for bits, byte in BYTE_OF.items()}
        return [by_byte[byte] for byte in record]

    def test_the_exit_status_tells(self):
        for data, status in ((frame_periods(b"\xc1", CLF), 0), (b"$date", 1)):
            with tempfile.TemporaryDirectory() as folder:
                Path(folder, "file").write_bytes(data)
                self.assertEqual(run("lint_record", f"{folder}/file").returncode, status)
        for words, status, said in (([], 2, "the following arguments are required: file"), (["nowhere"], 1, "nowhere: No such file or directory")):
            told = run("lint_record", *words)
            self.assertEqual((told.returncode, told.stdout, told.stderr.decode()), (status, b"", f"lint_record: {said}\n"))


if __name__ == "__main__":
    unittest.main()
