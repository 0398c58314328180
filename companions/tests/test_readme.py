"""The examples of companions/README.md and the samples that they read."""

import os
import re
import subprocess
import tempfile
import unittest
from pathlib import Path

from support import COMPANIONS, EXAMPLES, SAMPLES, SWP, companion, run, swp

from swp_formats import Transcript

transcript2rec = companion("transcript2rec")
BLOCK = re.compile(r"(?:^    .*\n)+", re.M)


def examples(text):
    """[(command, what it writes)] of the indented blocks of a document in which lines `$ COMMAND` stand."""
    found = []
    for block in BLOCK.findall(text):
        lines = [line[4:] for line in block.splitlines()]
        if lines[0].startswith("$ "):
            for line in lines:
                if line.startswith("$ "):
                    found.append((line[2:], []))
                else:
                    found[-1][1].append(line)
    return [(command, "".join(line + "\n" for line in lines)) for command, lines in found]


class Readme(unittest.TestCase):
    def test_each_example_writes_what_stands_there(self):
        told = examples((COMPANIONS / "README.md").read_text())
        self.assertGreater(len(told), 8)
        with tempfile.TemporaryDirectory() as folder:
            os.symlink(COMPANIONS, f"{folder}/companions")
            os.symlink(EXAMPLES, f"{folder}/examples")
            os.mkdir(f"{folder}/bin")
            os.symlink(Path(SWP).resolve(), f"{folder}/bin/swp")
            paths = f"{folder}/bin:{COMPANIONS}:{os.environ['PATH']}"
            for command, written in told:
                words, names = ["bash", "-c", command], {**os.environ, "PATH": paths, "SWP": "swp"}
                ran = subprocess.run(words, cwd=folder, env=names, stdout=subprocess.PIPE, stderr=subprocess.STDOUT, check=False)
                self.assertEqual(ran.stdout.decode(), written, command)
            self.assertTrue(Path(folder, "session.svg").read_text().startswith("<svg "))

    def test_the_samples_are_what_the_document_says(self):
        transcript = (SAMPLES / "session.transcript").read_bytes()
        self.assertEqual(swp("replay", input=(SAMPLES / "session.schedule").read_bytes()), transcript)
        record = (SAMPLES / "session.record").read_bytes()
        link = bytes(transcript2rec.record_of(Transcript(transcript.decode().splitlines(True)), "02", 6, False))
        self.assertEqual(record, bytes(20) + link + b"\x55" * 30)
        self.assertEqual(run("vcd2rec", SAMPLES / "session.vcd").stdout, record)
        self.assertEqual(run("vcd2rec", "--csv", "2,0.6,1.2", "3,0.1,0.2", SAMPLES / "scope.csv").stdout, record[:170])

    def test_each_companion_is_told_of(self):
        text = (COMPANIONS / "README.md").read_text()
        for path in COMPANIONS.iterdir():
            if path.is_file() and os.access(path, os.X_OK):
                self.assertIn(f"`{path.name}", text)


if __name__ == "__main__":
    unittest.main()
