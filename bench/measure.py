#!/usr/bin/env python3
"""Prints the table of bench/README.md: bench/measure.py [PROGRAM]. Run it at the top of the repository, behind a gate or ./swp-build.

Of each job it counts the instructions a unit by callgrind, where valgrind is there, and takes the processor time of the program
itself, the best of eleven runs, the most memory that it had, and its page faults. The jobs take turns, so that a slow moment of
the machine meets all of them. A unit is a line of a schedule, a round of settling, a byte of a record or of what comes to an end, or a run."""

import os
import re
import shutil
import subprocess
import sys
import tempfile
from pathlib import Path
from typing import NamedTuple

HERE = Path(__file__).resolve().parent
RUNS = 11
# the most of a record over which instructions are counted
COUNTED = 1_048_576
SCHEDULES = (
    "short10000", "short20000", "lossy", "long", "drawn", "nodes20000", "settling", "settling_bare", "compacting", "many_pipes",
)
# roles, links, what comes, and what it is
ENDS = (
    ("clf", "bytes", "uicc.bytes", "a message in each frame"),
    ("clf", "bytes", "to_clf.bytes", "a dialogue"),
    ("uicc", "bytes", "to_uicc.bytes", "a dialogue"),
    ("clf", "line", "to_clf.rec", "a dialogue"),
    ("uicc", "line", "to_uicc.rec", "a dialogue"),
    ("clf", "line", "idle.rec", "idle"),
)


class Job(NamedTuple):
    """A run of the program: its name, its words, what it reads, what a unit is, how many there are, and the memory that it finds, if it finds one."""

    name: str
    words: list
    path: Path
    unit: str
    units: int
    memory: Path | None = None


def jobs(program, folder):
    """Each job, behind the making of what it reads."""
    for script in ("make_records.py", "make_schedules.py", "make_memories.py"):
        subprocess.run([sys.executable, HERE / script, folder], check=True)
    subprocess.run([sys.executable, HERE / "make_dialogues.py", program, folder], check=True)
    for name in SCHEDULES:
        path = folder / f"{name}.schedule"
        yield Job(f"replay {name}", ["replay"], path, "line", path.read_bytes().count(b"\n"))
    yield Job("replay busy", ["replay"], folder / "busy.schedule", "round", 20_000)
    for word, words in (("decode", ["decode"]), ("tap", ["tap", "hci"])):
        for name in ("frames", "damaged", "noise", "breaks", "bytes"):
            path = folder / f"{name}.rec"
            yield Job(f"{word} {name}", words, path, "byte", path.stat().st_size)
    for role, link, name, what in ENDS:
        path = folder / name
        yield Job(f"end {role} {link}, {what}", ["end", role, link], path, "byte", path.stat().st_size)
    for name in ("full", "syncs", "values"):
        yield Job(f"tables {name}", ["tables"], Path(os.devnull), "run", 1, folder / name / "swp.nv")
    yield Job("gen 0", ["gen", "0"], Path(os.devnull), "line", 2_061)


def place(job, folder):
    """The folder in which a job is run, with no more in it than the memory that it finds."""
    where = folder / "run"
    where.mkdir(exist_ok=True)
    (where / "swp.nv").unlink(missing_ok=True)
    if job.memory:
        shutil.copy(job.memory, where / "swp.nv")
    return where


def run(program, job, folder):
    """The processor time of one run in seconds, and its page faults."""
    with open(job.path, "rb") as source, open(os.devnull, "wb") as sink:
        child = subprocess.Popen([program, *job.words], stdin=source, stdout=sink, cwd=place(job, folder))
        _pid, status, usage = os.wait4(child.pid, 0)
    if status != 0:
        sys.exit(f"{program} {job.words} ended with {status} on {job.path}")
    return usage.ru_utime + usage.ru_stime, usage.ru_minflt + usage.ru_majflt


def most_memory(program, job, folder):
    """The most memory that it had, in kilobytes, where the command `time` is there: a child of this script begins with the script's own."""
    if not os.path.exists("/usr/bin/time"):
        return None
    with open(job.path, "rb") as source:
        told = subprocess.run(
            ["/usr/bin/time", "-f", "%M", program, *job.words],
            stdin=source, stdout=subprocess.DEVNULL, stderr=subprocess.PIPE, text=True, check=True, cwd=place(job, folder),
        ).stderr
    return int(told)


def instructions(program, job, folder):
    """The instructions a unit, over the first of a record or over a whole schedule."""
    if not shutil.which("valgrind"):
        return None
    path, units = job.path, job.units
    if job.unit == "byte":
        units = min(units, COUNTED)
        path = folder / "part"
        path.write_bytes(job.path.read_bytes()[:units])
    with open(path, "rb") as source:
        told = subprocess.run(
            ["valgrind", "--tool=callgrind", "--callgrind-out-file=/dev/null", program, *job.words],
            stdin=source, stdout=subprocess.DEVNULL, stderr=subprocess.PIPE, text=True, check=True, cwd=place(job, folder),
        ).stderr
    return int(re.search(r"Collected : (\d+)", told)[1]) / units


def main():
    program = os.path.abspath(sys.argv[1] if len(sys.argv) > 1 else "crates/swp/out/swp")
    if not os.path.exists(program):
        sys.exit(f"{program} is not there: ./swp-build proves and builds it")
    with tempfile.TemporaryDirectory() as name:
        folder = Path(name)
        rows = list(jobs(program, folder))
        runs = {job.name: [] for job in rows}
        for _ in range(RUNS):
            for job in rows:
                runs[job.name].append(run(program, job, folder))
        print("| job | unit | instructions a unit | nanoseconds a unit | most memory, KB | page faults |")
        print("|---|---|---|---|---|---|")
        for job in rows:
            count = instructions(program, job, folder)
            best = min(runs[job.name])
            memory = most_memory(program, job, folder)
            shown = "-" if count is None else f"{count:,.1f}" if count < 100 else f"{count:,.0f}"
            kept = "-" if memory is None else f"{memory:,}"
            print(f"| {job.name} | {job.unit} | {shown} | {best[0] / job.units * 1e9:,.1f} | {kept} | {best[1]} |")


if __name__ == "__main__":
    main()
