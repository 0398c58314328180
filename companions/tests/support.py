"""What the tests of the companions share. The program under test is what the variable SWP names, else `swp`."""

import importlib.util
import os
import subprocess
import sys
from importlib.machinery import SourceFileLoader
from pathlib import Path

COMPANIONS = Path(__file__).resolve().parent.parent
ROOT = COMPANIONS.parent
SAMPLES = COMPANIONS / "samples"
EXAMPLES = ROOT / "examples"
SWP = os.environ.get("SWP", "swp")

if str(COMPANIONS) not in sys.path:
    sys.path.insert(0, str(COMPANIONS))


def companion(name):
    """A companion as a module, so that its functions can be called."""
    loader = SourceFileLoader(name, str(COMPANIONS / name))
    module = importlib.util.module_from_spec(importlib.util.spec_from_loader(name, loader))
    loader.exec_module(module)
    return module


def run(name, *words, input=b"", cwd=None):
    """Runs a companion as a program: a CompletedProcess with bytes."""
    return subprocess.run([sys.executable, str(COMPANIONS / name), *map(str, words)], input=input, capture_output=True, cwd=cwd, check=False)


def swp(*words, input=b""):
    """What the program under test writes; it must end well."""
    return subprocess.run([SWP, *words], input=input, capture_output=True, check=True).stdout


def transcripts():
    """The transcripts of all examples."""
    return sorted(EXAMPLES.rglob("*.transcript"))
