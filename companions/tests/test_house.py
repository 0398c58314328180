"""What the companions promise of their own text: short functions, and nothing but Python's standard library."""

import ast
import sys
import unittest

from support import COMPANIONS

LONGEST = 40  # lines of a function


def programs():
    """The Python files of the companions and their tests."""
    for path in sorted([*COMPANIONS.iterdir(), *(COMPANIONS / "tests").iterdir()]):
        if path.is_file() and (path.suffix == ".py" or path.read_bytes().startswith(b"#!/usr/bin/env python3")):
            yield path


class House(unittest.TestCase):
    def test_functions_are_short(self):
        seen = 0
        for path in programs():
            for node in ast.walk(ast.parse(path.read_text())):
                if isinstance(node, ast.FunctionDef):
                    self.assertLess(node.end_lineno - node.lineno, LONGEST, f"{path.name}: {node.name}")
                    seen += 1
        self.assertGreater(seen, 100)

    def test_imports_are_of_the_standard_library_or_of_the_companions(self):
        own = {path.stem for path in programs()}
        for path in programs():
            for node in ast.walk(ast.parse(path.read_text())):
                names = [alias.name for alias in node.names] if isinstance(node, ast.Import) else [node.module] if isinstance(node, ast.ImportFrom) else []
                for name in names:
                    first = name.split(".")[0]
                    self.assertTrue(first in sys.stdlib_module_names or first in own, f"{path.name} imports {name}")

    def test_each_program_says_what_it_is(self):
        for path in programs():
            self.assertTrue(ast.get_docstring(ast.parse(path.read_text())), path.name)


if __name__ == "__main__":
    unittest.main()
