"""Which crates have something that runs, found in crates.txt and in the sources."""

import os
import re

from sources import Source, is_law
from tokens import WORD, Refused, tokens_of


class Crate:
    """A crate of the repository: what it may stand on, and its sources by their paths below src/."""

    def __init__(self, folder, name, below):
        self.name, self.below = name, below
        self.folder = os.path.join(folder, "crates", name, "src")
        self.sources = {}
        self.texts = {}  # what is written of each source that has something that runs
        self.uses = set()  # the crates that those name

    def read(self):
        for folder, _, names in sorted(os.walk(self.folder)):
            for name in sorted(names):
                path = os.path.join(folder, name)
                if not name.endswith(".rt"):
                    raise Refused(f"{path}:1: no source")
                with open(path, encoding="utf-8") as file:
                    self.sources[os.path.relpath(path, self.folder)] = Source(file.read(), os.path.relpath(path))
        for_tests = set().union(*(s.modules_of_tests() for s in self.sources.values()))
        for path in [p for p in self.sources if set(p[:-3].split("/")) & for_tests]:
            del self.sources[path]

    def write(self, laws, root_header):
        """Writes all sources, from the deepest modules up, so that a module without anything that runs isn't named above."""
        gone = set()
        for path in sorted(self.sources, key=lambda p: (p in ("lib.rt", "main.rt"), -p.count("/"), p)):
            is_root = path in ("lib.rt", "main.rt")
            text, kept = self.sources[path].written(laws, gone, root_header if is_root else "")
            # a crate may do no more than hand on what others have
            hands_on = is_root and set(re.findall(r"(?m)^pub use (\w+)::", text)) & set(self.below)
            if kept or hands_on or is_root and self.texts:
                self.texts[path[:-3] + ".rs"] = text
            else:
                gone.add(os.path.basename(path)[:-3])
        for path, text in self.texts.items():
            words = {t.text for t in tokens_of(text, path) if t.kind == WORD}
            self.uses |= words & set(self.below)


def read_list(folder):
    """The crates of crates.txt by name."""
    crates = {}
    with open(os.path.join(folder, "crates.txt"), encoding="utf-8") as file:
        for number, line in enumerate(file, 1):
            line = line.split("#")[0].strip()
            if not line:
                continue
            found = re.fullmatch(r"(\w+)((?: \w+=?\S*)*): ?(.*)", line)
            if not found:
                raise Refused(f"crates.txt:{number}: no line of a crate: {line}")
            crates[found[1]] = Crate(folder, found[1], found[3].split())
    return crates


def law_names(crates):
    """The names that only laws have, in all crates."""
    laws, others = set(), set()
    for crate in crates.values():
        for source in crate.sources.values():
            for item in source.functions():
                (laws if is_law(item) else others).add(item.name)
    return laws - others - {"main"}


def reached(crates, roots, laws, header):
    """The crates whose code the roots reach, lowest first."""
    order, begun = [], set()

    def visit(name):
        if name in begun or name not in crates:
            return
        begun.add(name)
        crate = crates[name]
        crate.write(laws, header)
        if not crate.texts:
            raise Refused(f"{crate.folder}:1: nothing runs in {name}, and it is named where something does")
        for below in sorted(crate.uses):
            visit(below)
        order.append(crate)

    for root in roots:
        visit(root)
    return order
