"""Writes a source of Rattle as one of Rust: without what is ghost, with its contracts as comments."""

import re

from bodies import Bodies
from errors import displayed
from items import Reader
from tokens import COMMENT, DOC, SPACE, WORD, Refused, Token, closing, is_blank, text_of, tokens_of

GONE_USES = {"std::marker::Model", "thiserror::Error"}
FOR_TESTS = ("test",), ("cfg", "(", "test", ")")
NEEDS_PRELUDE = {"Vec", "String", "Box", "try_clone", "collect_in", "TryClone"}


def is_for_tests(item):
    return any(item.has_attribute(*words) for words in FOR_TESTS)


def is_law(item):
    """Whether a function does nothing when it runs: it answers nothing, and can change nothing. Its contract is all that it says."""
    texts = [t.text for t in item.head if not is_blank(t)]
    pairs = set(zip(texts, texts[1:]))
    answers, changes = ("-", ">") in pairs, ("&", "mut") in pairs
    return item.kind == "fn" and not answers and not changes and not {"Fn", "FnMut", "FnOnce", "Abort"} & set(texts)


class Source:
    """One file: its items as read, and as Rust's text."""

    def __init__(self, text, name):
        self.name = name
        reader = Reader(tokens_of(text, name), name)
        self.items, self.rest = reader.items()

    def modules_of_tests(self):
        """The modules that it names for tests alone."""
        return {item.name for item in self.items if item.kind == "mod" and is_for_tests(item)}

    def functions(self):
        """All functions, those of its impls and traits too, but for those of tests."""
        for item in self.items:
            if item.kind == "fn" and not is_for_tests(item):
                yield item
            elif item.inner is not None and not is_for_tests(item):
                yield from (i for i in item.inner[0] if i.kind == "fn")

    def written(self, laws, gone_modules, header):
        """The text, and how many items do something, where these names are of laws and these modules have nothing that runs."""
        writer = Writer(self, laws, gone_modules)
        return writer.text(header), writer.kept


class Writer:
    def __init__(self, source, laws, gone_modules):
        self.source, self.name = source, source.name
        self.laws, self.gone_modules = laws, gone_modules
        self.bodies = Bodies(source.name, laws)
        self.is_inner_done = False
        self.kept = 0  # items that do something or are of use to what does

    def refuse(self, item, what):
        token = item.head[0] if item.head else item.lead[0]
        raise Refused(f"{self.name}:{token.line}: {what}")

    def text(self, header):
        first = self.source.items[0] if self.source.items else None
        inner, lead = split_inner(first.lead if first else self.source.rest)
        parts = [text_of(inner)]
        if first:
            first.lead = lead
        body = "".join(self.item(item, "") for item in self.source.items) + (text_of(self.source.rest) if first else "")
        used = {t.text for t in tokens_of(body, self.name) if t.kind == WORD}
        prelude = "use std::prelude::*;\n" if used & NEEDS_PRELUDE else ""
        return without_wide_gaps("".join(parts).rstrip("\n") + "\n" + header + prelude + body, self.name)

    def item(self, item, indent):
        """The text of an item with its lead; nothing where nothing of it is left."""
        if item.kind == "ghost use" or is_for_tests(item):
            return ""
        write = getattr(self, "write_" + item.kind.replace(" ", "_"), self.write_plain)
        return write(item, indent)

    def lead_of(self, item, comment=""):
        """The documents and attributes of an item, with its contract as a comment behind the documents."""
        out, at, lead = [], 0, item.lead
        attribute_at = next((i for i, t in enumerate(lead) if t.text == "#"), len(lead))
        out.append(text_of(lead[:attribute_at]))
        out.append(comment)
        at = attribute_at
        while at < len(lead):
            if lead[at].text == "#":
                end = closing(lead, at + 2 if lead[at + 1].text == "!" else at + 1, self.name)
                out.append(self.attribute(item, lead[at : end + 1]))
                at = end + 1
            else:
                out.append(lead[at].text)
                at += 1
        return re.sub(r"\n[ \t]*\n([ \t]*)\Z", r"\n\1", "".join(out)) if attribute_at < len(lead) else "".join(out)

    def attribute(self, item, tokens):
        """An attribute: none of the prover's; a derive without what Rust does by itself."""
        words = [t.text for t in tokens if not is_blank(t)]
        name = words[3] if words[1] == "!" else words[2]
        if name in ("tactic", "error"):
            return ""
        if name != "derive":
            if name not in ("inline", "cold", "default", "must_use", "repr", "allow"):
                self.refuse(item, f"an attribute that isn't known: {name}")
            return text_of(tokens)
        kept = [w for w in words[4:-2] if w not in (",", "Drop", "Error")]
        if "Clone" in kept and "Copy" not in kept:
            self.refuse(item, "Clone is derived without Copy")
        return f"#[derive({', '.join(kept)})]" if kept else ""

    def write_ghost(self, item, indent):
        return self.lead_of(item) + commented(text_of(item.head), indent_of(item.lead))

    def write_use(self, item, indent):
        """A `use` without laws, and without what Rust has no need of. What it takes of `core` is `rtstd`'s, which has more than Rust's own `core`."""
        first = next((t for t in item.head if t.text == "core"), None)
        if first is not None:
            first.text = "std"
        path = re.sub(r"\s+", "", text_of(item.head[1 + [t.text for t in item.head].index("use") :]))
        visible = text_of(item.head).lstrip().startswith("pub")
        head, names = path, None
        group = re.fullmatch(r"(.*)::\{(.*)\}", path)
        if group:
            head, names = group[1], [n for n in group[2].split(",") if n]
        if path in GONE_USES:
            return ""
        if names is None:
            return "" if path.split("::")[-1] in self.laws else self.lead_of(item) + text_of(item.head) + ";"
        kept = [n for n in names if n.split("::")[-1] not in self.laws and f"{head}::{n}" not in GONE_USES]
        if not kept:
            return ""
        if kept == names:
            return self.lead_of(item) + text_of(item.head) + ";"
        listed = kept[0] if len(kept) == 1 else "{" + ", ".join(kept) + "}"
        return self.lead_of(item) + text_of(item.head[: [t.text for t in item.head].index("use")]) + f"use {head}::{listed};"

    def write_mod(self, item, indent):
        if item.body is not None:
            self.refuse(item, "a module within a file")
        name = [t.text for t in item.head if t.kind == WORD][-1]
        return "" if name in self.gone_modules else self.lead_of(item) + text_of(item.head) + ";"

    def write_plain(self, item, indent):
        self.kept += 1
        head = text_of(self.bodies.rewritten(item.head))
        if item.body is None:
            return self.lead_of(item) + head + ";"
        errors = displayed(item, self.refuse) if any("Error" in [t.text for t in a] for a in item.attributes) else ""
        return self.lead_of(item) + head + "{" + self.fields(item) + "}" + errors

    def fields(self, item):
        """The fields of a struct or the variants of an enum; an attribute that isn't Rust's is left out, a ghost field a comment."""
        out, at, tokens, plain = [], 0, item.body, []
        while at < len(tokens):
            if tokens[at].text == "#":
                end = closing(tokens, at + 1, self.name) + 1
                written = self.attribute(item, tokens[at:end])
                end += not written and end < len(tokens) and tokens[end].kind == SPACE
            elif is_ghost_field(tokens, at):
                end = closing(tokens, place_of_brace(tokens, at, self.name), self.name) + 1
                end += end < len(tokens) and tokens[end].text == ","
                written = commented(text_of(tokens[at:end]), "    ")
            else:
                plain.append(tokens[at])
                at += 1
                continue
            out += self.bodies.rewritten(plain) + [Token(COMMENT, written, tokens[at].line)]
            plain, at = [], end
        return text_of(out + self.bodies.rewritten(plain))

    def write_fn(self, item, indent):
        if item.name in self.laws and is_law(item):
            return ""
        self.kept += 1
        comment = "".join(commented(clause, indent_of(item.lead)) + "\n" + indent_of(item.lead) for clause in item.clauses)
        head = text_of(self.bodies.rewritten(item.head)).rstrip()
        if item.body is None:
            return self.lead_of(item, comment) + head + ";"
        return self.lead_of(item, comment) + head + " {" + text_of(self.bodies.rewritten(item.body)) + "}"

    def write_trait(self, item, indent):
        """A trait. Its `Self` has a size in Rattle; in Rust that is said where a method has it in another type."""
        self.kept += 1
        head = text_of(self.bodies.rewritten(item.head)).rstrip()
        texts = [t.text for method in item.inner[0] if method.kind == "fn" for t in method.head if not is_blank(t)]
        if ("<", "Self") in zip(texts, texts[1:]):
            head += " + Sized" if ":" in head else ": Sized"
        return self.lead_of(item) + head + " {" + self.inner(item) + "}"

    def write_impl(self, item, indent):
        """An impl; a Model becomes a comment, and Clone, whose call answers a Result here, TryClone and Clone."""
        words = [t.text for t in item.head if not is_blank(t)]
        of = words[words.index("for") - 1] if "for" in words else None
        if of == "Model":
            return self.model(item)
        if of == "Drop":
            self.refuse(item, "an impl of Drop")
        inner, before = self.inner(item), self.kept
        if of is None and not inner.strip():
            return ""
        self.kept += 1
        head = text_of(self.bodies.rewritten(item.head))
        if of == "Clone":
            head = re.sub(r"\bClone\b", "TryClone", head, count=1)
            inner = re.sub(r"\bfn clone\(", "fn try_clone(", inner, count=1)
            return self.lead_of(item) + head + "{" + inner + "}" + infallible_clone(head)
        return self.lead_of(item) + head + "{" + inner + "}"

    def model(self, item):
        """What contracts see of a type, as a comment."""
        indent = indent_of(item.lead)
        ghosts = [i for i in item.inner[0] if i.kind == "ghost"]
        lines = "".join("\n" + commented(text_of(g.head), indent) for g in ghosts)
        return self.lead_of(item) + f"{indent}// In contracts: {re.sub(chr(10), ' ', text_of(item.head)).strip()}" + lines

    def inner(self, item):
        items, rest = item.inner
        return "".join(self.item(i, "    ") for i in items) + text_of(rest)


def split_inner(lead):
    """The documents and attributes of the file itself, and what follows them."""
    at = end = 0
    while at < len(lead):
        if lead[at].kind == DOC and lead[at].text.startswith(("//!", "/*!")):
            at += 1
            end = at
        elif lead[at].text == "#" and lead[at + 1].text == "!":
            at = closing(lead, at + 2, "") + 1
            words = [t.text for t in lead[end:at] if not is_blank(t)]
            if words[3] != "tactic":
                raise Refused(f"line {lead[end].line}: an attribute of a file that isn't known: {words[3]}")
            lead = lead[:end] + lead[at:]
            at = end
        elif lead[at].kind == SPACE:
            at += 1
        else:
            break
    return lead[:end], lead[end:]


def is_ghost_field(tokens, at):
    """Whether a ghost field begins here, public or not."""
    words = [token.text for token in tokens[at : at + 3]]
    return words[:1] == ["ghost"] or words[::2] == ["pub", "ghost"]


def place_of_brace(tokens, at, name):
    """The place of the first brace behind this one."""
    while at < len(tokens) and tokens[at].text != "{":
        at += 1
    if at == len(tokens):
        raise Refused(f"{name}:{tokens[-1].line}: a ghost field without braces")
    return at


def indent_of(lead):
    """The space before an item on its line."""
    spaces = [t.text for t in lead if t.kind == SPACE]
    return spaces[-1].rpartition("\n")[2] if spaces and lead[-1].kind == SPACE else ""


def commented(text, indent):
    """A text as a comment that stands so far to the right; its first line is already there."""
    lines = [re.sub(f"^{indent}", "", line) for line in text.split("\n")]
    least = min((len(line) - len(line.lstrip()) for line in lines[1:] if line.strip()), default=0)
    return ("\n" + indent).join("// " + line for line in [lines[0]] + [("    " + line[least:]).rstrip() for line in lines[1:]])


def without_wide_gaps(text, name):
    """A text with at most one empty line at a place, and none behind an opening or before a closing brace."""
    tokens = tokens_of(text, name)
    for before, token, after in zip([None] + tokens, tokens, tokens[1:] + [None]):
        if token.kind != SPACE:
            continue
        lines = token.text.count("\n")
        edge = before is None or after is None or before.text == "{" or after.text == "}"
        most = (0 if before is None else 1) if edge else 2
        token.text = "\n" * min(lines, most) + token.text.rpartition("\n")[2] if lines else token.text
    return text_of(tokens).rstrip("\n") + "\n"


def infallible_clone(head):
    """The Clone of a type that has a TryClone."""
    of = head.replace("TryClone", "Clone", 1).rstrip()
    return f"\n\n{of} {{\n    fn clone(&self) -> Self {{\n        std::clone::sure(self)\n    }}\n}}"
