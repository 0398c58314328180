"""Writes out what the derive of an error does: the texts beside its variants are its Display."""

import re

from tokens import OPENING, SIGN, STRING, WORD, closing, is_blank


def parts(tokens):
    """The parts of a list, which commas outside of brackets end."""
    found, at, part = [], 0, []
    while at < len(tokens):
        if tokens[at].kind == SIGN and tokens[at].text in OPENING:
            end = closing(tokens, at, "")
            part += tokens[at : end + 1]
            at = end + 1
            continue
        if tokens[at].text == ",":
            found.append(part)
            part = []
        else:
            part.append(tokens[at])
        at += 1
    return found + ([part] if part else [])


def solid(tokens):
    return [t for t in tokens if not is_blank(t) and t.kind != "doc"]


def arm(part, name, refuse):
    """The arm of a variant: `#[error("..")]` and its name, alone, with named fields, or with numbered ones."""
    texts = [t.text for t in part]
    text = part[4] if texts[:4] == ["#", "[", "error", "("] and texts[5:7] == [")", "]"] and part[4].kind == STRING else None
    if text is None or len(part) < 8 or part[7].kind != WORD:
        refuse(name, "a variant of an error without its text alone before it")
    rest, said, variant = part[8:], text.text, texts[7]
    if not rest:
        return f"            Self::{variant} => write!(f, {said}),\n"
    fields = parts(rest[1:-1])
    if rest[0].text == "{":
        names = [field[0].text for field in fields]
        return f"            Self::{variant} {{ {', '.join(names)} }} => write!(f, {said}),\n"
    if rest[0].text != "(" or any(t.text == "#" for t in rest):
        refuse(name, "a variant of an error with fields of an unknown form")
    names = [f"field_{number}" for number in range(len(fields))]
    said = re.sub(r"\{(\d+)", r"{field_\1", said)
    return f"            Self::{variant}({', '.join(names)}) => write!(f, {said}),\n"


def displayed(item, refuse):
    """The impls of Display and Error of an enum of errors; `refuse` ends with what isn't known."""
    if item.kind != "enum":
        refuse(item, "an error that is no enum")
    arms = "".join(arm(part, item, refuse) for part in parts(solid(item.body)))
    head = f"impl std::fmt::Display for {item.name} {{\n    fn fmt(&self, f: &mut std::fmt::Formatter<'_>) -> std::fmt::Result {{\n"
    return f"\n\n{head}        match self {{\n{arms}        }}\n    }}\n}}\n\nimpl std::error::Error for {item.name} {{}}"
