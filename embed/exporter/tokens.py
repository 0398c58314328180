"""Cuts a source into tokens, so that nothing is ever searched for inside a string or a comment."""

import re

SPACE, COMMENT, DOC, STRING, CHAR, LIFETIME, NUMBER, WORD, SIGN = "space", "comment", "doc", "string", "char", "lifetime", "number", "word", "sign"

PLAIN = re.compile(
    r"""(?P<space>\s+)
      | (?P<doc>//[/!](?!/)[^\n]*)
      | (?P<comment>//[^\n]*)
      | (?P<raw>(?:br|cr|r)(?P<hashes>\#*)")
      | (?P<string>(?:b|c)?"(?:[^"\\]|\\.)*")
      | (?P<char>b?'(?:[^'\\\n]|\\(?:u\{[0-9A-Fa-f_]+\}|x[0-9A-Fa-f]{2}|.))')
      | (?P<lifetime>'[A-Za-z_]\w*)
      | (?P<number>[0-9][0-9A-Za-z_]*(?:\.[0-9][0-9A-Za-z_]*)?)
      | (?P<word>(?:r\#)?[A-Za-z_]\w*)
      | (?P<sign>\S)""",
    re.X | re.S,
)

# What is no letter of a Rust program, and only of clauses and definitions.
OPENING = {"(": ")", "[": "]", "{": "}"}
CLOSING = {")", "]", "}"}


class Refused(Exception):
    """A source that isn't understood: FILE:LINE and what stands there."""


class Token:
    """A piece of a source, with the line on which it begins."""

    __slots__ = ("kind", "text", "line")

    def __init__(self, kind, text, line):
        self.kind, self.text, self.line = kind, text, line

    def __repr__(self):
        return f"{self.line}:{self.kind}:{self.text!r}"


def end_of_comment(text, at):
    """The place behind the block comment that begins at this place, with all that stand in it; None where it doesn't end."""
    depth = 0
    while at < len(text):
        if text.startswith("/*", at):
            depth, at = depth + 1, at + 2
        elif text.startswith("*/", at):
            depth, at = depth - 1, at + 2
            if depth == 0:
                return at
        else:
            at += 1
    return None


def token_at(text, at, name, line):
    """The kind of the token at this place, and the place behind it."""
    if text.startswith("/*", at):
        end = end_of_comment(text, at)
        if end is None:
            raise Refused(f"{name}:{line}: a comment that doesn't end")
        return (DOC if text.startswith(("/**", "/*!"), at) and end - at > 4 else COMMENT), end
    found = PLAIN.match(text, at)
    kind = found.lastgroup if found.lastgroup != "hashes" else "raw"
    if found["raw"]:
        end = text.find('"' + found["hashes"], found.end())
        if end < 0:
            raise Refused(f"{name}:{line}: a raw string that doesn't end")
        return STRING, end + 1 + len(found["hashes"])
    if kind == "sign" and found[0] in "\"'" and found[0] == '"':
        raise Refused(f"{name}:{line}: a string that doesn't end")
    return kind, found.end()


def tokens_of(text, name):
    """The tokens of a source, in order: their texts one behind the other are the source."""
    tokens, at, line = [], 0, 1
    while at < len(text):
        kind, end = token_at(text, at, name, line)
        tokens.append(Token(kind, text[at:end], line))
        line += text.count("\n", at, end)
        at = end
    return tokens


def is_blank(token):
    """Whether a token is space or a comment that documents nothing."""
    return token.kind in (SPACE, COMMENT)


def closing(tokens, at, name):
    """The place of the bracket that closes the one at this place."""
    open_ones, start = [], tokens[at]
    for place in range(at, len(tokens)):
        token = tokens[place]
        if token.kind != SIGN:
            continue
        if token.text in OPENING:
            open_ones.append(OPENING[token.text])
        elif token.text in CLOSING:
            if token.text != open_ones.pop():
                raise Refused(f"{name}:{token.line}: {token.text} closes another bracket")
            if not open_ones:
                return place
    raise Refused(f"{name}:{start.line}: {start.text} isn't closed")


def text_of(tokens):
    """The source that these tokens make."""
    return "".join(token.text for token in tokens)
