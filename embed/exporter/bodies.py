"""Turns the tokens of heads and bodies into Rust's: what differs is rewritten, and what isn't known is refused."""

from tokens import SIGN, WORD, Refused, Token, closing, is_blank

# Words that mean something to Rattle alone, or that nothing exported may have.
REFUSED = {"ghost", "requires", "ensures", "prove", "unsafe", "extern", "macro_rules", "syntax", "tactic", "async", "dyn"}
MACROS = {"matches", "unreachable", "write", "writeln", "vec", "format"}
# Words behind which a `!` denies what follows.
NEGATED = {"else", "if", "in", "match", "return", "while"}


class Bodies:
    """What is rewritten in the tokens of one source; `laws` are the names of functions that do nothing when they run."""

    def __init__(self, name, laws):
        self.name, self.laws = name, laws

    def refuse(self, token, what):
        raise Refused(f"{self.name}:{token.line}: {what}")

    def rewritten(self, tokens):
        """The tokens of a head or a body as Rust's."""
        out, at = [], 0
        while at < len(tokens):
            token = tokens[at]
            self.check(tokens, at)
            step = None
            if token.kind == WORD:
                step = self.macro(tokens, at, out) or self.law(tokens, at, out) or self.bound(tokens, at, out) or self.call(tokens, at, out)
            if step is None:
                out.append(token)
                step = at + 1
            at = step
        return out

    def check(self, tokens, at):
        """Refuses what Rust doesn't have, and what is exported in no case."""
        token = tokens[at]
        if token.kind == WORD and token.text in REFUSED:
            self.refuse(token, f"`{token.text}` where no clause and no ghost item is known")
        if token.kind == SIGN and not token.text.isascii():
            self.refuse(token, f"`{token.text}` outside a clause")
        is_macro = token.kind == WORD and following(tokens, at, 1) == "!" and following(tokens, at, 2) in ("(", "[", "{")
        if is_macro and token.text not in MACROS and token.text not in NEGATED:
            self.refuse(token, f"a macro that isn't known: {token.text}!")

    def macro(self, tokens, at, out):
        """`vec![in alloc; x; n]` and `format!(in alloc; ..)`."""
        if tokens[at].text not in ("vec", "format") or following(tokens, at, 1) != "!":
            return None
        open_at = place_of(tokens, at, 2)
        end = closing(tokens, open_at, self.name)
        inside = [t for t in tokens[open_at + 1 : end]]
        words = [t.text for t in inside if not is_blank(t)][:3]
        if words[:1] != ["in"] or words[2] != ";":
            self.refuse(tokens[at], f"{tokens[at].text}! that doesn't say where it takes its memory")
        rest = self.rewritten(inside[place_of(inside, 0, 2 if not is_blank(inside[0]) else 3) + 1 :])
        made = "Vec::from_elem" if tokens[at].text == "vec" else "std::format_in!"
        line = tokens[at].line
        out.append(Token(WORD, f"{made}({words[1]},{comma_separated(rest)})", line))
        return end + 1

    def law(self, tokens, at, out):
        """A statement that calls a law: `name(..);`, perhaps with a path or with what it is called on before it."""
        token = tokens[at]
        if token.text not in self.laws or following(tokens, at, 1) not in ("(", ":"):
            return None
        start = len(out)
        while start > 0 and not (out[start - 1].kind == SIGN and out[start - 1].text in (";", "{", "}")):
            start -= 1
        if any(t.kind != WORD and not is_blank(t) and t.text not in (":", ".", "&") for t in out[start:]):
            self.refuse(token, f"the law {token.text} is called within an expression")
        open_at = at
        while tokens[open_at].text != "(":
            open_at += 1
        end = closing(tokens, open_at, self.name)
        if any(t.text in ("(", "{", "?", "!") for t in tokens[open_at + 1 : end]) or following(tokens, end, 1) != ";":
            self.refuse(token, f"the call of the law {token.text} does more than name what it is of")
        del out[start:]
        return place_of(tokens, end, 1) + 1

    def bound(self, tokens, at, out):
        """`Drop` among the bounds of a type parameter: every value of Rust can be let go."""
        if tokens[at].text != "Drop":
            return None
        before = next((t for t in reversed(out) if not is_blank(t)), None)
        after = following(tokens, at, 1)
        if before is None or before.text not in ("+", ":"):
            self.refuse(tokens[at], "`Drop` that is no bound")
        if before.text == ":" and after == "+":
            return place_of(tokens, at, 1) + 1 + (tokens[place_of(tokens, at, 1) + 1].text == " ")
        while is_blank(out[-1]) or out[-1] is before:
            if out.pop() is before:
                break
        while out and is_blank(out[-1]):
            out.pop()
        return at + 1

    def call(self, tokens, at, out):
        """`.clone()` answers a `Result`, and `.collect(alloc)` is told where it takes its memory: Rust's do neither."""
        token = tokens[at]
        before = next((t.text for t in reversed(out) if not is_blank(t)), None)
        if before != "." or following(tokens, at, 1) != "(":
            return None
        inside = following(tokens, at, 2)
        if token.text == "clone" and inside == ")":
            out.append(Token(WORD, "try_clone", token.line))
            return at + 1
        if token.text == "collect" and inside != ")":
            out.append(Token(WORD, "collect_in", token.line))
            return at + 1
        return None


def place_of(tokens, at, ahead):
    """The place of the nth token behind this one that isn't blank; the end where there is none."""
    while ahead > 0 and at < len(tokens):
        at += 1
        while at < len(tokens) and is_blank(tokens[at]):
            at += 1
        ahead -= 1
    return at


def following(tokens, at, ahead):
    """The text of the nth token behind this one that isn't blank."""
    place = place_of(tokens, at, ahead)
    return tokens[place].text if place < len(tokens) else ""


def comma_separated(tokens):
    """The text of the parts of `vec!`, with a comma where a semicolon parts them."""
    depth, parts = 0, []
    for token in tokens:
        if token.kind == SIGN and token.text in "([{":
            depth += 1
        elif token.kind == SIGN and token.text in ")]}":
            depth -= 1
        parts.append("," if depth == 0 and token.kind == SIGN and token.text == ";" else token.text)
    return "".join(parts)
