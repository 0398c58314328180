"""Reads the items of a source: what each is, where its parts stand. What isn't known here is refused."""

from tokens import CLOSING, COMMENT, DOC, OPENING, SIGN, SPACE, WORD, Refused, closing, is_blank, text_of

CLAUSES = {"requires", "ensures"}
# How an item begins, behind `pub` and what stands in brackets there.
KINDS = {"use", "mod", "const", "static", "type", "struct", "enum", "impl", "trait", "fn"}


class Item:
    """An item: its lead (space, comments, documents, attributes), its head, its clauses, and what stands in its braces."""

    def __init__(self, kind, lead, head):
        self.kind, self.lead, self.head = kind, lead, head
        self.clauses = []  # the texts of `requires` and `ensures`, as they stand
        self.attributes = []  # the token lists of its attributes
        self.body = None  # the tokens between its braces; None where a `;` ends it
        self.inner = None  # the items between its braces, where it is an impl, a trait or a module
        self.name = None

    def has_attribute(self, *words):
        return any([t.text for t in a if not is_blank(t)][2:-1] == list(words) for a in self.attributes)


class Reader:
    """Reads the items of one source, from the first token to the last."""

    def __init__(self, tokens, name):
        self.tokens, self.name, self.at = tokens, name, 0

    def refuse(self, what, at=None):
        at = min(self.at if at is None else at, len(self.tokens) - 1)
        raise Refused(f"{self.name}:{self.tokens[at].line if self.tokens else 1}: {what}")

    def now(self, ahead=0):
        at = self.at + ahead
        return self.tokens[at].text if at < len(self.tokens) else ""

    def pass_blanks(self):
        start = self.at
        while self.at < len(self.tokens) and is_blank(self.tokens[self.at]):
            self.at += 1
        return self.tokens[start : self.at]

    def until(self, *signs):
        """The tokens up to one of these outside of all brackets, and the place of it."""
        start = at = self.at
        while at < len(self.tokens):
            token = self.tokens[at]
            if token.text in signs and token.kind in (SIGN, WORD):
                return self.tokens[start:at], at
            if token.kind == SIGN and token.text in OPENING:
                at = closing(self.tokens, at, self.name)
            elif token.kind == SIGN and token.text in CLOSING:
                break
            at += 1
        self.refuse(f"none of {' '.join(signs)} ends this item", start)

    def braces(self):
        """The tokens between the braces that begin here; it passes over them."""
        end = closing(self.tokens, self.at, self.name)
        inside = self.tokens[self.at + 1 : end]
        self.at = end + 1
        return inside

    def lead(self):
        """What stands before an item, and the attributes in it."""
        start, attributes = self.at, []
        while self.at < len(self.tokens):
            token = self.tokens[self.at]
            if token.kind in (SPACE, COMMENT, DOC):
                self.at += 1
            elif token.text == "#":
                begun = self.at
                self.at += 2 if self.now(1) == "!" else 1
                if self.now() != "[":
                    self.refuse("an attribute without brackets")
                self.at = closing(self.tokens, self.at, self.name) + 1
                attributes.append(self.tokens[begun : self.at])
            else:
                break
        return self.tokens[start : self.at], attributes

    def items(self):
        """All items up to the end, and what stands behind the last one."""
        found = []
        while True:
            lead, attributes = self.lead()
            if self.at == len(self.tokens):
                return found, lead
            item = self.item(lead)
            item.attributes = attributes
            found.append(item)

    def item(self, lead):
        kind, words = self.kind()
        read = {"ghost": self.ghost, "fn": self.function, "impl": self.block, "trait": self.block, "mod": self.module}.get(kind, self.plain)
        item = read(kind, lead)
        item.name = item.name or words
        return item

    def kind(self):
        """Which kind of item begins here, and its name where one follows at once."""
        place, words = self.at, []
        at = self.at
        while at < len(self.tokens) and len(words) < 6:
            token = self.tokens[at]
            if is_blank(token):
                at += 1
            elif token.text == "(" and words == ["pub"]:
                at = closing(self.tokens, at, self.name) + 1
            elif token.kind == WORD:
                words.append(token.text)
                at += 1
            else:
                break
        if words[:1] == ["pub"]:
            words = words[1:]
        if words[:2] == ["const", "fn"]:
            words = words[1:]
        if not words or words[0] not in KINDS | {"ghost"}:
            self.refuse(f"no item that is known begins with {' '.join(words) or self.tokens[place].text!r}", place)
        return words[0], words[1] if len(words) > 1 else None

    def ghost(self, _kind, lead):
        """`ghost use ..;`, or `ghost NAME = {..}` and `ghost NAME: {..}` with what ends them."""
        start = self.at
        self.at += 1
        self.pass_blanks()
        if self.now() == "use":
            _, end = self.until(";")
            item = Item("ghost use", lead, self.tokens[start : end + 1])
            self.at = end + 1
            return item
        _, at = self.until("{")
        between = [t.text for t in self.tokens[self.at : at] if not is_blank(t)]
        if len(between) != 2 or between[1] not in ("=", ":"):
            self.refuse("a ghost item of an unknown form", start)
        self.at = closing(self.tokens, at, self.name) + 1
        if self.now() not in (";", ","):
            self.refuse("a ghost item that nothing ends", start)
        self.at += 1
        return Item("ghost", lead, self.tokens[start : self.at])

    def plain(self, kind, lead):
        """An item that ends by its braces, if it is a struct or an enum with some, or by a semicolon."""
        head, end = self.until(";", "{") if kind in ("struct", "enum") else self.until(";")
        item = Item(kind, lead, head)
        self.at = end
        if self.now() == "{":
            item.body = self.braces()
        else:
            self.at += 1
        return item

    def module(self, kind, lead):
        head, end = self.until(";", "{")
        item = Item(kind, lead, head)
        self.at = end
        if self.now() == "{":
            item.body = self.braces()
        else:
            self.at += 1
        return item

    def block(self, kind, lead):
        """An impl or a trait."""
        head, end = self.until("{")
        item = Item(kind, lead, head)
        self.at = end
        item.body = self.braces()
        inner = Reader(item.body, self.name)
        item.inner = inner.items()
        return item

    def clause(self):
        """A clause: its word, perhaps a star, perhaps a name, and its braces."""
        start = self.at
        _, at = self.until("{")
        between = [t.text for t in self.tokens[self.at : at] if not is_blank(t)]
        if len(between) > 2 + (between[1:2] == ["*"]) and not between[-1] == "»":
            self.refuse("a clause of an unknown form", start)
        self.at = closing(self.tokens, at, self.name) + 1
        return text_of(self.tokens[start : self.at])

    def function(self, kind, lead):
        """A function: its signature, its clauses, and its body, or the semicolon of a trait's method."""
        head, end = self.until("requires", "ensures", "{", ";")
        item = Item(kind, lead, head)
        while head and is_blank(head[-1]):
            item.clauses = words_of_comments([head.pop()]) + item.clauses
        self.at = end
        while self.now() in CLAUSES:
            item.clauses.append(self.clause())
            item.clauses += words_of_comments(self.pass_blanks())
        if self.now() == "{":
            item.body = self.braces()
        elif self.now() == ";":
            self.at += 1
        else:
            self.refuse("neither a body nor a semicolon ends this function")
        return item


def words_of_comments(tokens):
    """What the comments among these tokens say."""
    return [t.text.lstrip("/").strip() for t in tokens if t.kind == COMMENT and t.text.startswith("//")]
