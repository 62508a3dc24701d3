"""Templates: the texts that are templates, what they are read as, and where a text that is none is refused.

Depth isn't looked at: the texts that are made here stay far below its limit.
"""
import re
from typing import NamedTuple

GREATEST = 2**63 - 1
LEVELS = [["||"], ["&&"], ["==", "!="], [">", ">=", "<", "<="], ["+", "-"], ["*"]]
BINARY = {operator for level in LEVELS for operator in level}
# (longer ones first)
SYMBOLS = ["==", "!=", "<=", ">=", "&&", "||", *"!-+*<>?:()[],.}"]
ESCAPES = {b'"': b'"', b"\\": b"\\", b"n": b"\n", b"r": b"\r", b"t": b"\t"}
WORDS = {"true": True, "false": False, "null": None}
NAME = re.compile(rb"[A-Za-z_][A-Za-z0-9_-]*")
DIGITS = re.compile(rb"[0-9]+")


class Unread(Exception):
    """The text is no template; the offset is that of the first byte with which none goes on."""

    def __init__(self, offset):
        super().__init__(offset)
        self.offset = offset


class Literal(NamedTuple):
    value: object


class Woven(NamedTuple):
    """A template: a text before each term, and one after the last."""

    texts: list
    terms: list


class Reference(NamedTuple):
    first: str
    name: str


class Call(NamedTuple):
    function: str
    arguments: list


class Items(NamedTuple):
    parts: list


class Unary(NamedTuple):
    operator: str
    operand: object


class Binary(NamedTuple):
    operator: str
    left: object
    right: object


class Choice(NamedTuple):
    condition: object
    yes: object
    no: object


class Attribute(NamedTuple):
    base: object
    name: str


class Index(NamedTuple):
    base: object
    at: object


TERMS = (Literal, Woven, Reference, Call, Items, Unary, Binary, Choice, Attribute, Index)


def nodes(term):
    """Yields a term and all terms within it."""
    yield term
    for field in term:
        for it in field if isinstance(field, list) else [field]:
            if isinstance(it, TERMS):
                yield from nodes(it)


class Token(NamedTuple):
    """`kind` is end, name, number, quote, symbol, begun (a symbol that the text ends in) or none."""

    kind: str
    text: str
    start: int
    end: int


class Reader:
    def __init__(self, text):
        self.bytes, self.place = text.encode(), 0

    def peek(self):
        while self.bytes[self.place : self.place + 1] in (b" ", b"\t", b"\n", b"\r"):
            self.place += 1
        at, rest = self.place, self.bytes[self.place :]
        if not rest:
            return Token("end", "", at, at)
        if found := NAME.match(rest):
            return Token("name", found[0].decode(), at, at + len(found[0]))
        if found := DIGITS.match(rest):
            return Token("number" if int(found[0]) <= GREATEST else "none", found[0].decode(), at, at + len(found[0]))
        if rest[:1] == b'"':
            return Token("quote", '"', at, at + 1)
        for symbol in SYMBOLS:
            if rest.startswith(symbol.encode()):
                return Token("symbol", symbol, at, at + len(symbol))
        return Token("begun" if rest in (b"=", b"&", b"|") else "none", rest[:1].decode(errors="replace"), at, at + 1)

    def refuse(self, token, behind_operand=False):
        """Refuses the next token. If a text ends within an operator that is allowed there, it is refused at its end."""
        begun = token.kind == "begun" or (token.text == "!" and token.end == len(self.bytes))
        raise Unread(len(self.bytes) if token.kind == "end" or (behind_operand and begun) else token.start)

    def next_is(self, symbol):
        """Takes a symbol, if it is next."""
        token = self.peek()
        if token.kind == "symbol" and token.text == symbol:
            self.place = token.end
            return True
        return False

    def close(self, symbol):
        """Takes a symbol that has to come after an operand."""
        if not self.next_is(symbol):
            self.refuse(self.peek(), behind_operand=True)

    def name(self):
        token = self.peek()
        if token.kind != "name":
            self.refuse(token)
        self.place = token.end
        return token.text

    def template(self, quoted):
        texts, terms, text = [], [], b""
        while True:
            rest = self.bytes[self.place :]
            if not rest and quoted:
                raise Unread(len(self.bytes))
            if not rest or (quoted and rest[:1] == b'"'):
                self.place += quoted
                return Woven([*texts, text.decode()], terms)
            if rest[:3] in (b"$${", b"%%{"):
                text, self.place = text + rest[1:3], self.place + 3
            elif rest[:2] == b"${":
                self.place += 2
                terms.append(self.term())
                self.close("}")
                texts, text = [*texts, text.decode()], b""
            elif rest[:2] == b"%{" or (quoted and rest[:1] == b"\n"):
                raise Unread(self.place)
            elif quoted and rest[:1] == b"\\":
                if len(rest) == 1 or rest[1:2] not in ESCAPES:
                    raise Unread(len(self.bytes) if len(rest) == 1 else self.place)
                text, self.place = text + ESCAPES[rest[1:2]], self.place + 2
            else:
                text, self.place = text + rest[:1], self.place + 1

    def term(self):
        condition = self.binary(0)
        if not self.next_is("?"):
            return condition
        yes = self.term()
        self.close(":")
        return Choice(condition, yes, self.term())

    def binary(self, level):
        if level == len(LEVELS):
            return self.unary()
        left = self.binary(level + 1)
        while (token := self.peek()).kind == "symbol" and token.text in LEVELS[level]:
            self.place = token.end
            left = Binary(token.text, left, self.binary(level + 1))
        return left

    def unary(self):
        for operator in "!-":
            if self.next_is(operator):
                return Unary(operator, self.unary())
        return self.operand()

    def operand(self):
        token = self.peek()
        if token.kind in ("number", "quote") or token.text in WORDS:
            self.place = token.end
            if token.kind == "quote":
                return self.template(quoted=True)
            return Literal(int(token.text) if token.kind == "number" else WORDS[token.text])
        term = self.base(token)
        while True:
            if self.next_is("."):
                term = Attribute(term, self.name())
            elif self.next_is("["):
                at = self.term()
                self.close("]")
                term = Index(term, at)
            else:
                return term

    def base(self, token):
        if token.kind == "name":
            self.place = token.end
            if self.next_is("."):
                return Reference(token.text, self.name())
            if self.next_is("("):
                return Call(token.text, self.items(")"))
            self.refuse(self.peek())
        if self.next_is("("):
            term = self.term()
            self.close(")")
            return term
        if self.next_is("["):
            return Items(self.items("]"))
        return self.refuse(token)

    def items(self, end):
        found = []
        while not self.next_is(end):
            found.append(self.term())
            if not self.next_is(","):
                self.close(end)
                return found
        return found


def read(text):
    """Returns the template that a text is, or raises Unread."""
    return Reader(text).template(quoted=False)
