"""Reads Flux texts for the tools: tokens with their places, and declarations of a text that may have faults.

The program's own reading is the proved one. This one only helps to say more about a text, and to draw it; where a
line is no declaration, it goes on after the next `;`.
"""
import os
import re
from collections import namedtuple
from pathlib import Path

TOP = Path(__file__).resolve().parent.parent
RESERVED = ("source", "typedef", "handle", "error", "atomic", "session")
TOKEN = re.compile(
    rb"(?P<blank>[ \t\r\n]+|//[^\n]*|/\*.*?\*/)|(?P<open>/\*)|(?P<name>[A-Za-z_][A-Za-z0-9_]*)|(?P<number>[0-9]+)"
    rb"|(?P<mark>->|=>|[()\[\]{},;:=*?!])|(?P<bad>.)",
    re.S,
)

Token = namedtuple("Token", "kind text at")  # kind: name, number, mark, reserved, bad or end
Param = namedtuple("Param", "type stars name at")
Signature = namedtuple("Signature", "name at ins outs")
Flow = namedtuple("Flow", "name at patterns members")  # patterns: None, or a list of tokens; members: tokens
Source = namedtuple("Source", "name at target")
Typedef = namedtuple("Typedef", "name at function")
Handler = namedtuple("Handler", "name at codes handler")
Atomic = namedtuple("Atomic", "name at constraints")
Constraint = namedtuple("Constraint", "name at writer session")
Session = namedtuple("Session", "name at function")
Node = namedtuple("Node", "group kind name takes gives cell mode brief rule")


class Unread(Exception):
    """The tokens are no declaration."""


def place(data, at):
    """The line and the column of a byte, both from 1, counted in bytes."""
    return data.count(b"\n", 0, at) + 1, at - (data.rfind(b"\n", 0, at) + 1) + 1


def offset(data, line, column):
    """The byte at a line and a column."""
    at = 0
    for _ in range(line - 1):
        found = data.find(b"\n", at)
        at = len(data) if found < 0 else found + 1
    return min(at + column - 1, len(data))


def tokens(data):
    """The tokens of a text, and an end."""
    found, at = [], 0
    while at < len(data):
        it = TOKEN.match(data, at)
        kind, text = it.lastgroup, it[0].decode("latin-1")
        if kind == "open":
            break
        if kind == "name" and (text in RESERVED or text == "_"):
            kind = "reserved"
        if kind != "blank":
            found.append(Token(kind, text, at))
        at = it.end()
    return found + [Token("end", "", len(data))]


def has_comments(data):
    return any(it.lastgroup == "open" or it[0][:2] in (b"//", b"/*") for it in TOKEN.finditer(data))


class Reader:
    """Reads declarations from tokens."""

    def __init__(self, found):
        self.tokens, self.next = found, 0

    def sees(self, text):
        return self.tokens[self.next].text == text and self.tokens[self.next].kind != "end"

    def take(self, text=None, kind=None):
        token = self.tokens[self.next]
        if token.kind == "end" or (text and token.text != text) or (kind and token.kind != kind):
            raise Unread(token)
        self.next += 1
        return token

    def takes(self, text):
        if self.sees(text):
            self.next += 1
            return True
        return False

    def name(self):
        return self.take(kind="name")

    def several(self, one):
        found = [one()]
        while self.takes(","):
            found.append(one())
        return found

    def param(self):
        of, stars = self.name(), 0
        while self.takes("*"):
            stars += 1
        return Param(of.text, stars, self.name().text, of.at)

    def params(self):
        self.take("(")
        found = [] if self.sees(")") else self.several(self.param)
        self.take(")")
        return found

    def pattern(self):
        return self.take("_") if self.sees("_") else self.name()

    def members(self):
        found = []
        while not self.sees(";"):
            if found:
                self.take("->")
            found.append(self.name())
        return found

    def constraint(self):
        name, mark, session = self.name(), None, False
        for _ in range(2):
            if mark is None and (self.sees("?") or self.sees("!")):
                mark = self.take().text
            elif not session and self.takes("("):
                self.take("session")
                self.take(")")
                session = True
        return Constraint(name.text, name.at, mark != "?", session)

    def of_reserved(self, word):
        if word == "source" or word == "session":
            name = self.name()
            self.take("=>")
            made = Source if word == "source" else Session
            return made(name.text, name.at, self.name())
        if word == "typedef":
            name = self.name()
            return Typedef(name.text, name.at, self.name())
        if word == "handle":
            self.take("error")
            name, codes = self.name(), []
            if self.takes(":"):
                self.take("(")
                codes = self.several(lambda: self.take(kind="number"))
                self.take(")")
            self.take("=>")
            return Handler(name.text, name.at, codes, self.name())
        if word != "atomic":
            raise Unread(self.tokens[self.next - 1])
        name = self.name()
        self.take(":")
        self.take("{")
        found = self.several(self.constraint)
        self.take("}")
        return Atomic(name.text, name.at, found)

    def declaration(self):
        if self.tokens[self.next].kind == "reserved":
            found = self.of_reserved(self.take().text)
        else:
            name = self.name()
            if self.sees("("):
                ins = self.params()
                self.take("=>")
                found = Signature(name.text, name.at, ins, self.params())
            else:
                patterns = None
                if self.takes(":"):
                    self.take("[")
                    patterns = self.several(self.pattern)
                    self.take("]")
                self.take("=")
                found = Flow(name.text, name.at, patterns, self.members())
        self.take(";")
        return found


def declarations(data):
    """The declarations of a text, in order; what is none is passed over."""
    reader, found = Reader(tokens(data)), []
    while reader.tokens[reader.next].kind != "end":
        try:
            found.append(reader.declaration())
        except Unread:
            while reader.tokens[reader.next].kind != "end" and not reader.takes(";"):
                reader.next += 1
    return found


def library():
    """The rows of docs/nodes.tsv, and of one's own nodes where FLUX_NODES names their folder."""
    own = os.environ.get("FLUX_NODES")
    tables = [TOP / "docs/nodes.tsv", *([Path(own) / "nodes.tsv"] if own else [])]
    rows = [row for it in tables if it.is_file() for row in it.read_text().splitlines()]
    return [Node(*row.split("\t")) for row in rows if row and not row.startswith("#")]


def library_name(name):
    """The name of the library node that a signature's name means."""
    return name.partition("_")[0] or name
