"""What an editor asks of a Flux text: what a name is, where it is declared and used, what fits at a place."""
from collections import namedtuple

import flux_text
from flux_faults import TYPES
from flux_program import Program, listed, spelled
from flux_text import Atomic, Flow, Handler, Session, Signature, Source, Typedef

# A name at a byte. Its role is node, source, predicate, class, type or function; `declares` says whether it is declared there.
Use = namedtuple("Use", "name at role declares")

WORDS = ("source", "session", "typedef", "handle error", "atomic")


class Document:
    """A text that is edited."""

    def __init__(self, data):
        self.data = data
        self.program = Program(data)
        self.uses = sorted(self.all_uses(), key=lambda use: use.at)

    def all_uses(self):
        for it in self.program.declarations:
            yield from BY_KIND[type(it)](it)

    # ---- places

    def offset(self, line, character):
        """The byte of a line and a character, both from 0. An editor counts characters in units of UTF-16."""
        whole = (self.data.split(b"\n", line + 1)[line : line + 1] or [b""])[0]
        units = whole.decode("utf-8", "surrogateescape").encode("utf-16-le", "surrogatepass")
        front = units[: 2 * character].decode("utf-16-le", "surrogatepass").encode("utf-8", "surrogateescape")
        return flux_text.offset(self.data, line + 1, len(front) + 1)

    def position(self, at):
        """The line and the character of a byte."""
        line, column = flux_text.place(self.data, at)
        front = self.data[at - column + 1 : at].decode("utf-8", "surrogateescape")
        return {"line": line - 1, "character": len(front.encode("utf-16-le", "surrogatepass")) // 2}

    def span(self, at, length):
        return {"start": self.position(at), "end": self.position(min(at + length, len(self.data)))}

    def whole(self):
        return self.span(0, len(self.data))

    # ---- names

    def use_at(self, at):
        """The use of a name at a byte, or just before it."""
        return next((use for use in self.uses if use.at <= at <= use.at + len(use.name)), None)

    def same(self, use):
        """All uses of the name that a use is of."""
        return [it for it in self.uses if it.name == use.name and it.role == use.role]

    def declared(self, use):
        """Where a name is declared. A node may have several cases; a class is declared by each of its constraints."""
        return [it for it in self.same(use) if it.declares]

    # ---- what a name is

    def about(self, use, plan=(), hoisted=()):
        """Lines on a name: of code, and of prose. `plan` and `hoisted` are lines of the program's answers, if there are any."""
        return {"node": self.about_node, "predicate": self.about_predicate, "class": self.about_class,
                "type": self.about_type, "function": self.about_function}[use.role](use.name, plan, hoisted)

    def about_node(self, name, plan, hoisted):
        own = [line for line in plan if line.split()[1:2] == [name]]
        if not own:
            own = [f"{name} {self.program.takes(name)} => {self.program.gives(name)}"]
        prose = [line for line in hoisted if line.split()[0] == name or line.endswith(f" for {name}")]
        row = self.program.library.get(flux_text.library_name(name)) if name in self.program.signatures else None
        return own, prose + ([row.rule or row.brief] if row else [])

    def about_predicate(self, name, plan, hoisted):
        function = self.program.function(name)
        row = self.program.library.get(function)
        return [f"typedef {name} {function}"], [f"of the type `{row.takes}`: {row.rule or row.brief}"] if row else []

    def about_class(self, name, plan, hoisted):
        lines = []
        for it in self.program.of(Atomic):
            for one in it.constraints:
                if one.name == name:
                    scope = " of each session" if one.session else ""
                    lines.append(f"`{it.name}` has it as a {'writer' if one.writer else 'reader'}{scope}.")
        return [name], lines

    def about_type(self, name, plan, hoisted):
        return [name], [f"the kind `{TYPES[name]}`"] if name in TYPES else []

    def about_function(self, name, plan, hoisted):
        row = self.program.library.get(name)
        return [name], [f"takes ({row.takes}): {row.rule or row.brief}"] if row else []

    # ---- what fits at a place

    def fitting(self, at):
        """What may be written at a byte: names, each with what kind of name it is and a word on it."""
        found = [it for it in flux_text.tokens(self.data[:at]) if it.kind != "end"]
        if found and found[-1].kind in ("name", "reserved") and found[-1].at + len(found[-1].text) == at:
            found.pop()
        begin = max((place + 1 for place, it in enumerate(found) if it.text == ";"), default=0)
        return fitting_after(self.program, [it.text for it in found[begin:]])


def of_signature(it):
    yield Use(it.name, it.at, "node", True)
    for param in it.ins + it.outs:
        yield Use(param.type, param.at, "type", False)


def of_flow(it):
    yield Use(it.name, it.at, "node", True)
    for token in it.patterns or []:
        if token.text != "_":
            yield Use(token.text, token.at, "predicate", False)
    for token in it.members:
        yield Use(token.text, token.at, "node", False)


def of_source(it):
    yield Use(it.name, it.at, "node", False)
    yield Use(it.target.text, it.target.at, "node", False)


def of_typedef(it):
    yield Use(it.name, it.at, "predicate", True)
    yield Use(it.function.text, it.function.at, "function", False)


def of_handler(it):
    yield Use(it.name, it.at, "node", False)
    yield Use(it.handler.text, it.handler.at, "node", False)


def of_atomic(it):
    yield Use(it.name, it.at, "node", False)
    for one in it.constraints:
        yield Use(one.name, one.at, "class", True)


def of_session(it):
    yield Use(it.name, it.at, "node", False)
    yield Use(it.function.text, it.function.at, "function", False)


BY_KIND = {Signature: of_signature, Flow: of_flow, Source: of_source, Typedef: of_typedef, Handler: of_handler,
           Atomic: of_atomic, Session: of_session}


def nodes_of(program):
    return [(name, "node", f"{program.takes(name)} => {program.gives(name)}") for name in program.order]


def rows_of(program, kinds):
    return [(row.name, "function", f"of ({row.takes})") for row in program.library.values() if row.kind in kinds]


def signatures_of(program):
    """A line for each node of the library that the text doesn't have yet."""
    for row in program.library.values():
        if row.kind in ("node", "source") and row.name not in program.signatures:
            sides = [", ".join(f"{kind} {letter}" for kind, letter in zip(side.split(", "), "abcdefgh") if kind)
                     for side in (row.takes, row.gives)]
            yield f"{row.name} ({sides[0]}) => ({sides[1]});", "signature", row.brief


def fitting_after(program, words):
    """What fits after the words of a declaration that was begun."""
    head, last = words[:1], words[-1:]
    if not words:
        return [(word, "word", "") for word in WORDS] + nodes_of(program) + [*signatures_of(program)]
    if head == ["typedef"]:
        return rows_of(program, ("predicate",)) if len(words) == 2 else []
    if head == ["session"] and "=>" in words:
        return rows_of(program, ("session",))
    if head in (["source"], ["session"]) and len(words) == 1:
        known = {row.name for row in program.library.values() if row.kind == "source"}
        return [it for it in nodes_of(program) if flux_text.library_name(it[0]) in known]
    if head == ["handle"] and len(words) == 1:
        return [("error", "word", "")]
    if "{" in words:
        names = {one.name for it in program.of(Atomic) for one in it.constraints}
        names |= {row.cell for row in program.library.values() if row.cell}
        return [(name, "class", "") for name in sorted(names)]
    if "[" in words and "]" not in words:
        return [(it.name, "predicate", it.function.text) for it in program.of(Typedef)] + [("_", "word", "any value")]
    if "(" in words and head != ["handle"]:
        return [(name, "type", kind) for name, kind in TYPES.items()] if last in (["("], [","]) else []
    if last in (["="], ["->"], ["=>"], ["atomic"], ["error"]):
        return nodes_of(program)
    return []
