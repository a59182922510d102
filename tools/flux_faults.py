"""A sentence on each fault of a program or of items: what was expected, and what is there."""
import difflib
import re

import flux_text as text
from flux_program import Program, listed, spelled
from flux_text import Atomic, Flow, Handler, Session, Signature, Source, Typedef

MARKS = ("(", ")", "[", "]", "{", "}", ",", ";", ":", "=", "*", "?", "!", "->", "=>")
TYPES = {"int": "int", "long": "int", "bool": "bool", "text": "text", "char*": "text"}
TEXT_LIMIT, NAME_LIMIT = 1_048_576, 65_536


def nearest(name, known):
    """A question after the nearest of these names, or nothing."""
    by_lower = {it.lower(): it for it in known}
    found = difflib.get_close_matches(name.lower(), [*by_lower], 2, 0.6)
    return "; did you mean " + " or ".join(f"`{by_lower[it]}`" for it in found) + "?" if found else "."


def looks_like_items(data):
    lines = [it.strip() for it in data.splitlines()]
    lines = [it for it in lines if it and not it.startswith(b"#")]
    return bool(lines) and all(re.fullmatch(rb"\w+\s*\([^;]*\)", it) for it in lines[:20])


def looks_like_program(data):
    return b"=>" in data and b";" in data


def kinds(types):
    return [TYPES.get(it, it) for it in types]


def number_of_line(program, at):
    return text.place(program.data, at)[0]


# ---- the faults of a program's text: each gets the program and the place of the fault


def too_long(it, at):
    return f"A program's text has at most {TEXT_LIMIT:,} bytes, and this one has {len(it.data):,}."


def bad_byte(it, at):
    byte = it.data[at : at + 1]
    long = re.match(rb"[A-Za-z_]\w*|[0-9]+", it.data[at:])
    if at == 0 and it.data.startswith(b"\xef\xbb\xbf"):
        return "The file begins with a byte order mark (EF BB BF), which is no part of a program: save it without one."
    if byte == b"#":
        return "No token begins with `#`: comments begin with `//`."
    if long:
        return f"A name or a number has at most {NAME_LIMIT:,} bytes, and this one has {len(long[0]):,}."
    if byte == b"/":
        return "A comment begins with `//` or `/*`, and no other token begins with `/`."
    if byte in (b"-", b">"):
        return f"`{byte.decode()}` is only part of `->` or `=>`."
    if byte == b'"':
        return "A program has no texts in quotes: only items have them."
    if byte >= b"\x80":
        return f"The byte {byte.hex().upper()} begins no token: outside comments, names have the letters A to Z and a to z alone."
    shown = f"`{byte.decode()}`" if 32 < byte[0] < 127 else f"The byte {byte.hex().upper()}"
    return f"{shown} begins no token."


def unclosed_comment(it, at):
    return "This `/*` has no `*/`, so all that follows belongs to the comment."


def may_stand(found, at):
    """What may be at a place in the tokens of a text that has no fault before it."""
    index = next(place for place, it in enumerate(found) if it.at == at)
    begin = max([place + 1 for place in range(index) if found[place].text == ";"], default=0)
    tries = [("name", "x", "a name"), ("number", "1", "a number")]
    tries += [("reserved", word, f"`{word}`") for word in (*text.RESERVED, "_")]
    tries += [("mark", mark, f"`{mark}`") for mark in MARKS]
    for kind, word, shown in tries:
        reader = text.Reader([*found[begin:index], text.Token(kind, word, 0), text.Token("end", "", 1)])
        try:
            reader.declaration()
        except text.Unread as unread:
            if unread.args[0].kind != "end":
                continue
        yield shown


def lacks_semicolon(it, at):
    """Where a `;` is missing at the end of a line before the fault: the byte after that line's last token. Else None."""
    found = text.tokens(it.data)
    index = next((place for place, token in enumerate(found) if token.at == at), 0)
    if index == 0 or "`;`" not in may_stand(found, at):
        return None
    before = found[index - 1]
    end = before.at + len(before.text)
    return end if b"\n" in it.data[end:at] else None


def unexpected(it, at):
    if lacks_semicolon(it, at) is not None:
        return "A `;` is missing at the end of this line."
    found = text.tokens(it.data)
    wanted = [*may_stand(found, at)]
    here = next(token for token in found if token.at == at)
    there = "the text ends" if here.kind == "end" else f"found `{here.text}`"
    if here.kind == "reserved" and here.text != "_" and "a name" in wanted:
        there += ", which is a reserved word and no name"
    if len(wanted) > 1:
        wanted = [", ".join(wanted[:-1]), wanted[-1]]
    return f"Expected {' or '.join(wanted)}, but {there}."


def twice_named(it, at):
    for declaration in it.declarations:
        if declaration.at == at:
            later = declaration
    for first in it.declarations:
        same = isinstance(first, (Signature, Flow)) and isinstance(later, (Signature, Flow)) or type(first) is type(later)
        if first.name == later.name and first.at != at and same:
            break
    line = number_of_line(it, first.at)
    what = {Typedef: "predicate", Source: "source line", Handler: "handler for all codes", Session: "session line"}
    if type(later) in what:
        return f"`{later.name}` has a {what[type(later)]} already, in line {line}."
    return f"`{later.name}` is a node already, by line {line}; only cases with patterns share a name."


def unknown_node(it, at):
    name = word_at(it, at)
    found = it.library.get(text.library_name(name))
    if found and found.kind in ("node", "source"):
        made = ", ".join(f"{kind} {letter}" for kind, letter in zip(found.takes.split(", "), "abc") if kind)
        gives = ", ".join(f"{kind} {letter}" for kind, letter in zip(found.gives.split(", "), "abc") if kind)
        return f"`{name}` has no line that makes it a node; this one would: `{name} ({made}) => ({gives});`"
    return f"`{name}` is no node{nearest(name, it.order)}"


def unknown_type(it, at):
    name = word_at(it, at)
    return f"`{name}` is no type; the types are `int`, `long`, `bool`, `text` and `char*`{nearest(name, TYPES)}"


def not_in_library(it, at):
    name = word_at(it, at)
    asked = text.library_name(name)
    shown = f"`{name}`" if asked == name else f"`{asked}`, which `{name}` means,"
    known = [row.name for row in it.library.values() if row.kind in ("node", "source")]
    return f"{shown} is no node of the library{nearest(asked, known)} `./flux nodes` lists them."


def unlike_library(it, at):
    here = next(one for one in it.of(Signature) if one.at == at)
    row = it.library[text.library_name(here.name)]
    is_said = f"takes {listed(map(spelled, here.ins))} and gives {listed(map(spelled, here.outs))}"
    return f"In the library `{row.name}` takes ({row.takes}) and gives ({row.gives}); here it {is_said}."


def unknown_predicate(it, at):
    name = word_at(it, at)
    if any(one.function.at == at for one in it.of(Typedef)):
        known = [row.name for row in it.library.values() if row.kind == "predicate"]
        return f"`{name}` is no predicate of the library{nearest(name, known)}"
    return f"`{name}` has no `typedef` line{nearest(name, [one.name for one in it.of(Typedef)])}"


def unknown_session(it, at):
    name = word_at(it, at)
    known = [row.name for row in it.library.values() if row.kind == "session"]
    return f"`{name}` is no session function of the library{nearest(name, known)} There are {' and '.join(known)}."


def not_a_source(it, at):
    name = word_at(it, at)
    if any(one.at == at for one in it.of(Session)):
        return f"`{name}` has no source line, so it has no sessions{nearest(name, [one.name for one in it.sources()])}"
    known = " and ".join(f"`{row.name}`" for row in it.library.values() if row.kind == "source")
    what = "a flow" if name in it.cases else "a node that isn't called by itself"
    return f"`{name}` is {what}; a source is a signature of one of {known}."


def source_misused(it, at):
    name = word_at(it, at)
    return f"`{name}` is a source: it starts flows, so it is no member, target or handler, and takes no constraints."


def too_many(it, at):
    classes = {(one.name, one.session) for line in it.of(Atomic) for one in line.constraints}
    return (f"There are at most 4,096 nodes and 256 classes of constraints; this text has {len(it.order):,} nodes and"
            f" {len(classes):,} classes.")


def cycle(it, at, path=""):
    return f"No node may lead back to itself: {path.replace(' -> ', ', which leads to ')}. There is no recursion."


def no_signature(it, at):
    name = word_at(it, at)
    return f"All cases of `{name}` are empty, so nothing says what it takes and gives; one case must have a member."


def join_types(it, at):
    for flow in it.of(Flow):
        for first, second in zip(flow.members, flow.members[1:]):
            if second.at == at:
                gives, takes = it.gives(first.text), it.takes(second.text)
                same = it.types(first.text), it.types(second.text)
                spelling = ""
                if all(same) and kinds(same[0][1]) == kinds(same[1][0]):
                    spelling = " Types must be spelled alike."
                return f"`{first.text}` gives {gives}, and `{second.text}` takes {takes}.{spelling}"
    return "What the member before gives differs from what this one takes."


def case_count(it, at):
    flow = next(one for one in it.of(Flow) if one.at == at)
    count = f"{len(flow.patterns)} pattern" + "s" * (len(flow.patterns) != 1)
    return f"This case has {count}, and `{flow.name}` takes {it.takes(flow.name)}: one pattern for each."


def case_types(it, at):
    flow = next(one for one in it.of(Flow) if one.at == at)
    whole = f"`{flow.name}` takes {it.takes(flow.name)} and gives {it.gives(flow.name)}"
    if not flow.members:
        return f"{whole}, by its first case with members; an empty case gives what it takes."
    first, last = flow.members[0].text, flow.members[-1].text
    return f"{whole}, by its first case with members; this case takes {it.takes(first)} and gives {it.gives(last)}."


def predicate_type(it, at):
    for flow in it.of(Flow):
        for place, pattern in enumerate(flow.patterns or []):
            if pattern.at == at:
                row = it.library.get(it.function(pattern.text))
                found = it.types(flow.name)
                there = found[0][place] if found and place < len(found[0]) else "another type"
                whose = f"input {place + 1} of `{flow.name}`"
                return f"`{pattern.text}` is {row.name} of the type `{row.takes}`, and {whose} is `{there}`."
    return "The predicate takes another kind than the input in its place."


def handler_types(it, at):
    line = next(one for one in it.of(Handler) if one.handler.at == at)
    takes, wanted = it.takes(line.handler.text), it.takes(line.name)
    return f"`{line.handler.text}` takes {takes}, and must take what `{line.name}` takes, {wanted}."


def source_types(it, at):
    line = next(one for one in it.sources() if one.target.at == at)
    return f"`{line.name}` gives {it.gives(line.name)}, and `{line.target.text}` takes {it.takes(line.target.text)}."


def session_types(it, at):
    line = next(one for one in it.of(Session) if one.function.at == at)
    row = it.library[line.function.text]
    return f"`{line.name}` gives {it.gives(line.name)}, and `{row.name}` takes ({row.takes}).{fitting(it, line.name)}"


def fitting(it, source):
    """Which session function would fit a source."""
    found = it.types(source)
    names = [row.name for row in it.library.values()
             if found and row.kind == "session" and row.takes.split(", ") == kinds(found[1])]
    return f" `{names[0]}` fits: `session {source} => {names[0]};`" if names else ""


def both_scopes(it, at):
    for line in it.of(Atomic):
        for one in line.constraints:
            if one.at == at:
                other = "of the whole program" if one.session else "of each session"
                return f"`{line.name}` has the class `{one.name}` {other} already; a node has a name in one scope alone."
    return "A node has a name in one scope alone."


def unprotected(it, at):
    name = word_at(it, at)
    row = it.library[text.library_name(name)]
    wanted = row.cell + ("?" if row.mode == "reader" else "")
    has = [one for one in it.constraints(name) if one.name == row.cell]
    so = f", and has `{row.cell}?` alone" if has else ""
    return f"`{name}` uses the cell `{row.cell}` as a {row.mode}{so}: it needs `atomic {name}:{{{wanted}}};`"


def no_session(it, at):
    source = next(one for one in it.sources() if one.at == at)
    for name in it.reached(source.target.text):
        for one in it.constraints(name):
            if one.session:
                return (f"`{source.name}` leads to `{name}`, which has `{one.name}(session)`, and has no session line."
                        f"{fitting(it, source.name)}")
    return f"`{source.name}` leads to a constraint of sessions, and has no session line.{fitting(it, source.name)}"


def plan_too_large(it, at):
    name = word_at(it, at)
    return (f"The sizes of the sources up to and with `{name}` sum to more than 65,536. A node's size counts all that it"
            " leads to, as often as it leads there.")


def bad_code(it, at):
    number = next((one.text for one in text.tokens(it.data) if one.at == at), "")
    if number.isdigit() and 1 <= int(number) <= 256 and not number.startswith("0"):
        return f"The code {number} has a handler of that node already."
    return f"`{number}` is no code: codes are 1 to 256, in decimal and without leading zeros."


PROGRAM = {1: too_long, 2: bad_byte, 3: unclosed_comment, 4: unexpected, 5: twice_named, 6: unknown_node, 7: unknown_type,
           8: not_in_library, 9: unlike_library, 10: unknown_predicate, 11: unknown_session, 12: not_a_source,
           13: source_misused, 14: too_many, 15: cycle, 16: no_signature, 17: join_types, 18: case_count, 19: case_types,
           20: predicate_type, 21: handler_types, 22: source_types, 23: session_types, 24: both_scopes, 25: unprotected,
           26: no_session, 27: plan_too_large, 28: bad_code}


def sentence(it, at, number, path=""):
    """A sentence on the fault of a text; `path` is the way of a cycle, as the program prints it."""
    if number in (2, 4) and looks_like_items(it.data):
        return "This looks like items, and not like a program: the words are `flux run FILE ITEMS`."
    return cycle(it, at, path) if number == 15 else PROGRAM[number](it, at)


def word_at(it, at):
    return re.match(rb"\w*", it.data[at:], re.A)[0].decode()


# ---- the faults of a line of items: each gets the program, the items and the line


def bad_item(it, data, line):
    if looks_like_program(data):
        return "This looks like a program, and not like items: the words are `flux run FILE ITEMS`."
    if data.startswith(b"\xef\xbb\xbf"):
        return "The file begins with a byte order mark (EF BB BF), which is no part of an item: save it without one."
    if line.count(b'"') % 2:
        return "A text has no closing `\"` in this line; a line's end in a text is spelled `\\n`."
    for number in re.findall(rb"-?\d+", line):
        if not -(2**63) <= int(number) < 2**63 and len(number) < 4000:
            return f"`{number.decode()}` is outside 64 bits."
    if b"//" in line:
        return "A comment is a line of its own here, and begins with `#`."
    return "An item is a source's name and its values, as `Tick (-3)` or `Listen (1, \"hi\")`, and nothing else in the line."


def unknown_source(it, data, line):
    name = re.match(rb"\s*(\w*)", line)[1].decode("latin-1")
    known = [one.name for one in it.sources()]
    there = ", ".join(f"`{one}`" for one in known) or "none"
    return f"`{name}` has no source line in the program{nearest(name, known)} Its sources are {there}."


def item_types(it, data, line):
    name = re.match(rb"\s*(\w*)", line)[1].decode("latin-1")
    inside = re.sub(rb'"(\\.|[^"\\])*"', b'"', line.partition(b"(")[2].rpartition(b")")[0])
    values = [one.strip() for one in inside.split(b",")] if inside.strip() else []
    found = ["text" if one.startswith(b'"') else "bool" if one in (b"true", b"false") else "int" for one in values]
    return f"`{name}` gives {it.gives(name)}, but this line has {listed(found)}."


def too_many_items(it, data, line):
    return "There are at most 4,096 items, and the sizes of their sources sum to at most 4,194,304."


ITEMS = {1: bad_item, 2: unknown_source, 3: item_types, 4: too_many_items}


# ---- further faults of the same text


def unread(it, at):
    """Later declarations that can't be read, each with the place where its reading ends."""
    reader = text.Reader(text.tokens(it.data))
    while reader.tokens[reader.next].kind != "end":
        try:
            reader.declaration()
        except text.Unread as fault:
            where = fault.args[0].at
            if where > at:
                yield where, unexpected(it, where)
            while reader.tokens[reader.next].kind != "end" and not reader.takes(";"):
                reader.next += 1


def unknown(it, at):
    """Names that are no node, and library nodes that aren't there, past a place."""
    used = [member for flow in it.of(Flow) for member in flow.members]
    used += [line.target for line in it.sources()] + [line.handler for line in it.of(Handler)]
    for token in used:
        if token.at > at and token.text not in it.order:
            yield token.at, unknown_node(it, token.at)
    for line in it.of(Signature):
        if line.at > at and text.library_name(line.name) not in it.library:
            yield line.at, not_in_library(it, line.at)


def unjoined(it, at):
    """Members past a place that don't take what the member before gives."""
    for flow in it.of(Flow):
        for first, second in zip(flow.members, flow.members[1:]):
            types = it.types(first.text), it.types(second.text)
            if second.at > at and all(types) and types[0][1] != types[1][0]:
                yield second.at, join_types(it, second.at)


def further(it, at, number):
    """The first faults of a text past its proved one, by this script's own reading: each a place and a sentence."""
    found = {}
    for rule in (unread, unknown, unjoined) if number > 3 else ():
        for where, sentence in rule(it, at):
            found.setdefault(where, sentence)
    return sorted(found.items())
