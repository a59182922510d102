"""What a Flux text says, as far as that is known where the text has faults: its nodes, their types, and what leads where."""
import flux_text as text
from flux_text import Atomic, Flow, Handler, Session, Signature, Source, Typedef


def spelled(param):
    return param.type + "*" * param.stars


def listed(types):
    return "(" + ", ".join(types) + ")"


class Program:
    def __init__(self, data):
        self.data = data
        self.declarations = text.declarations(data)
        self.library = {it.name: it for it in text.library()}
        self.signatures, self.cases, self.order = {}, {}, []
        for it in self.declarations:
            if isinstance(it, (Signature, Flow)) and it.name not in self.order:
                self.order.append(it.name)
            if isinstance(it, Signature):
                self.signatures.setdefault(it.name, it)
            elif isinstance(it, Flow):
                self.cases.setdefault(it.name, []).append(it)

    def of(self, kind):
        return [it for it in self.declarations if isinstance(it, kind)]

    def sources(self):
        return self.of(Source)

    def handlers(self, name):
        return [it for it in self.of(Handler) if it.name == name]

    def constraints(self, name):
        return [one for it in self.of(Atomic) if it.name == name for one in it.constraints]

    def function(self, pattern):
        """The library's function of a pattern."""
        return next((it.function.text for it in self.of(Typedef) if it.name == pattern), None)

    def types(self, name, seen=()):
        """What a node takes and gives, each a list of types as they are spelled; nothing where that isn't known."""
        if name in self.signatures:
            it = self.signatures[name]
            return [*map(spelled, it.ins)], [*map(spelled, it.outs)]
        for case in self.cases.get(name, []) if name not in seen else []:
            if case.members:
                first = self.types(case.members[0].text, (*seen, name))
                last = self.types(case.members[-1].text, (*seen, name))
                return first and last and (first[0], last[1])
        return None

    def takes(self, name):
        found = self.types(name)
        return listed(found[0]) if found else "what isn't known here"

    def gives(self, name):
        found = self.types(name)
        return listed(found[1]) if found else "what isn't known here"

    def leads_to(self, name):
        """The members of a node's cases, and its handlers."""
        members = [it.text for case in self.cases.get(name, []) for it in case.members]
        return members + [it.handler.text for it in self.handlers(name)]

    def reached(self, name):
        """A node and all that it leads to, over any number of steps."""
        found, left = [], [name]
        while left:
            it = left.pop(0)
            if it not in found:
                found.append(it)
                left += self.leads_to(it)
        return found

    def below(self, name):
        """The members of a node's cases and their handlers, and what is below these."""
        found, left = [], [it.text for case in self.cases.get(name, []) for it in case.members]
        while left:
            it = left.pop(0)
            if it not in found:
                found.append(it)
                left += self.leads_to(it)
        return found

    def declared(self, name):
        """The classes that a node declares, each a name and whether it is a session's, with whether it writes."""
        found = {}
        for it in self.constraints(name):
            found[it.name, it.session] = found.get((it.name, it.session), False) or it.writer
        return found

    def locks(self, name):
        """The classes that a node takes: those that it declares, and those below it that aren't after the last of them."""
        found = self.declared(name)
        if not found:
            return {}
        last = max(found)
        for low in self.below(name):
            for it, writer in self.declared(low).items():
                if it <= last:
                    found[it] = found.get(it, False) or writer
        return dict(sorted(found.items()))
