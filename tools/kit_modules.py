"""Which modules of the toolkit's crates a program needs, and copies of these crates without the others.

A module at the top of a crate is left out where nothing that is needed names it, and nothing of what the crate's `lib.rt` hands on
from it. One that is private and of which nothing is handed on stays, as it adds to what others have. Names are looked for after
`::` alone. So more than is needed may stay; where something is missing, the compiler says so.
"""
import re
from collections import namedtuple

Library = namedtuple("Library", "name uses source")
COMMENT = re.compile(r"//[^\n]*")
NAMED = re.compile(r"\b(\w+)::(?=(\w+|\*|\{[^;]*))")
# A line of `lib.rt` that says which modules there are, or what of one is handed on.
ITEM = re.compile(r"^((?:#\[[^\]]*\]\s*)*)(?:(pub )?mod (\w+)|pub use (?:crate::|self::)?(\w+)::([^;]*));", re.M)


def rust_files(*places):
    """The sources in these folders, and those of these files that are there."""
    for it in places:
        yield from [it] if it.is_file() else sorted(it.rglob("*.rt"))


def text_of(file):
    return COMMENT.sub("", file.read_text())


class Crate:
    """A crate of which modules may be left out."""

    def __init__(self, library):
        self.library, self.folder = library, library.source.parent
        self.text = text_of(library.source)
        self.wanted, self.needed, self.modules, self.handed_on = set(), set(), {}, {}
        for tags, is_open, module, origin, names in ITEM.findall(self.text):
            if module and "cfg(test)" not in tags:
                self.modules[module] = bool(is_open)
            if origin:
                self.handed_on.setdefault(origin, set()).update(re.findall(r"\w+|\*", names))

    def needs(self, module):
        """Whether something names the module or what is handed on from it, or it only adds to what others have."""
        names = self.handed_on.get(module, set())
        only_adds = not names and not self.modules[module]
        return only_adds or "*" in names | self.wanted or bool(self.wanted & {module, *names})

    def takes_in(self):
        """The texts that are needed since this was called last."""
        found = []
        if not self.needed:
            found.append(ITEM.sub("", self.text))
            self.wanted.update(before for before, _ in NAMED.findall(found[0]) if before in self.modules)
        fresh = [it for it in self.modules if it not in self.needed and self.needs(it)]
        self.needed.update(fresh, ["lib"])
        return found + [text_of(file) for it in fresh for file in rust_files(self.folder / f"{it}.rt", self.folder / it)]

    def copy(self, folder):
        """The crate's source in the folder: links to what is needed, and a `lib.rt` that tells of it."""
        (folder / "src").mkdir(parents=True)
        for it in self.folder.parent.iterdir():
            if it.name != "src":
                (folder / it.name).symlink_to(it)
        for it in self.folder.iterdir():
            if it.stem in self.needed and it != self.library.source:
                (folder / "src" / it.name).symlink_to(it)
        kept = ITEM.sub(lambda it: it[0] if (it[3] or it[4]) in self.needed else "", self.library.source.read_text())
        (folder / "src/lib.rt").write_text(kept)
        return folder / "src/lib.rt"


def find_needed(crates, texts):
    """Finds the modules that are needed by these texts, each with its library, and by each other."""
    while texts:
        for library, text in texts:
            named = {it: crates[it] for it in library.uses if it in crates}
            if library.name in crates:
                named.update(dict.fromkeys(("crate", "self", "super"), crates[library.name]))
            for before, names in NAMED.findall(text):
                if before in named:
                    named[before].wanted.update(re.findall(r"\w+|\*", names))
        texts = [(it.library, text) for it in crates.values() if it.wanted for text in it.takes_in()]


def cut(libraries, whole, program, folder):
    """Yields the libraries that a program needs, with copies in the folder in place of those that aren't named whole."""
    crates = {it.name: Crate(it) for it in libraries if it.name not in whole}
    users = [it for it in (program, *libraries) if it.name not in crates and not crates.keys().isdisjoint(it.uses)]
    find_needed(crates, [(it, text_of(file)) for it in users for file in rust_files(it.source.parent)])
    kept = {it.name for it in libraries if it.name in whole or crates[it.name].needed}
    for it in libraries:
        if it.name in kept:
            source = it.source if it.name in whole else crates[it.name].copy(folder / it.name)
            yield Library(it.name, [use for use in it.uses if use in kept], source)
