"""Wrong bodies: edits of a crate's sources that the prover has to refuse."""

import re

from bodies.functions import functions_of, module_of, types_of

# Where a crate has them. Those of the first folder `rt ci` tries too, each by itself.
FOLDERS = ("must-fail", "wrong-bodies")

REFUSED_IN = re.compile(r"^# refused-in: (\S+)$", re.MULTILINE)


class Unfit(Exception):
    """An edit that can't be applied, and why."""


class Edit:
    """An edit in a file: changes of some sources, one by one, each of a text that then stands there once. It is refused in the
    functions that it names, or else in those in whose bodies it stands. It is alone where other functions may see it."""

    def __init__(self, crate, file, types):
        text = file.read_text()
        self.name, self.changes = file.stem, [*changes_in(text)]
        if not self.changes:
            raise Unfit(f"{file.name} changes nothing")
        texts = {source: text_of(crate / source) for source, _, _ in self.changes}
        changed = {**texts}
        # The source of each change, and the function in whose body it stands, if it stands in one.
        self.places = [self.change(changed, texts, *it) for it in self.changes]
        self.is_alone = any(function is None or function.is_constant for _, function in self.places)
        edited = set() if self.is_alone else {it.path(module_of(source), types) for source, it in self.places}
        self.functions = {*REFUSED_IN.findall(text)} or edited

    def change(self, changed, texts, source, old, new):
        """Makes a change in what these texts have become, and answers its place."""
        text = changed[source]
        if text.count(old) != 1:
            raise Unfit(f"{self.name} is for a text that stands in {source} {text.count(old)} times, and not once")
        changed[source] = text.replace(old, new)
        # What an earlier change has brought may have another layout than a source.
        text = texts[source] if texts[source].count(old) == 1 else text
        at, functions = text.index(old), functions_of(text) if source.startswith("src/") else []
        return source, next((it for it in functions if it.begin <= at < it.end), None)

    def apply(self, folder):
        """Makes the edit in a copy of the crate."""
        for source, old, new in self.changes:
            file = folder / source
            file.write_text(file.read_text().replace(old, new))


def text_of(file):
    return file.read_text() if file.is_file() else ""


def changes_in(text):
    """Each change of an edit: the source, the text that stands there, and the text in its place. Each text is one line."""
    source = old = None
    for line in text.splitlines():
        word, _, rest = line.partition(":")
        rest = rest.removeprefix(" ")
        if word == "file":
            source = rest.strip()
        elif word == "old":
            old = rest
        elif word == "new" and source and old:
            yield source, old, rest
            old = None


def files_of(crate):
    """The files of a crate's edits in the order of their names."""
    return sorted((file for folder in FOLDERS for file in (crate / folder).glob("*.edit")), key=lambda it: it.name)


def edits_of(crate, files=None):
    """The edits of a crate, which is given by its folder: those in these files, or all."""
    types = types_of(crate)
    return [Edit(crate, file, types) for file in files or files_of(crate)]
