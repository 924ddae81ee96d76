"""Wrong bodies: edits of a crate's files that the prover has to refuse.

An edit is a text with lines `file: PATH`, `old: TEXT` and `new: TEXT`. Each old text stands once
in the file that the last `file:` line named, as the pairs before it left it, and the new text takes
its place. No other line is read. `rt must-fail` takes the same form.
"""

import dataclasses
import os

from crates import text_of


@dataclasses.dataclass(frozen=True)
class Pair:
    """An old text of a file, and the text that takes its place."""

    file: str
    old: str
    new: str


@dataclasses.dataclass(frozen=True)
class Edit:
    """A wrong body: its name, and the pairs in their order."""

    name: str
    pairs: tuple

    def files(self):
        return list(dict.fromkeys(it.file for it in self.pairs))


class BadEdit(Exception):
    """Why an edit says nothing of any contract."""


def read_edit(path):
    """The edit in this file; one without pairs if an old text has no new one, or the reverse."""
    file, old, pairs = None, None, []
    name = os.path.basename(path).removesuffix(".edit")
    for line in text_of(path).splitlines():
        word, _, rest = line.partition(":")
        rest = rest.removeprefix(" ")
        if word not in ("file", "old", "new"):
            continue
        if (word == "new") != (old is not None) or word == "old" and not (file and rest):
            return Edit(name, ())
        if word == "file":
            file = rest.strip()
        elif word == "old":
            old = rest
        else:
            pairs.append(Pair(file, old, rest))
            old = None
    return Edit(name, tuple(pairs) if old is None else ())


def edits_in(folder):
    """The edits in this folder, by their names."""
    names = sorted(os.listdir(folder)) if os.path.isdir(folder) else []
    return [read_edit(f"{folder}/{it}") for it in names if it.endswith(".edit")]


def replaced(text, pair):
    """This text with the pair's new text for its old one, which stands in it once."""
    count = text.count(pair.old)
    if count != 1:
        raise BadEdit(f"an old text stands in {pair.file} {count} times, and not once")
    return text.replace(pair.old, pair.new)
