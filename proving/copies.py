"""Wrong bodies as copies of their functions, all of a crate in one check.

Beside each function that an edit names stands a copy of it with the edit, under the function's own
clauses, and its proof files stand beside the function's. The proofs of the crate's functions are
holes, but for those of traits and of functions that may call themselves, so little is proved but
the copies, each from the contracts of what it calls. Beside the edited copies
of a function stands one without an edit, its control: it shows that the function is proved here, so
that what refuses an edited copy is the edit.
"""

import dataclasses
import os
import re
import shutil

from crates import PARTS, Crate, text_of
from edits import BadEdit, replaced
from functions import functions_of, in_cycles

PROOF_FILES = ("Answers.antt", "Invariants.antt", "Proof.antt")


@dataclasses.dataclass(frozen=True)
class Copy:
    """A copy of a function: its name, the edit that it has, or none if it is the control, and where
    it stands in its file, as the numbers of its first and last line, counted from 1."""

    function: object
    edit: object
    name: str
    first_line: int = 0
    last_line: int = 0

    @property
    def path(self):
        return (*self.function.path[:-1], self.name)

    def holds(self, file, line):
        return file == self.function.file and self.first_line <= line <= self.last_line

    def has_proofs_in(self, file):
        return os.path.dirname(os.path.normpath(file)) == "/".join(["proofs", *self.path])

    def has_answers_in(self, file):
        return self.has_proofs_in(file) and os.path.basename(file) == "Answers.antt"


def edited_function(crate, edit):
    """The one function whose body, and perhaps proof files, the edit changes."""
    found = set()
    for file in edit.files():
        if not os.path.isfile(f"{crate.folder}/{file}"):
            raise BadEdit(f"there is no file {file}")
        text = was = text_of(f"{crate.folder}/{file}")
        for pair in (it for it in edit.pairs if it.file == file):
            line = text.partition(pair.old)[0].count("\n")
            text = replaced(text, pair)
            if file.startswith("src/"):
                found.add(function_at(crate, file, line))
        if text == was:
            raise BadEdit(f"it changes nothing in {file}")
    if not edit.pairs:
        raise BadEdit("it has no pairs of an old and a new text, or other lines beside them")
    if len(found) != 1:
        raise BadEdit(f"it changes {len(found)} functions, and a copy is of one")
    function = found.pop()
    proofs = "/".join(["proofs", *function.path])
    for file in edit.files():
        if not file.startswith("src/") and file not in [f"{proofs}/{it}" for it in PROOF_FILES]:
            raise BadEdit(f"it changes {file}, which is no part of a function")
    return function


def function_at(crate, file, line):
    """The innermost function whose body this line of the file is in, counted from 0."""
    around = [it for it in functions_of(crate) if it.file == file and it.first <= line < it.end]
    if not around:
        raise BadEdit(f"it changes line {line + 1} of {file}, where no function is")
    function = max(around, key=lambda it: it.first)
    if line < function.body or line == function.head:
        raise BadEdit(f"it changes what {function.name} promises, and not its body")
    if function.is_of_trait:
        raise BadEdit(f"{function.name} is a trait's method, of which there can be no copy")
    if function in in_cycles(crate):
        raise BadEdit(f"{function.name} calls itself, so a copy would not")
    return function


def copies_of(crate, edits):
    """The copies that try these edits, with a control for each function; and of each other edit
    its name and why it has none."""
    copies, bad, controls = [], [], {}
    for number, edit in enumerate(edits):
        try:
            function = edited_function(crate, edit)
        except BadEdit as why:
            bad.append((edit.name, str(why)))
            continue
        if function not in controls:
            controls[function] = Copy(function, None, f"{function.name}_control{len(controls)}")
        copies.append(Copy(function, edit, f"{function.name}_wrong{number}"))
    return [*controls.values(), *copies], bad


class Room:
    """A crate in a folder of its own, in which copies stand beside their functions."""

    def __init__(self, crate, copies, folder):
        self.crate = Crate(crate.name, folder, crate.crates, crate.kit)
        self.folder = folder
        for part in PARTS:
            if os.path.isdir(f"{crate.folder}/{part}"):
                shutil.copytree(f"{crate.folder}/{part}", f"{folder}/{part}")
        self.copies = []
        for file in sorted({it.function.file for it in copies}):
            self.write_copies(file, [it for it in copies if it.function.file == file])
        for copy in self.copies:
            self.copy_proofs(copy)
        cycles = in_cycles(crate)
        for function in functions_of(crate):
            if not function.is_of_trait and function not in cycles and function.name != "main":
                self.leave_open(function)

    def write_copies(self, file, copies):
        """Writes the file with each of these copies below its function."""
        lines, made = text_of(f"{self.folder}/{file}").split("\n"), []
        functions = sorted({it.function for it in copies}, key=lambda it: it.end)
        written, place = [], 0
        for function in functions:
            written += lines[place : function.end]
            place = function.end
            for copy in (it for it in copies if it.function == function):
                own = self.copied(copy, lines)
                made.append((copy, len(written) + 2, len(written) + 1 + len(own)))
                written += ["", *own]
        written += lines[place:]
        with open(f"{self.folder}/{file}", "w", encoding="utf-8") as out:
            out.write("\n".join(written))
        for copy, first, last in made:
            self.copies.append(dataclasses.replace(copy, first_line=first, last_line=last))

    def copied(self, copy, lines):
        """The lines of the copy, with its own name and its edit."""
        function = copy.function
        own = lines[function.first : function.end]
        head = function.head - function.first
        own[head] = re.sub(rf"\bfn {function.name}\b", f"fn {copy.name}", own[head], count=1)
        text = "\n".join(own)
        for pair in copy.edit.pairs if copy.edit else ():
            if pair.file == function.file:
                text = replaced(text, pair)
        return text.split("\n")

    def copy_proofs(self, copy):
        """Writes the function's proof files once more, for the copy, with the edit's pairs."""
        proofs = f"{self.folder}/proofs"
        of, to = "/".join(copy.function.path), "/".join(copy.path)
        was = ".".join(["Rattle", self.crate.name, "proofs", *copy.function.path])
        now = ".".join(["Rattle", self.crate.name, "proofs", *copy.path])
        for name in PROOF_FILES:
            if not os.path.isfile(f"{proofs}/{of}/{name}"):
                continue
            text = text_of(f"{proofs}/{of}/{name}")
            for pair in copy.edit.pairs if copy.edit else ():
                if pair.file == f"proofs/{of}/{name}":
                    text = replaced(text, pair)
            text = re.sub(re.escape(was) + r"(?=[.\s{;])", now, text)
            text = re.sub(rf"\b{copy.function.name}_spec\b", f"{copy.name}_spec", text)
            os.makedirs(f"{proofs}/{to}", exist_ok=True)
            with open(f"{proofs}/{to}/{name}", "w", encoding="utf-8") as out:
                out.write(text)

    def leave_open(self, function):
        """Makes the function's proof a hole."""
        folder = "/".join([self.folder, "proofs", *function.path])
        os.makedirs(folder, exist_ok=True)
        for name in PROOF_FILES:
            if os.path.isfile(f"{folder}/{name}"):
                os.remove(f"{folder}/{name}")
        module = ".".join(["Rattle", self.crate.name, "proofs", *function.path])
        with open(f"{folder}/Proof.antt", "w", encoding="utf-8") as out:
            out.write(f"use {module}.Statement.{{statement}}\n\n")
            out.write(f"pub {function.name}_spec : {{M : Type 1}} → statement M\n")
            out.write(f"{function.name}_spec = ?\n")
