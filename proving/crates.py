"""The crates of this repository, as crates.txt lists them, and the toolchain's words for one."""

import dataclasses
import functools
import os
import subprocess

# What a verdict on a crate reads of its folder.
PARTS = ("src", "specs", "proofs")


@dataclasses.dataclass(frozen=True)
class Crate:
    """A crate: its folder, the crates of this repository that its line in crates.txt names, and
    the toolchain's libraries that it names."""

    name: str
    folder: str
    crates: tuple
    kit: tuple

    @property
    def is_program(self):
        return os.path.isfile(f"{self.folder}/src/main.rt")

    @property
    def root_file(self):
        return "src/main.rt" if self.is_program else "src/lib.rt"

    @property
    def library(self):
        """The folder in which `rt` lays the library that it proved."""
        return f"{self.folder}/out/rlib/{self.name}.rlib"

    def below(self):
        """All crates that this one stands on, each after those that it stands on itself."""
        found = []
        for crate in self.crates:
            found += [it for it in [*crate.below(), crate] if it not in found]
        return found

    def files(self):
        """The files that a verdict on the crate reads, sorted, as paths in its folder."""
        found = []
        for part in PARTS:
            for at, _, names in os.walk(f"{self.folder}/{part}"):
                found += [os.path.relpath(f"{at}/{name}", self.folder) for name in names]
        return sorted(found)

    def lines(self):
        """How many lines its sources have, by which the work that it takes is reckoned."""
        sources = [it for it in self.files() if it.endswith(".rt")]
        return sum(text_of(f"{self.folder}/{it}").count("\n") for it in sources)


def text_of(path):
    with open(path, encoding="utf-8") as file:
        return file.read()


def lines_of(root):
    """The name and the words of each line of crates.txt."""
    lines = [it.partition("#")[0] for it in text_of(f"{root}/crates.txt").splitlines()]
    parts = [it.partition(":") for it in lines if it.strip()]
    return {head.split()[0]: rest.split() for head, _, rest in parts}


@functools.lru_cache(maxsize=None)
def crates_of(root):
    """The crates of the repository at this folder by their names, each after those below it."""
    named = lines_of(root)
    made = {}

    def make(name):
        if name not in made:
            own = tuple(make(it) for it in named[name] if it in named)
            kit = tuple(it for it in named[name] if it not in named)
            made[name] = Crate(name, f"{root}/crates/{name}", own, kit)
        return made[name]

    for name in named:
        make(name)
    return made


@functools.lru_cache(maxsize=None)
def kit():
    """The folder of the toolchain, which `rt doc` tells."""
    said = subprocess.run(["rt", "doc"], stdout=subprocess.PIPE, text=True, check=True).stdout
    return os.path.dirname(said.strip())


def rattle():
    return f"{kit()}/bin/rattle"


def words(crate, jobs, library=lambda crate: crate.library):
    """What follows `rattle check` or `rattle build` for this crate, whose folder it runs in, over
    the libraries below as they were built: `library` tells where each lies."""
    logic = ["--logic-built", f"{kit()}/logic_built", "--jobs", str(jobs)]
    return [*words_of_parts(crate, library), *logic]


def words_of_parts(crate, library):
    """The words that name the crate's own files, the libraries below and the logic."""
    given = ["--crate-name", crate.name, crate.root_file]
    for name in ("std", *crate.kit):
        given += ["--extern", f"{name}={kit()}/rlibs/{name}.rlib"]
    for below in crate.crates:
        given += ["--extern", f"{below.name}={library(below)}"]
    for folder in [f"{kit()}/rlibs", *[os.path.dirname(library(it)) for it in crate.below()]]:
        given += ["-L", f"dependency={folder}"]
    given += ["--antt-project", f"{kit()}/rattle/logic/antt-project.json"]
    return [*given, "--links", f"{crate.name}="]
