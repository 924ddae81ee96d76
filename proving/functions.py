"""The functions of a crate's sources, by the layout that `rt fmt` gives them.

Each item begins and ends with a line at its own indentation, and blank lines part the items. So a
function's head is the line with `fn`, its body begins with the first line at that indentation that
ends with `{`, and ends with the first one that is `}` alone.
"""

import dataclasses
import functools
import os
import re

from crates import text_of

HEAD = re.compile(r'( *)(?:pub(?:\([^)]*\))? )?(?:const |unsafe |extern "C" )*fn (\w+)')
TYPE = re.compile(r"(?:pub(?:\([^)]*\))? )?(?:struct|enum|union) (\w+)")


@dataclasses.dataclass(frozen=True)
class Function:
    """A function: the file it stands in, the numbers of its first line, of its head, of the first
    line of its body and of the line after it, counted from 0, and the modules, and the type if it
    is a method, that its path begins with."""

    name: str
    file: str
    first: int
    head: int
    body: int
    end: int
    modules: tuple
    type_name: str
    is_of_trait: bool

    @property
    def path(self):
        """The segments of its path in the crate, by which its proofs are found too."""
        return (*self.modules, *([self.type_name] if self.type_name else []), self.name)


def indentation(line):
    return len(line) - len(line.lstrip(" "))


def modules_of(file):
    """The modules that a path in the crate's folder, as src/a/b.rt, stands for."""
    words = file.removeprefix("src/").removesuffix(".rt").split("/")
    return tuple(it for it in words if it not in ("lib", "main", "mod"))


def type_of(header):
    """The type that an `impl` with this header is of, and whether it is a trait's."""
    rest = header.removeprefix("impl").strip()
    if rest.startswith("<"):
        rest = rest[closing(rest) + 1 :].strip()
    trait, is_of_trait, of = rest.partition(" for ")
    named = re.match(r"(?:&(?:'\w+ )?(?:mut )?)?(?:\w+::)*(\w+)", of if is_of_trait else trait)
    return named[1] if named else "", bool(is_of_trait)


def closing(text):
    """The place of the `>` that ends the `<` with which the text begins."""
    depth = 0
    for place, mark in enumerate(text):
        depth += {"<": 1, ">": -1}.get(mark, 0) if text[place - 1 : place + 1] != "->" else 0
        if depth == 0:
            return place
    return len(text)


def header_above(lines, head):
    """The header of the block that the line stands in, without its `{`, or an empty text."""
    inner, words = indentation(lines[head]), []
    for line in reversed(lines[:head]):
        if not line or indentation(line) >= inner:
            continue
        words.insert(0, line.strip().removesuffix("{").strip())
        if re.match(r" *(?:unsafe )?(?:impl|(?:pub(?:\([^)]*\))? )?(?:trait|mod|fn))\b", line):
            return " ".join(words).removeprefix("unsafe ")
        if line.strip() == "}":
            return ""
    return ""


def spans_of(lines):
    """Of each function in these lines: its name, and its first line, head, body and end."""
    for head, line in enumerate(lines):
        found = HEAD.match(line)
        if not found:
            continue
        indent, first = found[1], head
        while first and lines[first - 1].startswith(indent) and lines[first - 1].strip():
            first -= 1
        body = head
        while body < len(lines) and not begins_body(lines[body], indent):
            is_other = HEAD.match(lines[body]) or not lines[body].startswith(indent)
            body = len(lines) if body > head and lines[body] and is_other else body + 1
        if body >= len(lines):
            # a trait's function without a body
            continue
        end = body
        while not ends_body(lines[end], indent, end == body):
            end += 1
        yield found[2], first, head, body, end + 1


def ends_body(line, indent, is_first):
    """Whether a line ends a function's body; the first line may hold all of it."""
    return line == indent + "}" or is_first and line.endswith("}")


def begins_body(line, indent):
    """Whether a line at this indentation opens a function's body."""
    here = line.startswith(indent) and indentation(line) == len(indent)
    return here and (line.endswith("{") or line.endswith("}"))


@functools.lru_cache(maxsize=None)
def functions_of(crate):
    """The functions of the crate's sources, in the order of their files."""
    sources = [it for it in crate.files() if it.startswith("src/") and it.endswith(".rt")]
    texts = {it: text_of(f"{crate.folder}/{it}").split("\n") for it in sources}
    homes = {}
    for file, lines in texts.items():
        for found in filter(None, map(TYPE.match, lines)):
            homes[found[1]] = modules_of(file)
    made = []
    for file, lines in texts.items():
        for name, first, head, body, end in spans_of(lines):
            header = header_above(lines, head) if indentation(lines[head]) else ""
            type_name, is_of_trait = type_of(header) if header.startswith("impl") else ("", False)
            is_of_trait = is_of_trait or header.partition(" for ")[0].find("trait ") >= 0
            modules = homes.get(type_name, modules_of(file))
            made.append(
                Function(name, file, first, head, body, end, modules, type_name, is_of_trait)
            )
    return made


@functools.lru_cache(maxsize=None)
def in_cycles(crate):
    """The functions that may call themselves, by way of others or not, as far as names tell."""
    every = functions_of(crate)
    free, methods, calls = {}, {}, {}
    for function in every:
        place = methods if function.type_name else free
        place.setdefault((function.type_name, function.name), []).append(function)
    for function in every:
        lines = text_of(f"{crate.folder}/{function.file}").split("\n")
        body = "\n".join(lines[function.body : function.end])
        own = re.findall(r"(?:\bself\.|\bSelf::)(\w+)\(", body)
        others = re.findall(r"(?<![\w.])(?:[a-z_]\w*::)*([a-z_]\w*)\(", body)
        of_types = re.findall(r"\b([A-Z]\w*)(?:::<[^()]*>)?::([a-z_]\w*)\(", body)
        found = [methods.get((function.type_name, it), []) for it in own]
        found += [free.get(("", it), []) for it in others]
        found += [methods.get(it, []) for it in of_types]
        calls[function] = [it for some in found for it in some]
    return {it for it in every if reaches(calls, it)}


def reaches(calls, function):
    """Whether the calls of this function lead back to it."""
    seen, left = set(), list(calls[function])
    while left:
        at = left.pop()
        if at == function:
            return True
        if at not in seen:
            seen.add(at)
            left += calls[at]
    return False
