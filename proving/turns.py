"""Which wrong bodies are tried: those of each time, and those whose turn it is."""

import hashlib
import os
import subprocess
import sys

from copies import edited_function
from crates import PARTS, crates_of
from edits import BadEdit, edits_in

# Of a crate that has not changed, one edit in so many is tried.
TURNS = 10
# What makes copies and judges them: where it changes, all are tried.
JUDGE = tuple(f"proving/{it}.py" for it in ("edits", "functions", "copies", "verdicts", "trying"))


def edits_to_try(root, names, every):
    """The edits to try of these crates, or of all if none is named, by the crates' names."""
    crates, found = crates_of(root), {}
    stop_on_unread(root, crates)
    for name in names:
        if name not in crates:
            sys.exit(f"wrong_bodies/try: crates.txt names no crate {name}")
    for crate in [crates[it] for it in names] or crates.values():
        of_rt = edits_in(f"{crate.folder}/must-fail")
        edits = [it for it in of_rt if is_of_one_function(crate, it)]
        edits += edits_in(f"{root}/wrong_bodies/{crate.name}")
        others = edits_in(f"{root}/wrong_bodies/{crate.name}/by_turn")
        whole = every or others and has_changed(root, crate)
        edits += [it for it in others if whole or has_turn(root, crate, it)]
        if edits:
            found[crate.name] = edits
    return found


def stop_on_unread(root, crates):
    """Stops if an edit stands where nothing reads it."""
    top = f"{root}/wrong_bodies"
    for name in sorted(os.listdir(top)):
        if name in ("try", "since", "tests"):
            continue
        if name not in crates:
            sys.exit(f"wrong_bodies/{name}: crates.txt names no such crate")
        for at, folders, files in os.walk(f"{top}/{name}"):
            place = os.path.relpath(at, top)
            for it in folders:
                if place != name or it not in ("by_turn", "by_rt"):
                    sys.exit(f"wrong_bodies/{place}/{it}: nothing reads this folder")
            for it in files:
                if not it.endswith(".edit"):
                    sys.exit(f"wrong_bodies/{place}/{it}: nothing reads a file of this name")


def is_of_one_function(crate, edit):
    try:
        return edited_function(crate, edit) is not None
    except BadEdit:
        return False


def git(root, *words):
    """What git says, or None if it fails."""
    ran = subprocess.run(
        ["git", "-C", root, *words], stdout=subprocess.PIPE, stderr=subprocess.DEVNULL, text=True
    )
    return ran.stdout.strip() if ran.returncode == 0 else None


def has_turn(root, crate, edit):
    """Whether the edit is in the tenth that the crates as they stand in the last commit draw."""
    drawn = f"{git(root, 'rev-parse', 'HEAD:crates')} {crate.name}/{edit.name}"
    return int.from_bytes(hashlib.sha256(drawn.encode()).digest()[:4], "big") % TURNS == 0


def has_changed(root, crate):
    """Whether the crate, one below it, its edits, or what judges them may differ from the commit
    that wrong_bodies/since names."""
    file = f"{root}/wrong_bodies/since"
    commit = open(file, encoding="utf-8").read().split()[0] if os.path.isfile(file) else ""
    names = [it.name for it in [crate, *crate.below()]]
    parts = [f"crates/{name}/{part}" for name in names for part in PARTS]
    parts += [f"wrong_bodies/{crate.name}", *JUDGE]
    return git(root, "diff", "--quiet", commit or "none", "--", *parts) is None
