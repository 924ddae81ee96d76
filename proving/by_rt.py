"""Tries wrong bodies by `rt must-fail`: a check of the whole crate for each."""

import os
import shutil
import subprocess
import sys
import tempfile

FOLDERS = ("", "by_turn", "by_rt")


def try_by_rt(root, names):
    """Tries all edits of these crates, or of all that have some, on the last commit, in a clone
    that is removed at the end, and returns the status."""
    status = 0
    with tempfile.TemporaryDirectory(prefix="wrong-bodies-") as room:
        clone = f"{room}/clone"
        subprocess.run(["git", "clone", "--quiet", root, clone], check=True)
        every = sorted(os.listdir(f"{clone}/crates"))
        for name in names:
            if name not in every:
                sys.exit(f"wrong_bodies/try: there is no crate {name}")
        for name in names or every:
            folder = f"{clone}/crates/{name}/must-fail"
            for part in FOLDERS:
                copy_edits(f"{clone}/wrong_bodies/{name}/{part}", folder)
            if os.path.isdir(folder):
                status |= subprocess.run(["rt", "check"], cwd=os.path.dirname(folder)).returncode
                status |= subprocess.run(["rt", "must-fail", name], cwd=clone).returncode
    return 1 if status else 0


def copy_edits(folder, to):
    """Copies the edits that stand in the folder itself."""
    for name in sorted(os.listdir(folder)) if os.path.isdir(folder) else []:
        if name.endswith(".edit"):
            os.makedirs(to, exist_ok=True)
            shutil.copy(f"{folder}/{name}", to)
