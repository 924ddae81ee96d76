"""What `rt ci` has said so far, by a file to which it is written as it runs."""

import os
import re

PROVED = re.compile(r"^rt: (\w+) (?:proved$|is kept: )", re.M)
REFUSED = re.compile(r"^(?:rt: )?must-fail (\w+)/(\S+)\.edit: refused", re.M)


class GateLog:
    """The log, beside which a file of its name and `.ended` stands once `rt ci` has ended. If who
    began this program ends before that, the log counts as ended too."""

    def __init__(self, path):
        self.path = path
        self.parent = os.getppid()

    def text(self):
        with open(self.path, encoding="utf-8", errors="replace") as file:
            return file.read()

    def proved(self):
        """The crates whose libraries stand in their folders."""
        return set(PROVED.findall(self.text()))

    def refused(self):
        """The must-fail edits that were refused, as pairs of a crate and an edit."""
        return set(REFUSED.findall(self.text()))

    def has_ended(self):
        return os.path.exists(f"{self.path}.ended") or os.getppid() != self.parent
