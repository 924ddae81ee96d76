"""What a check of copies came to, by what the prover said of each."""

import dataclasses
import enum
import re

VERDICT = re.compile(r"fn (\S+): (.*)")
GOAL = re.compile(r"(?:note: )?(?:\./)?(src/\S+?):(\d+):\d+: (?:error: )?(it is not proved .*)")
ERROR = re.compile(r"(?:\./)?((?:src|specs|proofs)/\S+?):(\d+):\d+: (error\b.*)")
# An answer, by its name, that is no proof of what it has to be; and one that names what is not
# there.
ANSWER = re.compile(r"error: `([^`]+)`: (.*)")
NAMES = re.compile(
    r"module `|`goal\.|is not in scope|has no field|has no `|is no name|was not admitted"
    r"|operand is missing|expected the end|cannot continue"
)
BY_ANSWER = "its answer does not prove"
# What is said of a function that is proved where other functions' proofs are holes.
PROVED = ("no holes", "depends on a hole")


class Outcome(enum.Enum):
    """What became of an edit: the prover refuses the copy for a goal of the copy's own; it proves
    the copy; the edit says nothing of the contract; or the check came to no end."""

    REFUSED = "refused"
    MISSED = "NOT REFUSED"
    BAD = "BAD"
    UNKNOWN = "NOT TRIED"


@dataclasses.dataclass(frozen=True)
class Result:
    """An edit's outcome, and why."""

    edit: str
    outcome: Outcome
    why: str


class Said:
    """What a check said, sorted by what it is about."""

    def __init__(self, crate, text):
        lines = text.splitlines()
        self.crate = crate
        self.verdicts = {it[1]: it[2] for it in map(VERDICT.match, lines) if it}
        self.goals = [(it[1], int(it[2]), it[3]) for it in map(GOAL.match, lines) if it]
        errors = [it for it in map(ERROR.match, lines) if it]
        self.errors = [(it[1], int(it[2]), it[3]) for it in errors]

    def verdict(self, copy):
        return self.verdicts.get("::".join([self.crate.name, *copy.path]))

    def goals_in(self, copy):
        """The goals of the copy that stay open, and why: those that the search leaves, and those
        whose answers, or what these stand on in the same file, are no proofs for what they say, and
        not for a name alone."""
        found = [why for file, line, why in self.goals if copy.holds(file, line)]
        answers = [ANSWER.match(why) for file, _, why in self.errors if copy.has_answers_in(file)]
        wrong = [it for it in answers if it and not NAMES.search(it[2])]
        return found + [f"{BY_ANSWER} `{it[1]}`: {it[2]}" for it in wrong]

    def errors_in(self, copy):
        """The errors in the copy itself, and in its proof files."""
        own = lambda file, line: copy.holds(file, line) or copy.has_proofs_in(file)
        return [f"{file}:{line}: {why}" for file, line, why in self.errors if own(file, line)]

    def outcome(self, copy):
        """What became of this copy, and why."""
        verdict, goals, errors = self.verdict(copy), self.goals_in(copy), self.errors_in(copy)
        if verdict is None:
            return Outcome.BAD, errors[0] if errors else "the check does not speak of its copy"
        if verdict.startswith(PROVED) and f".{copy.name}." not in verdict:
            return Outcome.MISSED, "its copy is proved"
        if verdict.startswith("could not tell"):
            return Outcome.UNKNOWN, verdict
        if goals:
            return Outcome.REFUSED, goals[0]
        return Outcome.BAD, errors[0] if errors else f"no goal of its own is open: {verdict}"


def results_of(said, copies):
    """What became of the edits that these copies have. Where a function has no control that is
    proved, its other copies show nothing."""
    found = {it: said.outcome(it) for it in copies}
    controls = {it.function: found[it] for it in copies if it.edit is None}
    results = []
    for copy in (it for it in copies if it.edit is not None):
        outcome, why = found[copy]
        control, of_control = controls.get(copy.function, (Outcome.BAD, "it has no control"))
        if control != Outcome.MISSED and outcome != Outcome.UNKNOWN:
            name = copy.function.name
            outcome, why = Outcome.BAD, f"{name} as it stands is not proved: {of_control}"
        results.append(Result(copy.edit.name, outcome, why))
    return results
