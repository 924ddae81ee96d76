"""Edits whose outcomes are known, by which this script is tested: some turn nothing, and some say
nothing of a contract. They are of one low crate, over whose libraries a check is short."""

from crates import crates_of
from edits import edits_in
from trying import try_edits
from verdicts import Outcome

CRATE = "digit_patterns"
WANTED = {
    "comma_for_a_dot": Outcome.REFUSED,
    # the same meaning in other words
    "comment": Outcome.MISSED,
    "comment_beside_answers": Outcome.MISSED,
    "renamed_local": Outcome.MISSED,
    "lets_in_the_other_order": Outcome.MISSED,
    # what errs by a name alone, or in no function's body
    "does_not_compile": Outcome.BAD,
    "proofs_of_another_module": Outcome.BAD,
    "stands_twice": Outcome.BAD,
    "changes_a_promise": Outcome.BAD,
    "of_a_trait": Outcome.BAD,
}


def run_tests(root, library=lambda crate: crate.library):
    """Tries them, says which came out otherwise than they have to, and returns the status."""
    edits = edits_in(f"{root}/wrong_bodies/tests")
    tried = try_edits(crates_of(root)[CRATE], edits, library)
    found = {it.edit: it for it in tried.results}
    failed = 0
    for name, wanted in WANTED.items():
        if name not in found or found[name].outcome != wanted:
            failed += 1
            print(f"wrong bodies: test {name}: {found.get(name)}, and not {wanted.value}")
    failed += len({it.name for it in edits} - set(WANTED))
    print(
        f"wrong bodies: tests of this script: {len(WANTED) - failed} of {len(WANTED)} as they have "
        f"to be, {tried.spent:.0f} core-seconds",
        flush=True,
    )
    return 1 if failed else 0
