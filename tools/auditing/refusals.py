"""Why the prover refused an edit, by its log."""
import re

from .failing import is_fact, says

# What only follows from an earlier refusal.
FOLLOWS = [
    r"was not admitted \(it has holes or undetermined implicits, or was rejected\), so this cannot be checked",
    r"cannot be unfolded because it was not admitted",
    r"^\d+ declarations? that depends? on `[^`]*`, which was (?:rejected|not admitted), w(?:as|ere) not checked",
]
# A rewriting step that no longer applies: no fact by itself, and nothing against one either.
STEPS = [r"`rw`: no occurrence of", r"`simp`: no equation of the list (?:has an instance|can be applied)"]
# antt's own trial shows that the statement holds once more unfolds, or could not be made.
UNFOLDS = [r"a trial run of this declaration was admitted", r"this module may not unfold"]

ERROR = re.compile(r"(\S.*?\.(?:rt|antt)(?::\d+:\d+)?): (error(?:\[[^\]]*\])?|note): (.*)")
HELD = re.compile(r"(\S.*?\.antt:\d+:\d+): (`[^`]*` is not admitted: .*)")
NEED = re.compile(r"note: (\S.*?\.rt:\d+:\d+): (it is not proved that .*)")
# A goal of a function's return, as `returns`, `returns-2`, `returns-then-full` or `returns-clause-written`, at which a fact fails.
RETURNS = re.compile(r"`(returns(?:-[^`]*)?)`(?:: |\))")


def refusals(log):
    """What the prover said, as (place, kind, words): an error or note with the lines that go on with it. A place is a path in the crate."""
    found = []
    for line in log.split("\n"):
        need, held, error = NEED.match(line), HELD.match(line), ERROR.match(line)
        if need:
            found.append([need[1], "need", need[2]])
        elif error:
            found.append([error[1], error[2][:5].rstrip(), error[3]])
        elif held:
            found.append([held[1], "error", held[2]])
        elif line.startswith("  ") and found and found[-1]:
            found[-1][2] += "\n" + line
        else:
            found.append([])
    return [(entry[0].removeprefix("./"), *entry[1:]) for entry in found if entry]


def other_reason(log, concerns=None):
    """Why an edit's log does not show that a fact fails, at the places of one function where these are told: "" where it does.

    The order of the log is not the order of causes: modules that do not depend on one another come by name,
    and what rattle left unproved comes last. So what only follows from another refusal, a rewriting step that
    no longer applies and a statement that only does not unfold are passed over. The first of the rest must be
    a fact, and none of the rest may say that the text does not fit; a later type mismatch is let be, since
    proofs by hand have many."""
    entries = [entry for entry in refusals(log) if concerns is None or concerns(entry[0])]
    waiting = {trial_of(place, words) for place, kind, words in entries if kind == "note" and says(words, UNFOLDS)}
    shown, shut = False, ""
    for place, kind, words in entries:
        said = f"{place}: {' '.join(words.split())[:200]}"
        if kind == "note" or (kind == "error" and says(words, FOLLOWS + STEPS)):
            continue
        if kind == "error" and trial_of(place, words) in waiting:
            shut = shut or f"refused, and only because something does not unfold there: {said}"
        elif kind == "need" or is_fact(words):
            shown = True
        elif not (shown and "but this has type `" in words):
            return f"refused, but not because a fact fails: {said}"
    return "" if shown else shut or "its log shows no fact that fails"


def trial_of(place, words):
    """The file and the declaration that an error, or the note behind it, is about."""
    name = re.match(r"`([^`]*)`: ", words) or re.search(r"\(in `([^`]*)`\)\s*$", words)
    return place.rsplit(":", 2)[0], name[1] if name else ""


def returns_refused(log, concerns, labels):
    """The log shows a fact that fails where a function returns: what it ensures, and not only what a callee asks. Where the prover
    tells the clause, it is one of these."""
    for place, kind, words in refusals(log):
        if kind == "error":
            goal = RETURNS.match(words) if is_fact(words) else None
        else:
            goal = RETURNS.search(words.split("\n")[0]) if kind == "need" else None
        clause = goal and goal[1].rpartition("-clause-")
        if goal and concerns(place) and (not clause[1] or clause[2] in labels):
            return True
    return False
