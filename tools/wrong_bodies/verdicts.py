"""What a check says of one edit."""
import collections
import re

# word: refused, or why the edit does not count as refused; why: the goals behind it, or what was said instead
Verdict = collections.namedtuple("Verdict", "word why")

REFUSED = "refused"
MEANING = """
refused      a goal is not proved in each function that the edit changes (or that a line `refused at:` names)
not-refused  the crate is still proved
partly       a goal is not proved in some of these functions, and none in the others
elsewhere    the crate is refused, but at no goal of these functions
names-only   only a proof file fails, since it names what the edit took away
not-covered  the checker does not take the function on, so that no goal of it was tried
not-source   the text does not compile, or a clause of it cannot be read
bad-edit     the edit cannot be applied
unsure       a proof file fails that may be of several functions
no-verdict   the check came to no end, or the crate is not proved as it stands
"""


def judged(edit, found):
    """Returns the verdict on an edit, from the findings of a check in which it was."""
    if not found.has_verdict():
        is_refused = not found.was_read() and found.refuses_text()
        return Verdict("not-source" if is_refused else "no-verdict", found.first_failure())
    if found.is_proved():
        return Verdict("not-refused", "the crate is still proved with this edit")
    goals = {it: found.goals.get(it, []) for it in edit.judges}
    if any(it.kind == "unread" for of_one in goals.values() for it in of_one):
        return Verdict("not-source", shown(goals))
    real = {it: [goal for goal in of_one if goal.kind != "names"] for it, of_one in goals.items()}
    if all(real.values()):
        return Verdict(REFUSED, marks(real) + shown(real))
    if any(real.values()):
        missing = ", ".join(it.shown() for it, of_one in real.items() if not of_one)
        return Verdict("partly", f"no goal at {missing}; {shown(real)}")
    if any(goals.values()):
        return Verdict("names-only", shown(goals))
    return without_goals(edit, found)


def without_goals(edit, found):
    """Returns the verdict on an edit in whose functions no goal failed."""
    for functions, goal in found.doubtful:
        if {*functions} & {*edit.judges}:
            return Verdict("unsure", f"{goal.where} may be of {', '.join(it.shown() for it in functions)}")
    for it in edit.judges:
        if it in found.unproved:
            return Verdict("not-covered", found.unproved[it][-220:])
    return Verdict("elsewhere", found.first_failure())


def marks(real):
    """Returns, in brackets, what a reader should know of the goals behind a refusal."""
    goals = [goal for of_one in real.values() for goal in of_one]
    said = {
        # only a callee's condition failed
        "requires": all(it.kind == "requires" for it in goals),
        # the search met a limit at each
        "gave up": all("gave up" in it.words for it in goals),
        # values are known at which one is false
        "false": any(re.search("goal is false|does not follow", it.words) for it in goals),
        # only answers that a proof file or an impl gives failed: they may be of another form than the new goals
        "answers": all(of.is_ghost or it.where.startswith("proofs/") for of, of_one in real.items() for it in of_one),
    }
    return "".join(f"[{mark}] " for mark, holds in said.items() if holds)


def shown(goals):
    """Returns the first goal of each function, and rather one of its own than what a callee asks."""
    first = (sorted(of_one, key=lambda it: it.kind == "requires")[:1] for of_one in goals.values())
    return "; ".join(told(it) for of_one in first for it in of_one)


def told(goal):
    """Returns a goal, cut to what fits a row."""
    return f"{goal.where}: {goal.words[:150]}"
