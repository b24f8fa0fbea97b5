"""What a check printed, told by the functions that it speaks of."""
import collections
import re

# kind: goal (not proved), requires (what a callee asks at a call), names (a proof file names what is not there any more) or
# unread (the text of a clause cannot be read)
Goal = collections.namedtuple("Goal", "kind where words")

POSITION = re.compile(r"(?P<note>note: )?(?:\./)?(?P<file>(?:src|specs|proofs)/\S+?):(?P<row>\d+):(?P<column>\d+): (?P<words>.*)")
PROOF_FILE = re.compile(r"(?:\./)?proofs/(.+)/(?:Answers|Invariants|Proof)\.antt\b")
# What antt says of a name that an edit took away from a proof, and of a text that it cannot read.
NAMES = re.compile(r"has no field|is not in scope|has no `|was not admitted|does not export|no module")
UNREAD = re.compile(r"is not in scope|has no field|is no name|operand is missing|expected the end|cannot continue")
# A function that fails only since what it calls is not proved.
BY_OTHERS = re.compile(r"(?:not proved|no proof): (?:it calls|it passes|a call of)")


class Findings:
    """What one check says of the crate's functions."""

    def __init__(self, crate_name, layouts, status, said):
        self.crate_name, self.layouts, self.status = crate_name, layouts, status
        self.lines = said.rstrip("\n").split("\n")
        # By function, its goals that were not proved.
        self.goals = collections.defaultdict(list)
        # Goals in a proof file that may be of several functions, with these.
        self.doubtful = []
        # Goals of no function: of a type, an impl, a lemma.
        self.strays = []
        # Goals in an edited function's text that are of another function, which the edit adds there.
        self.added = []
        # Notes with their functions, until the line of the function that they are of.
        self.pending = []
        # By function, the words of its own line, where it is not proved and not only for what it calls.
        self.unproved = {}
        self.changed = {it for edit in layouts.edits for it in edit.functions}
        for line in [*self.lines, "impl : "]:
            self.read(line)

    def was_read(self):
        """Returns whether the check came to the functions' proofs."""
        return any(it.startswith("fn ") for it in self.lines)

    def has_verdict(self):
        """Returns whether the prover could tell of each function whether it is proved."""
        return self.was_read() and any(it.startswith(("logic=", "only=")) for it in self.lines)

    def is_proved(self):
        """Returns whether the crate is proved."""
        return self.status == 0 and self.has_verdict()

    def read(self, line):
        """Notes what one line says of a function."""
        at = POSITION.match(line)
        # (a note that names no goal is advice)
        if at and (re.search(r"\(`[^`]*`\)", at["words"]) if at["note"] else at["words"].startswith("error")):
            self.read_goal(at)
        elif re.match(r"(fn|impl|struct|trait) \S*: ", line):
            symbol, _, words = line.partition(" ")[2].partition(": ")
            self.place_notes(symbol)
            if line.startswith("fn ") and not words.startswith("proved") and not BY_OTHERS.match(words):
                self.unproved.update((it, words) for it in self.functions_of(symbol))

    def place_notes(self, symbol):
        """Gives the notes above the line of a function, an impl or a type to the functions in whose text they stand."""
        path = symbol.split("::")
        cycles = {it.cycle for it in self.functions_of(symbol)} - {None}
        for item, goal in self.pending:
            is_closure = item and "fn" in path and item.name in path
            if item and (path[-1].partition("+")[0] == item.name or is_closure or item.cycle in cycles):
                self.goals[item].append(goal)
            else:
                (self.added if item in self.changed else self.strays).append(goal)
        self.pending = []

    def read_goal(self, at):
        """Notes a goal that was not proved, or an error."""
        file, words = at["file"], at["words"]
        where = f"{file}:{at['row']}"
        if file.startswith("proofs/"):
            path = PROOF_FILE.match(file)
            found = self.narrowed(self.layouts.functions.of_path(path[1].split("/")) if path else [])
            goal = Goal("names" if NAMES.search(words) else "goal", where, words)
        else:
            item = self.layouts.item_at(file, int(at["row"]), int(at["column"]))
            found, goal = [item] * bool(item), Goal(kind_in_source(words, at["note"]), where, words)
            if at["note"]:
                self.pending.append((item, goal))
                return
        if not found:
            self.strays.append(goal)
        elif len(found) == 1:
            self.goals[found[0]].append(goal)
        else:
            self.doubtful.append((found, goal))

    def narrowed(self, functions):
        """Returns the one of these functions whose body an edit changes, if there is one: no other can fail by itself."""
        found = [it for it in functions if it in self.changed]
        is_apart = any(it.is_apart for it in self.layouts.edits)
        return found if len(found) == 1 and not is_apart else functions

    def functions_of(self, symbol):
        """Returns the functions that a symbol, as crate::module::name, may be."""
        crate_name, _, path = symbol.partition("::")
        return self.layouts.functions.of_path(path.split("::")) if crate_name == self.crate_name else []

    def reaches_beyond(self):
        """Returns whether something failed that none of the edits changes, and not only for what is not proved below it."""
        failed = [([it], goal) for it, goals in self.goals.items() for goal in goals]
        failed += [*self.doubtful, *(([], goal) for goal in self.strays)]
        return any(goal.kind != "names" and not self.changed & {*functions} for functions, goal in failed)

    def blamed(self):
        """Returns the edits that the errors point at, where the check broke off before it came to the proofs."""
        found, functions = [], []
        for line in self.lines:
            at = POSITION.match(line)
            if at and not at["note"]:
                found += self.layouts.edits_at(at["file"], int(at["row"]))
                functions.append(self.layouts.item_at(at["file"], int(at["row"]), int(at["column"])))
            path = PROOF_FILE.match(line)
            functions += self.layouts.functions.of_path(path[1].split("/")) if path else []
            for symbol in re.findall(rf"`({self.crate_name}::[^`]+)`", line):
                functions += self.functions_of(symbol)
        found += [edit for edit in self.layouts.edits if {*functions} & {*edit.functions}]
        return list(dict.fromkeys(found))

    def refuses_text(self):
        """Returns whether the text itself was refused, by an error with a name or at the end of a check with status 1."""
        return self.status == 1 or any("error[" in it for it in self.lines)

    def first_failure(self):
        """Returns the first line that says what is wrong, cut to what fits a row."""
        goals = [goal for of_one in self.goals.values() for goal in of_one] + self.strays + self.added
        errors = [it for it in self.lines if re.search(r"\berror[:\[]", it)]
        failed = [it for it in self.lines if re.match(r"(fn|impl|struct|trait) \S+: (?!proved)", it)]
        told = errors + [f"{it.where}: {it.words}" for it in goals] + failed + self.lines[-1:]
        return told[0][:220]


def kind_in_source(words, is_note):
    """Returns the kind of a goal that stands in the crate's source."""
    if is_note:
        return "requires" if "requires holds at this call" in words else "goal"
    told = re.match(r"error: (`[^`]*`: )?(.*)", words)
    if not told or not told[1] or UNREAD.search(re.sub(r"`[^`]*`", "", told[2])):
        return "unread"
    return "goal"
