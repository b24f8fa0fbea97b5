"""The public functions of a crate with the clauses of their contracts, read off its code as `rt fmt` lays it out."""
import collections
import itertools
import re

from .texts import comment_above, plain, sentence

# A function: its file and row, what it is a method of, its name, what its comment says, its conditions, the labels of these and
# of its other clauses, how many it has of these, what comments say of single clauses, what its comment says of conditions and
# errors, its counterpart in Plonky3, and the trait that asks for it, if one does. A type has a name and a comment, and so has a
# ghost member of a trait.
FIELDS = "path row owner name says needs conditions labels clauses notes remarks twin trait is_law is_public is_type is_ghost"
Function = collections.namedtuple("Function", FIELDS, defaults=[(), (), (), 0, {}, (), (), "", False, True, False, False])
BLOCK = re.compile(r"(?:pub )?(?:unsafe )?(?P<what>impl|trait)\b")
FUNCTION = re.compile(r"(?P<indent> {0,4})(?P<shown>pub )?(?:final |const )*fn (?P<name>\w+)")
TYPE = re.compile(r"pub (?:struct|enum|trait|type) (?P<name>\w+)")
GHOST = re.compile(r" {4}ghost (?P<name>\w+): \{")
CLAUSE = re.compile(r"\s+(?P<what>requires|ensures)\*? (?:(?P<label>\w+) )?\{(?: (?P<text>.*) \};?$)?")
REMARK = re.compile(
    r"(?:^|(?<=[.:] ))(?:The (?:one |only )?errors?\b|Else the error|Conditions?:|Beside what|A step is refused with)"
    r"|^The result is\b"
)
SHORT = 60
TWIN = re.compile(r"Corresponds to (?:the Rust crate's|(?P<crate>`[\w-]+`)'s) (?P<name>`[^`]+`)")
LAW = re.compile(r"\s*A law:[^.]*\.\s*")


def functions(texts, path):
    """Yields the functions of a file: those that others may call are public ones, and those of public traits."""
    lines, owner, is_trait, trait = texts.of(path).split("\n"), "", False, ""
    for at, line in enumerate(lines):
        block = BLOCK.match(line)
        if block:
            owner, is_trait = owner_of(lines, at)
            trait = trait_of(lines, at)
        elif line.startswith("}"):
            owner, is_trait, trait = "", False, ""
        found = FUNCTION.match(line)
        if found:
            contract, is_empty = contract_of(lines, at)
            doc = doc_above(lines, at)
            what = (path, at + 1, owner if found["indent"] else "", found["name"], comment_above(lines, at, path))
            labels = (needs_in(contract), labels_in(contract, "requires"), labels_in(contract, "ensures"), clauses_in(contract))
            said = (notes_of(contract, doc, path), remarks_of(doc), twin_of(doc), trait)
            is_law = is_empty or any(it.startswith("A law") for it in doc)
            yield Function(*what, *labels, *said, is_law, bool(found["shown"] or is_trait and found["indent"]))


def types(texts, path):
    """Yields the public types and traits of a file that have a doc comment."""
    lines = texts.of(path).split("\n")
    for at, line in enumerate(lines):
        found = TYPE.match(line)
        if found:
            doc, says = doc_above(lines, at), comment_above(lines, at, path)
            yield Function(path, at + 1, "", found["name"], says, remarks=remarks_of(doc), twin=twin_of(doc), is_type=True)


def doc_above(lines, at):
    """Returns the lines of the doc comment above a line."""
    above = itertools.takewhile(lambda it: re.match(r"\s*(?:///|#\[)", it), reversed(lines[:at]))
    return [re.sub(r"\s*/// ?", "", it) for it in above if "///" in it][::-1]


def notes_of(contract, doc, path):
    """Returns what is said of single clauses, by their labels: in a list of the doc comment, or in a comment above each."""
    found = re.findall(r"(?:^|\n)- `(\w+)`: (.*?)(?=\n- |\n\n|$)", "\n".join(doc), re.S)
    notes = {label: plain(" ".join(said.split())).rstrip(".;") for label, said in found}
    for at, line in enumerate(contract):
        clause = CLAUSE.match(line)
        said = plain(comment_above(contract, at, path)).rstrip(".") if at and clause else ""
        if said and clause["label"]:
            notes.setdefault(clause["label"], said)
    return notes


def remarks_of(doc):
    """Returns what a doc comment says of conditions and errors: each paragraph from the sentence on that begins with them."""
    paragraphs = [plain(" ".join(it.split())) for it in "\n".join(doc).split("\n\n")]
    found = ((it, REMARK.search(it)) for it in paragraphs)
    return [re.sub(r"^Else the", "The", it[begin.start() :].rstrip(".")) for it, begin in found if begin]


def twin_of(doc):
    """Returns the name of the counterpart in Plonky3 that a doc comment tells, and its crate if it is another one, or nothing."""
    found = TWIN.search(" ".join(doc))
    return (found["name"], found["crate"] or "") if found else ()


def laws(texts, path):
    """Yields the ghost members of the traits of a file that have a comment: laws that an implementor owes."""
    lines, owner, is_trait = texts.of(path).split("\n"), "", False
    for at, line in enumerate(lines):
        if BLOCK.match(line):
            owner, is_trait = owner_of(lines, at)
        elif line.startswith("}"):
            owner, is_trait = "", False
        found = GHOST.match(line)
        if found and is_trait:
            yield Function(path, at + 1, owner, found["name"], comment_above(lines, at, path), is_law=True, is_ghost=True)


def head_of(lines, at):
    """Returns the first lines of a block as one, up to the brace."""
    end = next(n for n, it in enumerate(lines[at:], at) if it.endswith(("{", "}")))
    return " ".join(it.strip() for it in lines[at : end + 1])


def trait_of(lines, at):
    """Returns the name of the trait that a block implements, or nothing."""
    found = re.match(r"(?:unsafe )?impl\s*(?:\w+::)*(?P<name>\w+) for ", without_generics(head_of(lines, at)))
    return found["name"] if found else ""


def owner_of(lines, at):
    """Returns the name of the type or trait that a block is of, and whether it is that of a public trait."""
    head = head_of(lines, at)
    trait = re.match(r"pub (?:unsafe )?trait (\w+)", head)
    if trait:
        return trait[1], True
    rest = re.sub(r"^(?:unsafe )?impl\s*", "", without_generics(head))
    name = re.match(r"(?:.* for )?&?(?:mut )?(?:\w+::)*(\w+)", rest.replace("{", ""))
    return (name[1] if name else ""), False


def without_generics(text):
    """Returns a text without what stands in angle brackets."""
    text, before = text.replace("->", ""), None
    while text != before:
        before, text = text, re.sub(r"<[^<>]*>", "", text)
    return text


def contract_of(lines, at):
    """Returns the lines of a function up to its body, and whether the body is empty."""
    indent, has_clause = len(lines[at]) - len(lines[at].lstrip()), False
    for end in range(at, len(lines)):
        text = lines[end]
        has_clause = has_clause or bool(CLAUSE.match(text))
        if text[indent:] in ("{", "{}"):
            return lines[at:end], text.endswith("{}")
        if text.endswith("};" if has_clause else ";") or text.endswith("{") and not has_clause:
            return lines[at : end + 1], False
    return lines[at:], False


def labels_in(contract, what):
    """Returns the labels of the clauses of one kind of a contract, in order."""
    found = (CLAUSE.match(it) for it in contract)
    return [it["label"] for it in found if it and it["what"] == what and it["label"]]


def clauses_in(contract):
    """Returns how many clauses of a contract say what a function does, those without a label too."""
    return sum(bool(it) and it["what"] == "ensures" for it in map(CLAUSE.match, contract))


def text_of(lines, at):
    """Returns the lines of a function, its contract and its body."""
    indent = len(lines[at]) - len(lines[at].lstrip())
    is_last = re.compile(rf" {{{indent}}}(?:\}}|\S.*[;}}]$)")
    last = next(end for end in range(at, len(lines)) if is_last.match(lines[end]))
    return lines[at : last + 1]


def body_of(lines, at):
    """Returns the lines of the body of a function, without comments."""
    contract, _ = contract_of(lines, at)
    return [it for it in text_of(lines, at)[len(contract) :] if not it.lstrip().startswith("//")]


def needs_in(contract):
    """Returns the conditions of a contract: each that is short as it is written, and any other by its label."""
    found = [it for it in map(CLAUSE.match, contract) if it and it["what"] == "requires"]
    return [it["text"] if it["text"] and len(it["text"]) <= SHORT else it["label"] or "a condition" for it in found]


def told(function):
    """Returns what a function says of itself: a law its whole first paragraph, and any other its first sentence."""
    return LAW.sub(" ", plain(function.says)).strip().rstrip(".") if function.is_law else sentence(function.says)
