"""The crates of a repository: what each stands on, by `crates.txt`, and what its files say of themselves."""
import collections
import re

from .texts import plain

LIST = "crates.txt"
# A crate: its heading in the list, and the names that stand after it, of crates and of the kit's.
Crate = collections.namedtuple("Crate", "name group below kit")
# What a file of code shows at its top, and what a file of definitions has.
SHOWN = re.compile(r"^pub (?:const |unsafe |async )?(?:fn|struct|enum|trait|type|const|static) (\w+)", re.M)
DEFINED = re.compile(r" *(?:abbrev |unfoldable |unfolding )*pub (?:abbrev )?(?P<fields>record |data )?(?P<name>[^\s(){}:;.]+)")


def crates(texts):
    """Returns the crates in the order of the list."""
    names, rows, group = [], [], ""
    for line in texts.of(LIST).split("\n"):
        if line.startswith("#"):
            group = line.lstrip("# ").strip()
        elif ":" in line:
            name, _, below = line.partition(":")
            names.append(name.split()[0])
            rows.append((name.split()[0], group, below.split()))
    known = set(names)
    return [Crate(name, group, [it for it in below if it in known], [it for it in below if it not in known])
            for name, group, below in rows]


def libraries(texts, every):
    """Returns the crates that have a page of their own: the libraries, but for those that only tests and measurements name."""
    return [it for it in every if f"crates/{it.name}/src/lib.rt" in texts.files and not is_of_tests(it)]


def is_of_tests(crate):
    """Returns whether a crate is for tests and measurements."""
    return crate.group.startswith("tests")


def reach(every):
    """Returns for each crate the names of all crates that it stands on, directly or not."""
    by_name, found = {it.name: it for it in every}, {}

    def below(name):
        if name not in found:
            found[name] = set(by_name[name].below).union(*(below(it) for it in by_name[name].below))
        return found[name]

    return {it.name: below(it.name) for it in every}


def nearest(crate, below):
    """Returns the crates that a crate names, and that none of the others that it names stands on."""
    return [it for it in crate.below if not any(it in below[other] for other in crate.below)]


def levels(every):
    """Returns the crates in lines, each of those that stand only on crates of the lines before."""
    by_name, height = {it.name: it for it in every}, {}

    def level(name):
        if name not in height:
            height[name] = 1 + max((level(it) for it in by_name[name].below), default=-1)
        return height[name]

    lines = collections.defaultdict(list)
    for crate in every:
        lines[level(crate.name)].append(crate.name)
    return [lines[it] for it in sorted(lines)]


def chain(every):
    """Returns the longest chain of crates, each of which stands on the one before it."""
    by_name, best = {it.name: it for it in every}, {}

    def longest(name):
        if name not in best:
            best[name] = max((longest(it) for it in by_name[name].below), key=len, default=[]) + [name]
        return best[name]

    return max((longest(it.name) for it in every), key=len, default=[])


def does(texts, crate):
    """Returns what a crate says that it does: the first paragraph of its `lib.rt` or `main.rt`."""
    heads = [it for it in (f"crates/{crate}/src/lib.rt", f"crates/{crate}/src/main.rt") if it in texts.files]
    said = plain(texts.opening(heads[0])).rstrip(".") if heads else ""
    said = re.sub(rf"^The program `{crate}`:? (?=\w)", "", said)
    return said[:1].upper() + said[1:]


def parts(texts, crate, folder):
    """Returns the files of a folder of a crate: code in all that stands below, lemmas and definitions at its top alone."""
    inner = r".*\.rt" if folder == "src" else r"[^/]*\.(?:antt|txt)"
    names = texts.matching(rf"crates/{crate}/{folder}/{inner}")
    return [it for it in names if not re.search(r"/(?:lib\.rt|main\.rt|Lib\.antt)$", it)]


def shown(texts, path):
    """Returns the names that a file of code shows at its top; of a file that shows none and has no comment, its functions."""
    found = SHOWN.findall(texts.of(path))
    return found if found or texts.head(path) else re.findall(r"^fn (\w+)", texts.of(path), re.M)


def defined(text):
    """Yields the definitions that a file shows, each by its row from 0 and its name; no lemmas, and no fields of records."""
    outer = None
    for at, line in enumerate(text.split("\n")):
        indent = len(line) - len(line.lstrip())
        if not line.strip() or outer is not None and indent > outer:
            continue
        outer, found = None, DEFINED.match(line)
        if found and found["name"] not in ("mod", "use") and "-" not in found["name"]:
            outer = indent if found["fields"] else None
            yield at, found["name"]
