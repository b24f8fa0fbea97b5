"""The regions of a page that `tools/pages` writes, each between two comments."""
import collections
import re

BEGIN, END = "<!-- written by tools/pages: {} -->\n", "<!-- end -->"
MARK = re.compile(r"^<!-- written by tools/pages: (?P<name>[^\n]*?) -->\n|^<!-- end -->$", re.M)

# A region: its name, and where its text begins and ends in the page.
Region = collections.namedtuple("Region", "name begin end")


class Broken(Exception):
    """Says why the marks of a page are no regions."""


def regions_of(text):
    """Returns the regions of a page in order. Each mark that opens one has to be closed before the next."""
    found, opened = [], None
    for mark in MARK.finditer(text):
        if mark["name"] is not None and opened:
            raise Broken(f"the region {opened['name']} has no end before the next one")
        if mark["name"] is None and not opened:
            raise Broken("a region ends that did not begin")
        if mark["name"] is not None:
            opened = mark
        else:
            found.append(Region(opened["name"], opened.end(), mark.start()))
            opened = None
    if opened:
        raise Broken(f"the region {opened['name']} has no end")
    return found


def written(text, writers):
    """Returns a page with its regions as their writers have them, and the names of those that stood otherwise."""
    made, last, changed = [], 0, []
    for region in regions_of(text):
        name, _, words = region.name.partition(" ")
        if name not in writers:
            raise Broken(f"nothing is known of a region {name}")
        should = writers[name](*words.split()).strip("\n")
        should = f"\n{should}\n\n"
        made += [text[last : region.begin], should]
        changed += [region.name] if text[region.begin : region.end] != should else []
        last = region.end
    return "".join([*made, text[last:]]), changed


def by_hand(text):
    """Returns a page without its regions."""
    made, last = [], 0
    for region in regions_of(text):
        made, last = [*made, text[last : region.begin]], region.end
    return MARK.sub("", "".join([*made, text[last:]]))
