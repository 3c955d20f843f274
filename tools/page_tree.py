"""Reads a page as a tree, for the tests of tools/explain: its elements, tables and lists, and what no page may have."""
import collections
import html.parser

ALLOWED = set("""html head meta title style body header h1 h2 nav a main section p ol ul li span table caption thead
              tbody tr th td pre b div details summary""".split())
ATTRIBUTES = set("""id class href title scope colspan lang aria-label aria-labelledby charset name content
                 http-equiv""".split())


class Element:
    """An element by its name, its attributes, and its parts: texts and elements."""

    def __init__(self, name, attributes):
        self.name, self.attributes, self.parts = name, dict(attributes), []

    def text(self):
        return "".join(it if isinstance(it, str) else it.text() for it in self.parts)

    def words(self):
        return " ".join(self.text().split())

    def all(self, name, kind=None):
        """The elements of a name below this one, and of a class."""
        for it in self.parts:
            if isinstance(it, Element):
                if it.name == name and (kind is None or kind in it.attributes.get("class", "").split()):
                    yield it
                yield from it.all(name, kind)


class Tree(html.parser.HTMLParser):
    """The elements of a page, each of which has to end where HTML has it end."""

    def __init__(self, content):
        super().__init__()
        self.open, self.names, self.faults = [Element("page", ())], set(), []
        self.feed(content)
        self.close()
        self.top = self.open[0]
        if len(self.open) > 1:
            self.faults.append(f"{self.open[-1].name} doesn't end")

    def handle_starttag(self, name, attributes):
        element = Element(name, attributes)
        self.names.add(name)
        self.open[-1].parts.append(element)
        if name != "meta":
            self.open.append(element)

    def handle_endtag(self, name):
        if self.open[-1].name != name:
            self.faults.append(f"{name} ends in {self.open[-1].name}")
        elif len(self.open) > 1:
            self.open.pop()

    def handle_data(self, data):
        self.open[-1].parts.append(data)


def rows_of(tree, caption):
    """The rows of a table, each cell's words."""
    for table in tree.top.all("table"):
        if [it.words() for it in table.all("caption")] == [caption]:
            return [[cell.words() for cell in row.parts if isinstance(cell, Element)] for row in table.all("tr")]
    return None


def section_of(tree, name):
    return next((it for it in tree.top.all("section") if it.attributes.get("id") == name), Element("none", ()))


def list_of(tree, name):
    return [it.words() for it in section_of(tree, name).all("li")]


def form_faults(tree):
    """What no page may have: scripts, anything from elsewhere, names twice, links to nothing, tables without heads."""
    yield from tree.faults
    yield from (f"it has {name}" for name in tree.names - ALLOWED)
    elements = [it for name in ALLOWED for it in tree.top.all(name)]
    names = collections.Counter(it.attributes["id"] for it in elements if "id" in it.attributes)
    yield from (f"{name} comes {times} times" for name, times in names.items() if times > 1)
    for it in elements:
        yield from (f"{it.name} has {attribute}" for attribute in set(it.attributes) - ATTRIBUTES)
        link = it.attributes.get("href", "#run")
        if not link.startswith("#") or link[1:] not in names:
            yield f"a link to {link}"
        if it.name == "table" and not (len(list(it.all("caption"))) == 1 and list(it.all("thead"))):
            yield "a table lacks caption or heads"
    style = "".join(it.text() for it in tree.top.all("style"))
    yield from (f"the style has {it}" for it in ("url(", "@import", "http") if it in style)
