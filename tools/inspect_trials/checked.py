"""What a page has to be: balanced, with links that lead somewhere, and nothing from outside. And what stands on it, as text."""

import re
from html.parser import HTMLParser

TAGS = set("html head title style body header h1 nav a main section h2 h3 h4 p dl dt dd ul ol li details summary".split())
TAGS |= set("b span code var pre div table thead tbody tr th td".split())
# Elements without an end.
VOID = {"meta"}
ATTRIBUTES = {"id", "class", "href", "open", "scope", "start", "lang", "charset", "name", "content"}
CELLS = {"td", "th", "dt", "dd"}
# A line of text ends where one of these begins or ends.
BLOCKS = TAGS - CELLS - set("a b span code var style title".split())
OUTSIDE = re.compile(r"url\(|@import|expression\(|https?:")


class Page(HTMLParser):
    """`ids` and `targets` are those of the page, `texts` the text inside each element with an id, `sources` what is in a `pre`,
    by the id of its method, and `lines` the whole text."""

    def __init__(self, text):
        super().__init__()
        self.open, self.ids, self.targets, self.sources = [], [], [], {}
        self.texts, self.lines = {}, [""]
        self.feed(text)
        self.close()
        if self.open:
            self.wrong(f"no end of {self.open[-1]}")
        self.lines = [" ".join(line.split()) for line in self.lines]

    def wrong(self, what):
        raise AssertionError(f"line {self.getpos()[0]}, column {self.getpos()[1]} of the page: {what}")

    def handle_starttag(self, tag, attributes):
        given = dict(attributes)
        if tag not in TAGS | VOID or len(given) < len(attributes) or not given.keys() <= ATTRIBUTES:
            self.wrong(f"an element {tag} with {attributes}")
        if "href" in given:
            if not given["href"].startswith("#"):
                self.wrong(f"a link to {given['href']}")
            self.targets.append(given["href"][1:])
        if "id" in given:
            self.ids.append(given["id"])
        if tag not in VOID:
            self.open.append((tag, given.get("id")))
        if tag in CELLS:
            self.lines[-1] += " | "
        self.break_line(tag)

    def handle_endtag(self, tag):
        if not self.open or self.open[-1][0] != tag:
            self.wrong(f"an end of {tag} in {self.open[-1:]}")
        self.open.pop()
        self.break_line(tag)

    def handle_startendtag(self, tag, attributes):
        self.wrong(f"an element {tag} that ends itself")

    def break_line(self, tag):
        if tag in BLOCKS:
            self.lines.append("")

    def handle_data(self, data):
        inside = [tag for tag, name in self.open]
        if "style" in inside:
            if OUTSIDE.search(data):
                self.wrong("a style from outside")
            return
        ids = [name for tag, name in self.open if name]
        if "pre" in inside:
            self.sources[ids[-1]] = self.sources.get(ids[-1], "") + data
        if ids:
            self.texts[ids[-1]] = self.texts.get(ids[-1], "") + data
        if "title" not in inside:
            self.lines[-1] += data

    def handle_comment(self, data):
        self.wrong(f"a comment or the like, {data}")

    def handle_decl(self, text):
        if text != "DOCTYPE html":
            self.wrong(f"a declaration {text}")

    unknown_decl = handle_pi = handle_comment

    def shown(self):
        """The lines that have something."""
        rows = (line.strip(" |") for line in self.lines)
        return [row for row in rows if row]


def check_page(text, image):
    """Refuses a page that is not right, or that has not what the image has. Answers what is shown."""
    page = Page(text)
    ids = set(page.ids)
    same(len(page.ids), len(ids), "ids are unique")
    same(set(page.targets) - ids, set(), "links lead somewhere")
    for name, one in image.classes.all.items():
        has(name, page.texts[f"class-{name}"])
        for selector, method in one.methods.items():
            same(page.sources[f"edit-{method.place}"], "\n" + method.source, "a source")
            has(selector, page.texts[f"edit-{method.place}"])
    present = {f"edit-{it.place}" for one in image.classes.all.values() for it in one.methods.values()}
    for place in {name for name in ids if name.startswith("edit-")} - present:
        has("a turn still runs it", page.texts[place])
    for number, actor in enumerate(image.actors):
        has(f"actor {number}", page.texts[f"actor-{number}"])
        wanted = {f"object-{number}-{place}" for place in range(len(actor["body"]["objects"]))}
        same(wanted - ids, set(), "the objects of an actor")
    same({f"client-{client}" for client, last in image.senders} - ids, set(), "the senders")
    for name in image.names.given + image.names.brought:
        has(name, page.texts["names"])
    return page.shown()


def same(found, wanted, what):
    if found != wanted:
        raise AssertionError(f"{what}: there is {found!r} and not {wanted!r}")


def has(part, text):
    if part not in text:
        raise AssertionError(f"{part!r} is not in {text!r}")
