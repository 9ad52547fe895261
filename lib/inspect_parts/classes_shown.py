"""The classes as a tree, each with its instance variables and its methods."""

from .markup import element, joined
from .words import class_link, count

# With more methods than these their sources are folded away.
MOST_UNFOLDED = 60


def classes_part(image):
    classes = image.classes
    shown = Tree(image, sum(len(one.methods) for one in classes.all.values()) <= MOST_UNFOLDED)
    note = f"By superclass. {count(len(image.edits), 'edit')} made them; the first is edits[0]."
    return element("section", element("h2", "Classes"), element("p", note), shown.tree(classes.all["Object"]), id="classes")


class Tree:
    def __init__(self, image, is_unfolded):
        self.is_unfolded = is_unfolded or None
        self.running = {}
        for place in sorted(set(methods_of_frames(image))):
            method = image.classes.methods[place]
            if method.end:
                self.running.setdefault(method.holder.name, []).append(method)

    def tree(self, one):
        """A class, and below it its subclasses."""
        inside = [self.head(one), *self.facts(one), *map(self.tree, one.subclasses)]
        return element("details", *inside, id=f"class-{one.name}", of="class", open=True)

    def head(self, one):
        about = [count(len(one.methods), "method"), count(one.edits, "edit")]
        if one.is_kernel:
            about.insert(0, "kernel")
        return element("summary", element("b", one.name), " ", element("span", ", ".join(about), of="about"))

    def facts(self, one):
        if one.slots:
            yield element("p", "instance variables: ", joined(variables(one), ", "))
        if one.kernel_selectors:
            selectors = joined([element("code", selector) for selector in one.kernel_selectors], " ")
            yield element("p", "methods of the kernel: ", selectors)
        for selector in sorted(one.methods):
            yield self.method(one.methods[selector])
        for method in self.running.get(one.name, ()):
            yield self.method(method)

    def method(self, method):
        about = f"edits[{method.place}]" + (f", {method.end}; a turn still runs it" if method.end else "")
        head = element("summary", element("code", method.selector), " ", element("span", about, of="about"))
        of = "method gone" if method.end else "method"
        # A newline directly after the tag is not shown.
        source = element("pre", "\n", method.source)
        return element("details", head, source, id=f"edit-{method.place}", of=of, open=self.is_unfolded)


def methods_of_frames(image):
    """The places of the methods that turns run."""
    for actor in image.actors:
        phase = actor["body"]["phase"]
        if type(phase) is dict:
            yield from (frame["method"] for frame in phase.get("frames", ()))


def variables(one):
    """Those inherited come first, each with the class that it is from."""
    for holder in one.lineage():
        for name in holder.own_slots:
            from_where = () if holder is one else (element("span", "from ", class_link(holder.name), of="about"),)
            yield joined([element("var", name), *from_where], " ")
