"""Classes and methods, as the edits of a file leave them."""

from dataclasses import dataclass, field

from smalltalk.language import KERNEL_CLASSES, KERNEL_SELECTORS


@dataclass(eq=False)
class Method:
    """What an install made. `place` is its place in the edits; `code` is compiled; `variables` are the arguments, then the
    temporaries. `end` says which edit took it away, and how, if one did."""

    place: int
    holder: object
    source: str
    code: object
    variables: list
    end: str = ""

    @property
    def selector(self):
        return self.code.selector

    @property
    def name(self):
        return f"{self.holder.name}>>{self.selector}"


@dataclass(eq=False)
class Class:
    """`slots` are its instance variables, inherited ones first; `edits` counts those that name it."""

    name: str
    parent: object
    own_slots: list
    methods: dict = field(default_factory=dict)
    subclasses: list = field(default_factory=list)
    edits: int = 0

    def __post_init__(self):
        self.slots = (self.parent.slots if self.parent else []) + self.own_slots
        if self.parent:
            self.parent.subclasses.append(self)

    @property
    def is_kernel(self):
        return self.name in KERNEL_CLASSES

    @property
    def has_objects(self):
        """Whether actors and objects may be of the class: those of the kernel have none, but for Object."""
        return not self.is_kernel or self.parent is None

    @property
    def kernel_selectors(self):
        return KERNEL_SELECTORS.get(self.name, ())

    @property
    def depth(self):
        return len(self.lineage())

    @property
    def height(self):
        """How many classes are on the longest way down, this one counted."""
        return 1 + max((below.height for below in self.subclasses), default=0)

    def lineage(self):
        """Object, and so on down to the class."""
        return (self.parent.lineage() if self.parent else []) + [self]


class Classes:
    """All classes by their names, in the order of their definitions, and all methods that were ever installed, by place."""

    def __init__(self):
        self.all, self.methods = {}, {}
        for name in KERNEL_CLASSES:
            self.all[name] = Class(name, self.all.get("Object"), [])
        self.numbers = {name: number for number, name in enumerate(KERNEL_CLASSES)}

    def define(self, name, parent, slots):
        self.numbers[name] = len(self.all)
        self.all[name] = Class(name, self.all[parent], slots)
        self.all[name].edits += 1

    def install(self, method):
        present = method.holder.methods.get(method.selector)
        if present:
            present.end = f"replaced by edits[{method.place}]"
        method.holder.methods[method.selector] = method
        method.holder.edits += 1
        self.methods[method.place] = method

    def reparent(self, moved, above):
        moved.parent.subclasses.remove(moved)
        above.subclasses.append(moved)
        moved.parent = above
        moved.edits += 1

    def remove(self, name, selector, place):
        holder = self.all[name]
        holder.methods.pop(selector).end = f"removed by edits[{place}]"
        holder.edits += 1
