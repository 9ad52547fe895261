"""The class table: definitions, installs, removes, reparents, and lookup."""

from dataclasses import dataclass, field

from smalltalk.checks import read_method
from smalltalk.compiler import compile_method
from smalltalk.language import KERNEL_CLASSES, KERNEL_SELECTORS, is_selector

from .names import Names, names_in

LONGEST_CHAIN = 64


@dataclass
class Class:
    """`slots` are its instance variables, inherited ones first, and `own` those that it does not inherit."""

    name: str
    parent: object
    slots: list
    methods: dict = field(default_factory=dict)
    own: list = field(default_factory=list)


class Refused(Exception):
    """A command is refused, under this name and with these fields."""

    def __init__(self, name, **fields):
        super().__init__(name)
        self.name = name
        self.fields = fields

    def reply(self):
        return {"error": self.name, **self.fields}


class Classes:
    """`edits` counts the definitions, installs, removes and reparents, and `log` has them as image files do. `past` has all installs and
    removes at a class's number and a selector: the version that each made, and the source, or None."""

    def __init__(self):
        self.all = [Class(name, None if number == 0 else 0, []) for number, name in enumerate(KERNEL_CLASSES)]
        self.numbers = {name: number for number, name in enumerate(KERNEL_CLASSES)}
        self.edits = 0
        self.log = []
        self.past = {}
        self.names = Names()

    def done(self, kind, **parts):
        """Counts an edit, and keeps it."""
        self.edits += 1
        self.log.append({kind: parts})

    def define(self, name, parent, slots):
        above = self.numbers[parent]
        self.numbers[name] = len(self.all)
        self.all.append(Class(name, above, self.all[above].slots + slots, own=slots))
        self.done("define", name=name, slots=slots, super=parent)

    def install(self, class_name, source):
        """The method of the source, which is in the class then."""
        holder = self.all[self.numbers[class_name]]
        tree = read_method(source)
        if tree.selector in KERNEL_SELECTORS.get(class_name, ()):
            raise Refused("KernelMethod")
        method = compile_method(tree, holder.slots, self.numbers)
        self.names.add(names_in(method))
        holder.methods[method.selector] = method
        method.edit = self.edits
        self.done("install", source=source.decode(), **{"class": class_name})
        self.note(class_name, method.selector, source.decode())
        return method

    def check_version(self, class_name, source, version):
        """Refuses where the class's own method for the selector of the source has another version. It is 0 if there is none, or one of
        the kernel."""
        number = self.numbers.get(class_name)
        if number is None:
            raise Refused("UnknownClass")
        selector = read_method(source).selector
        present = self.version(number, selector) if selector in self.all[number].methods else 0
        if version != present:
            raise Refused("Stale", version=present)

    def remove(self, class_name, selector):
        """Takes the class's own method for the selector away. What runs it goes on with it."""
        if class_name not in self.numbers:
            raise Refused("UnknownClass")
        if not is_selector(selector):
            raise Refused("BadName")
        if selector in KERNEL_SELECTORS.get(class_name, ()):
            raise Refused("KernelMethod")
        methods = self.all[self.numbers[class_name]].methods
        if selector not in methods:
            raise Refused("NoSuchMethod")
        del methods[selector]
        self.done("remove", selector=selector, **{"class": class_name})
        self.note(class_name, selector, None)

    def note(self, class_name, selector, text):
        """Keeps what the last edit was for the class and the selector."""
        self.past.setdefault((self.numbers[class_name], selector), []).append((self.edits, text))

    def version(self, number, selector):
        """The version that the last edit made which was for the class and the selector."""
        return self.past[number, selector][-1][0]

    def reparent(self, class_name, parent):
        """Puts a class under another one."""
        if class_name not in self.numbers or parent not in self.numbers:
            raise Refused("UnknownClass")
        if class_name in KERNEL_CLASSES or parent in KERNEL_CLASSES[1:]:
            raise Refused("KernelClass")
        number, above = self.numbers[class_name], self.numbers[parent]
        if number in self.chain(above):
            raise Refused("Cycle")
        if self.all[above].slots != self.all[self.all[number].parent].slots:
            raise Refused("SlotsDiffer")
        if self.height(number) + len(self.chain(above)) > LONGEST_CHAIN:
            raise Refused("TooDeep")
        self.all[number].parent = above
        self.done("reparent", super=parent, **{"class": class_name})

    def chain(self, number):
        """The numbers of a class and those above it."""
        chain = []
        while number is not None:
            chain.append(number)
            number = self.all[number].parent
        return chain

    def height(self, number):
        """How many classes are on the longest way from a class down, itself counted."""
        chains = [self.chain(below) for below in range(len(self.all))]
        return max(chain.index(number) + 1 for chain in chains if number in chain)

    def find(self, number, selector):
        """The number of the class that has the method, and the method: a compiled one, or None for one of the kernel. None
        where no class up the chain has one."""
        while number is not None:
            at = self.all[number]
            if selector in at.methods:
                return number, at.methods[selector]
            if selector in KERNEL_SELECTORS.get(at.name, ()):
                return number, None
            number = at.parent
        return None
