"""The edits of a file, done one after the other. Place `edits`: what an image would refuse, under the same names."""

import re

from smalltalk.checks import read_method
from smalltalk.compiler import compile_method
from smalltalk.language import BadSource, LONGEST_WORD, RESERVED, is_selector

from .classes import Classes, Method
from .refused import BadImage, quoted

MOST_EDITS = 4096
MOST_CLASSES = 1024
MOST_SLOTS = 64
LONGEST_CHAIN = 64
CLASS_NAME = re.compile(rf"[A-Z][A-Za-z0-9]{{0,{LONGEST_WORD - 1}}}")
SLOT_NAME = re.compile(rf"[a-z][A-Za-z0-9]{{0,{LONGEST_WORD - 1}}}")


def refuse(path, refusal, what):
    raise BadImage("edits", path, f"{what} ({refusal})")


class Editor:
    def __init__(self, names):
        self.names, self.classes = names, Classes()

    def do_all(self, edits):
        for place, edit in enumerate(edits):
            [(kind, parts)] = edit.items()
            getattr(self, kind)(parts, place, f"edits[{place}].{kind}")
            if place == MOST_EDITS:
                refuse(f"edits[{place}]", "TooMany edits", f"a table has {MOST_EDITS:,} edits")
        return self.classes

    def holder(self, name, path):
        if name not in self.classes.all:
            refuse(path, "UnknownClass", f"no class is named {quoted(name)}")
        return self.classes.all[name]

    def define(self, parts, place, path):
        name, slots = parts["name"], parts["slots"]
        parent = self.holder(parts["super"], path + ".super")
        check_define_names(name, slots, path)
        if not parent.has_objects:
            refuse(path + ".super", "KernelClass", f"{parent.name} is a class of the kernel")
        if name in self.classes.all:
            refuse(path + ".name", "ClassExists", f"{name} is defined already")
        for number, slot in enumerate(slots):
            if slot in parent.slots + slots[:number]:
                refuse(f"{path}.slots[{number}]", "SlotClash", f"{slot} is inherited or named before")
        if parent.depth == LONGEST_CHAIN:
            refuse(path, "TooDeep", f"the superclass chain has over {LONGEST_CHAIN} classes")
        if len(self.classes.all) == MOST_CLASSES:
            refuse(path, "TooMany classes", f"a table has {MOST_CLASSES:,} classes")
        if len(parent.slots) + len(slots) > MOST_SLOTS:
            refuse(path + ".slots", "TooMany slots", f"a class has {MOST_SLOTS} instance variables")
        self.classes.define(name, parent.name, slots)

    def install(self, parts, place, path):
        holder = self.holder(parts["class"], path + ".class")
        path += ".source"
        try:
            tree = read_method(parts["source"].encode())
            if tree.selector in holder.kernel_selectors:
                refuse(path, "KernelMethod", f"{tree.selector} is a method of the kernel in {holder.name}")
            code = compile_method(tree, holder.slots, self.classes.numbers)
        except BadSource as bad:
            refuse(path, "BadSource", f"{bad.kind} at byte {bad.offset}")
        if not self.names.bring(names_of(code)):
            refuse(path, "TooMany names", "the table of names has no room for those of the method")
        variables = [token.text for token in tree.variables()]
        self.classes.install(Method(place, holder, parts["source"], code, variables))

    def remove(self, parts, place, path):
        holder, selector = self.holder(parts["class"], path + ".class"), parts["selector"]
        path += ".selector"
        if not is_selector(selector):
            refuse(path, "BadName", f"{quoted(selector)} is not a selector")
        if selector in holder.kernel_selectors:
            refuse(path, "KernelMethod", f"{selector} is a method of the kernel in {holder.name}")
        if selector not in holder.methods:
            refuse(path, "NoSuchMethod", f"{holder.name} has no method of its own for {selector}")
        self.classes.remove(holder.name, selector, place)

    def reparent(self, parts, place, path):
        moved, above = self.holder(parts["class"], path + ".class"), self.holder(parts["super"], path + ".super")
        if moved.is_kernel:
            refuse(path + ".class", "KernelClass", f"{moved.name} is a class of the kernel")
        if not above.has_objects:
            refuse(path + ".super", "KernelClass", f"{above.name} is a class of the kernel")
        if moved in above.lineage():
            refuse(path + ".super", "Cycle", f"{above.name} is {moved.name}, or stands below it")
        if above.slots != moved.parent.slots:
            refuse(path + ".super", "SlotsDiffer", f"{above.name} has other instance variables than {moved.parent.name}")
        if above.depth + moved.height > LONGEST_CHAIN:
            refuse(path, "TooDeep", f"the superclass chain has over {LONGEST_CHAIN} classes")
        self.classes.reparent(moved, above)


def check_define_names(name, slots, path):
    if not CLASS_NAME.fullmatch(name):
        refuse(path + ".name", "BadName", f"{quoted(name)} is not a name with a capital first")
    for number, slot in enumerate(slots):
        if slot in RESERVED or not SLOT_NAME.fullmatch(slot):
            refuse(f"{path}.slots[{number}]", "BadName", f"{quoted(slot)} is not a name of an instance variable")


def names_of(code):
    """The method's selector, then the selectors and symbols of its code."""
    yield code.selector
    for instruction in code.code:
        if instruction.name in ("Send", "SuperSend"):
            yield instruction.operand
        elif instruction.name == "PushLit" and instruction.operand.kind == "symbol":
            yield instruction.operand.content
