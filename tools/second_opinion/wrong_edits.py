"""Wrong rules of the list of edits, and of installs that are to replace a version."""

from .wrong_rule import WrongRule

TOLD = "table.log[first : first + EDITS_AT_ONCE]"
PRESENT = "        present = self.version(number, selector) if selector in self.all[number].methods else 0\n"
STALE = '        if version != present:\n            raise Refused("Stale", version=present)\n'
READ = "        selector = read_method(source).selector\n        present"
UNKNOWN = '        if number is None:\n            raise Refused("UnknownClass")\n'

WRONG_EDITS = [
    WrongRule("the last edit is left out", "looking", TOLD, TOLD.replace("table.log", "table.log[:-1]")),
    WrongRule("edits are told from the one before", "looking", TOLD, "table.log[max(0, first - 1) : first + EDITS_AT_ONCE - 1]"),
    WrongRule("255 edits are told at once", "language", "EDITS_AT_ONCE = 256", "EDITS_AT_ONCE = 255"),
    WrongRule("257 edits are told at once", "language", "EDITS_AT_ONCE = 256", "EDITS_AT_ONCE = 257"),
    WrongRule("all edits are told at once", "looking", TOLD, "table.log[first:]"),
    WrongRule(
        "the version is the place of the last edit that is told",
        "looking",
        f'{{"edits": {TOLD}, "version": table.edits}}',
        f'{{"edits": {TOLD}, "version": min(table.edits, first + EDITS_AT_ONCE)}}',
    ),
    WrongRule("behind the last edit there is nothing to tell", "looking", "if first > table.edits:", "if first > table.edits + 1:"),
    WrongRule("behind the last edit nothing may be asked", "looking", "if first > table.edits:", "if first >= table.edits:"),
    WrongRule("inherited instance variables are listed", "classes", "slots=slots, super=parent", "slots=self.all[-1].slots, super=parent"),
    WrongRule(
        "a reparent is listed as one under Object",
        "classes",
        'self.done("reparent", super=parent',
        'self.done("reparent", super="Object"',
    ),
    WrongRule(
        "a removal is no edit that is listed",
        "classes",
        'self.done("remove", selector=selector, **{"class": class_name})',
        "self.edits += 1",
    ),
    WrongRule(
        "a removed method keeps its version",
        "classes",
        PRESENT,
        "        present = self.past.get((number, selector), [(0,)])[-1][0]\n",
    ),
    WrongRule(
        "a removed method is over the version that it had",
        "classes",
        PRESENT,
        "        present = ([0] + [it for it, text in self.past.get((number, selector), ()) if text])[-1]\n",
    ),
    WrongRule(
        "a replace is over an inherited method",
        "classes",
        PRESENT,
        (
            "        holder = (self.find(number, selector) or (number,))[0]\n"
            "        present = self.version(holder, selector) if selector in self.all[holder].methods else 0\n"
        ),
    ),
    WrongRule("what is over nothing replaces all", "classes", "if version != present:", "if version and version != present:"),
    WrongRule(
        "a version before the present one may be replaced",
        "classes",
        "if version != present:",
        "if version > present or present and not version:",
    ),
    WrongRule("a later version than the present one may be replaced", "classes", "if version != present:", "if version < present:"),
    WrongRule("Stale tells the number of edits", "classes", "version=present)", "version=self.edits)"),
    WrongRule("Stale tells the version that was asked for", "classes", "version=present)", "version=version)"),
    WrongRule(
        "Stale comes before BadSource",
        "classes",
        READ,
        '        if version > self.edits:\n            raise Refused("Stale", version=0)\n' + READ,
    ),
    WrongRule(
        "Stale comes before UnknownClass",
        "classes",
        UNKNOWN,
        '        if number is None and version:\n            raise Refused("Stale", version=0)\n' + UNKNOWN,
    ),
    WrongRule(
        "Stale comes behind KernelMethod",
        "classes",
        STALE,
        (
            "        if selector in KERNEL_SELECTORS.get(self.all[number].name, ()):\n"
            '            raise Refused("KernelMethod")\n'
        )
        + STALE,
    ),
    WrongRule(
        "Stale comes behind what a source means in its class",
        "classes",
        STALE,
        (
            "        if selector not in KERNEL_SELECTORS.get(self.all[number].name, ()):\n"
            "            compile_method(read_method(source), self.all[number].slots, self.numbers)\n"
        )
        + STALE,
    ),
    WrongRule("a replace that is Stale brings its name", "classes", STALE, "        self.names.add([selector])\n" + STALE),
    WrongRule(
        "a kernel method has a version",
        "classes",
        STALE,
        '        present = present or int(selector in KERNEL_SELECTORS.get(class_name, ()))\n' + STALE,
    ),
]
