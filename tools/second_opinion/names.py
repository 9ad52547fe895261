"""The table of names: selectors and symbols, each with its number."""

from smalltalk.language import KERNEL_SELECTORS


class Names:
    """Those of the kernel come first."""

    def __init__(self):
        self.numbers = {}
        for selectors in KERNEL_SELECTORS.values():
            self.add(selectors)

    def add(self, texts):
        """A name that is new gets the next number."""
        for text in texts:
            self.numbers.setdefault(text, len(self.numbers))


def names_in(method):
    """The selectors and symbols of a method, in the order in which they get their numbers."""
    names = [method.selector]
    for instruction in method.code:
        if instruction.name in ("Send", "SuperSend"):
            names.append(instruction.operand)
        elif instruction.name == "PushLit" and instruction.operand.kind == "symbol":
            names.append(instruction.operand.content)
    return names
