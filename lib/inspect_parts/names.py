"""The table of names: the kernel's, then those of the file, then those that only its edits bring. Place `names`."""

from smalltalk.language import KERNEL_SELECTORS, is_selector

from .refused import BadImage, quoted

MOST = 8192
KERNEL = list(dict.fromkeys(selector for selectors in KERNEL_SELECTORS.values() for selector in selectors))


class Names:
    """`given` are those of the file, `brought` those that edits put behind them."""

    def __init__(self, given):
        self.given, self.brought = given, []
        self.all = set(KERNEL)
        for place, text in enumerate(given):
            self.add(text, f"names[{place}]")

    def add(self, text, path):
        if not is_selector(text):
            raise BadImage("names", path, f"{quoted(text)} is not a selector")
        if text in KERNEL:
            raise BadImage("names", path, f"{quoted(text)} is a name of the kernel, which no file lists")
        if text in self.all:
            raise BadImage("names", path, f"{quoted(text)} is listed before")
        if len(self.all) == MOST:
            raise BadImage("names", path, f"there is no room: a table has {MOST:,} names, with the {len(KERNEL)} of the kernel")
        self.all.add(text)

    def bring(self, texts):
        """Puts the names of a method last, those that are new. Answers whether there was room."""
        new = [text for text in dict.fromkeys(texts) if text not in self.all]
        if len(self.all) + len(new) > MOST:
            return False
        self.all.update(new)
        self.brought += new
        return True
