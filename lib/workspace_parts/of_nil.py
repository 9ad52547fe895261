"""What is said of a message that nil did not understand: which variable of the source was nil there, or which expression answered it, and
which classes have the message."""

from smalltalk.language import BadSource
from smalltalk.parser import Parser
from smalltalk.tree import Assignment, Block, Cascade, Name, Parenthesis, Send

from . import looks
from .tokens import without_comments
from .values import a_or_an

ELSE = "a variable or an answer is nil there"
# So many letters of an expression are shown, and so many classes.
MOST_LETTERS, MOST_CLASSES = 60, 5


def said(session, failure):
    """What it means, and the lines behind the frames."""
    selector = failure.send.selector
    return f"nil has no method {selector}; {place(failure.frames[-1]) or ELSE}", [having(selector, looks.implementors(session, selector))]


def having(selector, names):
    """Which classes have a method for the message. Where none has, its name may be wrong."""
    if not names:
        return f"no class has a method {selector}; define it, or look for a slip in its name"
    if len(names) > MOST_CLASSES:
        return f"{len(names)} classes have a method {selector};  :implementors {selector}  lists them"
    told = f"{', '.join(names[:-1])} and {names[-1]} have" if names[1:] else f"{names[0]} has"
    return f"{told} a method {selector}"


def place(frame):
    """What was nil in a frame; None where the source does not tell."""
    try:
        return None if frame.offset is None else Reader(frame).said()
    except BadSource:
        return None


class Reader(Parser):
    """A source that knows where its operands begin."""

    def __init__(self, frame):
        super().__init__(frame.source.encode(errors="replace"))
        self.frame, self.begins = frame, {}

    def primary(self):
        start = self.here.start
        operand = super().primary()
        self.begins[id(operand)] = start
        return operand

    def said(self):
        """What is said of the receiver of the message that stands at the place of the frame; None if none does."""
        for tree in nodes(self.parse()):
            messages = messages_of(tree)
            if any(it.start == self.frame.offset for it in messages):
                return self.told(tree.receiver, messages[0].start)
        return None

    def told(self, receiver, end):
        """What is said of a receiver whose text ends before a place."""
        within = inner(receiver)
        if isinstance(within, Name):
            return self.variable(within.text)
        return f"nil is the answer of  {self.text(receiver, end)}"

    def variable(self, name):
        if name in ("nil", "self"):
            return f"{name} is written there" if name == "nil" else "self is nil there"
        for kind, names in (("an argument", self.method.arguments), ("a temporary", self.method.temporaries)):
            if name in [it.text for it in names]:
                return f"{name}, {kind}, is nil there"
        return f"{name}, a variable of {a_or_an(self.frame.class_name)}, is nil there"

    def text(self, tree, end):
        """An expression in one line, without its comments and the parentheses around it."""
        first = tree
        while id(first) not in self.begins:
            first = first.receiver
        words = " ".join(without_comments(self.source[self.begins[id(first)] : end].decode()).split())
        while isinstance(tree, Parenthesis):
            words, tree = words[1:-1].strip(), tree.inner
        return words if len(words) <= MOST_LETTERS else f".. {words[-MOST_LETTERS:].partition(' ')[2]}"


def messages_of(tree):
    return [tree.message] if isinstance(tree, Send) else tree.messages if isinstance(tree, Cascade) else []


def nodes(method):
    """All expressions of a method. Sends may stand in one another by the thousand, so this calls nothing for each."""
    left = [it.value for it in method.statements]
    while left:
        tree = left.pop()
        yield tree
        if isinstance(tree, Parenthesis):
            left.append(tree.inner)
        elif isinstance(tree, Assignment):
            left.append(tree.value)
        elif isinstance(tree, Block):
            left += [it.value for it in tree.statements]
        elif isinstance(tree, (Send, Cascade)):
            left += [tree.receiver, *(argument for it in messages_of(tree) for argument in it.arguments)]


def inner(tree):
    """What stands in parentheses, or is assigned there."""
    while isinstance(tree, (Parenthesis, Assignment)):
        tree = tree.inner if isinstance(tree, Parenthesis) else tree.value
    return tree
