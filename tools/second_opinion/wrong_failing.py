"""Wrong rules of what is kept and told of turns that failed."""

from .wrong_rule import WrongRule

WRONG_FAILING = [
    WrongRule("65 failures are kept", "failing", "KEPT = 64", "KEPT = 65"),
    WrongRule("a failure is at the step before", "image", "self.taking = number", "self.taking = number - 1"),
    WrongRule("a checkpoint keeps failures", "image", "        self.failures = Failures(self.steps)\n", ""),
    WrongRule("failures are told from a step on", "failing", "if it.step > first", "if it.step >= first"),
    WrongRule("what is lost behind a checkpoint is not said", "failing", "max(after, self.base, ", "max(after, "),
    WrongRule("what is lost behind many failures is not said", "failing", "if self.count > KEPT else 0", "if False else 0"),
    WrongRule("a frame stands at its next instruction", "failing", "frame.next - 1", "frame.next % len(method.code)"),
    WrongRule("a value that was tested stays", "machine", "        self.tested = None\n        try:\n", "        try:\n"),
    WrongRule("no send goes to super", "machine", 'arguments, name == "SuperSend"\n', "arguments, False\n"),
    WrongRule(
        "doesNotUnderstand: is the message that failed",
        "machine",
        '            selector = "doesNotUnderstand:"\n',
        '            selector = "doesNotUnderstand:"\n            self.sent = receiver, selector, arguments, False\n',
    ),
    WrongRule(
        "a failure behind a checkpoint has a number more",
        "failing",
        "len(actor.results) + 1 - (actor.number in image.stands)",
        "len(actor.results) + 1",
    ),
]
