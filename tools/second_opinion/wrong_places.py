"""Wrong rules of the places of sends in a source."""

from .wrong_rule import WrongRule

WRONG_PLACES = [
    WrongRule(
        "a unary message stands behind its selector",
        "parser",
        "Message(token.text, [], token.start)",
        "Message(token.text, [], token.stop)",
    ),
    WrongRule(
        "a binary message stands behind its operator",
        "parser",
        '[self.unary_expression(("word",))], token.start)',
        '[self.unary_expression(("word",))], token.stop)',
    ),
    WrongRule(
        "a keyword message stands behind its first keyword",
        "parser",
        'Message("", [], self.here.start)',
        'Message("", [], self.here.stop)',
    ),
    WrongRule(
        "a super send stands nowhere",
        "compiler",
        "len(message.arguments), message.start)",
        'len(message.arguments), None if name == "SuperSend" else message.start)',
    ),
    WrongRule("a conditional jump stands nowhere", "compiler", "None if is_joined else code[pc - 1].start", "None"),
    WrongRule("a value is that of the last arm", "compiler", "None if is_joined else code[pc - 1].start", "code[pc - 1].start"),
]
