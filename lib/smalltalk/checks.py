"""What is wrong with a source by itself, in the order in which it is said."""

from .language import (
    BadSource,
    DEEPEST_BRACKET,
    LARGEST,
    LONGEST_WORD,
    MOST_BYTES,
    MOST_KEYWORDS,
    MOST_VARIABLES,
    RESERVED,
    SMALLEST,
    begins_small,
)
from .parser import Parser
from .tokens import check_characters
from .tree import Assignment, Block, Cascade, Parenthesis, Send, is_inlined


def refuse(kind, offsets):
    """Refuses at the first of the places, where there is one."""
    if offsets:
        raise BadSource(kind, min(offsets))


def read_method(source):
    """The tree of a source, or its first fault."""
    if len(source) > MOST_BYTES:
        raise BadSource("TooLarge", MOST_BYTES)
    check_characters(source)
    parser = Parser(source)
    method = parser.parse()
    refuse("Nested", [start for start, depth in method.brackets if depth > DEEPEST_BRACKET])
    refuse("TooLarge", too_large(parser.tokens, method))
    refuse("DuplicateName", named_twice(method))
    refuse("ReadOnly", [target.start for target in method.assigned if is_read_only(target.text, method)])
    refuse("BlockEscapes", [block.start for block in escaping(method.statements)])
    return method


def too_large(tokens, method):
    return (
        method.ninth_keywords
        + [token.start for token in tokens if any(len(word) > LONGEST_WORD for word in token.words)]
        + [token.start for token in tokens if token.kind == "symbol" and token.text.count(":") > MOST_KEYWORDS]
        + [token.start for token in tokens if token.kind == "number" and not in_range(token, method)]
        + [name.start for name in method.variables()[MOST_VARIABLES:]]
    )


def in_range(number, method):
    value = int(number.text)
    return SMALLEST <= -value if number.start in method.negative else value <= LARGEST


def named_twice(method):
    """The arguments and temporaries that are reserved or have the name of one before."""
    names = [name.text for name in method.variables()]
    return [
        name.start for place, name in enumerate(method.variables()) if name.text in RESERVED or name.text in names[:place]
    ]


def is_read_only(name, method):
    return name in RESERVED or not begins_small(name) or name in [argument.text for argument in method.arguments]


def escaping(statements):
    """The blocks where no message is inlined. What is inside one of them comes after it, and is not looked at."""
    return [block for statement in statements for block in escaping_in(statement.value)]


def escaping_in(tree):
    if isinstance(tree, Block):
        return [tree]
    if isinstance(tree, Parenthesis):
        return escaping_in(tree.inner)
    if isinstance(tree, Assignment):
        return escaping_in(tree.value)
    if isinstance(tree, Cascade):
        parts = [tree.receiver] + [argument for message in tree.messages for argument in message.arguments]
        return [block for part in parts for block in escaping_in(part)]
    if isinstance(tree, Send):
        inlined = is_inlined(tree)
        found = []
        for part in [tree.receiver] + tree.message.arguments:
            found += escaping(part.statements) if inlined and isinstance(part, Block) else escaping_in(part)
        return found
    return []
