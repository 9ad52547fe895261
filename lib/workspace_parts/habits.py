"""What is said where something is written as in other Smalltalks, and this language has it otherwise or not at all."""

import re

from .tokens import temporaries, tokens

NO_ARRAYS = "there are no arrays; lists are made of objects, as by Link in examples/actors.jsonl"
NO_PARAMETERS = "a block has no parameters; write the loop with whileTrue: and a temporary"
LOOP = "write  [i < 3] whileTrue: [..]"
IN_PLACE_OF_BLOCK = {
    "ifNil:": "write  x isNil ifTrue: [0]",
    "ifNotNil:": "write  x isNil ifFalse: [0]",
    "timesRepeat:": LOOP,
    "do:": LOOP,
}
IN_PLACE_OF_UNARY = {
    "whileTrue": "write  [..] whileTrue: []",
    "whileFalse": "write  [..] whileFalse: []",
    "repeat": "write  [true] whileTrue: [..]",
    "value": "write what it does in its place",
}
WITH_BLOCKS = ("ifTrue:", "ifFalse:", "and:", "or:", "whileTrue:", "whileFalse:")
SUBCLASS = re.compile(r"\s*([A-Z][A-Za-z0-9]*)\s*(?:subclass:|<<)\s*#?([A-Za-z][A-Za-z0-9]*)")
VARIABLES = re.compile(r"instanceVariableNames:\s*'([^']*)'|slots:\s*\{([^}]*)\}")
# What comes before an operand.
OPENS = ("binary", "keyword", "assign", "^", "(", "[", ".", "|", ";")


def no_token(text, place):
    """What is said of a place where no token begins."""
    character, after = text[place], text[place + 1 : place + 2]
    if character == '"':
        return "this comment is not closed; put a double quote at its end"
    if character.isdigit():
        return "no number is written like this; numbers are whole, and a blank stands before a name"
    if character == ":" and text[:place].rstrip().endswith("["):
        return NO_PARAMETERS
    if character == "{" or character == "#" and after in ("(", "[", "{"):
        return NO_ARRAYS
    if character in "#:":
        return f"nothing begins with this {character} here; symbols are written #name or #at:put:, and assignments :="
    if character == "'":
        return "there are no strings; take a symbol, as in #name, or double quotes for a comment"
    if character == "$":
        return "there are no characters; take a symbol, as in #a, or a number"
    if character == "_":
        in_name = text[place - 1 : place].isalnum() or after.isalnum()
        return "no name has a _ in it; take it out" if in_name else "assignments are written :="
    if character == "!":
        return "there is no !=; write  (a = b) not" if after == "=" else "there is no !; write  a not"
    if character == "%":
        return "there is no %; what is left of a division is  a \\\\ b"
    shown = character if character.isprintable() else f"the character {ord(character)}"
    return f"{shown} has no meaning here; take it out"


def bar_or_minus(text, before, token):
    """What is said of a bar or a minus that is refused after some tokens; None of others."""
    last = before[-1].kind if before else "."
    if token.kind == "|":
        if last == "[":
            return "a block has no temporaries; name them at the beginning of the method"
        if last == ".":
            return "temporaries are named between bars at the beginning of a method only"
        return "there is no |; write  a or: [b]"
    after = tokens(text[token.stop :])[0]
    if token.text == "-" and last in OPENS and after.kind in ("word", "("):
        return f"no minus stands before a name; write  0 - {'(..)' if after.kind == '(' else after.text}"
    return None


def pragma(source, token):
    """What is said of a `<` at the beginning of a body."""
    start = temporaries(source)[1]
    is_first = tokens(source[start : token.start])[0].kind == "end"
    is_pragma = token.text == "<" and is_first and tokens(source[token.stop :])[0].kind in ("word", "keyword")
    return "there are no pragmas; take it out" if is_pragma else None


def block(source, before, place):
    """What is said of a block that stands where none can; None if its message says nothing."""
    keyword = before[-1].text if before else ""
    if keyword in IN_PLACE_OF_BLOCK:
        return f"no block stands after {keyword} here; {IN_PLACE_OF_BLOCK[keyword]}"
    if keyword in WITH_BLOCKS:
        return f"after {keyword} a block stands only if every argument of the message is one, and in no cascade"
    word = after_block(source[place:])
    if word in IN_PLACE_OF_UNARY:
        return f"no block is sent {word} here; {IN_PLACE_OF_UNARY[word]}"
    return None


def after_block(text):
    """The text of the token after the block with which a text begins."""
    depth = 0
    found = tokens(text)
    for token, following in zip(found, found[1:]):
        depth += {"[": 1, "]": -1}.get(token.kind, 0)
        if depth == 0:
            return following.text
    return ""


def subclass(text):
    """How a class is defined here that a text defines by a message; None if it does not."""
    match = SUBCLASS.match(text)
    if not match:
        return None
    variables = VARIABLES.search(text)
    names = re.findall("[A-Za-z][A-Za-z0-9]*", variables[1] or variables[2] or "") if variables else ["n"]
    return f"{match[2]} : {match[1]}" + (f" | {' '.join(names)} |" if names else "")
