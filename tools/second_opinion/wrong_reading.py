"""Wrong rules of reading: tokens, grammar, limits, names, blocks, and the order of the checks."""

from .wrong_rule import WrongRule


def limit(name, right, *wrong):
    return [WrongRule(f"{name} is {number}", "language", f"{name} = {right}\n", f"{name} = {number}\n") for number in wrong]


TOKENS = [
    WrongRule("a form feed is no white space", "tokens", 'b"\\t\\n\\f\\r "', 'b"\\t\\n\\r "'),
    WrongRule("the byte 127 may stand in comments", "tokens", "byte >= 127", "byte > 127"),
    WrongRule("in a comment all bytes may stand", "tokens", "if byte >= 127 or", "if outside and byte >= 127 or"),
    WrongRule("a selector's second character may be a minus", "tokens", " and second != MINUS", ""),
    WrongRule(":= behind a word makes a keyword", "tokens", " and self.byte(place + 1) != EQUALS", ""),
    WrongRule("a letter may follow a number", "tokens", "if is_letter(self.byte(stop)) or (self", "if (self"),
    WrongRule("a period behind a number is an end", "tokens", " and is_digit(self.byte(stop + 1))", ""),
    WrongRule(
        "#a:b is the symbol #a:",
        "tokens",
        "                    return self.no_token()\n",
        "                    break\n",
    ),
]

GRAMMAR = [
    WrongRule("BadPattern goes before BadToken", "parser", 'last.kind == "none" and last is not self.here', "False"),
    WrongRule(
        "a super is said behind another bad token",
        "parser",
        (
            "            bad.append(stuck.offset)\n"
            "        bad +="
        ),
        (
            "            raise\n"
            "        bad +="
        ),
    ),
    WrongRule(
        "super may be the receiver of a cascade",
        "parser",
        "        if is_super(first.receiver):",
        "        if False:",
    ),
    WrongRule("super may stand alone", "parser", "self.here.kind not in messages:", "False:"),
    WrongRule("super gets no keyword message", "parser", '("word", "binary", "keyword")', '("word", "binary")'),
    WrongRule(
        "an argument's super gets a binary message",
        "parser",
        '[self.unary_expression(("word",))]',
        '[self.unary_expression(("word", "binary"))]',
    ),
    WrongRule(
        "an argument may begin with a capital",
        "parser",
        (
            " or not begins_small(self.here.text):\n"
            "            self.stuck_in"
        ),
        (
            ":\n"
            "            self.stuck_in"
        ),
    ),
    WrongRule(
        "a temporary may begin with a capital",
        "parser",
        'while self.here.kind == "word" and begins_small(self.here.text):',
        'while self.here.kind == "word":',
    ),
    WrongRule(
        "statements may follow an answer",
        "parser",
        (
            "                if not answers:\n"
            "                    continue"
        ),
        "                continue",
    ),
    WrongRule("a minus may stand apart from its digits", "parser", "return is_digit(self.source[token.stop])", "return True"),
    WrongRule(
        "the digits aren't the place of a negative number",
        "parser",
        "self.method.negative.add(digits.start)",
        "pass",
    ),
    WrongRule(
        "a keyword message's argument is a unary expression",
        "parser",
        'self.binary_expression(("word", "binary"))',
        'self.unary_expression(("word", "binary"))',
    ),
]

LIMITS = (
    limit("MOST_BYTES", 4096, 4095, 4097)
    + limit("LONGEST_WORD", 64, 63, 65)
    + limit("MOST_KEYWORDS", 8, 7, 9)
    + limit("MOST_VARIABLES", 64, 63, 65)
    + limit("DEEPEST_BRACKET", 64, 63, 65)
    + limit("MOST_INSTRUCTIONS", 1024, 1023, 1025)
    + limit("MOST_OPERANDS", 64, 63, 65)
    + limit("MOST_FRAMES", 128, 127, 129)
    + limit("MOST_OBJECTS", 1024, 1023, 1025)
    + limit("MOST_ACTORS", 65536, 65535, 65537)
    + limit("LARGEST", "2**63 - 1", "2**63", "2**63 - 2")
    + limit("SMALLEST", "-(2**63)", "-(2**63) - 1", "-(2**63) + 1")
)

COUNTS = [
    WrongRule("a symbol may have nine keywords", "checks", "> MOST_KEYWORDS", "> MOST_KEYWORDS + 1"),
    WrongRule("no keywords are counted in a pattern or a message", "checks", "method.ninth_keywords\n", "[]\n"),
    WrongRule("a number is too large at its minus", "checks", "SMALLEST <= -value", "True"),
    WrongRule(
        "a symbol's words may be long",
        "checks",
        "any(len(word) > LONGEST_WORD for word in token.words)",
        'token.kind != "symbol" and any(len(word) > LONGEST_WORD for word in token.words)',
    ),
]

NAMES = [
    WrongRule("a variable may be reserved", "checks", "name.text in RESERVED or name.text in names", "name.text in names"),
    WrongRule("a variable may be named twice", "checks", " or name.text in names[:place]", ""),
    WrongRule(
        "an argument may be assigned to",
        "checks",
        " or name in [argument.text for argument in method.arguments]",
        "",
    ),
    WrongRule("a class may be assigned to", "checks", " or not begins_small(name)", ""),
    WrongRule("a reserved name may be assigned to", "checks", "return name in RESERVED or not", "return not"),
    WrongRule(
        "what is assigned to may be unknown",
        "compiler",
        "self.method.uses + self.method.assigned",
        "self.method.uses",
    ),
    WrongRule("a variable may hide an instance variable", "compiler", "if name.text in self.slots]", "if False]"),
    WrongRule(
        "super is an unknown name",
        "compiler",
        "        return name in RESERVED or name in self.temps",
        '        return name in RESERVED and name != "super" or name in self.temps',
    ),
    WrongRule(
        "a kernel method may be replaced",
        "classes",
        "if tree.selector in KERNEL_SELECTORS.get(class_name, ()):",
        "if False:",
    ),
]

BLOCKS = [
    WrongRule(
        "a loop's receiver may be in parentheses",
        "tree",
        "return isinstance(send.receiver, Block)",
        "return isinstance(send.receiver, (Block, Parenthesis))",
    ),
    WrongRule("a conditional's receiver may be super", "tree", " and not is_super(send.receiver)", ""),
    WrongRule("a conditional's receiver may be a block", "tree", " and not isinstance(send.receiver, Block)", ""),
    WrongRule("one block is enough", "tree", "if not all(", "if not any("),
    WrongRule("blocks may escape in a cascade", "checks", "for part in parts for", "for part in parts[:1] for"),
]

ORDER = [
    WrongRule("the last place is said", "checks", "min(offsets)", "max(offsets)"),
    WrongRule(
        "TooLarge goes before Nested",
        "checks",
        (
            '    refuse("Nested", [start for start, depth in method.brackets if depth > DEEPEST_BRACKET])\n'
            '    refuse("TooLarge", too_large(parser.tokens, method))\n'
        ),
        (
            '    refuse("TooLarge", too_large(parser.tokens, method))\n'
            '    refuse("Nested", [start for start, depth in method.brackets if depth > DEEPEST_BRACKET])\n'
        ),
    ),
    WrongRule(
        "DuplicateName goes before TooLarge",
        "checks",
        (
            '    refuse("TooLarge", too_large(parser.tokens, method))\n'
            '    refuse("DuplicateName", named_twice(method))\n'
        ),
        (
            '    refuse("DuplicateName", named_twice(method))\n'
            '    refuse("TooLarge", too_large(parser.tokens, method))\n'
        ),
    ),
    WrongRule(
        "ReadOnly goes before DuplicateName",
        "checks",
        (
            '    refuse("DuplicateName", named_twice(method))\n'
            '    refuse("ReadOnly", [target.start for target in method.assigned if is_read_only(target.text, method)])\n'
        ),
        (
            '    refuse("ReadOnly", [target.start for target in method.assigned if is_read_only(target.text, method)])\n'
            '    refuse("DuplicateName", named_twice(method))\n'
        ),
    ),
    WrongRule(
        "BlockEscapes goes before ReadOnly",
        "checks",
        (
            '    refuse("ReadOnly", [target.start for target in method.assigned if is_read_only(target.text, method)])\n'
            '    refuse("BlockEscapes", [block.start for block in escaping(method.statements)])\n'
        ),
        (
            '    refuse("BlockEscapes", [block.start for block in escaping(method.statements)])\n'
            '    refuse("ReadOnly", [target.start for target in method.assigned if is_read_only(target.text, method)])\n'
        ),
    ),
    WrongRule(
        "KernelMethod goes behind what the compiler refuses",
        "classes",
        (
            "        if tree.selector in KERNEL_SELECTORS.get(class_name, ()):\n"
            '            raise Refused("KernelMethod")\n'
            "        method = compile_method(tree, holder.slots, self.numbers)\n"
        ),
        (
            "        method = compile_method(tree, holder.slots, self.numbers)\n"
            "        if tree.selector in KERNEL_SELECTORS.get(class_name, ()):\n"
            '            raise Refused("KernelMethod")\n'
        ),
    ),
    WrongRule(
        "a clash with an instance variable goes before UnknownName",
        "compiler",
        (
            '        refuse("UnknownName", [use.start for use in uses if not self.is_known(use.text)])\n'
            '        refuse("DuplicateName", [name.start for name in self.method.variables() if name.text in self.slots])\n'
        ),
        (
            '        refuse("DuplicateName", [name.start for name in self.method.variables() if name.text in self.slots])\n'
            '        refuse("UnknownName", [use.start for use in uses if not self.is_known(use.text)])\n'
        ),
    ),
]

WRONG_READING = TOKENS + GRAMMAR + LIMITS + COUNTS + NAMES + BLOCKS + ORDER
