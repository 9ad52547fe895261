"""Tokens to tree. The parser refuses what the grammar cannot go on with; limits and names are for the checks after it."""

from .language import BadSource, MOST_KEYWORDS, begins_small
from .tokens import is_digit, tokens
from .tree import Assignment, Block, Cascade, Message, Method, Name, Number, Parenthesis, Send, Statement, Symbol, is_super


class Parser:
    def __init__(self, source):
        self.source = source
        self.tokens = tokens(source)
        self.at = 0
        self.depth = 0
        self.method = Method()

    @property
    def here(self):
        return self.tokens[self.at]

    def take(self):
        token = self.here
        self.at += 1
        return token

    def expect(self, kind):
        if self.here.kind != kind:
            self.stuck()
        return self.take()

    def stuck(self):
        raise BadSource("BadToken", self.here.start)

    def stuck_in_pattern(self):
        """A place after the pattern where no token begins is said first: it is a BadToken, and these go before BadPattern."""
        last = self.tokens[-1]
        if last.kind == "none" and last is not self.here:
            raise BadSource("BadToken", last.start)
        raise BadSource("BadPattern", self.here.start)

    def parse(self):
        """The method; where something is wrong with the body, the first place that is wrong."""
        self.pattern()
        bad = []
        try:
            self.body()
        except BadSource as stuck:
            bad.append(stuck.offset)
        bad += self.method.bare_supers
        if bad:
            raise BadSource("BadToken", min(bad))
        return self.method

    def pattern(self):
        if self.here.kind == "word":
            self.method.selector = self.take().text
        elif self.here.kind == "binary":
            self.method.selector = self.take().text
            self.argument()
        elif self.here.kind == "keyword":
            for keyword in self.keywords():
                self.method.selector += keyword
                self.argument()
        else:
            self.stuck_in_pattern()

    def keywords(self):
        """The keywords that follow, one at a time; what comes after each is taken between them."""
        count = 0
        while self.here.kind == "keyword":
            count += 1
            if count == MOST_KEYWORDS + 1:
                self.method.ninth_keywords.append(self.here.start)
            yield self.take().text

    def argument(self):
        if self.here.kind != "word" or not begins_small(self.here.text):
            self.stuck_in_pattern()
        self.method.arguments.append(self.take())

    def body(self):
        if self.here.kind == "|":
            self.take()
            while self.here.kind == "word" and begins_small(self.here.text):
                self.method.temporaries.append(self.take())
            self.expect("|")
        self.method.statements = self.statements("end")

    def statements(self, closer):
        found = []
        while self.here.kind != closer:
            answers = self.here.kind == "^"
            if answers:
                self.take()
            found.append(Statement(self.expression(), answers))
            if self.here.kind == ".":
                self.take()
                if not answers:
                    continue
            if self.here.kind != closer:
                self.stuck()
        return found

    def expression(self):
        targets = []
        while self.here.kind == "word" and self.tokens[self.at + 1].kind == "assign":
            targets.append(self.take())
            self.take()
        self.method.assigned += targets
        value = self.cascade()
        for target in reversed(targets):
            value = Assignment(target.text, value)
        return value

    def cascade(self):
        first = self.keyword_expression()
        if self.here.kind != ";":
            return first
        if not isinstance(first, Send):
            self.stuck()
        if is_super(first.receiver):
            self.method.bare_supers.append(first.receiver.start)
        messages = [first.message]
        while self.here.kind == ";":
            self.take()
            messages.append(self.message())
        return Cascade(first.receiver, messages)

    def message(self):
        if self.here.kind == "word":
            return self.unary_message()
        if self.here.kind == "binary":
            return self.binary_message()
        if self.here.kind == "keyword":
            return self.keyword_message()
        self.stuck()

    def unary_message(self):
        token = self.take()
        return Message(token.text, [], token.start)

    def binary_message(self):
        token = self.take()
        return Message(token.text, [self.unary_expression(("word",))], token.start)

    def keyword_message(self):
        message = Message("", [], self.here.start)
        for keyword in self.keywords():
            message.selector += keyword
            message.arguments.append(self.binary_expression(("word", "binary")))
        return message

    def keyword_expression(self):
        receiver = self.binary_expression(("word", "binary", "keyword"))
        return Send(receiver, self.keyword_message()) if self.here.kind == "keyword" else receiver

    def binary_expression(self, messages):
        """`messages` are the kinds of tokens that begin a message to the first operand."""
        left = self.unary_expression(messages)
        while self.here.kind == "binary":
            left = Send(left, self.binary_message())
        return left

    def unary_expression(self, messages):
        operand = self.primary()
        if is_super(operand) and self.here.kind not in messages:
            self.method.bare_supers.append(operand.start)
        while self.here.kind == "word":
            operand = Send(operand, self.unary_message())
        return operand

    def primary(self):
        token = self.here
        if token.kind == "word":
            self.method.uses.append(self.take())
            return Name(token.text, token.start)
        if token.kind == "number":
            return Number(int(self.take().text))
        if token.kind == "symbol":
            return Symbol(self.take().text)
        if token.kind == "(":
            return self.parenthesis()
        if token.kind == "[":
            return self.block()
        if self.at_minus():
            self.take()
            digits = self.expect("number")
            self.method.negative.add(digits.start)
            return Number(-int(digits.text))
        self.stuck()

    def at_minus(self):
        """Whether a minus with a digit directly after it is here."""
        token = self.here
        if token.kind != "binary" or token.text != "-" or token.stop == len(self.source):
            return False
        return is_digit(self.source[token.stop])

    def parenthesis(self):
        self.open()
        inner = self.expression()
        self.expect(")")
        self.depth -= 1
        return Parenthesis(inner)

    def block(self):
        start = self.open()
        statements = self.statements("]")
        self.expect("]")
        self.depth -= 1
        return Block(statements, start)

    def open(self):
        """Goes after an opening bracket, and notes how deep it is."""
        self.depth += 1
        self.method.brackets.append((self.here.start, self.depth))
        return self.take().start
