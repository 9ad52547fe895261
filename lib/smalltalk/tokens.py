"""The tokens of a source. The scanner stops at the first place where none begins, and leaves it to the parser to complain,
since what is wrong before that place is said first."""

from dataclasses import dataclass, field

from .language import BadSource

SPACE = b"\t\n\f\r "
BINARY = b"+-*/\\<>=~&,"
ALONE = b"()[]^.;|"
QUOTE, COLON, EQUALS, HASH, PERIOD, MINUS = b'":=#.-'


@dataclass
class Token:
    """`kind` is word, keyword, number, symbol, binary, assign, one of the characters that stand alone, end, or none: a place
    where no token begins. `words` are the identifiers in it."""

    kind: str
    text: str
    start: int
    stop: int
    words: list = field(default_factory=list)


def is_letter(byte):
    return 65 <= byte <= 90 or 97 <= byte <= 122


def is_digit(byte):
    return 48 <= byte <= 57


def check_characters(source):
    """Refuses the first byte that can stand nowhere, or, outside comments, that no token has."""
    outside = True
    for place, byte in enumerate(source):
        if byte >= 127 or (byte < 32 and byte not in SPACE):
            raise BadSource("BadCharacter", place)
        if byte == QUOTE:
            outside = not outside
        elif outside and not (is_letter(byte) or is_digit(byte) or byte in SPACE + BINARY + ALONE + b":#"):
            raise BadSource("BadCharacter", place)


class Scanner:
    def __init__(self, source):
        self.source = source
        self.place = 0

    def byte(self, place):
        """The byte at a place; zero, which no token has, after the end."""
        return self.source[place] if place < len(self.source) else 0

    def text(self, start, stop):
        return self.source[start:stop].decode()

    def word_end(self, start):
        """Where the identifier that begins here ends; `start` itself where none begins."""
        stop = start
        if is_letter(self.byte(stop)):
            while is_letter(self.byte(stop)) or is_digit(self.byte(stop)):
                stop += 1
        return stop

    def keyword_colon(self, place):
        """Whether a colon is here that makes a keyword of the word before it."""
        return self.byte(place) == COLON and self.byte(place + 1) != EQUALS

    def binary_end(self, start):
        """Where the binary selector that begins here ends; `start` itself where none begins."""
        if start >= len(self.source) or self.source[start] not in BINARY:
            return start
        second = self.byte(start + 1)
        return start + 2 if second and second in BINARY and second != MINUS else start + 1

    def skip_space(self):
        """Goes after white space and comments. False where a comment isn't closed."""
        while self.place < len(self.source):
            byte = self.source[self.place]
            if byte in SPACE:
                self.place += 1
            elif byte == QUOTE:
                close = self.source.find(b'"', self.place + 1)
                if close < 0:
                    return False
                self.place = close + 1
            else:
                break
        return True

    def token(self, kind, stop, words=(), text=None):
        """The token from here to `stop`, and goes after it."""
        start = self.place
        self.place = stop
        return Token(kind, self.text(start, stop) if text is None else text, start, stop, list(words))

    def no_token(self):
        return Token("none", "", self.place, len(self.source))

    def next(self):
        if not self.skip_space():
            return self.no_token()
        start = self.place
        if start == len(self.source):
            return Token("end", "", start, start)
        byte = self.source[start]
        if is_letter(byte):
            return self.word()
        if is_digit(byte):
            return self.number()
        if byte == HASH:
            return self.symbol()
        if byte == COLON:
            return self.token("assign", start + 2) if self.byte(start + 1) == EQUALS else self.no_token()
        if byte in BINARY:
            return self.token("binary", self.binary_end(start))
        return self.token(chr(byte), start + 1)

    def word(self):
        stop = self.word_end(self.place)
        word = self.text(self.place, stop)
        return self.token("keyword", stop + 1, [word]) if self.keyword_colon(stop) else self.token("word", stop, [word])

    def number(self):
        stop = self.place
        while is_digit(self.byte(stop)):
            stop += 1
        if is_letter(self.byte(stop)) or (self.byte(stop) == PERIOD and is_digit(self.byte(stop + 1))):
            return self.no_token()
        return self.token("number", stop)

    def symbol(self):
        """A symbol's text is what comes after its #."""
        first = self.place + 1
        stop = self.word_end(first)
        if stop == first:
            stop = self.binary_end(first)
            return self.no_token() if stop == first else self.token("symbol", stop, text=self.text(first, stop))
        words = [self.text(first, stop)]
        if self.keyword_colon(stop):
            stop += 1
            while (word_stop := self.word_end(stop)) > stop:
                if not self.keyword_colon(word_stop):
                    return self.no_token()
                words.append(self.text(stop, word_stop))
                stop = word_stop + 1
        return self.token("symbol", stop, words, self.text(first, stop))


def tokens(source):
    """All tokens up to the end or to the first place where none begins, which is the last one then."""
    scanner = Scanner(source)
    found = [scanner.next()]
    while found[-1].kind not in ("end", "none"):
        found.append(scanner.next())
    return found
