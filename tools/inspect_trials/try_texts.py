"""Trials on texts that are no JSON, or no whole numbers, and on files that are cut."""

from .try_common import good_files, read, refusal, same

# Each stands in place of the number of an actor's capacity.
VALUES = (
    (b"64", "good"),
    (b" \t\r\n64 ", "good"),
    (b"64.0", "shape: actors[0].capacity"),
    (b"6.4e1", "shape: actors[0].capacity"),
    (b"-0", "shape: actors[0].capacity"),
    (b"18446744073709551615", "actors: actors[0].capacity"),
    (b"18446744073709551616", "shape: actors[0].capacity"),
    (b"9" * 308, "shape: actors[0].capacity"),
    (b"9" * 5000, "json: the file"),
    (b"1e-999", "shape: actors[0].capacity"),
    (b"1e999", "json: the file"),
    (b"NaN", "json: the file"),
    (b"-Infinity", "json: the file"),
    (b"064", "json: the file"),
    (b"+64", "json: the file"),
    (b"0x40", "json: the file"),
    (b"'64'", "json: the file"),
    (b"", "json: the file"),
    (b"// 64", "json: the file"),
    (b'"\\ud800"', "json: the file"),
    (b'"\\ude00\\ud83d"', "json: the file"),
    (b'"\\ud83d\\ude00"', "shape: actors[0].capacity"),
    ('"\u00e9"'.encode(), "shape: actors[0].capacity"),
    (b'"\xe9"', "json: the file"),
    (b'"\xed\xa0\x80"', "json: the file"),
    (b'"\n"', "json: the file"),
    (b'"\x00"', "json: the file"),
    (b'"\\x41"', "json: the file"),
    (b'"' + b"[" * 200 + b'"', "shape: actors[0].capacity"),
    (b"[" * 124 + b"]" * 124, "shape: actors[0].capacity"),
    (b"[" * 125 + b"]" * 125, "json: the file"),
    (b"[" * 100_000, "json: the file"),
    (b'{"a":' * 100_000 + b"1" + b"}" * 100_000, "json: the file"),
)
WHOLE = (
    (b"", "json: the file"),
    (b" ", "json: the file"),
    (b"\xef\xbb\xbf{}", "json: the file"),
    (b"{} {}", "json: the file"),
    (b"[]", "shape: the file"),
    (b"null", "shape: the file"),
    (b'"fresh"', "shape: the file"),
    (b"{}", "shape: the file"),
    (b'{"format":1}', "shape: the file"),
    (b'{"format":{}}', "shape: format"),
)
# Each stands in place of the capacity with its key.
KEYS_TWICE = (
    (b'"capacity":0,"capacity":64', "good"),
    (b'"capacity":64,"capacity":0', "actors: actors[0].capacity"),
    (b'"capacity":{"a":"\\u00e9"},"capacity":64', "good"),
    (b'"capacity":{"a":"\\ud800"},"capacity":64', "json: the file"),
    (b'"capacity":1e999,"capacity":64', "json: the file"),
)


def values():
    text = read(good_files()["message-waits"])
    for value, wanted in VALUES:
        same((value[:30], refusal(text.replace(b'"capacity":64', b'"capacity":' + value))), (value[:30], wanted))
    return len(VALUES)


def whole():
    for text, wanted in WHOLE:
        same((text, refusal(text)), (text, wanted))
    return len(WHOLE)


def twice():
    """A key that comes twice has its last value."""
    text = read(good_files()["message-waits"])
    for keys, wanted in KEYS_TWICE:
        same((keys, refusal(text.replace(b'"capacity":64', keys))), (keys, wanted))
    return len(KEYS_TWICE)


def cut():
    """A file that is cut anywhere before its last bracket is no JSON; without its newline it is whole."""
    cuts = 0
    for name in ("message-waits", "loop", "everything"):
        text = read(good_files()[name])
        for end in range(len(text) - 2):
            same((name, end, refusal(text[:end])), (name, end, "json: the file"))
        same((name, refusal(text[:-1])), (name, "good"))
        cuts += len(text) - 1
    return cuts


TRIALS = (values, whole, twice, cut)
