"""Sessions that are made to be slow. Each is a list of lines; the dear ones have a name."""

from .meeting import meeting_names
from .session import RUN, actor, define, line_of, method, post
from .sources import LETTERS, numbered_names, sources

# The lines before a session's own.
CLASS = [define("M", ["x"]), actor("M")]


CHECKPOINT = "a checkpoint of 65,536 actors"
EMPTIED = "a checkpoint that empties 195,000 items"


def plain(lines):
    return [(None, line) for line in lines]


def all_sources():
    """Each source is installed, and refused or not."""
    lines = plain(CLASS)
    for name, source in sources():
        lines.append((f"a source: {name}", method("M", source)))
    return lines


VARIABLES = "1,590 instance variables"


def odd_lines():
    """Lines of 8,192 bytes that are no command, or a long one."""
    names = numbered_names(3000)
    texts = {
        "arrays in arrays": "[" * 127 + "]" * 127,
        "arrays that never end": "[" * 8192,
        "objects that never end": '{"a":' * 1638,
        "a key many times": "{" + ",".join(['"cmd":"run"'] * 680) + "}",
        "many keys": "{" + ",".join(f'"{it}":1' for it in names[:900]) + "}",
        "a text of escapes": '{"cmd":"' + "\\u0041" * 1360 + '"}',
        "halves of pairs": '{"cmd":"' + "\\ud83d\\ude00" * 680 + '"}',
        "a number of 8,000 digits": '{"cmd":"run","quanta":' + "9" * 8000 + "}",
        "a fraction of 8,000 digits": '{"cmd":"run","quanta":0.' + "9" * 8000 + "}",
        "a power of 8,000 digits": '{"cmd":"run","quanta":1e' + "9" * 8000 + "}",
        "white space": " " * 8192,
    }
    lines = [(f"a line: {name}", text.encode()[:8192]) for name, text in texts.items()]
    short = [one + two for one in LETTERS for two in LETTERS + LETTERS.upper() + "0123456789"]
    lines.append((VARIABLES, define("N", short[:1590])))
    lines.append(("an instance variable many times", define("N", ["a"] * 1800)))
    lines.append(("many arguments", post("a", 1, args=[None] * 1500)))
    lines.append(("many new symbols", post("a", 1, args=[{"sym": it} for it in names[:560]])))
    lines.append(("the same symbols", post("a", 1, args=[{"sym": it} for it in names[:560]])))
    return lines


def deep_classes():
    """A chain of 64 classes, of which the lowest inherits 64 variables with long names; a message that none understands is looked up
    from there with a selector of its own at each step, in a chain of 64 and once more for `doesNotUnderstand:`."""
    lines = []
    above = "Object"
    for number in range(63):
        slot = "s" * 60 + "%04d" % number
        lines.append(("a class at depth %d" % (number + 2), define("C%d" % number, [slot], above)))
        above = "C%d" % number
    lines.append(("one variable more than there may be", define("More", ["a", "b"], above)))
    lines.append(("a class too deep", define("More", [], above)))
    lines.append((None, method("Object", "doesNotUnderstand: s ^self")))
    names = numbered_names(4400)
    sends = 200
    for number in range(20):
        chunk = names[number * sends : (number + 1) * sends]
        lines.append(("a method of 200 sends", method(above, "m%d ^self " % number + " ".join(chunk))))
    calls = " ".join("self m%d." % number for number in range(20))
    lines.append((None, method(above, "all [true] whileTrue: [%s]" % calls)))
    lines.append((None, actor(above)))
    lines.append((None, post("all", 1)))
    lines += [("a quantum of missing selectors at depth 64", RUN)] * 60
    return lines


def long_lists():
    """All edits that a session may have while a turn is open, and then a quantum; each reading of the table is asked as well."""
    lines = plain(CLASS) + plain([method("M", "go [true] whileTrue: [self tick]"), method("M", "tick ^1"), post("go", 1), RUN])
    for number in range(1000):
        lines.append(("an install among 2,000", method("M", "a%d ^self tick" % number)))
    for number in range(1044):
        lines.append(("a replacement among 2,000", method("M", "tick ^%d" % number)))
    lines.append(("a quantum behind 2,044 edits", RUN))
    lines.append(("statistics behind 2,044 edits", line_of(**{"class": "M"}, cmd="stats", selector="go")))
    lines.append(("one edit too many", method("M", "b ^1")))
    return lines


def many_classes():
    """As many classes as there may be, with long names that are alike, and an edit of each kind among them."""
    lines = []
    for number in range(1016):
        lines.append(("a class among 1,024", define("C" * 60 + "%04d" % number)))
    lines.append(("one class too many", define("More")))
    lines.append(("a class that is there, among 1,024", define("C" * 60 + "1015")))
    for number in range(500):
        lines.append(("an install among 1,024 classes", method("C" * 60 + "1015", "a%d ^%s" % (number, "C" * 60 + "1014"))))
        lines.append(("a removal among 1,024 classes", line_of(**{"class": "C" * 60 + "1015"}, cmd="remove", selector="a%d" % number)))
    return lines


def moved_classes():
    """A class with 1,000 below it, on chains of 31, goes from one superclass to another and back."""
    lines = plain([define("P"), define("Q"), define("T0")] + [define("T%d" % n, above="T%d" % (n - 1)) for n in range(1, 30)])
    lines += plain([define("L%d" % n, above="T29") for n in range(970)])
    for number in range(1000):
        above = "Q" if number % 2 else "P"
        lines.append(("a reparent above 1,000 classes", line_of(**{"class": "T0", "super": above}, cmd="reparent")))
    return lines


def large_bodies():
    """An actor with 1,024 objects of 64 variables, or 128 frames of 64 temporaries."""
    slots = ["s%d" % n for n in range(64)]
    deep = "deep | " + " ".join("t%d" % n for n in range(64)) + " | ^self deep"
    lines = plain([define("L", slots), define("A"), method("A", "fill [true] whileTrue: [L new]"), method("A", "one ^1"), method("A", deep)])
    lines += plain([actor("A"), actor("A"), post("fill", 1), post("deep", 2, to=1)])
    lines += [("a quantum of a body that grows to 1,024 objects of 64 variables", RUN)] * 26
    for seq in range(3, 40):
        lines.append((None, post("one", seq)))
        lines.append(("a quantum of an actor with 1,024 objects of 64 variables", RUN))
    return lines


def many_actors():
    """As many actors as there may be, and messages for them."""
    lines = plain([define("M"), method("M", "a ^1")])
    lines += [("a new actor among 65,536", actor("M"))] * 65536
    lines.append(("one actor too many", actor("M")))
    for number in range(0, 65536, 64):
        lines.append(("a post to one of 65,536 actors", post("a", number + 1, to=number)))
    lines += [("a quantum among 65,536 actors", RUN)] * 200
    lines.append((CHECKPOINT, line_of(cmd="checkpoint")))
    return lines


def full_mailboxes():
    """Mailboxes for 1,024 messages of eight arguments, that are filled, and one that is closed."""
    lines = plain(CLASS) + plain([method("M", "a:b:c:d:e:f:g:h: p b: q c: r d: s e: t f: u g: v h: w ^1".replace("a:b:c:d:e:f:g:h: p", "a: p"))])
    for seq in range(1, 1026):
        lines.append(("a post with eight arguments", post("a:b:c:d:e:f:g:h:", seq, args=[1] * 8)))
    lines.append(("a close of a full mailbox", line_of(actor=0, cmd="close")))
    lines += [("a quantum of a closed actor", RUN)] * 50
    return lines


def alike_names():
    """As many names as there may be, of 64 letters, alike up to their last three; then one that is missing, and a full table."""
    lines = plain(CLASS)
    long = ["a" * 61 + it for it in numbered_names(8200)]
    for number in range(0, 8160, 80):
        args = [{"sym": it} for it in long[number : number + 80]]
        lines.append(("80 new names of 64 letters that are alike", post("a", 1, args=args)))
    for number in range(0, 8160, 800):
        args = [{"sym": it} for it in long[number : number + 80]]
        lines.append(("80 names of 64 letters that are alike", post("a", 1, args=args)))
    lines += plain([post("a", 1, args=[{"sym": it} for it in long[8080:8160]])])
    lines.append(("names for a full table", post("a", 1, args=[{"sym": it} for it in long[8120:8200]])))
    return lines


NEW_MEETING = "a new name whose hash meets those of all others"
MEETING = "450 names whose hashes meet, of 8,160 such"


def meeting():
    """Names whose hashes meet. None without gcc."""
    names = meeting_names(8160)
    lines = plain(CLASS) + [(NEW_MEETING, post(it, 1, to=9)) for it in names]
    if names:
        lines.append((MEETING, method("M", "m " + " ".join("#%s." % it for it in names[-450:]))))
        lines.append((MEETING, post("a", 1, args=[{"sym": it} for it in names[-450:]])))
    return lines


def many_items():
    """A history that grows to 200,000 items, and many senders."""
    lines = plain([define("M"), method("M", "a ^1"), actor("M")])
    for number in range(1, 65000):
        lines.append(("a post of a new sender", post("isNil", 1, sender=number)))
        lines.append(("a quantum of a history that grows", RUN))
    lines.append((EMPTIED, line_of(cmd="checkpoint")))
    return lines


def many_sites():
    """Methods with as many sites as there may be, whose caches and statistics are filled and told."""
    lines = plain(CLASS)
    for number in range(100):
        lines.append((None, method("M", "m%d " % number + "self foo. " * 250 + "^1")))
    lines.append((None, method("Object", "foo ^1")))
    for number in range(100):
        lines.append((None, post("m%d" % number, number + 1)))
    lines += [("a quantum of a method with 250 new sites", RUN)] * 400
    for number in range(100):
        lines.append(("statistics of 250 sites", line_of(**{"class": "M"}, cmd="stats", selector="m%d" % number)))
    return lines


TRIALS = [all_sources, odd_lines, many_classes, moved_classes, deep_classes, long_lists, large_bodies, many_actors, full_mailboxes, alike_names, meeting, many_items, many_sites]
