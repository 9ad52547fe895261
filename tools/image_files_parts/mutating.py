"""Changes of the bytes of a good file at one place, at random."""

import copy
import json

from inspect_trials.try_generated import STRAY, places_in

# A text that stands in for one that is no value of Python's, until the whole file is a text.
RAW = "\x00raw"
KEYS = "args class last open ref sym local define start answer frames".split()
EDGES = ["-1", "0", "1", "-0", "64", "1024", "1025", "65535", "65536", "4294967295", "4294967296", "1.0", "1e0", "0.5", "1e400"]
EDGES += [str(2**63 + more) for more in (-1, 0, 1)] + [str(2**64 + more) for more in (-1, 0)]
EDGES += [str(-(2**63) - more) for more in (0, 1)]
BYTES = b'{}[]",:\\ \n0123456789-.eEtfnaAzZ+#^|;()\x00\x7f\x80\xc3\xa9\xff'
SCRAPS = ["", "x", "X", "9", ":", "+", " ", "_", "\n", "\x00", "\u00e9", "\U0001f600", '"', "\\", "^", "."]


def byte_changed(rng, data):
    place = rng.randrange(len(data))
    return data[:place] + bytes([rng.choice(BYTES)]) + data[place + 1 :]


def byte_taken(rng, data):
    place = rng.randrange(len(data))
    return data[:place] + data[place + 1 :]


def key_renamed(rng, inside, key):
    """Another key, mostly one that stands elsewhere. The order stays."""
    other = rng.choice([*KEYS, key + "s", key[:-1], key.upper()])
    pairs = [(other if it == key else it, value) for it, value in inside.items()]
    inside.clear()
    inside.update(pairs)


def key_twice(rng, inside, key):
    """The last value counts."""
    first, last = rng.sample([json.dumps(inside[key]), json.dumps(rng.choice(STRAY))], 2)
    return f"{first},{json.dumps(key)}:{last}"


def number_changed(rng, inside, key):
    number = inside[key]
    near = [str(number + 1), str(number - 1), str(-number), f"{number}.0", f"{number}e0"]
    return rng.choice(near) if rng.random() < 0.5 else rng.choice(EDGES)


def item_removed(rng, inside, key):
    del inside[key]


def item_doubled(rng, inside, key):
    inside.insert(rng.randrange(len(inside) + 1), copy.deepcopy(inside[key]))


def item_moved(rng, inside, key):
    item = inside.pop(key)
    inside.insert(rng.randrange(len(inside) + 1), item)


def text_changed(rng, inside, key):
    text = inside[key]
    place = rng.randrange(len(text) + 1)
    inside[key] = text[:place] + rng.choice(SCRAPS) + text[place + rng.choice([0, 1]) :]


def value_replaced(rng, inside, key):
    inside[key] = copy.deepcopy(rng.choice(STRAY))


def is_list(inside, key):
    return isinstance(inside, list)


def is_keyed(inside, key):
    return isinstance(inside, dict)


def is_number(inside, key):
    return type(inside[key]) is int


def is_text(inside, key):
    return isinstance(inside[key], str)


def is_any(inside, key):
    return True


# Where each change may be made; what stands twice is made more often. A change may answer the text that stands for the value then.
ON_VALUES = (
    (key_renamed, is_keyed),
    (key_twice, is_keyed),
    (number_changed, is_number),
    (number_changed, is_number),
    (item_removed, is_list),
    (item_doubled, is_list),
    (item_moved, is_list),
    (text_changed, is_text),
    (text_changed, is_text),
    (value_replaced, is_any),
)


def value_copied(rng, inside, key, places):
    """What stands elsewhere in the file, of the same kind if there is some."""
    alike = [(other, at) for other, at in places if type(other[at]) is type(inside[key])]
    other, at = rng.choice(alike)
    inside[key] = copy.deepcopy(other[at])


def text_of(rng, file):
    return json.dumps(file, ensure_ascii=rng.random() < 0.5, indent=rng.choice([None, None, None, 1]))


def on_value(rng, data):
    """A change of a JSON value: its name, and the bytes."""
    file = json.loads(data)
    places = list(places_in(file))
    if rng.random() < 0.15:
        value_copied(rng, *rng.choice(places), places)
        return "value_copied", text_of(rng, file).encode()
    change, fits = rng.choice(ON_VALUES)
    fitting = [place for place in places if fits(*place)]
    if not fitting:
        return on_value(rng, data)
    inside, key = rng.choice(fitting)
    raw = change(rng, inside, key)
    if raw is not None:
        inside[key] = RAW
    return change.__name__, text_of(rng, file).replace(json.dumps(RAW), raw or "").encode()


def mutated(rng, data):
    """The name of a change, and the bytes that it makes."""
    if rng.random() < 0.25:
        change = rng.choice([byte_changed, byte_taken])
        return change.__name__, change(rng, data)
    return on_value(rng, data)
