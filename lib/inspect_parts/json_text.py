"""From bytes to a JSON value, as the program's reader takes them: place `json`."""

import json
import math
import re

from .refused import BadImage

# How many arrays and objects may be inside one another.
DEEPEST = 127
STRINGS_AND_BRACKETS = re.compile(r'"(?:[^"\\]|\\.)*"|[][{}]', re.DOTALL)
# Digits of the largest number of 64 bits; a longer number is a float.
MOST_DIGITS = 20


class NoJson(ValueError):
    """What is wrong with a text that Python's own reader would take."""


def read_json(data):
    """The value. A key that comes twice has its last value."""
    try:
        text = data.decode()
        if deepest(text) > DEEPEST:
            raise NoJson(f"more than {DEEPEST} arrays and objects are inside one another")
        value = json.loads(text, parse_int=whole, parse_float=real, parse_constant=constant)
        if "\\ud" in text.lower():
            all_values = json.loads(text, object_pairs_hook=list)
            json.dumps(all_values, ensure_ascii=False).encode()
        return value
    except UnicodeDecodeError as error:
        raise BadImage("json", "", f"byte {error.start} is not UTF-8") from None
    except UnicodeEncodeError:
        raise BadImage("json", "", "a text has half of a surrogate pair") from None
    except json.JSONDecodeError as error:
        raise BadImage("json", "", f"no JSON at line {error.lineno}, column {error.colno}: {error.msg}") from None
    except NoJson as error:
        raise BadImage("json", "", str(error)) from None


def deepest(text):
    """How many arrays and objects are inside one another at most."""
    if text.count("[") + text.count("{") <= DEEPEST:
        return 0
    depth = most = 0
    for token in STRINGS_AND_BRACKETS.findall(text):
        if token in ("[", "{"):
            depth += 1
            most = max(most, depth)
        elif token in ("]", "}"):
            depth -= 1
    return most


def whole(text):
    """A number in digits alone. It is a float, and so whole nowhere, if it is -0 or does not fit 64 bits."""
    if len(text) <= MOST_DIGITS and text != "-0" and -(2**63) <= int(text) < 2**64:
        return int(text)
    return real(text)


def real(text):
    number = float(text)
    if math.isinf(number):
        raise NoJson("a number is beyond a float's range")
    return number


def constant(text):
    raise NoJson(f"{text} is no JSON")
