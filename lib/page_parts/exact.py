"""Values and numbers as a page can take them: numbers of JavaScript have 53 bits, so larger ones go as texts."""

LARGEST = 2**53 - 1


def exact(number):
    return number if abs(number) <= LARGEST else str(number)


def a_or_an(name):
    return ("an " if name[:1] in "AEIOU" else "a ") + name


def shown(value, class_of=None):
    """A value as Smalltalk writes it, and what one can go on to from there. `class_of` gives the class of an object of the actor's
    own, by its number, and of another actor as `class_of(None, number)`."""
    if value is None:
        return {"text": "nil"}
    if isinstance(value, bool):
        return {"text": "true" if value else "false"}
    if isinstance(value, int):
        return {"text": f"{value}"}
    ((kind, of),) = value.items()
    if kind == "sym":
        return {"text": f"#{of}", "symbol": of}
    if kind == "class":
        return {"text": of, "class": of}
    if kind == "ref":
        name = class_of and class_of(None, of)
        return {"text": f"actor {of}" + (f", {a_or_an(name)}" if name else ""), "actor": of}
    if of == 0:
        return {"text": "itself", "local": 0}
    name = class_of and class_of(of, None)
    return {"text": f"{a_or_an(name)} (object {of})" if name else f"object {of}", "local": of}


def message(selector, arguments, class_of=None):
    """A message as it is typed."""
    words = [f"{word}:" for word in selector.split(":")[:-1]] if ":" in selector else [selector]
    values = [shown(it, class_of)["text"] for it in arguments]
    return " ".join(f"{word} {value}" for word, value in zip(words, values)) if values else selector
