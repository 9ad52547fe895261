"""The methods that are shown: those that are named, one by one or by their class."""

import re
from typing import Iterable, NamedTuple, Union

from actorimage import Image, Refused

CLASS = re.compile("[A-Z][A-Za-z0-9]*")
METHOD = re.compile(r"([A-Z][A-Za-z0-9]*)(?:\s*>>\s*|\.|\s+)(\S+)")


class Method(NamedTuple):
    class_name: str
    selector: str

    def __str__(self) -> str:
        return f"{self.class_name} >> {self.selector}"


class NoMethods(Exception):
    """A word that names no methods; its text says why."""


def given(word: str) -> Union[str, Method]:
    """A class, as `Counter`, or a method, as `Counter.bump`."""
    if CLASS.fullmatch(word):
        return word
    match = METHOD.fullmatch(word)
    if not match:
        raise NoMethods(f"{word} is no method; write a class, or a class and a selector, as in  Counter  or  Counter.bump")
    return Method(*match.groups())


def named(image: Image, words: Iterable[Union[str, Method]]) -> list[Method]:
    """The methods that are named, and those that the named classes have of their own now."""
    return list(dict.fromkeys(method for word in words for method in ([word] if isinstance(word, Method) else own(image, word))))


def own(image: Image, class_name: str) -> list[Method]:
    """The methods of a class but for those of the kernel; none if there is no such class."""
    try:
        return [Method(class_name, it.selector) for it in image.methods(class_name) if it.version is not None]
    except Refused:
        return []
