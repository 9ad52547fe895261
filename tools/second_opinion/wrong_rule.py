"""A rule of the second reader, and a wrong one in its place."""

from dataclasses import dataclass


@dataclass
class WrongRule:
    """What is wrong then, the file with the rule, the right text, and what stands in its place."""

    says: str
    file: str
    right: str
    wrong: str
