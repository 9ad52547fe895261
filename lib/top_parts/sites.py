"""How the sends of methods were found: two samples of their statistics, and what was done between them."""

from dataclasses import dataclass, field
from typing import Iterable, Optional, Sequence, Union

from actorimage import Image, Refused, Site

from .named import Method

STATES = ("empty", "mono", "poly", "mega")


@dataclass(frozen=True)
class Found:
    """How many sends there were, and how many of them each cache answered, or the walk."""

    sends: int = 0
    site: int = 0
    lookup_cache: int = 0
    walk: int = 0

    def __add__(self, other: "Found") -> "Found":
        return Found(*(here + there for here, there in zip(self.counts(), other.counts())))

    def counts(self) -> tuple[int, int, int, int]:
        return self.sends, self.site, self.lookup_cache, self.walk


@dataclass
class Row:
    """A method or one of its sites: all sends that are counted, those between the two samples, and the states of its sites. `why` is
    the name of a refusal where there are no statistics."""

    name: str
    all: Found = Found()
    now: Found = Found()
    states: list[str] = field(default_factory=list)
    why: Optional[str] = None


Sample = dict[Method, Union[list[Site], Refused]]


def sample(image: Image, methods: Sequence[Method]) -> Sample:
    """The statistics of methods now."""
    return {method: stats(image, method) for method in methods}


def stats(image: Image, method: Method) -> Union[list[Site], Refused]:
    try:
        return image.stats(*method)
    except Refused as refused:
        return refused


def sent(site: Site) -> str:
    return f"super {site.selector}" if site.is_super else site.selector


def found(site: Site) -> Found:
    return Found(site.sends, site.site, site.lookup_cache, site.walk)


def since(site: Site, before: Optional[Site]) -> Found:
    """What was done at a site since a sample; all of it where there was none."""
    if before is None:
        return found(site)
    return Found(*(now - then for now, then in zip(found(site).counts(), found(before).counts())))


def goes_on(now: Site, before: Site) -> bool:
    """Whether two samples can be of one site: no count has become less."""
    return (now.selector, now.is_super) == (before.selector, before.is_super) and min(since(now, before).counts()) >= 0


def rows(before: Sample, now: Sample, with_sites: bool) -> Iterable[Row]:
    """A row for each method, with those of its sites below it if they are asked for; what sends most comes first, and what has no
    statistics last."""
    blocks = [block(method, before.get(method), told) for method, told in now.items()]
    blocks.sort(key=lambda it: (-it[0].now.sends, not it[0].states, it[0].name))
    for method, *of_sites in blocks:
        yield method
        if with_sites:
            yield from of_sites


def block(method: Method, before: Union[list[Site], Refused, None], now: Union[list[Site], Refused]) -> list[Row]:
    """The row of a method, and those of its sites. If it was installed again meanwhile, its counts have begun at 0."""
    if isinstance(now, Refused):
        return [Row(str(method), why=now.name)]
    olds: Sequence[Optional[Site]] = before if isinstance(before, list) else []
    if len(olds) != len(now) or not all(old and goes_on(new, old) for new, old in zip(now, olds)):
        olds = [None] * len(now)
    of_sites = [Row(f"  {sent(new)}", found(new), since(new, old), [new.state]) for new, old in zip(now, olds)]
    whole = Row(str(method), states=[it.state for it in now])
    for row in of_sites:
        whole.all, whole.now = whole.all + row.all, whole.now + row.now
    return [whole, *of_sites]
