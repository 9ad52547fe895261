"""What a page is told of one method: its source, where its sends stand and how they do, and who else has or sends its selector."""

from .places import sends_of
from .stats import kind_of

# How often senders are asked for where edits come meanwhile.
TRIES = 8


def sites_of(source, told):
    """The call sites with their places in the source. A site whose place is not known stands in the list alone."""
    places = sends_of(source)
    fits = [it.selector for it in places] == [it["selector"] for it in told]
    return [
        {
            "selector": it["selector"],
            "super": it["super"],
            "kind": kind_of(it),
            "counts": [it["sends"], it["site"], it["global"], it["walk"]],
            "words": [list(word) for word in place.words] if fits else [],
        }
        for it, place in zip(told, places if fits else [None] * len(told))
    ]


def method(kept, stats, name, selector, tick, is_own=False):
    """What a send of the selector to an object of a class runs; without a source where there is none, or none of its own if that is
    asked for. `edits` is the version of the class table of which all is told."""
    with kept.lock:
        told = now(kept, name, selector, is_own)
    if "source" in told:
        key = told["class"], selector
        stats.ask([key], tick)
        counted = stats.told.get(key, (0, []))
        told["sites"] = sites_of(told["source"], counted[1] if counted[0] == told["version"] else [])
    return told


def now(kept, name, selector, is_own):
    """As `method`, without the sites."""
    holder = kept.found(name, selector)
    if holder is None or is_own and holder.name != name:
        gone = kept.history.get((name, selector), [])
        told = {"class": name, "gone": bool(gone), "versions": versions(kept, name, selector)}
    elif selector not in holder.methods:
        told = {"class": holder.name, "kernel": True, "versions": []}
    else:
        source, version = kept.source(holder.name, selector)
        told = {"class": holder.name, "source": source, "version": version, "versions": versions(kept, holder.name, selector)}
    return {**told, "selector": selector, "edits": kept.version}


def versions(kept, name, selector):
    """Each install and each removal, oldest first, and whether it was made by this page; a removal has no source."""
    all_of_it, ours = kept.history.get((name, selector), []), kept.line.ours
    return [{"version": version, "source": source, "isOurs": version in ours} for version, source in all_of_it]


def implementors(kept, selector):
    """The classes that have the selector, and whether it is the kernel's there."""
    with kept.lock:
        found = [{"class": it, "isKernel": selector not in kept.classes[it].methods} for it in kept.implementors(selector)]
        return found, kept.version


def senders(line, kept, stats, selector, tick):
    """The methods that send a selector, with the sites that do, and how often; and the version of the class table of which they are. The
    image's answer does not say that, so it is asked again where an edit came meanwhile."""
    for _ in range(TRIES):
        kept.catch_up()
        version = kept.version
        told = line.ask({"cmd": "senders", "selector": selector})["methods"]
        found = senders_among(told, kept, stats, selector, tick)
        kept.catch_up()
        if kept.version == version:
            return found, version
    return None, kept.version


def senders_among(told, kept, stats, selector, tick):
    methods = [(it["class"], it["selector"]) for it in told]
    stats.ask(methods[:256], tick)
    return [
        {
            "class": name,
            "selector": own,
            "kinds": [kind_of(it) for it in stats.sites((name, own)) if it["selector"] == selector],
            "sends": sum(it["sends"] for it in stats.sites((name, own)) if it["selector"] == selector),
        }
        for name, own in methods
    ] + [{"class": name, "selector": own, "kinds": ["post"], "posts": True} for name, own in posters(kept, selector)]


def posters(kept, selector):
    """The methods in which a symbol says that the selector is posted."""
    with kept.lock:
        sources = [(it, kept.source(*it)[0]) for it in kept.methods()]
    return [it for it, source in sources if any(place.posted == selector for place in sends_of(source))]


def running(rows, name, selector):
    """The actors that run the method now."""
    wanted = {"class": name, "selector": selector}
    return [it["actor"] for it in rows.all if it["running"] == wanted]
