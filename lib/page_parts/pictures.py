"""What the pictures show: mailboxes over time, and which class posts to which."""

from collections import deque

from .places import sends_of
from .stats import POSTS

# Ticks of the mailboxes over time, the actors that are kept of each tick, and those that are shown.
TICKS, KEPT, SHOWN = 180, 48, 14
# Ticks of which the picture of posts is, and the part of what a class accepted from which on clients are taken to have posted it: the
# counts of sites and those of mailboxes are never of one moment.
OF_POSTS, REST = 10, 0.2


class Boxes:
    """The longest mailboxes of each tick."""

    def __init__(self):
        self.ticks = deque(maxlen=TICKS)

    def clear(self):
        self.ticks.clear()

    def take(self, rows):
        waiting = [(number, it) for it, number in enumerate(rows.waits) if number] if rows.waiting else []
        self.ticks.append(dict((it, number) for number, it in sorted(waiting, reverse=True)[:KEPT]))

    def shown(self, rows):
        """The actors that were longest of all ticks, each with its messages at each tick."""
        sums = {}
        for tick in self.ticks:
            for actor, number in tick.items():
                sums[actor] = sums.get(actor, 0) + number
        longest = sorted(sums, key=lambda it: (-sums[it], it))[:SHOWN]
        return [
            {"actor": it, "class": rows.class_of(None, it) or "", "waits": [tick.get(it, 0) for tick in self.ticks]}
            for it in longest
        ]


class Posts:
    """Which class posts to which. What a site posted, and what an actor accepted, is counted by the image; to whom a site posts is not.
    So a post goes to the classes with actors that have a method for its symbol, and, where several have one, to each as much as it
    accepted. What a class accepted beyond that is of clients."""

    def __init__(self):
        self.clear()

    def clear(self):
        self.samples, self.edges, self.nodes = deque(maxlen=OF_POSTS + 1), [], []

    def methods(self, kept):
        """The methods that post."""
        return [it for it in kept.methods() if any(place.selector in POSTS for place in sends_of(kept.source(*it)[0]))]

    def take(self, kept, stats, rows, now):
        """Asks how often each site has posted, and makes the picture of what was done since the last time."""
        methods = self.methods(kept)
        stats.ask(methods, rows.tick)
        sites = {key: value for it in methods for key, value in self.posting(kept, stats, it)}
        accepted, actors, waiting = {}, {}, {}
        for row in rows.all:
            name = row["class"]
            accepted[name] = accepted.get(name, 0) + row["accepted"]
            actors[name] = actors.get(name, 0) + 1
            waiting[name] = waiting.get(name, 0) + row["accepted"] - row["begun"]
        self.samples.append((now, sites, accepted))
        before, old_sites, old_accepted = self.samples[0]
        if now > before:
            got = {name: max(0, number - old_accepted.get(name, 0)) / (now - before) for name, number in accepted.items()}
            sent = {key: max(0, sends - old_sites.get(key, (0,))[0]) / (now - before) for key, (sends, _) in sites.items()}
            self.draw(kept, sites, sent, got, actors, waiting)

    def posting(self, kept, stats, method):
        """The sites of a method that post, each with how often, and what it posts."""
        source, version = kept.source(*method)
        places, told = sends_of(source), stats.sites(method)
        for number, (place, site) in enumerate(zip(places, told)):
            if site["selector"] in POSTS:
                yield (*method, version, number), (site["sends"], place.posted)

    def draw(self, kept, sites, sent, got, actors, waiting):
        edges, given = {}, {}
        for (name, *_), (rate, (_, posted)) in zip(sites, zip(sent.values(), sites.values())):
            takers = [it for it in actors if posted and kept.found(it, posted)]
            if not rate or not takers:
                continue
            whole = sum(got.get(it, 0) for it in takers)
            for it in takers:
                share = rate * (got.get(it, 0) / whole if whole else 1 / len(takers))
                if share:
                    edges[name, it] = edges.get((name, it), 0) + share
                    given[it] = given.get(it, 0) + share
        for name, rate in got.items():
            rest = rate - given.get(name, 0)
            if rest > rate * REST:
                edges["", name] = rest
        used = {it for edge in edges for it in edge}
        names = sorted((it for it in actors if it in used or waiting[it]), key=lambda it: -got.get(it, 0))[:24]
        self.nodes = [{"class": it, "actors": actors[it], "waiting": waiting[it], "got": round(got.get(it, 0), 1)} for it in names]
        self.edges = [
            {"from": one, "to": other, "rate": round(rate, 1)}
            for (one, other), rate in edges.items()
            if (not one or one in names) and other in names
        ]
