"""How the call sites of methods do. The methods in sight are asked for often, all others in turn, a few each tick."""

import actorimage

# Methods that are asked for in one tick, and ticks after which one in sight is asked for again.
MOST_ASKED, EACH = 48, 5
POSTS = ("post:", "post:with:", "post:with:with:")


def kind_of(site):
    """The state of a site; of one that posts that, since the image takes such a step itself."""
    return "post" if site["selector"] in POSTS else site["state"]


class Stats:
    """`told` has the sites of each method that was asked for, with the version that they are of."""

    def __init__(self, line, kept):
        self.line, self.kept = line, kept
        self.clear()

    def clear(self):
        self.told, self.asked, self.turn = {}, {}, []

    def ask(self, methods, tick):
        """The sites of methods now. Of one that is gone meanwhile there are none."""
        found = {it: self.kept.source(*it) for it in methods}
        methods = [it for it in methods if found[it]]
        commands = [{"cmd": "stats", "class": name, "selector": selector} for name, selector in methods]
        for method, told in zip(methods, self.line.ask_all(commands, 64)):
            self.asked[method] = tick
            if isinstance(told, actorimage.Refused):
                self.told.pop(method, None)
            else:
                self.told[method] = found[method][1], told["sites"]

    def round(self, in_sight, tick):
        """Asks for those in sight that were not asked for lately, and then for others in turn."""
        old = [it for it in in_sight if self.asked.get(it, -EACH) <= tick - EACH][:MOST_ASKED]
        room = MOST_ASKED - len(old)
        if len(self.turn) < room:
            self.turn += self.kept.methods()
        others, self.turn = self.turn[:room], self.turn[room:]
        self.ask(dict.fromkeys(old + others), tick)

    def known(self, method):
        """The sites that were told last of the present version of a method; `None` if it was not asked for yet."""
        source, told = self.kept.source(*method), self.told.get(method)
        return told[1] if source and told and told[0] == source[1] else None

    def sites(self, method):
        """As `known`, and none of a method that was not asked for yet."""
        return self.known(method) or []

    def heat(self):
        """How often the methods of each class have sent, as far as it was asked for."""
        found = {}
        for (name, _), (_, sites) in list(self.told.items()):
            found[name] = found.get(name, 0) + sum(it["sends"] for it in sites)
        return found

    def shapes(self, methods):
        """The kinds of the sites of each method that was asked for."""
        known = {it: self.known(it) for it in methods}
        return {f"{name} {selector}": [kind_of(it) for it in sites] for (name, selector), sites in known.items() if sites is not None}
