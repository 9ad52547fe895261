"""The table of all actors: who stands how, what changed since the last tick, and the part of it that a page shows."""

from .exact import exact, shown
from .states import code_of, state_of

# So many actors are asked for at once.
PAGE = 4_096
# So many rows a page is shown at most.
MOST_SHOWN = 200


class Rows:
    """All actors as of the last tick. `rates` has the turns a second of those that began any between the last two."""

    def __init__(self):
        self.clear()

    def clear(self):
        self.all, self.codes, self.waits, self.rates, self.at = [], bytearray(), [], {}, None
        self.turns = self.waiting = self.tick = 0
        self.orders = {}

    def ask(self, line, first=0, most=None):
        """The actors of the image from one on."""
        found = []
        while most is None or len(found) < most:
            told = line.ask({"cmd": "actors", "from": first + len(found), "most": min(PAGE, most - len(found)) if most else PAGE})
            found += told["actors"]
            if first + len(found) >= told["count"] or not told["actors"]:
                break
        return found

    def take(self, new, now):
        """What all actors are told to be now."""
        seconds, begun, waiting, rates = now - (self.at or now), 0, self.waiting, {}
        old = self.all
        for number, row in enumerate(new):
            before = old[number] if number < len(old) else None
            if row == before:
                continue
            waits = row["accepted"] - row["begun"]
            if before is None:
                self.codes.append(code_of(row))
                self.waits.append(waits)
                waiting += waits
                begun += row["begun"]
                continue
            waiting += waits - self.waits[number]
            self.codes[number], self.waits[number] = code_of(row), waits
            more = row["begun"] - before["begun"]
            if more:
                begun += more
                rates[number] = more / seconds if seconds else 0
        is_first = self.at is None
        self.all, self.rates, self.waiting, self.at, self.orders = new, rates, waiting, now, {}
        self.turns = 0 if is_first or not seconds else begun / seconds
        self.tick += 1

    def take_some(self, first, new):
        """What some of the actors are told to be, between two ticks in which all are asked."""
        for number, row in enumerate(new, first):
            if number < len(self.all):
                self.all[number], self.codes[number] = row, code_of(row)
                self.waiting += row["accepted"] - row["begun"] - self.waits[number]
                self.waits[number] = row["accepted"] - row["begun"]

    # ---- what a page shows

    def order(self, sort, is_down, only, text):
        """The numbers of the actors that a filter leaves, sorted. It is made anew where the actors have changed."""
        key = (sort, is_down, only, text)
        if key not in self.orders:
            self.orders[key] = self.ordered(*key)
        return self.orders[key]

    def ordered(self, sort, is_down, only, text):
        found = range(len(self.all))
        if text:
            found = [it for it in found if text in self.all[it]["class"].lower() or text == str(it)]
        if only != "all":
            found = [it for it in found if matches(self.all[it], only)]
        by = SORTS.get(sort)
        if by is None:
            return found[::-1] if is_down else found
        return sorted(found, key=by(self), reverse=is_down)

    def part(self, asked):
        """The rows that a page shows, and how many there are with its filter."""
        order = self.order(asked.get("sort", ""), bool(asked.get("down")), asked.get("only") or "all", asked.get("text", "").lower())
        first = max(0, int(asked.get("first", 0)))
        count = min(MOST_SHOWN, int(asked.get("count", 0)))
        return {"first": first, "there": len(order), "rows": [self.row(it) for it in order[first : first + count]]}

    def row(self, number):
        it = self.all[number]
        return {
            "actor": number,
            "class": it["class"],
            "state": state_of(it),
            "last": last(it, self.class_of),
            "waiting": exact(it["accepted"] - it["begun"]),
            "rate": round(self.rates.get(number, 0.0), 2),
            "turns": exact(it["begun"]),
            "open": it["open"],
        }

    def counts(self):
        """How many actors stand how, by the states."""
        found = {}
        for code in set(self.codes):
            found[code] = self.codes.count(code)
        return found

    def class_of(self, local, number):
        """The class of an actor; that of an object of one is not in the table."""
        return self.all[number]["class"] if number is not None and number < len(self.all) else None


def matches(row, only):
    state = state_of(row)
    if only == "waits":
        return row["accepted"] > row["begun"]
    if only == "fault":
        return isinstance(row["phase"], dict) and "fault" in row["phase"]
    return not row["open"] if only == "closed" else state == only


def last(row, class_of):
    """What an actor runs, or how its last turn ended."""
    phase, running = row["phase"], row["running"]
    if running:
        return {"runs": f"{running['class']} › {running['selector']}"}
    if isinstance(phase, dict):
        return {"fault": phase["fault"]} if "fault" in phase else {"answer": shown(phase["answer"], class_of)["text"]}
    return {"none": "begins" if phase == "start" else ""}


# What the actors are sorted by, as a function of their numbers.
SORTS = {
    "class": lambda rows: lambda it: rows.all[it]["class"],
    "state": lambda rows: rows.codes.__getitem__,
    "waiting": lambda rows: rows.waits.__getitem__,
    "rate": lambda rows: lambda it: rows.rates.get(it, 0),
    "turns": lambda rows: lambda it: rows.all[it]["begun"],
}
