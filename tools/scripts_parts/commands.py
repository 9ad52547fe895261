"""Commands and replies as objects."""

IS_NIL = "isNil"
# Items of a history at most, and quanta of a `run`.
HISTORY = 1_000_000


def define(name, parent="Object", slots=()):
    return {"cmd": "define", "name": name, "slots": list(slots), "super": parent}


def method(name, source):
    return {"class": name, "cmd": "method", "source": source}


def replace(name, over, source):
    return {"class": name, "cmd": "replace", "over": over, "source": source}


def remove(name, selector):
    return {"class": name, "cmd": "remove", "selector": selector}


def reparent(name, parent):
    return {"class": name, "cmd": "reparent", "super": parent}


def actor(name="Object"):
    return {"class": name, "cmd": "actor"}


def post(number, selector=IS_NIL, client=1, to=0, args=()):
    return {"actor": to, "args": list(args), "cmd": "post", "selector": selector, "sender": client, "seq": number}


def close(of=0):
    return {"actor": of, "cmd": "close"}


def run(quanta=None):
    return {"cmd": "run"} if quanta is None else {"cmd": "run", "quanta": quanta}


def outcome(turn, of=0):
    return {"actor": of, "cmd": "outcome", "turn": turn}


def stats(name, selector):
    return {"class": name, "cmd": "stats", "selector": selector}


def edits(behind):
    return {"cmd": "edits", "from": behind}


def version(number):
    return {"ok": {"version": number}}


def made(number):
    return {"ok": {"actor": number}}


def accepted(turn):
    return {"ok": {"turn": turn}}


def closed():
    return {"ok": {}}


def ran(quanta, steps):
    return {"ok": {"quanta": quanta, "steps": steps}}


def answer(value):
    return {"ok": {"answer": value}}


def fault(name):
    return {"ok": {"fault": name}}


def error(name, **fields):
    return {"error": name, **fields}


def too_many(what):
    return error("TooMany", what=what)
