"""A trial of what only asks: however often, the image is as it was."""

ROUNDS = 200
# Questions, many of which are refused, or name what nobody has named.
QUESTIONS = [
    {"cmd": "classes"},
    *({"cmd": "methods", "class": it} for it in ("A", "Object", "Gone")),
    *({"cmd": it, "class": name, "selector": selector}
      for it in ("source", "versions", "stats")
      for name, selector in (("A", "a"), ("A", "isNil"), ("A", "neverNamed"), ("Gone", "a"), ("A", "3"))),
    *({"cmd": it, "selector": selector} for it in ("implementors", "senders") for selector in ("a", "+", "neverNamed:", "3")),
    *({"cmd": "actors", "from": first, "most": most} for first, most in ((0, 4096), (1, 1), (9, 1))),
    *({"cmd": "inspect", "actor": actor} for actor in (0, 1, 9)),
    *({"cmd": "edits", "from": first} for first in (0, 1, 1000)),
    *({"cmd": "outcome", "actor": actor, "turn": turn} for actor, turn in ((0, 0), (0, 1), (0, 9), (9, 1))),
    *({"cmd": "wait", "actor": 0, "epoch": epoch, "ms": 0, "turn": turn} for epoch in ("", "another") for turn in (1, 9)),
    {"cmd": "replace", "class": "A", "over": 1, "source": "newName: x ^x otherName: #aSymbol"},
    {"cmd": "replace", "class": "Gone", "over": 0, "source": "a ^1"},
    {"cmd": "nothing"},
]


def questions_change_nothing(program, Server, post):
    """Each question is asked many times, and answers the same each time. Status, statistics and edits are as before."""
    with Server(program, 1, 2) as server, server.client() as client:
        client.make("A", ["count"], "a ^self b + 1", "b ^2")
        client.done(cmd="remove", **{"class": "A"}, selector="b")
        client.done(cmd="method", **{"class": "A"}, source="b ^3")
        for _ in range(2):
            client.actor("A")
        for seq in range(1, 6):
            client.done(**post(0, "a", [], 1, seq))
        assert client.wait(0, 5) == {"ok": {"answer": 4}}
        epoch = client.done(cmd="status")["epoch"]
        asked = [{**it, "epoch": epoch} if it.get("epoch") == "" else it for it in QUESTIONS]
        before = [client.ask(cmd="status"), client.ask(cmd="edits", **{"from": 0})]
        replies = [client.ask(**it) for it in asked]
        assert {"error": "BadArguments"} in replies and {"error": "Expired"} in replies and {"error": "Stale", "version": 0} in replies
        for _ in range(ROUNDS):
            client.send(*asked)
            again = [client.reply() for _ in asked]
            assert again == replies, [it for it in zip(asked, replies, again) if it[1] != it[2]]
            assert client.ask(cmd="status") == before[0]
        assert client.ask(cmd="edits", **{"from": 0}) == before[1]


TRIALS = (questions_change_nothing,)
