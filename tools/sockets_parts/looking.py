"""Trials of looks at classes that other sessions edit meanwhile, and at actors for which others post."""

import threading

EDITS = 400
REMOVES = 7
POSTS, WAITED = 300, 5
# The actor counts its messages, and answers how many there were.
COUNT = "a count isNil ifTrue: [count := 0]. count := count + 1. ^count"


class Stage:
    """A server with a class, of which two methods are edited. `done` has what each edit was and the version that it made, by selectors."""

    def __init__(self, server):
        self.server = server
        self.done = {"a": [], "b": []}
        self.errors = []
        self.is_over = threading.Event()

    def edits(self, client, selector):
        """Installs the method again and again, and removes it now and then."""
        for number in range(1, EDITS + 1):
            if number % REMOVES:
                source = f"{selector} ^{number}"
                told = client.done(cmd="method", **{"class": "A"}, source=source)
                self.done[selector].append({"source": source, "version": told["version"]})
            else:
                told = client.done(cmd="remove", **{"class": "A"}, selector=selector)
                self.done[selector].append({"removed": True, "version": told["version"]})

    def looks(self, client, selector):
        """Versions are those of before with more behind them, and what runs is the last of them or a later one."""
        before = []
        while not self.is_over.is_set():
            rows = client.done(cmd="versions", **{"class": "A"}, selector=selector)["versions"]
            assert rows[: len(before)] == before, (before, rows)
            last = rows[-1]["version"] if rows else 0
            reply = client.ask(cmd="source", **{"class": "B"}, selector=selector)
            if "ok" in reply:
                assert reply["ok"]["version"] > last or reply["ok"] == {"class": "A", **rows[-1]}, (reply, rows)
            else:
                assert reply == {"error": "NoSuchMethod"}, reply
            before = rows

    def threads(self, part):
        """Sessions that do a part, one for each method."""
        return [threading.Thread(target=self.run, args=(part, selector)) for selector in self.done]

    def run(self, part, selector):
        try:
            with self.server.client() as client:
                part(client, selector)
        except BaseException as error:
            self.errors.append(f"{part.__name__} {selector}: {error!r}")
            raise


def looks_while_others_edit(program, Server, _post):
    """Two sessions edit, and two look. In the end all edits are told, each as its own session made it."""
    with Server(program, 5, 2) as server:
        stage = Stage(server)
        with server.client() as first:
            first.make("A", [])
            first.done(cmd="define", name="B", super="A", slots=[])
            looking, editing = stage.threads(stage.looks), stage.threads(stage.edits)
            for thread in looking + editing:
                thread.start()
            for thread in editing:
                thread.join()
            stage.is_over.set()
            for thread in looking:
                thread.join()
            assert not stage.errors, stage.errors
            for selector, rows in stage.done.items():
                assert first.done(cmd="versions", **{"class": "A"}, selector=selector)["versions"] == rows, selector
            versions = sorted(row["version"] for rows in stage.done.values() for row in rows)
            assert versions == list(range(3, 3 + 2 * EDITS)), versions
        assert server.ended() == ({"posts": 0, "steps": 0}, [])


class Posting:
    """A server with two actors, for each of which one session posts while another looks."""

    def __init__(self, server, post):
        self.server, self.post = server, post
        self.errors = []
        self.is_over = threading.Event()

    def row(self, client, actor):
        told = client.done(cmd="actors", **{"from": actor}, most=1)
        [row] = told["actors"]
        assert told["count"] == 2 and (row["actor"], row["class"], row["open"]) == (actor, "A", True), told
        assert (row["phase"] == "frames") == (row["running"] is not None), row
        assert row["running"] in (None, {"class": "A", "selector": "a"}), row
        return row

    def inspect(self, client, actor):
        """The number of the turn that stands in the actor. What it has counted and what waits are of the same moment: each message has the
        number of its turn, and a turn that has not ended may have counted already."""
        told = client.done(cmd="inspect", actor=actor)
        [one], phase, turn = told["body"]["objects"], told["body"]["phase"], told["turn"] or 0
        waiting = [(it["sender"], it["seq"]) for it in told["pending"]]
        assert waiting == [(actor + 1, turn + place) for place in range(1, len(waiting) + 1)], told
        counted = one["slots"][0] or 0
        if "frames" in phase:
            assert counted in (turn - 1, turn), told
        else:
            assert phase in ("fresh", {"answer": turn}) or "start" in phase, told
            assert counted == turn - ("start" in phase) and (turn == 0) == (phase == "fresh"), told
        return turn

    def posts(self, client, actor):
        """What was replied to is told: the message that was accepted, and now and then the turn that has ended."""
        for turn in range(1, POSTS + 1):
            while (reply := client.ask(**self.post(actor, "a", [], actor + 1, turn))) == {"error": "Full"}:
                pass
            assert reply == {"ok": {"turn": turn}}, reply
            row = self.row(client, actor)
            assert row["accepted"] == turn and row["begun"] <= turn, (turn, row)
            if turn % WAITED == 0:
                client.wait(actor, turn)
                row = self.row(client, actor)
                assert row["begun"] == turn and row["phase"] == {"answer": turn}, (turn, row)
                assert self.inspect(client, actor) == turn

    def looks(self, client, actor):
        """Counts never fall, and what has ended is never more than what was begun."""
        accepted = begun = 0
        while not self.is_over.is_set():
            row = self.row(client, actor)
            assert accepted <= row["accepted"] and begun <= row["begun"] <= row["accepted"], (accepted, begun, row)
            accepted, begun = row["accepted"], self.inspect(client, actor)
            assert row["begun"] <= begun, (row, begun)
            assert row["phase"] in ("fresh", "start", "frames", {"answer": row["begun"]}), row

    def threads(self, part):
        return [threading.Thread(target=self.run, args=(part, actor)) for actor in (0, 1)]

    def run(self, part, actor):
        try:
            with self.server.client() as client:
                part(client, actor)
        except BaseException as error:
            self.errors.append(f"{part.__name__} {actor}: {error!r}")
            raise


def looks_while_others_post(program, Server, post):
    """Two sessions post and look, and two look alone."""
    with Server(program, 5, 2) as server:
        stage = Posting(server, post)
        with server.client() as first:
            first.make("A", ["count"], COUNT)
            assert [first.actor("A") for _ in range(2)] == [0, 1]
            looking, posting = stage.threads(stage.looks), stage.threads(stage.posts)
            for thread in looking + posting:
                thread.start()
            for thread in posting:
                thread.join()
            stage.is_over.set()
            for thread in looking:
                thread.join()
            assert not stage.errors, stage.errors
        counted, refused = server.ended()
        assert counted["posts"] == 2 * POSTS and refused == [], (counted, refused)


TRIALS = (looks_while_others_edit, looks_while_others_post)
