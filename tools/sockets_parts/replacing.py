"""A trial of replacing: of many sessions that replace one method at once, none writes over an edit that it was not told of."""

import functools

from sockets_parts.together import run_together

EDITS, SESSIONS = 1_000, 16


class Edits:
    """`done` has the version that each edit replaced and the one that it made, by the number in its source. `stale` counts those that were
    over a version which was replaced already."""

    def __init__(self):
        self.done, self.stale = {}, 0

    def make(self, first, client):
        """Makes every 16th edit, each over the version that it was told of last, until it is done."""
        over = 0
        for number in range(first, EDITS, SESSIONS):
            while True:
                reply = client.ask(cmd="replace", **{"class": "A"}, over=over, source=f"a ^{number}")
                if "ok" in reply:
                    self.done[number] = (over, reply["ok"]["version"])
                    over = reply["ok"]["version"]
                    break
                assert reply == {"error": "Stale", "version": reply.get("version")} and reply["version"] > over, (over, reply)
                self.stale += 1
                over = reply["version"]


def none_replaces_unseen(program, Server, _post):
    """16 sessions make 1,000 edits of one method: each is over the one before it, and of two over the same one is Stale."""
    with Server(program, SESSIONS + 1, 2) as server:
        edits = Edits()
        with server.client() as first:
            first.make("A", [])
            run_together(server, *(functools.partial(edits.make, number) for number in range(SESSIONS)))
            made = sorted((version, over, number) for number, (over, version) in edits.done.items())
            versions = [version for version, _, _ in made]
            assert versions == list(range(2, EDITS + 2)), versions
            assert [over for _, over, _ in made] == [0, *versions[:-1]], made
            assert edits.stale, "no two sessions replace the same version"
            rows = [{"source": f"a ^{number}", "version": version} for version, _, number in made]
            assert first.done(cmd="versions", **{"class": "A"}, selector="a")["versions"] == rows
        assert server.ended() == ({"posts": 0, "steps": 0}, [])


TRIALS = (none_replaces_unseen,)
