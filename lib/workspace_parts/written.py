"""When the methods of a failure were written, and whether they are other ones now. Many faults come of an edit."""

from . import looks

# What is behind the name of a frame stands so far to the right.
BLANKS = "    "


class Written:
    """The image is asked once for each method."""

    def __init__(self, session):
        self.session, self.found = session, {}

    def versions(self, name, selector):
        if (name, selector) not in self.found:
            self.found[name, selector] = looks.versions(self.session, name, selector)
        return self.found[name, selector]

    def notes(self, frame):
        """A line for a method that was written more than once, or was removed since: the version that ran, with the one before it and
        the newest one behind it."""
        rows = self.versions(frame.holder, frame.selector)
        before = [it for it in rows if it["version"] < frame.version]
        behind = [it for it in rows if it["version"] > frame.version]
        if not before and not behind:
            return []
        said = [f"written in version {frame.version}"]
        said += [f"before that {edit(it)}" for it in before[-1:]]
        said += [f"since then {edit(it)}" for it in behind[-1:]]
        return [f"{BLANKS}{', '.join(said)};  :versions {frame.holder} {frame.selector}"]


def edit(row):
    """An install or a removal, behind `before that` or `since then`."""
    return f"{'removed ' if 'removed' in row else ''}in {row['version']}"
