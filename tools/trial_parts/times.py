"""When what is written has another time than what was written before: the clock of a file system goes on in ticks of some milliseconds."""

import os
import tempfile

from .patience import until


def later(path):
    """Waits until a file that is written in the same folder gets a later time than this one has."""
    found = os.stat(path)
    before = max(found.st_mtime_ns, found.st_ctime_ns)
    with tempfile.TemporaryFile(dir=os.path.dirname(path)) as probe:

        def is_later():
            os.utime(probe.fileno())
            return os.stat(probe.fileno()).st_mtime_ns > before

        until(is_later, f"the clock of the file system of {path} does not go on")
