"""How long a trial waits for what has to come."""

import time

# Seconds. A machine that does much else is slow, which is no fault of the program; what has not come after minutes hangs.
PATIENCE = 300
PAUSE = 0.01


def until(holds, what, seconds=PATIENCE):
    """Waits until something holds; `what` is said where it does not."""
    ends = time.monotonic() + seconds
    while not holds():
        assert time.monotonic() < ends, what
        time.sleep(PAUSE)
