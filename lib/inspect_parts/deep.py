"""Room for many calls inside one another."""

import sys
import threading

# A source may open thousands of brackets before it is refused.
DEEPEST_CALLS = 200_000
STACK = 256 * 1024 * 1024


def deeply(work):
    """What `work` answers; None if it did not end well."""
    answers, before = [], sys.getrecursionlimit()
    sys.setrecursionlimit(DEEPEST_CALLS)
    size = threading.stack_size(STACK)
    try:
        worker = threading.Thread(target=lambda: answers.append(work()), daemon=True)
        worker.start()
        worker.join()
    finally:
        threading.stack_size(size)
        sys.setrecursionlimit(before)
    return answers[0] if answers else None
