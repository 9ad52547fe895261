"""The tool's own trials."""

import time
import traceback

from . import try_command, try_files, try_generated, try_limits, try_pages, try_texts

TRIALS = try_files.TRIALS + try_pages.TRIALS + try_texts.TRIALS + try_limits.TRIALS + try_generated.TRIALS + try_command.TRIALS


def try_all():
    """The status. Each trial answers what it tried."""
    failed = 0
    for trial in TRIALS:
        began = time.monotonic()
        try:
            said = trial()
        except AssertionError as error:
            failed += 1
            print(f"bin/inspect: {trial.__name__}: {error}")
        except Exception:
            failed += 1
            print(f"bin/inspect: {trial.__name__} broke off:\n{traceback.format_exc()}")
        else:
            print(f"{trial.__name__}: {said}, {time.monotonic() - began:.1f} seconds")
    print(f"{len(TRIALS) - failed} passed, {failed} failed")
    return 1 if failed else 0
