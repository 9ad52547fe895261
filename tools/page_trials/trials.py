"""The trials of bin/page, one line each."""

import time
import traceback

from page_parts import watch

from . import browser, try_actors, try_boxes_in_browser, try_classes, try_counts_in_browser, try_faults, try_faults_in_browser
from . import try_file_in_browser, try_image_file, try_in_browser
from . import try_letting_in, try_lost_in_browser, try_own_in_browser, try_sizes_in_browser, try_typed, try_work_in_browser

PARTS = (try_letting_in, try_classes, try_actors, try_faults, try_typed, try_image_file, try_in_browser, try_own_in_browser, try_work_in_browser,
    try_counts_in_browser, try_file_in_browser, try_faults_in_browser, try_lost_in_browser, try_sizes_in_browser, try_boxes_in_browser)
# Seconds of a tick in a trial.
TICK = 0.2


def all_trials():
    return [trial for part in PARTS for trial in part.TRIALS]


def said(trial):
    """What a trial tries, in its own words."""
    return trial.__name__.replace("_", " ")


def try_all(program, named):
    """The status."""
    found = all_trials()
    chosen = [it for it in found if not named or it.__name__ in named or said(it) in named]
    if len(chosen) < len(named):
        print(f"bin/page: there are the trials {', '.join(it.__name__ for it in found)}")
        return 1
    wrong = left = 0
    watch.TICK = TICK
    for trial in chosen:
        began = time.monotonic()
        try:
            if trial.__module__.endswith("_browser") and not browser.is_there():
                how = "left out: there is no chromium with chromedriver"
            else:
                how = trial(program) or "as it should be"
        except Exception as error:  # A trial that is wrong ends no other.
            how = f"wrong: {type(error).__name__}: {error}"
            traceback.print_exc()
            wrong += 1
        left += how.startswith("left out")
        print(f"bin/page: {said(trial)}: {how}, {time.monotonic() - began:.1f} seconds", flush=True)
    but = f" ({left} left out)" if left else ""
    print(f"bin/page: {len(chosen)} trials{but}; {wrong} are wrong")
    return 1 if wrong else 0
