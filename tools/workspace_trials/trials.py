"""What transcripts cannot try."""

import subprocess

from . import try_holding, try_images, try_pretended, try_program, try_saving, try_served, try_sources, try_terminal, try_words

OF_FILES = try_images.TRIALS + try_saving.TRIALS + try_holding.TRIALS + try_sources.TRIALS
TRIALS = try_words.TRIALS + try_terminal.TRIALS + try_program.TRIALS + OF_FILES + try_served.TRIALS + try_pretended.TRIALS


def failures(program):
    """What is wrong in the trials."""
    for trial in TRIALS:
        try:
            trial(program)
        except (AssertionError, subprocess.TimeoutExpired) as error:
            yield f"{trial.__name__}: {error}"
