"""A terminal that is written over with each frame, and keys that are heard meanwhile."""

import contextlib
import select
import shutil
import sys
import time
from typing import Iterator

from .frame import UNBOUNDED, Line, as_coloured, as_text

try:
    import termios
    import tty
except ImportError:
    termios = tty = None

# Moves to the top left, clears a line to its end, and all lines below; hides and shows the cursor.
HOME, CLEAR_LINE, CLEAR_BELOW, HIDE, SHOW = "\x1b[H", "\x1b[K", "\x1b[J", "\x1b[?25l", "\x1b[?25h"
NEW_SCREEN, OLD_SCREEN = "\x1b[?1049h", "\x1b[?1049l"
WIDTH = 100


class Printed:
    """Where frames are printed one below the other: standard output is no terminal, or one frame is asked for."""

    keys = False

    def __init__(self) -> None:
        self.is_first = True

    def size(self) -> tuple[int, int]:
        """How many columns and lines there are."""
        return shutil.get_terminal_size().columns or WIDTH if sys.stdout.isatty() else WIDTH, UNBOUNDED

    def show(self, lines: list[Line]) -> None:
        if not self.is_first:
            print()
        self.is_first = False
        write = as_coloured if sys.stdout.isatty() else as_text
        print("\n".join(write(line) for line in lines), flush=True)

    def wait(self, seconds: float) -> str:
        time.sleep(seconds)
        return ""


class Screen:
    """The whole terminal."""

    keys = True

    def size(self) -> tuple[int, int]:
        size = shutil.get_terminal_size()
        return size.columns or WIDTH, size.lines or UNBOUNDED

    def show(self, lines: list[Line]) -> None:
        text = "".join(f"{as_coloured(line)}{CLEAR_LINE}\r\n" for line in lines[:-1])
        sys.stdout.write(HOME + text + "".join(as_coloured(line) for line in lines[-1:]) + CLEAR_LINE + CLEAR_BELOW)
        sys.stdout.flush()

    def wait(self, seconds: float) -> str:
        """The key that was hit, before so many seconds are over; empty if none was."""
        ready, _, _ = select.select([sys.stdin], [], [], seconds)
        return sys.stdin.read(1) if ready else ""


@contextlib.contextmanager
def opened(is_whole: bool) -> Iterator:
    """The way to show frames; at the end the terminal is as it was."""
    if not is_whole or termios is None or not (sys.stdout.isatty() and sys.stdin.isatty()):
        yield Printed()
        return
    before = termios.tcgetattr(sys.stdin)
    tty.setcbreak(sys.stdin)
    sys.stdout.write(NEW_SCREEN + HIDE)
    try:
        yield Screen()
    finally:
        sys.stdout.write(SHOW + OLD_SCREEN)
        sys.stdout.flush()
        termios.tcsetattr(sys.stdin, termios.TCSADRAIN, before)
