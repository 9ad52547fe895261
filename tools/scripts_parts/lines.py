"""Long lines, however their bytes are cut, and an input that fails."""

from .running import Ended, compare, failing, session

RUN = b'{"cmd":"run"}'
RAN = b'{"ok":{"quanta":0,"steps":0}}\n'


def long_lines(program):
    """A run in a line of 8,192 bytes, and one in a line of a byte more, which ends the session."""
    data = RUN.ljust(8192) + b"\n" + RUN.ljust(8193) + b"\n" + RUN + b"\n"
    session(program, "long_lines", data, Ended(1, RAN + b'{"error":"TooLong"}\n', b"actorimage: TooLong\n"))


def input_fails(program):
    """The lines that are whole before a read fails are answered. Each read gives three bytes, of lines of 14."""
    data = (RUN + b"\n") * 2
    for reads, replies in ((0, b""), (1, b""), (4, b""), (5, RAN), (8, RAN)):
        ended = failing(program, [data[3 * place : 3 * place + 3] for place in range(reads)])
        compare(f"input_fails: {reads} reads", ended, Ended(1, replies, b"actorimage: ReadFault\n"))


TRIALS = (long_lines, input_fails)
