"""The way to the program: commands go there, and each is answered with one reply."""

import json
import os
import signal
import subprocess

from common.compact import in_given_order

from .wrong import Died, Ended

# A longer line would end the session (docs/LIMITS.md).
LONGEST_LINE = 8192
# A question that changes no image, and how each image answers it: no actor has the highest number of all.
GREETING = {"cmd": "outcome", "actor": 2**32 - 1, "turn": 0}
ITS_REPLY = b'{"error":"UnknownActor"}\n'
HOW_BUILT = "./actorimage builds the program, and README.md says what that needs"
# What a status says of a program that ends before its first reply.
STARTS = {
    1: f"could not be started, or refused its image, for the reason above; {HOW_BUILT}",
    2: "refused its options; --quantum and --capacity are 1 to 1,024",
}


# So long a program may take to end when it was told to, and to save its image before.
SECONDS_TO_END = 5
SECONDS_TO_SAVE = 60
# The signals that end the workspace, and the program with it.
ENDING = (signal.SIGINT, signal.SIGTERM, signal.SIGHUP)


class Connection:
    """A script that runs, by a pipe. It is in a group of processes of its own: a Ctrl-C does not reach the program, so that
    only a run is broken off, and a build that the program starts ends with the group. `is_kept` says whether somebody wants what
    the program saves at its end."""

    def __init__(self, program, options, is_kept=False):
        self.program, self.is_kept = program, is_kept
        self.process, self.is_greeted = None, False
        try:
            self.start([program, "script", *options])
            self.greet()
        except BaseException:
            self.end()
            raise

    def start(self, command):
        """Starts the program. A signal waits meanwhile: else what has just been started could not be ended."""
        held = signal.pthread_sigmask(signal.SIG_BLOCK, ENDING)
        try:
            self.process = subprocess.Popen(
                command,
                stdin=subprocess.PIPE,
                stdout=subprocess.PIPE,
                start_new_session=True,
                preexec_fn=lambda: signal.pthread_sigmask(signal.SIG_SETMASK, held),
            )
        except OSError as error:
            raise Ended(f"{self.program} cannot be started ({error.strerror}); {HOW_BUILT}") from None
        finally:
            signal.pthread_sigmask(signal.SIG_SETMASK, held)

    def greet(self):
        """Waits until the program replies, which takes long where it is built first."""
        try:
            self.send(GREETING)
            reply = self.process.stdout.readline()
        except BrokenPipeError:
            reply = b""
        if reply == ITS_REPLY:
            self.is_greeted = True
            return
        self.close()
        why = None if reply else STARTS.get(self.process.returncode)
        raise Ended(f"{self.program} {why or 'is not the program of actorimage'}")

    def begin(self):
        """An entry begins."""

    def ask(self, command):
        """The reply to a command."""
        try:
            if not self.send(command):
                return {"error": "TooLong"}
            return json.loads(self.process.stdout.readline())
        except (BrokenPipeError, ValueError):
            again = "start the workspace again" + (", on the image as it was saved last" if self.is_kept else "")
            raise Died(f"the program ended with status {self.process.wait()}; {again}") from None

    def send(self, command):
        """Whether a command is short enough to be sent."""
        line = in_given_order(command).encode(errors="replace")
        if len(line) > LONGEST_LINE:
            return False
        self.process.stdin.write(line + b"\n")
        self.process.stdin.flush()
        return True

    def close(self, seconds=None):
        """Ends the session of the program, which saves its image then. The status tells whether it did."""
        try:
            self.process.stdin.close()
        except BrokenPipeError:
            pass
        return self.process.wait(seconds)

    def end(self):
        """Ends the program where it has not ended, in such a way that an image is kept which somebody wants."""
        if self.is_kept and self.is_greeted and self.process.poll() is None:
            try:
                self.close(SECONDS_TO_SAVE)
            except (subprocess.TimeoutExpired, KeyboardInterrupt):
                pass
        self.kill()

    def kill(self):
        """Ends the program where it has not ended, with all that it started. It saves nothing."""
        if self.process is None or self.process.poll() is not None:
            return
        os.killpg(self.process.pid, signal.SIGTERM)
        try:
            self.process.wait(SECONDS_TO_END)
        except subprocess.TimeoutExpired:
            os.killpg(self.process.pid, signal.SIGKILL)
            self.process.wait()
