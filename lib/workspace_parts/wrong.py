"""What may keep a typed entry from being done."""


class Stopped(Exception):
    """An entry is not done to its end. `unsent` are the statements after the one that stopped it."""

    unsent = ""


class Wrong(Stopped):
    """What was typed cannot be sent. `place` is where in the text, if that is known."""

    def __init__(self, sentence, place=None):
        super().__init__(sentence)
        self.sentence = sentence
        self.place = place


class Refused(Stopped):
    """The program refused a command. `more` are lines that are told behind what the refusal means."""

    def __init__(self, command, reply):
        super().__init__(reply["error"])
        self.command = command
        self.reply = reply
        self.more = []


class BrokenOff(Stopped):
    """A run was broken off; `sentence` says how it goes on."""

    def __init__(self, sentence):
        super().__init__(sentence)
        self.sentence = sentence


class Lost(Stopped):
    """The connection to a server broke; `sentence` says how it goes on."""

    def __init__(self, sentence):
        super().__init__(sentence)
        self.sentence = sentence


class Faulted(Stopped):
    """A turn ended with a fault."""

    def __init__(self, turn, fault):
        super().__init__(fault)
        self.turn = turn
        self.fault = fault


class Ended(Exception):
    """The program has ended, or could not be started; `sentence` says what to do."""

    def __init__(self, sentence):
        super().__init__(sentence)
        self.sentence = sentence


class Died(Ended):
    """The program, or the connection to it, has ended before what was typed was kept."""
