"""What becomes of a good file once its actors run."""

import json

from common.compact import compact
from inspect_parts.json_text import read_json
from inspect_trials.try_common import read
from inspect_trials.written import file_text

from .loaded import Loaded
from .program import same, settings

QUANTUM, CAPACITY = 5, 3
QUANTA = 12
# Outcomes of more actors are not asked for.
MOST_ASKED = 5


def commands(file):
    asked = range(min(MOST_ASKED, len(file["actors"])))
    outcomes = [{"actor": number, "cmd": "outcome", "turn": turn} for number in asked for turn in (0, 1, 2)]
    return [*outcomes, {"cmd": "run", "quanta": QUANTA}, *outcomes]


def go_on(program, about, data):
    """Some quanta and the outcomes before and after them are those of the second implementation, and so is what is saved."""
    file = read_json(data)
    image, path = Loaded(file, QUANTUM, CAPACITY), program.put("going on", data)
    lines = [json.dumps(command).encode() for command in commands(file)]
    replies = program.replies(f"{about}: going on", path, lines, settings(QUANTUM, CAPACITY))
    wanted = [compact(image.reply(command)).encode() for command in commands(file)]
    same(f"{about}: replies", replies, wanted)
    same(f"{about}: what is saved of what went on", read(path), file_text(image.file()).encode())
