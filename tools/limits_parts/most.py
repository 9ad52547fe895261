"""What there may be at most, as docs/LIMITS.md says.

Other tools go up to the limits that are not used here:

- a line of 8,192 bytes: tools/scripts, `long_lines`;
- 127 brackets of a line, quanta of a `run`, numbers of messages: tools/replies, tests/lines.txt;
- bytes, brackets, names, keywords, variables and operands of a source: tools/replies, tests/sources/, and tests/scripts/codes.txt;
- integers: tools/scripts, tests/scripts/dialogues.txt;
- the number of an actor's last message: tools/image-files, `last_numbers`;
- faults that are kept: tools/client-library, `keeps_the_newest_faults`;
- sessions of a server: tools/sockets, `one_of_65_sessions_is_turned_away`;
- workers and steps of a quantum: tools/command-line.
"""

VARIABLES = 64
OBJECTS = 1024
INSTRUCTIONS = 1024
CHAIN = 64
FRAMES = 128
# The steps of a quantum.
STEPS = 1024
# The kernel's classes and names are counted.
KERNEL_CLASSES, CLASSES = 8, 1024
KERNEL_NAMES, NAMES = 22, 8192
# Of a run of the program, and of a class table.
EDITS_OF_A_RUN, EDITS = 2048, 4096
ACTORS = 65_536
MESSAGES = 1024
# Clients have the numbers below.
CLIENTS = 65_536
OUTCOMES = 64
# Turns that failed, of an image.
FAULTS = 64
HISTORY = 1_000_000
# Posts and steps that an image counts.
COUNTED = 2**63 - 1
# Entries of the lookup cache.
CACHE = 1024
