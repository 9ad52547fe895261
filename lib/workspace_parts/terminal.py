"""A person at a terminal: lines with history and completion, and entries over several lines."""

import os
import re

from smalltalk.language import KERNEL_SELECTORS

from .actors import STATES
from .commands import COMMANDS
from .completing import Completer
from .copied import MORE, PROMPT
from .cutting import continues, entries
from .entries import Method, form, is_one_line_method, wants_more
from .references import INLINED
from .wrong import Wrong

try:
    import readline
except ImportError:
    readline = None

HISTORY = "~/.actorimage_history"
HISTORY_LINES = 1000
# What stands for the end of a line in an entry of the history's file, whose entries are lines.
BREAK = "\x1e"
# What ends a word. A colon, a slash and their like belong to commands, selectors and names of files.
ENDS = " \t\n()[];|^\"#,=<>"
OF_KERNEL = [selector for own in KERNEL_SELECTORS.values() for selector in own]
# Has the terminal say what is pasted, so that it comes as a whole. Python leaves this out.
PASTES = "set enable-bracketed-paste on"


def read_entry(read=input, before=""):
    """The lines of one entry. One that goes over several lines is ended by an empty line, or by Ctrl-D; messages are ended too
    where their brackets close. A line that begins with two blanks or a tab goes on with a method in one line that came before it."""
    length = readline.get_current_history_length() if readline else 0
    text = read(PROMPT)
    if "\n" in text:
        return text
    text = text.removeprefix(PROMPT)
    if continues(text) and text.strip() and is_one_line_method(before):
        text, length = f"{before}\n{text}", max(0, length - 1)
    while wants_more(text) or is_method(text) and "\n" in text:
        part = read_more(read)
        if not part.strip():
            break
        for line in part.split("\n"):
            text += "\n" + (line if line.startswith(("  ", "\t")) or not line.strip() else "  " + line)
    if readline and "\n" in text:
        keep_whole(text, length)
    return text


def keep_whole(text, length):
    """Makes one entry of the history of what was read over several lines; `length` is that of the history before them."""
    for place in range(readline.get_current_history_length() - 1, length - 1, -1):
        readline.remove_history_item(place)
    readline.add_history(text)


def read_more(read):
    try:
        return read(MORE)
    except EOFError:
        see_end()
        return ""


def see_end():
    """Ends the line in which the input ended. readline, which knows of pastes, would print a newline in each later line too: it keeps
    a mark of the end, which is taken away where it can be found."""
    print()
    try:
        import ctypes

        ctypes.c_int.in_dll(ctypes.CDLL(readline.__file__), "rl_eof_found").value = 0
    except (ImportError, AttributeError, OSError, ValueError):
        pass


def is_method(text):
    try:
        return isinstance(form(text), Method)
    except Wrong:
        return False


def talk(session):
    """Reads and does entries until the end."""
    start_reading(session)
    text = ""
    try:
        while not session.is_over:
            try:
                text = read_entry(before=text)
            except KeyboardInterrupt:
                print()
                text = ""
                continue
            except EOFError:
                see_end()
                return
            do_text(session, text)
    finally:
        keep_history()


def do_text(session, text):
    """Does what was typed, or pasted: that may be several entries. Enter alone asks what happened meanwhile."""
    with session.breaks:
        if not text.strip():
            session.do("")
        for entry in entries(text.split("\n")):
            session.do(entry.text)
            if session.breaks.asked or session.is_over:
                return


def start_reading(session):
    if not readline:
        return
    try:
        readline.read_history_file(os.path.expanduser(HISTORY))
    except OSError:
        pass
    change_history(BREAK, "\n")
    readline.set_history_length(HISTORY_LINES)
    readline.set_completer_delims(ENDS)
    completer = Completer(session, candidates)
    readline.set_completer(lambda text, place: completer.nth(readline.get_line_buffer()[: readline.get_begidx()], text, place))
    for line in ["bind ^I rl_complete"] if "libedit" in (readline.__doc__ or "") else ["tab: complete", PASTES]:
        readline.parse_and_bind(line)


def keep_history():
    if not readline:
        return
    change_history("\n", BREAK)
    try:
        readline.write_history_file(os.path.expanduser(HISTORY))
    except OSError:
        pass
    change_history(BREAK, "\n")


def change_history(old, new):
    for place in range(readline.get_current_history_length()):
        line = readline.get_history_item(place + 1)
        if line and old in line:
            readline.replace_history_item(place, line.replace(old, new))


def candidates(known, before, text):
    """The words that a text may be the beginning of, after what is before it in the line. Of several that go over lines, as
    methods do, the first lines."""
    found = [word for word in words(known, before, text) if word.startswith(text)]
    first = [word.split("\n")[0] for word in found]
    return [found[first.index(text)]] if text in first else found if len(found) == 1 else first


def words(known, before, text):
    if not before.strip():
        return [f":{name} " for name in COMMANDS] if text.startswith(":") else [*known.names, *known.classes]
    command = re.match(r"\s*:([a-z]+)\s+(.*)$", before)
    if command:
        return command_words(known, command[1], command[2].split(), text)
    method = re.match(r"\s*([A-Za-z0-9]+)\s*>>\s*$", before)
    if method:
        return sources(known, method[1])
    return message_words(known, before)


def command_words(known, name, given, text):
    if name in ("load", "save", "sources", "log"):
        return files(text)
    if name in ("methods", "stats", "remove", "versions", "revert"):
        return [*known.classes] if not given else own_selectors(known, given[0])
    if name in ("implementors", "senders"):
        return sorted({*known.selectors(None), *OF_KERNEL, *(INLINED if name == "senders" else ())})
    if name == "references":
        return [*known.classes, *variables(known)] if not given else ["of"] if len(given) == 1 else [*known.classes]
    if name == "actors":
        return [*known.classes, *STATES] if not given else [*STATES]
    if name == "help":
        return [f":{it}" for it in COMMANDS]
    return message_words(known, " ".join(given)) if name == "post" and given else [*known.names]


def sources(known, name):
    """The methods of a class, to be edited."""
    return sorted(known.classes[name].methods.values()) if name in known.classes else []


def own_selectors(known, name):
    return sorted(known.classes[name].methods) if name in known.classes else []


def variables(known):
    return sorted({slot for it in known.classes.values() for slot in it.slots})


def message_words(known, before):
    """After the name of an actor, its messages; after a class, what makes an actor; else also the names."""
    receiver = re.search(r"(?:^|[.;(]|:=)\s*([A-Za-z][A-Za-z0-9]*)\s*$", before)
    if receiver and receiver[1] in known.classes:
        return ["actor"]
    value = known.names.get(receiver[1]) if receiver else None
    if isinstance(value, dict) and "ref" in value:
        return known.selectors(known.actor(value["ref"]).class_name)
    return [*known.names, *known.classes, *known.selectors(None)]


def files(text):
    folder, name = os.path.split(text)
    try:
        found = os.listdir(os.path.expanduser(folder) or ".")
    except OSError:
        return []
    paths = [os.path.join(folder, it) for it in sorted(found) if not it.startswith(".") or name.startswith(".")]
    return [path + "/" if os.path.isdir(os.path.expanduser(path)) else path for path in paths]
