"""Edits of the code: files with a line `file: PATH` and pairs of lines `old: TEXT` and `new: TEXT`."""

import os
import re

from common.repository import TOP

TRIED, OTHERS = "must-fail", "wrong-bodies"


def read(path):
    with open(path, encoding="utf-8") as file:
        return file.read()


def edits_in(folder):
    if not os.path.isdir(folder):
        return []
    return sorted(f"{folder}/{name}" for name in os.listdir(folder) if not name.endswith(".md"))


def edits_of(crate):
    """The edits of the crate in a folder, each with whether the gate tries it, by their names."""
    found = [(edit, folder == TRIED) for folder in (TRIED, OTHERS) for edit in edits_in(f"{crate}/{folder}")]
    return sorted(found, key=lambda row: os.path.basename(row[0]))


def crates_of(top):
    return sorted(name for name in os.listdir(f"{top}/crates") if os.path.isdir(f"{top}/crates/{name}/src"))


def title_of(edit):
    return os.path.basename(edit).removesuffix(".edit").replace("_", " ")


def changes_of(edit):
    """What an edit changes, in order: the file, the text, and what stands in its place."""
    path, old, changes = None, None, []
    for line in read(edit).split("\n"):
        if line.startswith("file: "):
            path = line.removeprefix("file: ")
        elif line.startswith("old: "):
            old = line.removeprefix("old: ")
        elif line.startswith("new:"):
            changes.append((path, old, line.removeprefix("new:").removeprefix(" ")))
            old = None
    return changes


def test_of(edit):
    """The crate and the test that refuse an edit which no clause refuses, as its line `test:` says; or None."""
    found = re.search(r"^test: (\w+)::(\S+)$", read(edit), re.M)
    return (found[1], found[2]) if found else None


def trial_of(edit):
    """The words of the trial of the built program that refuses an edit which no clause refuses, as its line `trial:` says; or None."""
    found = re.search(r"^trial: (\S.*)$", read(edit), re.M)
    return tuple(found[1].split()) if found else None


def by_of(edit):
    """The test or the trial that an edit names, as the page says it, or None."""
    test, trial = test_of(edit), trial_of(edit)
    if test:
        return f"the test `{test[0]}::{test[1]}`"
    return f"the trial `{' '.join(trial)}`" if trial else None


def why_not(edit, crate):
    """Why an edit cannot be applied to the crate in a folder, or None."""
    if not edit.endswith(".edit"):
        return "it is no .edit file"
    texts, changes = {}, changes_of(edit)
    for path, old, new in changes:
        if not path or not old:
            return "a 'new:' stands before a 'file:' or an 'old:'"
        if not path.startswith("src/"):
            return f"{path} is no file of src/"
        if path not in texts:
            if not os.path.isfile(f"{crate}/{path}"):
                return f"there is no {path}"
            texts[path] = read(f"{crate}/{path}")
        found = texts[path].count(old)
        if found != 1:
            return f"{path} has {found} times: {old}"
        texts[path] = texts[path].replace(old, new)
    return why_no_test(edit) or why_no_trial(edit) if changes else "it changes nothing"


def why_no_test(edit):
    """Why the test that an edit names cannot be run, or None."""
    test = test_of(edit)
    if not test:
        return None
    crate, path = test
    module, _, name = path.rpartition("::")
    source = f"{TOP}/crates/{crate}/src/{module.replace('::', '/')}.rt"
    if f"/{TRIED}/" in edit:
        return "it names a test, and the gate tries what the prover refuses"
    if not os.path.isfile(source) or not re.search(rf"#\[test\]\nfn {name}\b", read(source)):
        return f"there is no test {path} in {crate}"
    return None


def why_no_trial(edit):
    """Why the trial that an edit names cannot be run, or None. A word that is a name must be that of a function of the tool, or of its data."""
    trial = trial_of(edit)
    if not trial:
        return None
    tool, *words = trial
    if f"/{TRIED}/" in edit:
        return "it names a trial, and the gate tries what the prover refuses"
    if test_of(edit):
        return "it names a test and a trial"
    if not re.fullmatch(r"tools/[\w-]+", tool) or not os.access(f"{TOP}/{tool}", os.X_OK):
        return f"there is no tool {tool}"
    folder = f"{TOP}/{tool.replace('-', '_')}_parts"
    parts = [f"{folder}/{name}" for name in os.listdir(folder) if name.endswith(".py")] if os.path.isdir(folder) else []
    texts = [read(path) for path in (f"{TOP}/{tool}", *parts)]
    data = f"{TOP}/tests/{tool.removeprefix('tools/')}"
    for word in words:
        is_there = os.path.isfile(f"{data}/{word}.txt") or any(f"\ndef {word}(" in text for text in texts)
        if word.isidentifier() and not is_there:
            return f"there is no trial {word} in {tool}"
    return None


def edited(edit, crate):
    """The text of each file that an edit changes, as it is and as the edit makes it."""
    texts = {}
    for path, old, new in changes_of(edit):
        if path not in texts:
            texts[path] = [read(f"{crate}/{path}")] * 2
        texts[path][1] = texts[path][1].replace(old, new)
    return texts


def apply(edit, crate):
    """Changes the crate in a folder, and gives what changes it back."""
    texts = edited(edit, crate)
    for path, (_, new) in texts.items():
        write(f"{crate}/{path}", new)

    def back():
        for path, (old, _) in texts.items():
            write(f"{crate}/{path}", old)

    return back


def write(path, text):
    with open(path, "w", encoding="utf-8") as file:
        file.write(text)


def place_of(edit, crate):
    """The module, the type or nothing, and the function or nothing in which an edit changes something."""
    path, old, _ = changes_of(edit)[0]
    before = read(f"{crate}/{path}").split(old)[0]
    module = path.removeprefix("src/").removesuffix(".rt").replace("/", "::")
    end = before.rfind("\n}\n")
    functions = re.findall(r"\bfn (\w+)", before + old if re.search(r"\bfn \w", old) else before)
    inside = re.search(r"^ +(?:pub(?:\(crate\))? )?(?:const )?fn \w+(?![\s\S]*^\}$)", before, re.M)
    impls = re.findall(r"^impl(?:<[^>]*>)? (?:\w+(?:<[^>]*>)? for )?(\w+)", before[end + 1 :], re.M)
    if not functions or (end > before.rfind("fn ") and not re.search(r"\bfn ", before[end:] + old)):
        return module, "", ""
    return module, impls[-1] if inside and impls else "", functions[-1]


def function_of(edit, crate):
    """That place as a page says it."""
    module, owner, function = place_of(edit, crate)
    if not function:
        return f"`{module}`: (constants)"
    return f"`{module}`: `{owner}::{function}`" if owner else f"`{module}`: `{function}`"


def path_of(edit, crate):
    """The end of the path by which `rt check --only` knows the function, or None where an edit changes no function."""
    module, owner, function = place_of(edit, crate)
    return f"{owner or module.rpartition('::')[2]}::{function}" if function else None
