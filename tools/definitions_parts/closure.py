"""What the clauses of a public call rest on: the definitions that they name, those that these name, and so on.

A declaration is a line at the margin that gives a name, with the lines below it up to the next one. It counts with its lines that
are neither blank nor comments nor imports. A name is looked up in the file that uses it: it is declared there, or a `use` line of
the file brings it in from another file of definitions. A variable that is spelled like a definition counts as that definition, so
a closure may be too long, and is never too short.
"""

import functools
import os
import re

TOP = os.path.dirname(os.path.dirname(os.path.dirname(os.path.realpath(__file__))))
WORD = re.compile(r"[A-Za-z_][\w']*")
HEAD = re.compile(r"^(?:abbrev\s+)?(?:pub\s+)?(?:(?P<kind>data|record)\s+)?(?P<name>[A-Za-z_][\w']*)\b")


def read(path):
    with open(path, encoding="utf-8") as file:
        return file.read()


def crates():
    """The crates, lowest first."""
    return [line.split(":")[0] for line in read(f"{TOP}/crates.txt").splitlines() if line]


def path_of(file):
    return f"{TOP}/crates/{file[0]}/specs/{file[1]}.antt"


def imports(text):
    """The names that `use` lines of a file of definitions or of code bring in: where each is declared."""
    found = {}
    for crate, module, names in re.findall(r"use Rattle\.(st_\w+)\.specs\.([\w.]+)\.\{([^}]*)\}", text):
        for name in re.split(r"\s*,\s*", names.strip()):
            name, _, other = name.partition(" as ")
            found[other or name] = (crate, module, name)
    return found


class File:
    """A file of definitions: its declarations in order, each with its lines, and what it imports."""

    def __init__(self, file):
        text = read(path_of(file))
        self.file, self.imports, self.lines, self.within = file, imports(text), {}, {}
        current, is_mutual = None, False
        for line in text.splitlines():
            if line and line[0] != " ":
                is_mutual = line == "mutual"
            elif is_mutual:
                line = line[2:]
            if line == "mutual" or not line.strip() or line.lstrip().startswith("--") or line.startswith(("use ", "pub use ")):
                continue
            head = None if line[0] in " )" else HEAD.match(line)
            if head and head["name"] != current and re.match(r"^(abbrev |pub |data |record )|^[\w']+ :", line):
                current = head["name"]
                self.lines[current] = []
            self.lines[current].append(line)
            # The constructors of a data type and the parts of a record belong to it.
            part = re.match(r"^\s+(?:pub )?([\w']+) :", line)
            if part:
                self.within.setdefault(part[1], current)

    def said(self):
        """The first line: what the file is about."""
        return re.match(r"-- (.*)", read(path_of(self.file)))[1]

    def declared(self, name):
        """The declaration that a name belongs to."""
        return name if name in self.lines else self.within.get(name)

    def bound(self, name):
        """The variables of a declaration: parameters, what λ and `let` bind, and the names of fields."""
        text = "\n".join(self.lines[name])
        found = {word for names in re.findall(r"[({]([\w' ]+) :", text) for word in names.split()}
        found |= {word for names in re.findall(r"λ ([\w' ]+)\.", text) for word in names.split()}
        found |= set(re.findall(r"\blet ([\w']+)\b", text)) | set(re.findall(r"[{;]\s*([\w']+) = ", text))
        for line in self.lines[name]:
            left, equals, _ = line.partition(" = ")
            if equals and left.split()[:1] == [name]:
                found |= {word for word in WORD.findall(left)[1:] if not self.is_constructor(word)}
        return found

    def is_constructor(self, word):
        """Whether a word in a pattern is no variable."""
        if word in self.imports:
            crate, module, name = self.imports[word]
            return module.startswith("declared.") or name in file_of(crate, module).within
        return word in self.within or word[0].isupper()

    def uses(self, name):
        """What a declaration names: others of this file, and of other files."""
        text = re.sub(r"\.[\w']+", "", "\n".join(self.lines[name]))
        for word in sorted(set(WORD.findall(text)) - self.bound(name)):
            if word in self.imports:
                yield self.imports[word]
            elif self.declared(word) not in (None, name):
                yield (*self.file, word)


@functools.cache
def file_of(crate, module):
    return File((crate, module))


def closure(roots):
    """The declarations that some names rest on, by file; types of the code that contracts see as they are, apart."""
    found, plain, left = {}, set(), list(roots)
    while left:
        crate, module, name = left.pop()
        if module.startswith("declared."):
            plain.add((crate, module.split(".")[-2] if name in module else module.split(".")[-1], name))
            continue
        file = file_of(crate, module)
        name = file.declared(name)
        if name is None or name in found.setdefault((crate, module), set()):
            continue
        found[crate, module].add(name)
        left += file.uses(name)
    return {file: names for file, names in found.items() if names}, plain


def clauses(path, call):
    """The names in each named clause of a public call."""
    text = read(f"{TOP}/{path}")
    known = imports(text)
    body = text[text.index(call) :]
    body = body[: body.index("\n    {")]
    return {name: [known[word] for word in WORD.findall(said) if word in known] for name, said in re.findall(r"ensures (\w+) \{(.*)\}", body)}


def count(file, names):
    """How many lines some declarations of a file have."""
    return sum(len(file_of(*file).lines[name]) for name in names)


def in_reading_order(files):
    """Files lowest first: by crate, and within a crate each behind those that it imports."""
    order, done = [], set()

    def put(file):
        if file in done or file not in files:
            return
        done.add(file)
        for crate, module, _ in sorted(file_of(*file).imports.values()):
            if crate == file[0] and not module.startswith("declared."):
                put((crate, module))
        order.append(file)

    places = {crate: place for place, crate in enumerate(crates())}
    for file in sorted(files, key=lambda it: (places[it[0]], it[1])):
        put(file)
    return order
