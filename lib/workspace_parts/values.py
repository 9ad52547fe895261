"""Values as Smalltalk writes them."""


def show(value, known, actor=None):
    """A value of a reply; `actor` is the number of the actor that answered it. An actor is shown by its name, if it has one."""
    if value is None:
        return "nil"
    if isinstance(value, bool):
        return "true" if value else "false"
    if isinstance(value, int):
        return str(value)
    if "sym" in value:
        return "#" + value["sym"]
    if "class" in value:
        return value["class"]
    if "ref" in value:
        return known.name_of(value["ref"]) or f"actor {value['ref']}"
    return show_object(value["local"], known, actor)


def show_object(number, known, actor):
    """An object of an actor's own. Object 0 is the actor itself; the class of another one is not told."""
    if number:
        return f"object {number} of actor {actor}"
    name = known.actor(actor).class_name
    if not name:
        return "itself"
    return a_or_an(name)


def a_or_an(name):
    return ("an " if name[0] in "AEIOUaeiou" else "a ") + name


def table(rows):
    """Lines of columns: numbers to the right, other texts to the left."""
    columns = list(zip(*rows))
    widths = [max(len(str(cell)) for cell in column) for column in columns]
    places = [str.rjust if all(isinstance(cell, int) for cell in column[1:]) else str.ljust for column in columns]
    for row in rows:
        yield "  ".join(place(str(cell), width) for cell, width, place in zip(row, widths, places)).rstrip()


def count(number, thing):
    """As in `2 methods`; the plural of quantum is quanta, of class classes."""
    plural = {"quantum": "quanta", "class": "classes"}.get(thing, thing + "s")
    return f"{number:,} {thing if number == 1 else plural}"
