"""Where the turn of an actor stands."""

from .markup import element, joined
from .words import count, method_link

# What an instruction does with which variable, or with a value.
OPERANDS = {"PushTemp": "variables", "StoreTemp": "variables", "PushSlot": "slots", "StoreSlot": "slots"}


def state(image, actor, values):
    """In a few words."""
    phase = actor["body"]["phase"]
    if phase == "fresh":
        return "fresh"
    [(kind, what)] = phase.items()
    if kind == "start":
        return joined(["about to begin ", element("code", what["selector"])])
    if kind == "frames":
        method = image.classes.methods[what[-1]["method"]]
        return joined(["in a turn: ", method_link(method), f", {count(len(what), 'frame')}"])
    if kind == "answer":
        return joined(["answered ", values.show(what)])
    return f"ended by a fault: {what}"


def turn(image, actor, values):
    """A heading and what is below it."""
    phase = actor["body"]["phase"]
    yield element("h4", "Turn")
    if phase == "fresh":
        yield element("p", "fresh: it has begun no message yet")
        return
    [(kind, what)] = phase.items()
    if kind == "start":
        yield element("p", "about to begin the message ", values.message(what["selector"], what["args"]))
    elif kind == "answer":
        yield element("p", "the last turn answered ", values.show(what))
    elif kind == "fault":
        yield element("p", "the last turn ended by the fault ", element("code", what))
    else:
        yield element("p", f"in a turn of {count(len(what), 'frame')}, from the first to the running one:")
        yield element("ol", *(frame(image, it, values, it is what[-1]) for it in what), of="frames")


def frame(image, it, values, is_running):
    method = image.classes.methods[it["method"]]
    end = f", {method.end}" if method.end else ""
    title = element("p", element("b", method_link(method)), " ", element("span", f"edits[{it['method']}]{end}", of="about"))
    temps = [joined([element("var", name), " = ", values.show(value)]) for name, value in zip(method.variables, it["temps"])]
    facts = (
        ("receiver", values.show(it["receiver"])),
        ("temporaries", joined(temps, ", ") if temps else "none"),
        ("pc", joined([it["pc"], ", ", next_step(image, method, it["pc"], is_running)])),
        ("operands", values.show_all(it["operands"])),
    )
    inside = [part for name, fact in facts for part in (element("dt", name), element("dd", fact))]
    return element("li", title, element("dl", *inside))


def next_step(image, method, pc, is_running):
    """What the running frame does next, or what another one waits for."""
    if is_running:
        return joined(["next is ", element("code", instruction(image, method, method.code.code[pc]))])
    return joined(["waits for the answer to ", element("code", method.code.code[pc - 1].operand)])


def instruction(image, method, it):
    """An instruction with its operand, which is a name where there is one."""
    if it.name in OPERANDS:
        names = method.variables if OPERANDS[it.name] == "variables" else method.holder.slots
        return f"{it.name} {names[it.operand]}"
    if it.name == "PushLit":
        return f"PushLit {literal(image, it.operand)}"
    return it.name if it.operand is None else f"{it.name} {it.operand}"


def literal(image, value):
    """A literal of a method, as it is written. A class is kept by its number."""
    if value.kind == "boolean":
        return "true" if value.content else "false"
    if value.kind == "symbol":
        return "#" + value.content
    if value.kind == "class":
        return list(image.classes.all)[value.content]
    return "nil" if value.kind == "nil" else value.content
