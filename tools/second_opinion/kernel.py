"""What the methods of the kernel answer."""

from smalltalk.language import KERNEL_CLASSES, LARGEST, SMALLEST, arguments_of
from smalltalk.values import FALSE, NIL, Value, boolean


class Fault(Exception):
    """A turn ends with a fault of this name."""

    def __init__(self, name):
        super().__init__(name)
        self.name = name


ARITHMETIC = {
    "+": lambda left, right: left + right,
    "-": lambda left, right: left - right,
    "*": lambda left, right: left * right,
    # Python's own division rounds towards negative infinity, and its remainder has the divisor's sign.
    "//": lambda left, right: left // right,
    "\\\\": lambda left, right: left % right,
}

COMPARISONS = {
    "<": lambda left, right: left < right,
    ">": lambda left, right: left > right,
    "<=": lambda left, right: left <= right,
    ">=": lambda left, right: left >= right,
}


def answer(holder, selector, receiver, arguments, actor):
    """What the kernel's method of the class `holder` answers to a message in a turn of the actor."""
    if holder == "Object":
        return of_object(selector, receiver, arguments, actor)
    if holder == "SmallInteger":
        return of_integers(selector, receiver, arguments[0])
    if holder == "ActorRef":
        if selector == "close":
            return boolean(actor.image.close_mailbox(receiver.content))
        return of_actors(receiver, arguments[0], arguments[1:], actor)
    if holder == "Class":
        return of_classes(selector, receiver, actor)
    if selector == "not":
        return boolean(not receiver.content)
    return arguments[0] if holder == "True" else FALSE


def of_object(selector, receiver, arguments, actor):
    if selector in ("==", "="):
        return boolean(receiver == arguments[0])
    if selector == "class":
        return Value("class", actor.class_of(receiver))
    if selector == "isNil":
        return boolean(receiver == NIL)
    raise Fault("notUnderstood")


def of_integers(selector, receiver, argument):
    if argument.kind != "integer":
        raise Fault("badArgument")
    left, right = receiver.content, argument.content
    if selector in COMPARISONS:
        return boolean(COMPARISONS[selector](left, right))
    if selector in ("//", "\\\\") and right == 0:
        raise Fault("zeroDivide")
    result = ARITHMETIC[selector](left, right)
    if not SMALLEST <= result <= LARGEST:
        raise Fault("overflow")
    return Value("integer", result)


def of_actors(receiver, symbol, further, actor):
    """Whether the mailbox took the message. Objects stay with their actor."""
    if symbol.kind != "symbol" or arguments_of(symbol.content) != len(further):
        raise Fault("badArgument")
    if any(argument.kind == "local" for argument in further):
        raise Fault("localArgument")
    return boolean(actor.post(receiver.content, symbol.content, further))


def of_classes(selector, receiver, actor):
    """A new object or actor, of Object or of a class of the user's."""
    if 0 < receiver.content < len(KERNEL_CLASSES):
        raise Fault("badArgument")
    if selector == "new":
        place = actor.new_object(receiver.content)
        if place is None:
            raise Fault("heapFull")
        return Value("local", place)
    number = actor.image.new_actor(receiver.content)
    if number is None:
        raise Fault("tooManyActors")
    return Value("actor", number)
