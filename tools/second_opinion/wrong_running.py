"""Wrong rules of running: the code, the machine, and the turns."""

from .wrong_rule import WrongRule

CODE = [
    WrongRule(
        "an ifFalse: that runs no block is true",
        "compiler",
        '"ifFalse:": ("JumpTrue", NIL)',
        '"ifFalse:": ("JumpTrue", TRUE)',
    ),
    WrongRule("an and: that runs no block is nil", "compiler", '("JumpFalse", FALSE)', '("JumpFalse", NIL)'),
    WrongRule("an or: that runs no block is nil", "compiler", '("JumpTrue", TRUE)', '("JumpTrue", NIL)'),
    WrongRule("a loop is false", "compiler", 'back), Instruction("PushLit", NIL)]', 'back), Instruction("PushLit", FALSE)]'),
    WrongRule(
        "an empty block is false",
        "compiler",
        'return [Instruction("PushLit", NIL)]',
        'return [Instruction("PushLit", FALSE)]',
    ),
    WrongRule(
        "a method answers nil",
        "compiler",
        '[Instruction("PushSelf"), Instruction("Answer")]',
        '[Instruction("PushLit", NIL), Instruction("Answer")]',
    ),
    WrongRule(
        "a conditional takes a step more",
        "compiler",
        "            + second\n",
        (
            "            + second\n"
            '            + [Instruction("Jump", 0)]\n'
        ),
    ),
    WrongRule(
        "whileFalse: is whileTrue:",
        "compiler",
        '"JumpFalse" if selector == "whileTrue:" else "JumpTrue"',
        '"JumpFalse"',
    ),
    WrongRule(
        "ifFalse:ifTrue: is ifTrue:ifFalse:",
        "compiler",
        '"JumpFalse" if selector == "ifTrue:ifFalse:" else "JumpTrue"',
        '"JumpFalse"',
    ),
    WrongRule(
        "a cascade's messages go to the answer before",
        "compiler",
        '[Instruction("Dup")] + self.message(message) + [Instruction("Pop")]',
        "self.message(message)",
    ),
]

MACHINE = [
    WrongRule(
        "temporaries are false",
        "machine",
        "[NIL] * method.temporaries",
        '[Value("boolean", False)] * method.temporaries',
    ),
    WrongRule(
        "instance variables are false",
        "machine",
        "[NIL] * len(self.classes.all[class_number].slots)",
        '[Value("boolean", False)] * len(self.classes.all[class_number].slots)',
    ),
    WrongRule("arguments are reversed", "machine", "range(count)][::-1]", "range(count)]"),
    WrongRule(
        "nil is a false condition",
        "machine",
        'if value.kind != "boolean":',
        'if value.kind not in ("boolean", "nil"):',
    ),
    WrongRule("a reference's class is Class", "machine", '"actor": "ActorRef"', '"actor": "Class"'),
    WrongRule("a class's class is Object", "machine", '"class": "Class"', '"class": "Object"'),
    WrongRule(
        "doesNotUnderstand: gets its own name",
        "machine",
        'arguments = [Value("symbol", selector)]\n',
        'arguments = [Value("symbol", "doesNotUnderstand:")]\n',
    ),
    WrongRule("a fault leaves the frames of its turn", "machine", "self.frames = []\n            self.results", "self.results"),
    WrongRule(
        "a fault clears the instance variables",
        "machine",
        "            self.results.append(fault.name)\n",
        (
            "            self.results.append(fault.name)\n"
            "            self.objects[0].slots = [NIL for _ in self.objects[0].slots]\n"
        ),
    ),
    WrongRule(
        "division truncates",
        "kernel",
        "left // right",
        "abs(left) // abs(right) * (1 if (left < 0) == (right < 0) else -1)",
    ),
    WrongRule("a remainder has no sign", "kernel", "left % right", "abs(left % right)"),
    WrongRule(
        "the divisor is looked at first",
        "kernel",
        (
            '    if argument.kind != "integer":\n'
            '        raise Fault("badArgument")\n'
        ),
        (
            '    if argument.content == 0 and selector == "//":\n'
            '        raise Fault("zeroDivide")\n'
            '    if argument.kind != "integer":\n'
            '        raise Fault("badArgument")\n'
        ),
    ),
    WrongRule(
        "badArgument is zeroDivide",
        "kernel",
        (
            '    if argument.kind != "integer":\n'
            '        raise Fault("badArgument")\n'
        ),
        (
            '    if argument.kind != "integer":\n'
            '        raise Fault("zeroDivide")\n'
        ),
    ),
    WrongRule("false & x is x", "kernel", 'arguments[0] if holder == "True" else FALSE', "arguments[0]"),
    WrongRule("lookup goes to Object at once", "classes", "number = at.parent\n", "number = at.parent and 0\n"),
    WrongRule(
        "the kernel's method goes first",
        "classes",
        "            if selector in at.methods:\n",
        '            if selector in at.methods and selector not in KERNEL_SELECTORS["Object"]:\n',
    ),
]

TURNS = [
    WrongRule(
        "the same actor goes on while it is ready",
        "image",
        "(number <= self.last, number)",
        "(number < self.last, number)",
    ),
    WrongRule("the lowest ready actor goes first", "image", "(number <= self.last, number)", "number"),
    WrongRule("a quantum has a step more", "image", "while steps < self.quantum and", "while steps <= self.quantum and"),
    WrongRule(
        "a quantum goes on with the next message",
        "image",
        "            self.take_step(actor, self.steps + steps)\n        if actor.at_outer_step():\n",
        (
            "            self.take_step(actor, self.steps + steps)\n"
            "            if not actor.in_turn() and actor.pending:\n"
            "                actor.begin()\n"
            "        if actor.at_outer_step():\n"
        ),
    ),
    WrongRule("the last message is first", "machine", "self.pending.popleft()", "self.pending.pop()"),
    WrongRule("a mailbox holds one message more", "image", ">= actor.capacity", "> actor.capacity"),
    WrongRule(
        "Full goes before BadArguments",
        "image",
        "        if arguments_of(selector) != len(arguments) or not all(",
        (
            "        if len(self.actors[number].pending) >= self.capacity:\n"
            '            return {"error": "Full"}\n'
            "        if arguments_of(selector) != len(arguments) or not all("
        ),
    ),
]

SENDS = [
    WrongRule(
        "a send that ends the turn is not counted",
        "machine",
        "            self.image.count(frame.method, frame.next - 1)\n            self.send(frame, name, operand, count)\n",
        (
            "            place = frame.next - 1\n"
            "            self.send(frame, name, operand, count)\n"
            "            self.image.count(frame.method, place)\n"
        ),
    ),
    WrongRule(
        "a send to super is not counted",
        "machine",
        "            self.image.count(frame.method, frame.next - 1)\n",
        '            if name == "Send":\n                self.image.count(frame.method, frame.next - 1)\n',
    ),
    WrongRule(
        "sends are counted at the method's first site",
        "machine",
        "self.image.count(frame.method, frame.next - 1)",
        'self.image.count(frame.method, [it.name in ("Send", "SuperSend") for it in frame.method.code].index(True))',
    ),
    WrongRule(
        "a method has the sends of the first one of its selector",
        "image",
        "sends = self.sent.get(id(method), (None, Counter()))",
        "sends = next((it for it in self.sent.values() if it[0].selector == method.selector), (None, Counter()))",
    ),
]

WRONG_RUNNING = CODE + MACHINE + TURNS + SENDS
