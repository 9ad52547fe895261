"""Wrong rules of super, of removes, of classes that move, of doesNotUnderstand:, and of the objects and actors that methods make."""

from .wrong_rule import WrongRule

FIND = '            found = self.classes.find(self.class_of(receiver), "doesNotUnderstand:")\n'
ABOVE = "self.classes.all[frame.holder].parent"

SUPER = [
    WrongRule("super begins at the class of the running method", "machine", ABOVE, "frame.holder"),
    WrongRule(
        "super begins above the receiver's class", "machine", ABOVE, "self.classes.all[self.class_of(receiver)].parent"
    ),
    WrongRule("super in a method of Object begins there", "machine", ABOVE, ABOVE + " or 0"),
    WrongRule("super begins in Object", "machine", ABOVE, "0 if frame.holder else None"),
    WrongRule(
        "what super does not find is looked up above the class of the running method",
        "machine",
        FIND,
        FIND.replace("self.class_of(receiver)", "start or 0"),
    ),
    WrongRule(
        "super's message goes to the actor",
        "compiler",
        '"super": Instruction("PushSelf")',
        '"super": Instruction("PushLit", Value("local", 0))',
    ),
    WrongRule(
        "super's message goes to the reference of the actor",
        "compiler",
        '"super": Instruction("PushSelf")',
        '"super": Instruction("PushActor")',
    ),
    WrongRule("super is self", "compiler", '"SuperSend" if is_super(send.receiver) else "Send"', '"Send"'),
    WrongRule(
        "super's message takes a step more",
        "compiler",
        "return self.code(send.receiver) + ",
        'return self.code(send.receiver) + [Instruction("Jump", 0)] * is_super(send.receiver) + ',
    ),
    WrongRule(
        "super in a method that was removed finds nothing",
        "machine",
        "            receiver, start = frame.receiver, " + ABOVE + "\n",
        (
            "            receiver, start = frame.receiver, " + ABOVE + "\n"
            "            if frame.method not in self.classes.all[frame.holder].methods.values():\n"
            "                start = None\n"
        ),
    ),
]

REMOVES = [
    WrongRule("a remove takes nothing away", "classes", "        del methods[selector]\n", ""),
    WrongRule(
        "a remove is no edit",
        "classes",
        '        self.done("remove", selector=selector, **{"class": class_name})\n',
        "",
    ),
    WrongRule(
        "a refused remove is an edit",
        "classes",
        '        """Takes the class\'s own method for the selector away. What runs it goes on with it."""\n',
        "        self.edits += 1\n",
    ),
    WrongRule(
        "a remove takes the method away that is found",
        "classes",
        "        if selector not in methods:\n",
        (
            "        found = self.find(self.numbers[class_name], selector)\n"
            "        if found and found[1]:\n"
            "            methods = self.all[found[0]].methods\n"
            "        if selector not in methods:\n"
        ),
    ),
    WrongRule(
        "a remove of the kernel's method is of none",
        "classes",
        (
            "        if selector in KERNEL_SELECTORS.get(class_name, ()):\n"
            '            raise Refused("KernelMethod")\n'
            "        methods ="
        ),
        "        methods =",
    ),
    WrongRule(
        "a remove of an inherited method of the kernel is KernelMethod",
        "classes",
        (
            "        if selector in KERNEL_SELECTORS.get(class_name, ()):\n"
            '            raise Refused("KernelMethod")\n'
            "        methods ="
        ),
        (
            "        found = self.find(self.numbers[class_name], selector)\n"
            "        if found and found[1] is None:\n"
            '            raise Refused("KernelMethod")\n'
            "        methods ="
        ),
    ),
    WrongRule(
        "a remove of a text that is no selector is of no method",
        "classes",
        '            raise Refused("BadName")\n',
        '            raise Refused("NoSuchMethod")\n',
    ),
    WrongRule(
        "BadName goes before UnknownClass",
        "classes",
        "        if class_name not in self.numbers:\n",
        (
            "        if not is_selector(selector):\n"
            '            raise Refused("BadName")\n'
            "        if class_name not in self.numbers:\n"
        ),
    ),
    WrongRule("a selector may have nine keywords", "language", "){1,%d}|[", "){1,%d}+(?:[a-z]:)?|["),
    WrongRule("a selector may end in a minus", "language", '][+*/\\\\<>=~&,]?"', '][-+*/\\\\<>=~&,]?"'),
    WrongRule(
        "a selector's words may have 65 letters",
        "language",
        '"[A-Za-z][A-Za-z0-9]{0,%d}" % (LONGEST_WORD - 1)',
        '"[A-Za-z][A-Za-z0-9]{0,%d}" % LONGEST_WORD',
    ),
    WrongRule(
        "a removed method does not go on",
        "machine",
        '        operands = frame.operands\n        assert',
        (
            "        if self.classes.all[frame.holder].methods.get(frame.method.selector) is None:\n"
            '            raise Fault("notUnderstood")\n'
            "        operands = frame.operands\n"
            "        assert"
        ),
    ),
    WrongRule(
        "a removed method hides what is above it",
        "classes",
        "        del methods[selector]\n",
        (
            "        above = self.all[self.numbers[class_name]].parent\n"
            "        methods.pop(selector)\n"
            "        while above is not None:\n"
            "            self.all[above].methods.pop(selector, None)\n"
            "            above = self.all[above].parent\n"
        ),
    ),
]

MOVES = [
    WrongRule("a reparent moves nothing", "classes", "        self.all[number].parent = above\n", ""),
    WrongRule(
        "a reparent is no edit",
        "classes",
        '        self.done("reparent", super=parent, **{"class": class_name})\n',
        "",
    ),
    WrongRule(
        "a class goes under one with fewer instance variables",
        "classes",
        "self.all[above].slots != self.all[self.all[number].parent].slots",
        "self.all[above].slots > self.all[self.all[number].parent].slots",
    ),
    WrongRule(
        "a reparent looks at the number of instance variables of the class itself",
        "classes",
        "self.all[above].slots != self.all[self.all[number].parent].slots",
        "self.all[above].slots != self.all[number].slots",
    ),
    WrongRule(
        "the classes below one that is moved are not counted",
        "classes",
        "self.height(number) + len(self.chain(above))",
        "1 + len(self.chain(above))",
    ),
    WrongRule("Object is moved", "classes", "if class_name in KERNEL_CLASSES or", "if class_name in KERNEL_CLASSES[1:] or"),
    WrongRule(
        "a class goes under True",
        "classes",
        " or parent in KERNEL_CLASSES[1:]:\n",
        ' or parent in KERNEL_CLASSES[1:] and parent != "True":\n',
    ),
]

MISSING = [
    WrongRule("a user's doesNotUnderstand: is never found", "machine", FIND, FIND.replace("self.class_of(receiver)", "0")),
    WrongRule(
        "the first message of a turn has no doesNotUnderstand:",
        "machine",
        "        if found is None:\n",
        (
            "        if found is None and not self.frames:\n"
            '            raise Fault("notUnderstood")\n'
            "        if found is None:\n"
        ),
    ),
    WrongRule(
        "doesNotUnderstand: gets the first argument",
        "machine",
        'arguments = [Value("symbol", selector)]\n',
        'arguments = arguments[:1] or [Value("symbol", selector)]\n',
    ),
    WrongRule(
        "doesNotUnderstand: goes to the actor",
        "machine",
        '            selector = "doesNotUnderstand:"\n',
        '            selector = "doesNotUnderstand:"\n            receiver = Value("local", 0)\n',
    ),
    WrongRule(
        "the kernel's doesNotUnderstand: overflows the frames too",
        "machine",
        "        holder, method = found\n",
        (
            "        holder, method = found\n"
            '        if selector == "doesNotUnderstand:" and len(self.frames) >= MOST_FRAMES:\n'
            '            raise Fault("stackOverflow")\n'
        ),
    ),
    WrongRule(
        "doesNotUnderstand: has a frame more",
        "machine",
        "        if len(self.frames) >= MOST_FRAMES:\n",
        '        if len(self.frames) >= MOST_FRAMES + (selector == "doesNotUnderstand:"):\n',
    ),
    WrongRule(
        "a sent doesNotUnderstand: is a fault",
        "machine",
        "        found = self.classes.find(start, selector)\n",
        (
            '        if selector == "doesNotUnderstand:":\n'
            '            raise Fault("notUnderstood")\n'
            "        found = self.classes.find(start, selector)\n"
        ),
    ),
]

OBJECTS = [
    WrongRule(
        "a new object begins with the instance variables of the actor",
        "machine",
        "Object(class_number, [NIL] * len(self.classes.all[class_number].slots))",
        "Object(class_number, [one for o in self.objects[:1] for one in o.slots] + [NIL] * 64)",
    ),
    WrongRule(
        "a new object has the instance variables of the one before",
        "machine",
        "        self.objects.append(Object(",
        (
            "        if self.objects and self.objects[-1].class_number == class_number:\n"
            "            self.objects.append(self.objects[-1])\n"
            "            return len(self.objects) - 1\n"
            "        self.objects.append(Object("
        ),
    ),
    WrongRule(
        "all objects have the instance variables of the actor",
        "machine",
        "operands.append(self.objects[frame.receiver.content].slots[operand])",
        "operands.append((self.objects[0].slots + [NIL] * 64)[operand])",
    ),
    WrongRule(
        "all objects store in the actor",
        "machine",
        "self.objects[frame.receiver.content].slots[operand] = operands[-1]",
        "self.objects[0].slots[operand if operand < len(self.objects[0].slots) else 0] = operands[-1]",
    ),
    WrongRule(
        "all objects are of the actor's class",
        "machine",
        "return self.objects[value.content].class_number",
        "return self.objects[0].class_number",
    ),
    WrongRule(
        "equal objects are of one class",
        "kernel",
        "        return boolean(receiver == arguments[0])\n",
        (
            '        if receiver.kind == arguments[0].kind == "local" and selector == "=":\n'
            "            return boolean(actor.class_of(receiver) == actor.class_of(arguments[0]))\n"
            "        return boolean(receiver == arguments[0])\n"
        ),
    ),
    WrongRule(
        "objects are counted from the last",
        "kernel",
        '        return Value("local", place)\n',
        "        actor.objects.insert(1, actor.objects.pop())\n"
        '        return Value("local", 1)\n',
    ),
    WrongRule(
        "objects keep nothing from turn to turn",
        "machine",
        "        self.message = self.pending.popleft()\n",
        (
            "        self.message = self.pending.popleft()\n"
            "        for one in self.objects[1:]:\n"
            "            one.slots = [NIL for _ in one.slots]\n"
        ),
    ),
    WrongRule(
        "the objects of a turn go with its fault",
        "machine",
        "            self.frames = []\n",
        "            self.frames = []\n            del self.objects[1:]\n",
    ),
    WrongRule(
        "Object has no objects and no actors",
        "kernel",
        "if 0 < receiver.content < len(KERNEL_CLASSES):",
        "if receiver.content < len(KERNEL_CLASSES):",
    ),
    WrongRule(
        "the classes of the kernel have objects and actors",
        "kernel",
        "if 0 < receiver.content < len(KERNEL_CLASSES):",
        "if False:",
    ),
    WrongRule(
        "Class has objects and actors",
        "kernel",
        "if 0 < receiver.content < len(KERNEL_CLASSES):",
        "if 0 < receiver.content < len(KERNEL_CLASSES) - 1:",
    ),
    WrongRule(
        "SmallInteger has objects and actors",
        "kernel",
        "if 0 < receiver.content < len(KERNEL_CLASSES):",
        "if 1 < receiver.content < len(KERNEL_CLASSES):",
    ),
    WrongRule(
        "the kernel's classes have objects, but no actors",
        "kernel",
        "if 0 < receiver.content < len(KERNEL_CLASSES):",
        'if selector == "newActor" and 0 < receiver.content < len(KERNEL_CLASSES):',
    ),
    WrongRule(
        "the kernel's classes have actors, but no objects",
        "kernel",
        "if 0 < receiver.content < len(KERNEL_CLASSES):",
        'if selector == "new" and 0 < receiver.content < len(KERNEL_CLASSES):',
    ),
    WrongRule(
        "heapFull goes before badArgument",
        "kernel",
        '    """A new object or actor, of Object or of a class of the user\'s."""\n',
        (
            '    if selector == "new" and len(actor.objects) >= 1024:\n'
            '        raise Fault("heapFull")\n'
        ),
    ),
    WrongRule("a full heap is a badArgument", "kernel", 'raise Fault("heapFull")', 'raise Fault("badArgument")'),
    WrongRule("a full heap has nil for the next object", "kernel", 'raise Fault("heapFull")', "return NIL"),
    WrongRule("new ends the quantum", "language", '"class": ("newActor",)', '"class": ("newActor", "new")'),
]

ACTORS = [
    WrongRule(
        "tooManyActors goes before badArgument",
        "kernel",
        '    """A new object or actor, of Object or of a class of the user\'s."""\n',
        (
            '    if selector == "newActor" and len(actor.image.actors) >= 65536:\n'
            '        raise Fault("tooManyActors")\n'
        ),
    ),
    WrongRule(
        "newActor answers nil where there are too many", "kernel", 'raise Fault("tooManyActors")', "return NIL"
    ),
    WrongRule(
        "newActor answers the actor that sent it",
        "kernel",
        '    return Value("actor", number)\n',
        '    return Value("actor", actor.number)\n',
    ),
    WrongRule(
        "a new actor is of the class of the actor that made it",
        "kernel",
        "actor.image.new_actor(receiver.content)",
        "actor.image.new_actor(actor.objects[0].class_number)",
    ),
    WrongRule("newActor does not end the quantum", "language", '"class": ("newActor",)', '"class": ()'),
    WrongRule(
        "posts do not end the quantum",
        "language",
        '"actor": ("post:", "post:with:", "post:with:with:", "close")',
        '"actor": ("close",)',
    ),
    WrongRule(
        "a post with an argument does not end the quantum",
        "language",
        '"actor": ("post:", "post:with:", "post:with:with:", "close")',
        '"actor": ("post:", "post:with:with:", "close")',
    ),
    WrongRule(
        "a post with two arguments does not end the quantum",
        "language",
        '"actor": ("post:", "post:with:", "post:with:with:", "close")',
        '"actor": ("post:", "post:with:", "close")',
    ),
    WrongRule(
        "an outer step waits for the next quantum where this one is over",
        "image",
        "        if actor.at_outer_step():\n",
        "        if steps < self.quantum and actor.at_outer_step():\n",
    ),
    WrongRule(
        "the quantum goes on behind an outer step",
        "image",
        "while steps < self.quantum and actor.in_turn() and not actor.at_outer_step():",
        "while steps < self.quantum and actor.in_turn():",
    ),
    WrongRule(
        "an outer step is no step",
        "image",
        (
            "        if actor.at_outer_step():\n"
            "            steps += 1\n"
            "            self.take_step(actor, self.steps + steps)\n"
        ),
        (
            "        if actor.at_outer_step():\n"
            "            self.take_step(actor, self.steps + steps + 1)\n"
        ),
    ),
    WrongRule(
        "an outer step that ends the turn is no step",
        "image",
        (
            "        if actor.at_outer_step():\n"
            "            steps += 1\n"
            "            self.take_step(actor, self.steps + steps)\n"
        ),
        (
            "        if actor.at_outer_step():\n"
            "            self.take_step(actor, self.steps + steps + 1)\n"
            "            steps += actor.in_turn()\n"
        ),
    ),
    WrongRule(
        "an outer step is known by its selector alone",
        "machine",
        "selector in OUTER_SELECTORS.get(frame.operands[-1 - count].kind, ())",
        'selector in OUTER_SELECTORS["actor"] + OUTER_SELECTORS["class"]',
    ),
    WrongRule(
        "an outer step is known by the method that is found",
        "machine",
        'return name == "Send" and selector in OUTER_SELECTORS.get(frame.operands[-1 - count].kind, ())',
        (
            'return name == "Send" and any(selector in s for s in OUTER_SELECTORS.values()) '
            'and (self.classes.find(self.class_of(frame.operands[-1 - count]), selector) or (0, 0))[1] is None '
            'and (selector != "newActor" or frame.operands[-1 - count].content not in range(1, 8))'
        ),
    ),
    WrongRule(
        "a message to super can be an outer step",
        "machine",
        'return name == "Send" and selector in',
        'return name in ("Send", "SuperSend") and selector in',
    ),
    WrongRule(
        "a new actor has the place of the one that made it in the order of turns",
        "image",
        "        self.actors.append(Actor(len(self.actors), class_number, self))\n",
        (
            "        self.actors.append(Actor(len(self.actors), class_number, self))\n"
            "        self.last = len(self.actors) - 1\n"
        ),
    ),
    WrongRule(
        "the actor that was posted to is next",
        "image",
        "        self.ready.add(number)\n",
        "        self.ready.add(number)\n        self.last = number - 1\n",
    ),
]

POSTS = [
    WrongRule(
        "a post answers the reference",
        "kernel",
        "    return boolean(actor.post(receiver.content, symbol.content, further))\n",
        "    actor.post(receiver.content, symbol.content, further)\n    return receiver\n",
    ),
    WrongRule(
        "a post answers true always",
        "kernel",
        "    return boolean(actor.post(receiver.content, symbol.content, further))\n",
        "    actor.post(receiver.content, symbol.content, further)\n    return boolean(True)\n",
    ),
    WrongRule(
        "a full mailbox takes the posts of actors",
        "kernel",
        "    return boolean(actor.post(receiver.content, symbol.content, further))\n",
        (
            "    actor.image.actors[receiver.content].capacity += 1\n"
            "    try:\n"
            "        return boolean(actor.post(receiver.content, symbol.content, further))\n"
            "    finally:\n"
            "        actor.image.actors[receiver.content].capacity -= 1\n"
        ),
    ),
    WrongRule(
        "the mailbox of an actor that a method made holds a message more",
        "image",
        "if len(actor.pending) >= actor.capacity else None",
        "if len(actor.pending) >= actor.capacity + (number > 2) else None",
    ),
    WrongRule(
        "a full mailbox is a fault",
        "kernel",
        "    return boolean(actor.post(receiver.content, symbol.content, further))\n",
        (
            "    if not actor.post(receiver.content, symbol.content, further):\n"
            '        raise Fault("badArgument")\n'
            "    return boolean(True)\n"
        ),
    ),
    WrongRule(
        "an actor can't post to itself",
        "kernel",
        "    return boolean(actor.post(",
        "    return boolean(receiver.content != actor.number and actor.post(",
    ),
    WrongRule(
        "the message of a turn is in the mailbox until the turn ends",
        "image",
        "if len(actor.pending) >= actor.capacity else None",
        "if len(actor.pending) + actor.in_turn() >= actor.capacity else None",
    ),
    WrongRule(
        "a posted selector may be any value",
        "kernel",
        '    if symbol.kind != "symbol" or arguments_of(symbol.content) != len(further):\n',
        (
            '    if symbol.kind != "symbol":\n'
            "        return boolean(False)\n"
            "    if arguments_of(symbol.content) != len(further):\n"
        ),
    ),
    WrongRule(
        "a posted selector may take fewer arguments",
        "kernel",
        "arguments_of(symbol.content) != len(further):",
        "arguments_of(symbol.content) > len(further):",
    ),
    WrongRule(
        "a posted selector may take more arguments",
        "kernel",
        (
            "arguments_of(symbol.content) != len(further):\n"
            '        raise Fault("badArgument")\n'
        ),
        (
            "arguments_of(symbol.content) < len(further):\n"
            '        raise Fault("badArgument")\n'
            "    further = further + [NIL] * (arguments_of(symbol.content) - len(further))\n"
        ),
    ),
    WrongRule(
        "a binary selector is posted without an argument",
        "kernel",
        "arguments_of(symbol.content) != len(further):",
        'symbol.content.count(":") != len(further):',
    ),
    WrongRule(
        "localArgument goes before badArgument",
        "kernel",
        '    """Whether the mailbox took the message. Objects stay with their actor."""\n',
        (
            '    if any(argument.kind == "local" for argument in further):\n'
            '        raise Fault("localArgument")\n'
        ),
    ),
    WrongRule(
        "an object for a selector is a localArgument",
        "kernel",
        '    """Whether the mailbox took the message. Objects stay with their actor."""\n',
        (
            '    if symbol.kind == "local":\n'
            '        raise Fault("localArgument")\n'
        ),
    ),
    WrongRule(
        "objects can be posted",
        "kernel",
        'if any(argument.kind == "local" for argument in further):',
        "if False:",
    ),
    WrongRule(
        "the last argument can be an object",
        "kernel",
        'if any(argument.kind == "local" for argument in further):',
        'if further and further[0].kind == "local":',
    ),
    WrongRule(
        "the first argument can be an object",
        "kernel",
        'if any(argument.kind == "local" for argument in further):',
        'if further and further[-1].kind == "local":',
    ),
    WrongRule(
        "an object is a badArgument",
        "kernel",
        'raise Fault("localArgument")',
        'raise Fault("badArgument")',
    ),
    WrongRule(
        "the actor itself can be posted as an object",
        "kernel",
        'if any(argument.kind == "local" for argument in further):',
        'if any(argument.kind == "local" and argument.content for argument in further):',
    ),
    WrongRule("posted arguments are reversed", "kernel", "symbol.content, further))\n", "symbol.content, further[::-1]))\n"),
    WrongRule(
        "posted messages go before those of clients",
        "kernel",
        "    return boolean(actor.post(receiver.content, symbol.content, further))\n",
        (
            "    taken = actor.post(receiver.content, symbol.content, further)\n"
            "    if taken:\n"
            "        actor.image.actors[receiver.content].pending.rotate(1)\n"
            "    return boolean(taken)\n"
        ),
    ),
    WrongRule(
        "posted messages have no number",
        "kernel",
        "    return boolean(actor.post(receiver.content, symbol.content, further))\n",
        (
            "    taken = actor.post(receiver.content, symbol.content, further)\n"
            "    actor.image.actors[receiver.content].accepted -= taken\n"
            "    return boolean(taken)\n"
        ),
    ),
    WrongRule(
        "a fault takes the posts of its turn back",
        "machine",
        "            self.frames = []\n",
        "            self.frames = []\n            self.pending.clear()\n",
    ),
    WrongRule(
        "actor references understand close",
        "machine",
        "        found = self.classes.find(start, selector)\n",
        (
            '        if selector == "close" and receiver.kind == "actor":\n'
            '            return Value("boolean", True)\n'
            "        found = self.classes.find(start, selector)\n"
        ),
    ),
    WrongRule("post: may be replaced", "language", '    "ActorRef": ("post:", ', '    "ActorRef": ('),
    WrongRule("new may be replaced", "language", '    "Class": ("new", ', '    "Class": ('),
    WrongRule(
        "a client may post objects",
        "image",
        'for argument in arguments):\n            return {"error": "BadCommand"}\n',
        'for argument in arguments):\n            return {"error": "BadArguments"}\n',
    ),
    WrongRule(
        "the selector of a client's post is looked at behind the actor",
        "image",
        (
            "        if unread:\n"
            '            return {"error": unread}\n'
            "        if number >= len(self.actors):\n"
            '            return {"error": "UnknownActor"}\n'
        ),
        (
            "        if number >= len(self.actors):\n"
            '            return {"error": "UnknownActor"}\n'
            "        if unread:\n"
            '            return {"error": unread}\n'
        ),
    ),
    WrongRule("a reference may name an actor that isn't there", "image", 'argument.get("ref", -1) < len(self.actors)', "True"),
]

WRONG_ACTING = SUPER + REMOVES + MOVES + MISSING + OBJECTS + ACTORS + POSTS
