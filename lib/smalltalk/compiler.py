"""Tree to code: what each tree pushes, and what the compiler refuses."""

from dataclasses import dataclass

from .checks import refuse
from .language import BadSource, MOST_INSTRUCTIONS, MOST_OPERANDS, RESERVED
from .tree import Assignment, Cascade, Name, Number, Parenthesis, Symbol, is_inlined, is_super
from .values import FALSE, NIL, TRUE, Instruction, Value

JUMPS = ("JumpFalse", "JumpTrue")
PUSHES = ("PushLit", "PushSelf", "PushActor", "PushTemp", "PushSlot", "Dup")

# The code of a reserved name.
RESERVED_CODE = {
    "self": Instruction("PushSelf"),
    "super": Instruction("PushSelf"),
    "thisActor": Instruction("PushActor"),
    "nil": Instruction("PushLit", NIL),
    "true": Instruction("PushLit", TRUE),
    "false": Instruction("PushLit", FALSE),
}

# For each conditional of one block: the jump over it, and its value where the block isn't run.
ONE_ARMED = {
    "ifTrue:": ("JumpFalse", NIL),
    "ifFalse:": ("JumpTrue", NIL),
    "and:": ("JumpFalse", FALSE),
    "or:": ("JumpTrue", TRUE),
}


@dataclass
class Compiled:
    """`edit` is the place of its install among the edits, once it is installed."""

    selector: str
    arguments: int
    temporaries: int
    code: list
    depths: list
    edit: int = 0


class Compiler:
    def __init__(self, method, slots, classes):
        """`slots` are the instance variables, inherited ones first; `classes` the numbers of the classes by their names."""
        self.method = method
        self.temps = {token.text: number for number, token in enumerate(method.variables())}
        self.slots = {name: number for number, name in enumerate(slots)}
        self.classes = classes

    def compile(self):
        uses = self.method.uses + self.method.assigned
        refuse("UnknownName", [use.start for use in uses if not self.is_known(use.text)])
        refuse("DuplicateName", [name.start for name in self.method.variables() if name.text in self.slots])
        code = self.body(self.method.statements)
        if len(code) > MOST_INSTRUCTIONS:
            raise BadSource("TooLarge", 0)
        found = depths(code)
        if max(found) > MOST_OPERANDS:
            raise BadSource("TooLarge", 0)
        return Compiled(self.method.selector, len(self.method.arguments), len(self.method.temporaries), code, found)

    def is_known(self, name):
        return name in RESERVED or name in self.temps or name in self.slots or name in self.classes

    def body(self, statements):
        """A method's statements: no value stays, and where none answers the receiver is answered."""
        code = []
        for statement in statements:
            code += self.code(statement.value)
            code.append(Instruction("Answer" if statement.answers else "Pop"))
        if not (statements and statements[-1].answers):
            code += [Instruction("PushSelf"), Instruction("Answer")]
        return code

    def value(self, block):
        """A block's statements, of which the last one's value stays."""
        if not block.statements:
            return [Instruction("PushLit", NIL)]
        code = []
        for statement in block.statements:
            if code:
                code.append(Instruction("Pop"))
            code += self.code(statement.value)
            if statement.answers:
                code.append(Instruction("Answer"))
        return code

    def code(self, tree):
        if isinstance(tree, Name):
            return [self.push(tree.text)]
        if isinstance(tree, Number):
            return [Instruction("PushLit", Value("integer", tree.value))]
        if isinstance(tree, Symbol):
            return [Instruction("PushLit", Value("symbol", tree.text))]
        if isinstance(tree, Parenthesis):
            return self.code(tree.inner)
        if isinstance(tree, Assignment):
            return self.code(tree.value) + [self.store(tree.name)]
        if isinstance(tree, Cascade):
            return self.cascade(tree)
        return self.inlined(tree) if is_inlined(tree) else self.send(tree)

    def push(self, name):
        if name in RESERVED_CODE:
            return RESERVED_CODE[name]
        if name in self.temps:
            return Instruction("PushTemp", self.temps[name])
        if name in self.slots:
            return Instruction("PushSlot", self.slots[name])
        return Instruction("PushLit", Value("class", self.classes[name]))

    def store(self, name):
        if name in self.temps:
            return Instruction("StoreTemp", self.temps[name])
        return Instruction("StoreSlot", self.slots[name])

    def message(self, message, name="Send"):
        code = [instruction for argument in message.arguments for instruction in self.code(argument)]
        return code + [Instruction(name, message.selector, len(message.arguments), message.start)]

    def send(self, send):
        name = "SuperSend" if is_super(send.receiver) else "Send"
        return self.code(send.receiver) + self.message(send.message, name)

    def cascade(self, cascade):
        code = self.code(cascade.receiver)
        for message in cascade.messages[:-1]:
            code += [Instruction("Dup")] + self.message(message) + [Instruction("Pop")]
        return code + self.message(cascade.messages[-1])

    def inlined(self, send):
        selector = send.message.selector
        blocks = [self.value(block) for block in send.message.arguments]
        if selector in ("whileTrue:", "whileFalse:"):
            return self.loop("JumpFalse" if selector == "whileTrue:" else "JumpTrue", self.value(send.receiver), blocks[0])
        if selector in ONE_ARMED:
            jump, otherwise = ONE_ARMED[selector]
            blocks.append([Instruction("PushLit", otherwise)])
        else:
            jump = "JumpFalse" if selector == "ifTrue:ifFalse:" else "JumpTrue"
        first, second = blocks
        return (
            self.code(send.receiver)
            + [Instruction(jump, len(first) + 1)]
            + first
            + [Instruction("Jump", len(second))]
            + second
        )

    def loop(self, jump, condition, body):
        """A turn of the loop drops the body's value; the loop itself is nil."""
        back = -(len(condition) + len(body) + 3)
        return (
            condition
            + [Instruction(jump, len(body) + 2)]
            + body
            + [Instruction("Pop"), Instruction("Jump", back), Instruction("PushLit", NIL)]
        )


def depths(code):
    """The number of operands before each instruction. That all ways to it agree is asserted and not answered: the code of a
    tree has no other."""
    found = [None] * (len(code) + 1)
    depth = 0
    for place, instruction in enumerate(code):
        assert found[place] in (None, depth), "two ways with different depths"
        found[place] = depth
        depth += change(instruction)
        if instruction.name in ("Jump", "JumpFalse", "JumpTrue"):
            target = place + 1 + instruction.operand
            assert found[target] in (None, depth), "a jump with another depth"
            found[target] = depth
        if instruction.name == "Jump" and found[place + 1] is not None:
            # What comes after a jump is reached by another one, whose depth it has.
            depth = found[place + 1]
    return found[:-1]


def change(instruction):
    """The change in the number of operands. An answer counts as leaving one."""
    if instruction.name in PUSHES:
        return 1
    if instruction.name in ("Pop", "JumpFalse", "JumpTrue"):
        return -1
    if instruction.name in ("Send", "SuperSend"):
        return -instruction.arguments
    return 0


def place_of(code, pc):
    """Where the send at a place of a code stands in the source; of a conditional jump, the send that gave what is tested. None where there
    is no send, or not the same one on all ways to the jump."""
    if code[pc].name not in JUMPS:
        return code[pc].start
    is_joined = any(it.name == "Jump" and place + 1 + it.operand == pc for place, it in enumerate(code))
    return None if is_joined else code[pc - 1].start


def compile_method(method, slots, classes):
    return Compiler(method, slots, classes).compile()
