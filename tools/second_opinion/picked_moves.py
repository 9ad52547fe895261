"""Picked scripts of classes that get another superclass."""

TWO = """
class A Object
class B Object
class C A
actor C
"""

MOVES = {
    "what is found along the new chain": TWO + """
        method A who ^1
        method B who ^2
        method C go ^self who
        method C up ^super who
        turn 0 go
        > {"ok":{"answer":1}}
        turn 0 up
        > {"ok":{"answer":1}}
        move C B
        > {"ok":{"version":8}}
        turn 0 go
        > {"ok":{"answer":2}}
        turn 0 up
        > {"ok":{"answer":2}}
        move C Object
        > {"ok":{"version":9}}
        turn 0 go
        > {"ok":{"fault":"notUnderstood"}}
        turn 0 up
        > {"ok":{"fault":"notUnderstood"}}
        method Object who ^3
        turn 0 up
        > {"ok":{"answer":3}}
        method C who ^4
        turn 0 go
        > {"ok":{"answer":4}}
        turn 0 up
        > {"ok":{"answer":3}}
        move C A
        > {"ok":{"version":12}}
        turn 0 up
        > {"ok":{"answer":1}}
    """,
    "a class takes those below it along": TWO + """
        class D C
        actor D
        method A who ^1
        method B who ^2
        method B doesNotUnderstand: s ^s
        turn 1 who
        > {"ok":{"answer":1}}
        turn 1 missing
        > {"ok":{"fault":"notUnderstood"}}
        move C B
        turn 1 who
        > {"ok":{"answer":2}}
        turn 1 missing
        > {"ok":{"answer":{"sym":"missing"}}}
        move D A
        turn 1 who
        > {"ok":{"answer":1}}
        turn 0 who
        > {"ok":{"answer":2}}
        turn 1 missing
        > {"ok":{"fault":"notUnderstood"}}
    """,
    "instance variables stay": """
        class A Object a
        class B A
        class D A
        class C B c
        actor C
        method A put: x a := x. ^self tell
        method B tell ^a + 1
        method D tell ^a + 2
        method C both: x c := x. self put: x * 10. ^c
        method C c ^c
        turn 0 put: 3
        > {"ok":{"answer":4}}
        turn 0 both: 5
        > {"ok":{"answer":5}}
        move C D
        turn 0 c
        > {"ok":{"answer":5}}
        turn 0 tell
        > {"ok":{"answer":52}}
        turn 0 put: 3
        > {"ok":{"answer":5}}
    """,
    "what no class is put under": """
        class A Object a
        class B A
        class C B c
        class D Object
        move Nowhere Gone
        > {"error":"UnknownClass"}
        move Object Gone
        > {"error":"UnknownClass"}
        move Object A
        > {"error":"KernelClass"}
        move Symbol Object
        > {"error":"KernelClass"}
        move A True
        > {"error":"KernelClass"}
        move A A
        > {"error":"Cycle"}
        move A C
        > {"error":"Cycle"}
        move C D
        > {"error":"SlotsDiffer"}
        move B Object
        > {"error":"SlotsDiffer"}
        move D A
        > {"error":"SlotsDiffer"}
        move D Object
        > {"ok":{"version":5}}
        move C A
        > {"ok":{"version":6}}
        move B C
        > {"error":"SlotsDiffer"}
    """,
    "the classes below count where one is moved": "\n".join(
        ["class A0 Object", "class B0 Object"]
        + [f"class A{number} A{number - 1}" for number in range(1, 40)]
        + [f"class B{number} B{number - 1}" for number in range(1, 24)]
        + ["move B0 A39", '> {"error":"TooDeep"}', "move B0 A38", '> {"ok":{"version":65}}']
        + ["move A0 B23", '> {"error":"Cycle"}', "move B1 A39", '> {"ok":{"version":66}}']
    ),
}

# With quanta of one step.
WHILE_RUNNING = {
    "a turn finds what its class has come to be under": TWO + """
        method A tag ^1
        method B tag ^2
        method C go | i s | i := 0. s := 0. [i < 3] whileTrue: [s := s * 10 + self tag. i := i + 1]. ^s
        post 0 go
        run 27
        move C B
        run
        outcome 0 1
        > {"ok":{"answer":122}}
    """,
    "an activation keeps its method, and super looks where the class is now": TWO + """
        method A who ^1
        method B who ^2
        method A go ^self class == C ifTrue: [self who]
        method C go ^super go + super who
        post 0 go
        run 3
        move C B
        run
        outcome 0 1
        > {"ok":{"answer":4}}
    """,
}
