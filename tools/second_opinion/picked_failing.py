"""Scripts picked by hand, for turns that failed."""


def failures(steps):
    """Turns of the same number, each of one step."""
    return ",".join(f'{{"actor":0,"fault":"notUnderstood","step":{it},"turn":{it}}}' for it in steps)


FAILING = {
    "a turn that failed is told as it was before the step": """
        class Price Object rate
        method Price of: amount ^amount * rate // 100
        actor Price
        faults 0
        > {"ok":{"faults":[],"from":0,"steps":0}}
        turn 0 of: 50
        > {"ok":{"fault":"badArgument"}}
        fault 0 1
        > {"ok":{"fault":"badArgument","frames":[{"class":"Price","holder":"Price","method":1,"offset":19,"receiver":{"local":0},\
"selector":"of:","slots":[null],"source":"of: amount ^amount * rate // 100","temps":[50]}],\
"send":{"args":[null],"class":"SmallInteger","receiver":50,"selector":"*","super":false},"step":4}}
        faults 3
        > {"ok":{"faults":[{"actor":0,"fault":"badArgument","step":4,"turn":1}],"from":3,"steps":4}}
        faults 4
        > {"ok":{"faults":[],"from":4,"steps":4}}
        method Price of: amount ^0
        fault 0 1
        > {"ok":{"fault":"badArgument","frames":[{"class":"Price","holder":"Price","method":1,"offset":19,"receiver":{"local":0},\
"selector":"of:","slots":[null],"source":"of: amount ^amount * rate // 100","temps":[50]}],\
"send":{"args":[null],"class":"SmallInteger","receiver":50,"selector":"*","super":false},"step":4}}
        checkpoint
        fault 0 0
        > {"ok":{"fault":"badArgument"}}
        faults 0
        > {"ok":{"faults":[],"from":4,"steps":4}}
    """,
    "the first message, a value that is tested, and a send to super": """
        class S Object
        class C S
        method C test ^self go: 3
        method C go: x ^x class isNil not ifTrue: [x ifFalse: [nil]]
        method C up: x | t | t := x. ^super up: t
        actor C
        turn 0 nobody: 1
        > {"ok":{"fault":"notUnderstood"}}
        fault 0 1
        > {"ok":{"fault":"notUnderstood","frames":[],"send":{"args":[1],"class":"C","receiver":{"local":0},"selector":"nobody:",\
"super":false},"step":1}}
        turn 0 test
        > {"ok":{"fault":"mustBeBoolean"}}
        fault 0 2
        > {"ok":{"fault":"mustBeBoolean","frames":[{"class":"C","holder":"C","method":2,"offset":11,"receiver":{"local":0},\
"selector":"test","slots":[],"source":"test ^self go: 3","temps":[]},{"class":"C","holder":"C","method":3,"offset":null,\
"receiver":{"local":0},"selector":"go:","slots":[],"source":"go: x ^x class isNil not ifTrue: [x ifFalse: [nil]]","temps":[3]}],\
"step":12,"value":3}}
        turn 0 up: true
        > {"ok":{"fault":"notUnderstood"}}
        fault 0 3
        > {"ok":{"fault":"notUnderstood","frames":[{"class":"C","holder":"C","method":4,"offset":27,"receiver":{"local":0},\
"selector":"up:","slots":[],"source":"up: x | t | t := x. ^super up: t","temps":[true,true]}],\
"send":{"args":[true],"class":"C","receiver":{"local":0},"selector":"up:","super":true},"step":19}}
        fault 0 4
        > {"error":"Pending"}
        fault 1 1
        > {"error":"UnknownActor"}
        faults 1
        > {"ok":{"faults":[{"actor":0,"fault":"mustBeBoolean","step":12,"turn":2},{"actor":0,"fault":"notUnderstood","step":19,"turn":3}],\
"from":1,"steps":19}}
    """,
    "the newest 64 are kept": "class C Object\nactor C\n"
    + "turn 0 nobody\n" * 66
    + f"""
        faults 1
        > {{"ok":{{"faults":[{failures(range(3, 67))}],"from":2,"steps":66}}}}
        faults 2
        > {{"ok":{{"faults":[{failures(range(3, 67))}],"from":2,"steps":66}}}}
        faults 64
        > {{"ok":{{"faults":[{failures((65, 66))}],"from":64,"steps":66}}}}
        fault 0 2
        > {{"error":"Expired"}}
        fault 0 3
        > {{"ok":{{"fault":"notUnderstood","frames":[],"send":{{"args":[],"class":"C","receiver":{{"local":0}},"selector":"nobody",\
"super":false}},"step":3}}}}
    """,
    "a turn that a checkpoint found ended has the number 0, and what fails behind it is kept": """
        class C Object
        actor C
        turn 0 nobody
        checkpoint
        turn 0 nobody
        > {"ok":{"fault":"notUnderstood"}}
        fault 0 0
        > {"ok":{"fault":"notUnderstood"}}
        fault 0 1
        > {"ok":{"fault":"notUnderstood","frames":[],"send":{"args":[],"class":"C","receiver":{"local":0},"selector":"nobody",\
"super":false},"step":2}}
        faults 0
        > {"ok":{"faults":[{"actor":0,"fault":"notUnderstood","step":2,"turn":1}],"from":1,"steps":2}}
    """,
    "the message that nobody understands is told, also where a method for doesNotUnderstand: fails": """
        class C Object
        method C doesNotUnderstand: s ^nil + s
        actor C
        turn 0 foo: 7
        > {"ok":{"fault":"notUnderstood"}}
        fault 0 1
        > {"ok":{"fault":"notUnderstood","frames":[{"class":"C","holder":"C","method":1,"offset":26,"receiver":{"local":0},\
"selector":"doesNotUnderstand:","slots":[],"source":"doesNotUnderstand: s ^nil + s","temps":[{"sym":"foo:"}]}],\
"send":{"args":[{"sym":"foo:"}],"class":"UndefinedObject","receiver":null,"selector":"+","super":false},"step":4}}
    """,
}
