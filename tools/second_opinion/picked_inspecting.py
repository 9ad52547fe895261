"""Picked scripts of the command that shows an actor as image files have it."""

FRESH = '"fresh"'
A, B = '{"class":"A","slots":[null]}', '{"class":"B","slots":[5,{"local":1}]}'


def shown(phase, turn, objects=(A,), pending=(), class_name="A", capacity=64, last=0, is_open="true"):
    """The reply; the phase, the objects and the messages are texts."""
    body = f'{{"objects":[{",".join(objects)}],"phase":{phase}}}'
    rest = f'"capacity":{capacity},"class":"{class_name}","last":{last},"open":{is_open},"pending":[{",".join(pending)}],"turn":{turn}'
    return f'> {{"ok":{{"body":{body},{rest}}}}}'


def message(selector, sender, seq, *args):
    return f'{{"args":[{",".join(args)}],"selector":"{selector}","sender":{sender},"seq":{seq}}}'


def frames(*told):
    return f'{{"frames":[{",".join(told)}]}}'


def frame(method, pc, operands="", temps="", receiver='{"local":0}'):
    return f'{{"method":{method},"operands":[{operands}],"pc":{pc},"receiver":{receiver},"temps":[{temps}]}}'


def holding(number):
    return f'{{"class":"A","slots":[{number}]}}'


WAITS = message("add:to:", 65535, 9, "3", "null")
CALLS = frames(frame(1, 8, "1,4", "4,2,4"), frame(2, 3, "", "2"), frame(3, 3, "", "2"), frame(4, 1, "2", "2", receiver="2"))

INSPECTING = {
    "an actor shows what waits, where its turn stands, and its objects": f"""
        look inspect 0
        > {{"error":"UnknownActor"}}
        class A Object n
        method A add: x to: y | z | z := x. ^1 + (z + (self sum: y))
        method A sum: y ^super sum: y
        method Object sum: y ^y same: y
        method SmallInteger same: y ^y
        actor A
        look inspect 0
        {shown(FRESH, "null")}
        send 7 3 0 add:to: 4 2
        send 65535 9 0 add:to: 3 null
        look inspect 0
        {shown(FRESH, "null", pending=(message("add:to:", 7, 3, "4", "2"), WAITS))}
        run 16
        look inspect 0
        {shown(CALLS, 1, pending=(WAITS,))}
        method A sum: y ^y
        remove Object sum:
        look inspect 0
        {shown(CALLS, 1, pending=(WAITS,))}
        run 6
        look inspect 0
        {shown('{"answer":7}', 1, pending=(WAITS,))}
        run
        look inspect 0
        {shown('{"fault":"badArgument"}', 2)}
        look inspect 1
        > {{"error":"UnknownActor"}}
    """,
    "an actor shows its objects, what it posted, and which turn stands in it behind checkpoints": f"""
        class A Object n
        class B A m
        method B make n := 5. m := A new. thisActor post: #tell: with: m isNil. ^m
        method A tell: x ^thisActor post: #tell:
        actor B
        actor A
        look inspect 1
        {shown(FRESH, "null")}
        checkpoint
        look inspect 1
        {shown(FRESH, "null")}
        post 0 make
        post 1 isNil
        run 15
        look inspect 0
        {shown(
            frames(frame(2, 14, '{"local":1}')),
            1,
            objects=(B, A),
            pending=(message("tell:", '{"ref":0}', 1, "false"),),
            class_name="B",
            last=1,
        )}
        checkpoint
        look inspect 0
        {shown(
            frames(frame(2, 14, '{"local":1}')),
            0,
            objects=(B, A),
            pending=(message("tell:", '{"ref":0}', 1, "false"),),
            class_name="B",
            last=1,
        )}
        look inspect 1
        {shown('{"answer":false}', 0)}
        close 0
        run
        look inspect 0
        {shown('{"fault":"badArgument"}', 1, objects=(B, A), class_name="B", last=1, is_open="false")}
        checkpoint
        look inspect 0
        {shown('{"fault":"badArgument"}', 0, objects=(B, A), class_name="B", last=1, is_open="false")}
    """,
    "an actor shows its objects as they are, and a number for each message of its own that was taken": f"""
        class A Object n
        method A set: x n := x. n := n + 1. ^n
        method A tell: x ^x post: #isNil
        actor A
        actor A
        post 0 set: 1
        run 4
        look inspect 0
        {shown(frames(frame(1, 3, "", "1")), 1, objects=(holding(1),))}
        run
        look inspect 0
        {shown('{"answer":2}', 1, objects=(holding(2),))}
        post 0 set: 10
        run 4
        look inspect 0
        {shown(frames(frame(1, 3, "", "10")), 2, objects=(holding(10),))}
        send 3 5 0 set: 7
        close 0
        look inspect 0
        {shown(frames(frame(1, 3, "", "10")), 2, objects=(holding(10),), pending=(message("set:", 3, 5, "7"),), is_open="false")}
        post 1 tell: {{"ref":0}}
        run
        look inspect 1
        {shown('{"answer":false}', 1)}
        post 1 tell: {{"ref":1}}
        run
        look inspect 1
        {shown('{"answer":false}', 3, last=1)}
    """,
}
