"""Picked scripts of the commands that look."""

CHAIN = """
class A Object a b
class B A c
class C B
"""

# The classes of the kernel as they are listed, with so many more methods of Object and of SmallInteger.
KERNEL = (
    '{"methods":%d,"name":"Object","slots":[],"super":null},{"methods":%d,"name":"SmallInteger","slots":[],"super":"Object"},'
    '{"methods":2,"name":"True","slots":[],"super":"Object"},{"methods":2,"name":"False","slots":[],"super":"Object"},'
    '{"methods":0,"name":"UndefinedObject","slots":[],"super":"Object"},{"methods":0,"name":"Symbol","slots":[],"super":"Object"},'
    '{"methods":4,"name":"ActorRef","slots":[],"super":"Object"},{"methods":2,"name":"Class","slots":[],"super":"Object"}'
)

OF_OBJECT = (
    '{"kernel":true,"selector":"=="},{"kernel":true,"selector":"="},{"kernel":true,"selector":"class"},'
    '{"kernel":true,"selector":"isNil"},{"kernel":true,"selector":"doesNotUnderstand:"}'
)

LOOKING = {
    "classes are listed by their numbers, with what each has of its own": f"""
        look classes
        > {{"ok":{{"classes":[{KERNEL % (5, 9)}]}}}}
        class A Object a b
        class B A c
        class Z B
        method B foo ^1
        method B foo ^2
        method B bar ^2
        method Object foo ^3
        method SmallInteger == x ^true
        remove B bar
        move Z A
        > {{"error":"SlotsDiffer"}}
        look classes
        > {{"ok":{{"classes":[{KERNEL % (6, 10)},\
{{"methods":0,"name":"A","slots":["a","b"],"super":"Object"}},{{"methods":1,"name":"B","slots":["c"],"super":"A"}},\
{{"methods":0,"name":"Z","slots":[],"super":"B"}}]}}}}
        class D B
        move Z D
        > {{"ok":{{"version":11}}}}
        look classes
        > {{"ok":{{"classes":[{KERNEL % (6, 10)},\
{{"methods":0,"name":"A","slots":["a","b"],"super":"Object"}},{{"methods":1,"name":"B","slots":["c"],"super":"A"}},\
{{"methods":0,"name":"Z","slots":[],"super":"D"}},{{"methods":0,"name":"D","slots":[],"super":"B"}}]}}}}
    """,
    "methods are listed by the numbers of their selectors, the class's own and the kernel's": CHAIN + f"""
        look methods Object
        > {{"ok":{{"methods":[{OF_OBJECT}]}}}}
        look methods Symbol
        > {{"ok":{{"methods":[]}}}}
        look methods Class
        > {{"ok":{{"methods":[{{"kernel":true,"selector":"new"}},{{"kernel":true,"selector":"newActor"}}]}}}}
        method A zoo ^self foo: 1 bar: #baz
        > {{"ok":{{"version":4}}}}
        method A baz ^1
        > {{"ok":{{"version":5}}}}
        method A foo: x bar: y ^1
        > {{"ok":{{"version":6}}}}
        method A == x ^1
        > {{"ok":{{"version":7}}}}
        method A zoo ^2
        > {{"ok":{{"version":8}}}}
        look methods A
        > {{"ok":{{"methods":[{{"selector":"==","version":7}},{{"selector":"zoo","version":8}},\
{{"selector":"baz","version":5}},{{"selector":"foo:bar:","version":6}}]}}}}
        look methods B
        > {{"ok":{{"methods":[]}}}}
        method Object baz ^1
        look methods Object
        > {{"ok":{{"methods":[{OF_OBJECT},{{"selector":"baz","version":9}}]}}}}
        remove A foo:bar:
        remove A ==
        method A == x ^2
        look methods A
        > {{"ok":{{"methods":[{{"selector":"==","version":12}},{{"selector":"zoo","version":8}},{{"selector":"baz","version":5}}]}}}}
        look methods Nowhere
        > {{"error":"UnknownClass"}}
    """,
    "the source is that of the method which would run, with the class that holds it": CHAIN + """
        look source C who
        > {"error":"NoSuchMethod"}
        method A who ^1
        look source C who
        > {"ok":{"class":"A","source":"who ^1","version":4}}
        method B who  "two"  ^2
        look source C who
        > {"ok":{"class":"B","source":"who  \\"two\\"  ^2","version":5}}
        look source A who
        > {"ok":{"class":"A","source":"who ^1","version":4}}
        method A who ^3
        look source A who
        > {"ok":{"class":"A","source":"who ^3","version":6}}
        look source C who
        > {"ok":{"class":"B","source":"who  \\"two\\"  ^2","version":5}}
        remove B who
        look source C who
        > {"ok":{"class":"A","source":"who ^3","version":6}}
        look source B who
        > {"ok":{"class":"A","source":"who ^3","version":6}}
        remove A who
        look source C who
        > {"error":"NoSuchMethod"}
        method B who ^4
        look source C who
        > {"ok":{"class":"B","source":"who ^4","version":9}}
        look source A who
        > {"error":"NoSuchMethod"}
        class D A c
        class E D
        method D who ^5
        look source E who
        > {"ok":{"class":"D","source":"who ^5","version":12}}
        class F B
        move C F
        look source C who
        > {"ok":{"class":"B","source":"who ^4","version":9}}
        method F who ^6
        look source C who
        > {"ok":{"class":"F","source":"who ^6","version":15}}
        move C B
        look source C who
        > {"ok":{"class":"B","source":"who ^4","version":9}}
    """,
    "the kernel's methods have no source": CHAIN + """
        look source C ==
        > {"ok":{"class":"Object","kernel":true}}
        look source True not
        > {"ok":{"class":"True","kernel":true}}
        look source SmallInteger \\\\
        > {"ok":{"class":"SmallInteger","kernel":true}}
        look source ActorRef close
        > {"ok":{"class":"ActorRef","kernel":true}}
        look source C close
        > {"error":"NoSuchMethod"}
        look source C doesNotUnderstand:
        > {"ok":{"class":"Object","kernel":true}}
        method A doesNotUnderstand: s ^s
        look source C doesNotUnderstand:
        > {"ok":{"class":"A","source":"doesNotUnderstand: s ^s","version":4}}
        look source C gone
        > {"error":"NoSuchMethod"}
        look source Object doesNotUnderstand:
        > {"ok":{"class":"Object","kernel":true}}
        look versions Object ==
        > {"ok":{"versions":[]}}
        look implementors ==
        > {"ok":{"classes":["Object"]}}
        method C == x ^true
        method SmallInteger == x ^true
        look implementors ==
        > {"ok":{"classes":["Object","SmallInteger","C"]}}
        look implementors not
        > {"ok":{"classes":["True","False"]}}
        look source C ==
        > {"ok":{"class":"C","source":"== x ^true","version":5}}
    """,
    "versions are the installs and the removals at one class and one selector": CHAIN + """
        look versions A foo
        > {"ok":{"versions":[]}}
        method A foo ^1
        method B foo ^2
        method A bar ^3
        method A foo ^1
        remove A foo
        > {"ok":{"version":8}}
        remove A foo
        > {"error":"NoSuchMethod"}
        look versions A foo
        > {"ok":{"versions":[{"source":"foo ^1","version":4},{"source":"foo ^1","version":7},{"removed":true,"version":8}]}}
        method A foo ^zork
        > {"error":"BadSource","kind":"UnknownName","offset":5}
        method A foo ^4
        look versions A foo
        > {"ok":{"versions":[{"source":"foo ^1","version":4},{"source":"foo ^1","version":7},{"removed":true,"version":8},\
{"source":"foo ^4","version":9}]}}
        look versions B foo
        > {"ok":{"versions":[{"source":"foo ^2","version":5}]}}
        look versions C foo
        > {"ok":{"versions":[]}}
        look versions C neverSeen
        > {"ok":{"versions":[]}}
    """,
    "implementors have a method of their own": CHAIN + """
        method C foo ^1
        method A foo ^1
        method B bar ^self foo
        look implementors foo
        > {"ok":{"classes":["A","C"]}}
        remove C foo
        look implementors foo
        > {"ok":{"classes":["A"]}}
        look implementors neverSeen
        > {"ok":{"classes":[]}}
        look implementors neverSeen
        > {"ok":{"classes":[]}}
        remove A foo
        look implementors foo
        > {"ok":{"classes":[]}}
    """,
    "senders are installed methods that send, to super too, in the order of their installs": CHAIN + """
        method C foo ^super foo
        method A go ^self foo
        method B go ^self foo; foo; bar
        method B mention ^#foo
        method A foo ^1
        method A pick: x ^x ifTrue: [self foo] ifFalse: [2]
        look senders foo
        > {"ok":{"methods":[{"class":"C","selector":"foo"},{"class":"A","selector":"go"},{"class":"B","selector":"go"},\
{"class":"A","selector":"pick:"}]}}
        look senders ifTrue:ifFalse:
        > {"ok":{"methods":[]}}
        method A loose: x ^x ifTrue: 1 ifFalse: 2
        look senders ifTrue:ifFalse:
        > {"ok":{"methods":[{"class":"A","selector":"loose:"}]}}
        method A go ^self foo + 1
        look senders foo
        > {"ok":{"methods":[{"class":"C","selector":"foo"},{"class":"B","selector":"go"},{"class":"A","selector":"pick:"},\
{"class":"A","selector":"go"}]}}
        method A pick: x ^x
        remove C foo
        look senders foo
        > {"ok":{"methods":[{"class":"B","selector":"go"},{"class":"A","selector":"go"}]}}
        look senders bar
        > {"ok":{"methods":[{"class":"B","selector":"go"}]}}
        look senders +
        > {"ok":{"methods":[{"class":"A","selector":"go"}]}}
        method C foo ^super foo
        look senders foo
        > {"ok":{"methods":[{"class":"B","selector":"go"},{"class":"A","selector":"go"},{"class":"C","selector":"foo"}]}}
        look senders neverSeen
        > {"ok":{"methods":[]}}
    """,
    "the class is asked before the selector, and a text that is no selector before whether somebody has it": CHAIN + """
        look source Nowhere a:b
        > {"error":"UnknownClass"}
        look source A a:b
        > {"error":"BadName"}
        look source A neverSeen
        > {"error":"NoSuchMethod"}
        look versions Nowhere a:b
        > {"error":"UnknownClass"}
        look versions A a:b
        > {"error":"BadName"}
        look implementors a:b
        > {"error":"BadName"}
        look senders +-
        > {"error":"BadName"}
        look senders a:b:c:d:e:f:g:h:i:
        > {"error":"BadName"}
        look senders a:b:c:d:e:f:g:h:
        > {"ok":{"methods":[]}}
        look methods a
        > {"error":"UnknownClass"}
    """,
    "a question brings no name": """
        class A Object
        look implementors last
        > {"ok":{"classes":[]}}
        look senders last
        > {"ok":{"methods":[]}}
        look source A last
        > {"error":"NoSuchMethod"}
        look versions A last
        > {"ok":{"versions":[]}}
        method A first ^1
        method A last ^1
        look methods A
        > {"ok":{"methods":[{"selector":"first","version":2},{"selector":"last","version":3}]}}
        actor A
        post 0 fourth
        > {"ok":{"turn":1}}
        post 0 third: {"sym":"fifth"} {"class":"Nowhere"} {"sym":"sixth"}
        > {"error":"UnknownClass"}
        method A sixth ^1
        method A fifth ^1
        method A third: x ^1
        method A fourth ^1
        look methods A
        > {"ok":{"methods":[{"selector":"first","version":2},{"selector":"last","version":3},{"selector":"fourth","version":7},\
{"selector":"third:","version":6},{"selector":"fifth","version":5},{"selector":"sixth","version":4}]}}
    """,
}


def row(number, class_name, counts, phase, running="null", is_open="true"):
    """The text of an actor; `counts` are how many messages it accepted and began."""
    accepted, begun = counts.split()
    counted = f'"accepted":{accepted},"actor":{number},"begun":{begun}'
    return f'{{{counted},"class":"{class_name}","open":{is_open},"phase":{phase},"running":{running}}}'


def rows(count, *told):
    return f'> {{"ok":{{"actors":[{",".join(told)}],"count":{count}}}}}'


def runs(class_name, selector):
    return f'{{"class":"{class_name}","selector":"{selector}"}}'


FRESH, FRAMES, MISSING = '"fresh"', '"frames"', '{"fault":"notUnderstood"}'

LOOKING["actors show how their last turns ended, and whether their mailboxes are open"] = f"""
    look actors 0 4096
    {rows(0)}
    class A Object n
    class B A
    method A hold n := B new. ^n
    method A it: x ^x
    method A make ^B newActor
    method A shut ^thisActor close
    method A none ^n foo
    actor A
    actor B
    look actors 0 4096
    {rows(2, row(0, "A", "0 0", FRESH), row(1, "B", "0 0", FRESH))}
    turn 0 hold
    look actors 0 1
    {rows(2, row(0, "A", "1 1", '{"answer":{"local":1}}'))}
    turn 0 it: {{"sym":"at:put:"}}
    look actors 0 1
    {rows(2, row(0, "A", "2 2", '{"answer":{"sym":"at:put:"}}'))}
    turn 0 it: {{"class":"B"}}
    look actors 0 1
    {rows(2, row(0, "A", "3 3", '{"answer":{"class":"B"}}'))}
    turn 0 it: null
    look actors 0 1
    {rows(2, row(0, "A", "4 4", '{"answer":null}'))}
    turn 0 none
    look actors 0 1
    {rows(2, row(0, "A", "5 5", MISSING))}
    turn 0 make
    look actors 0 4096
    {rows(3, row(0, "A", "6 6", '{"answer":{"ref":2}}'), row(1, "B", "0 0", FRESH), row(2, "B", "0 0", FRESH))}
    look actors 1 1
    {rows(3, row(1, "B", "0 0", FRESH))}
    look actors 2 1
    {rows(3, row(2, "B", "0 0", FRESH))}
    look actors 3 1
    {rows(3)}
    look actors 4294967295 4096
    {rows(3)}
    post 1 it: -5
    close 1
    > {{"ok":{{}}}}
    close 3
    > {{"error":"UnknownActor"}}
    look actors 1 2
    {rows(3, row(1, "B", "1 0", FRESH, is_open="false"), row(2, "B", "0 0", FRESH))}
    post 1 it: 6
    > {{"error":"Closed"}}
    turn 0 shut
    > {{"ok":{{"answer":true}}}}
    look actors 0 2
    {rows(3, row(0, "A", "7 7", '{"answer":true}', is_open="false"), row(1, "B", "1 1", '{"answer":-5}', is_open="false"))}
"""

LOOKING["messages of actors count as those of clients do, once they are accepted"] = f"""
    class A Object
    method A tell: x ^x post: #one
    method A one ^1
    actor A
    actor A
    post 0 tell: {{"ref":1}}
    run 1
    look actors 0 2
    {rows(2, row(0, "A", "1 1", FRAMES, runs("A", "tell:")), row(1, "A", "1 0", FRESH))}
    run
    look actors 0 2
    {rows(2, row(0, "A", "1 1", '{"answer":true}'), row(1, "A", "1 1", '{"answer":1}'))}
    close 1
    turn 0 tell: {{"ref":1}}
    > {{"ok":{{"answer":false}}}}
    look actors 1 1
    {rows(2, row(1, "A", "1 1", '{"answer":1}', is_open="false"))}
"""

# No script sees the phase `start`: the quantum that begins a message takes its first step too. A file may have it, and a session of a
# server may come between a worker's beginning and its steps. A script that counts beyond the most may have it too, but not from 0.
WHILE_RUNNING = {
    "the method of the last frame runs, with the class that had it when it was called": f"""
        class A Object
        class B A
        method A go: x ^self who + x
        method A who ^1
        method B who ^super who
        actor B
        post 0 go: 1
        post 0 who
        look actors 0 1
        {rows(1, row(0, "B", "2 0", FRESH))}
        run 1
        look actors 0 1
        {rows(1, row(0, "B", "2 1", FRAMES, runs("A", "go:")))}
        run 2
        look actors 0 1
        {rows(1, row(0, "B", "2 1", FRAMES, runs("B", "who")))}
        remove B who
        look actors 0 1
        {rows(1, row(0, "B", "2 1", FRAMES, runs("B", "who")))}
        method A who ^2
        run 2
        look actors 0 1
        {rows(1, row(0, "B", "2 1", FRAMES, runs("A", "who")))}
        run 2
        look actors 0 1
        {rows(1, row(0, "B", "2 1", FRAMES, runs("B", "who")))}
        run 1
        look actors 0 1
        {rows(1, row(0, "B", "2 1", FRAMES, runs("A", "go:")))}
        run 3
        look actors 0 1
        {rows(1, row(0, "B", "2 1", '{"answer":3}'))}
        run
        look actors 0 1
        {rows(1, row(0, "B", "2 2", '{"answer":2}'))}
        method A doesNotUnderstand: s ^s
        post 0 gone
        run 1
        look actors 0 1
        {rows(1, row(0, "B", "3 3", FRAMES, runs("A", "doesNotUnderstand:")))}
        run
        look actors 0 1
        {rows(1, row(0, "B", "3 3", '{"answer":{"sym":"gone"}}'))}
        post 0 isNil
        run 1
        look actors 0 1
        {rows(1, row(0, "B", "4 4", '{"answer":false}'))}
    """,
    "behind a checkpoint messages are counted as turns are, and what stands there stays": f"""
        class A Object
        method A one ^1
        method A bad ^nil foo
        actor A
        actor A
        post 0 one
        post 0 one
        post 0 bad
        post 1 bad
        look actors 0 2
        {rows(2, row(0, "A", "3 0", FRESH), row(1, "A", "1 0", FRESH))}
        checkpoint
        > {{"ok":{{"posts":4,"steps":0}}}}
        look actors 0 2
        {rows(2, row(0, "A", "3 0", FRESH), row(1, "A", "1 0", FRESH))}
        run 3
        look actors 0 2
        {rows(2, row(0, "A", "3 1", FRAMES, runs("A", "one")), row(1, "A", "1 1", FRAMES, runs("A", "bad")))}
        checkpoint
        > {{"ok":{{"posts":4,"steps":3}}}}
        look actors 0 2
        {rows(2, row(0, "A", "2 0", FRAMES, runs("A", "one")), row(1, "A", "0 0", FRAMES, runs("A", "bad")))}
        run
        > {{"ok":{{"quanta":9,"steps":9}}}}
        look actors 0 2
        {rows(2, row(0, "A", "2 2", MISSING), row(1, "A", "0 0", MISSING))}
        outcome 0 0
        > {{"ok":{{"answer":1}}}}
        post 0 one
        > {{"ok":{{"turn":3}}}}
        look actors 0 1
        {rows(2, row(0, "A", "3 2", MISSING))}
        checkpoint
        > {{"ok":{{"posts":5,"steps":12}}}}
        look actors 0 2
        {rows(2, row(0, "A", "1 0", MISSING), row(1, "A", "0 0", MISSING))}
        run
        look actors 0 1
        {rows(2, row(0, "A", "1 1", '{"answer":1}'))}
    """,
}
