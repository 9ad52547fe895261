"""Picked scripts of the actors that methods make, and of posts from inside a turn."""

PAIR = """
class Kid Object
class A Object kept
actor A
actor Kid
"""

MAKING = {
    "an actor makes another, and posts to it": """
        class A Object
        class Kid Object
        method A make ^Kid newActor
        method A ask: r ^r post: #tick
        method Kid tick ^7
        method A bad ^thisActor post: #foo: with: self
        actor A
        post 0 make
        run
        > {"ok":{"quanta":2,"steps":4}}
        outcome 0
        > {"ok":{"answer":{"ref":1}}}
        post 0 ask: {"ref":1}
        run
        > {"ok":{"quanta":3,"steps":8}}
        outcome 0
        > {"ok":{"answer":true}}
        outcome 1 1
        > {"ok":{"answer":7}}
        post 0 bad
        run
        > {"ok":{"quanta":1,"steps":5}}
        outcome 0
        > {"ok":{"fault":"localArgument"}}
    """,
    "a new actor is the last, at rest, and of its class": """
        class Kid Object toy
        class Boy Kid
        class A Object kept
        method A kid kept := Kid newActor. ^kept
        method A boy ^Boy newActor
        method A two kept := Boy newActor. ^Kid newActor
        method A kept ^kept
        method A ask ^kept post: #toy: with: 5
        method A class: x ^x newActor == thisActor
        method Kid toy ^toy
        method Kid toy: x toy := x. ^self class
        method Kid me ^thisActor
        actor A
        post 1 toy
        > {"error":"UnknownActor"}
        outcome 1 1
        > {"error":"UnknownActor"}
        post 0 class: {"ref":1}
        > {"error":"BadArguments"}
        turn 0 kid
        > {"ok":{"answer":{"ref":1}}}
        outcome 1 1
        > {"error":"Pending"}
        run
        > {"ok":{"quanta":0,"steps":0}}
        post 2 toy
        > {"error":"UnknownActor"}
        turn 0 class: {"ref":1}
        > {"ok":{"fault":"notUnderstood"}}
        turn 1 toy
        > {"ok":{"answer":null}}
        turn 1 me
        > {"ok":{"answer":{"ref":1}}}
        turn 0 ask
        > {"ok":{"answer":true}}
        turn 1 toy
        > {"ok":{"answer":5}}
        turn 0 boy
        > {"ok":{"answer":{"ref":2}}}
        turn 2 toy: 3
        > {"ok":{"answer":{"class":"Boy"}}}
        turn 1 toy: 4
        > {"ok":{"answer":{"class":"Kid"}}}
        turn 2 toy
        > {"ok":{"answer":3}}
        actor Kid
        > {"ok":{"actor":3}}
        turn 0 two
        > {"ok":{"answer":{"ref":5}}}
        turn 0 kept
        > {"ok":{"answer":{"ref":4}}}
        turn 4 toy: 5
        > {"ok":{"answer":{"class":"Boy"}}}
        turn 0 class: {"class":"A"}
        > {"ok":{"answer":false}}
        turn 6 kept
        > {"ok":{"answer":null}}
        turn 6 kid
        > {"ok":{"answer":{"ref":7}}}
        post 8 toy
        > {"error":"UnknownActor"}
    """,
    "what is an outer step is known by the receiver's class and the selector": """
        class A Object
        actor A
        method Class make ^super newActor
        method Object newActor ^5
        method SmallInteger post: x ^x
        method A post: x with: y ^y
        method Class post: x ^x
        method ActorRef newActor ^8
        method ActorRef post: x with: y with: z with: v ^v
        method ActorRef other ^super newActor
        method ActorRef again: s ^self post: s
        method Class again ^self newActor
        method A a ^A make
        method A b ^3 newActor
        method A c ^3 post: 4
        method A d ^self post: 4 with: 5
        method A e ^A post: 6
        method A f ^thisActor newActor
        method A g ^thisActor post: 1 with: 2 with: 3 with: 4
        method A h ^thisActor other
        method A i ^thisActor again: #one
        method A j ^A again
        method A one ^1
        method A k ^A newActor; newActor; new
        method A l ^nil newActor; newActor
        post 0 a
        run
        > {"ok":{"quanta":1,"steps":9}}
        outcome 0
        > {"ok":{"answer":5}}
        post 0 b
        run
        > {"ok":{"quanta":1,"steps":6}}
        outcome 0
        > {"ok":{"answer":5}}
        post 0 c
        run
        > {"ok":{"quanta":1,"steps":7}}
        outcome 0
        > {"ok":{"answer":4}}
        post 0 d
        run
        > {"ok":{"quanta":1,"steps":8}}
        outcome 0
        > {"ok":{"answer":5}}
        post 0 e
        run
        > {"ok":{"quanta":1,"steps":7}}
        outcome 0
        > {"ok":{"answer":6}}
        post 0 f
        run
        > {"ok":{"quanta":1,"steps":6}}
        outcome 0
        > {"ok":{"answer":8}}
        post 0 g
        run
        > {"ok":{"quanta":1,"steps":10}}
        outcome 0
        > {"ok":{"answer":4}}
        post 0 h
        run
        > {"ok":{"quanta":1,"steps":9}}
        outcome 0
        > {"ok":{"answer":5}}
        post 0 i
        run
        > {"ok":{"quanta":3,"steps":12}}
        outcome 0 9
        > {"ok":{"answer":true}}
        outcome 0 10
        > {"ok":{"answer":1}}
        post 0 j
        run
        > {"ok":{"quanta":2,"steps":7}}
        outcome 0
        > {"ok":{"answer":{"ref":1}}}
        post 0 k
        run
        > {"ok":{"quanta":3,"steps":10}}
        outcome 0
        > {"ok":{"answer":{"local":1}}}
        turn 0 l
        > {"ok":{"answer":5}}
        actor A
        > {"ok":{"actor":4}}
    """,
    "neither a new actor nor a post changes whose turn it is": PAIR + """
        method A make Kid newActor. ^1
        method A ask: r r post: #one. ^3
        method Kid one ^2
        method Kid spin [true] whileTrue: [nil]
        actor Kid
        post 0 make
        post 1 one
        run 2
        > {"ok":{"quanta":2,"steps":6}}
        outcome 1
        > {"ok":{"answer":2}}
        outcome 0
        > {"error":"Pending"}
        run
        > {"ok":{"quanta":1,"steps":3}}
        outcome 0
        > {"ok":{"answer":1}}
        turn 2 one
        post 0 ask: {"ref":2}
        post 1 one
        run 2
        > {"ok":{"quanta":2,"steps":7}}
        outcome 1
        > {"ok":{"answer":2}}
        outcome 2
        > {"error":"Pending"}
        run 1
        outcome 2
        > {"ok":{"answer":2}}
        outcome 0
        > {"error":"Pending"}
        run 1
        outcome 0
        > {"ok":{"answer":3}}
        post 1 spin
        post 0 make
        run 1
        > {"ok":{"quanta":1,"steps":256}}
        run 1
        > {"ok":{"quanta":1,"steps":3}}
        actor Kid
        run 1
        > {"ok":{"quanta":1,"steps":256}}
        run 2
        > {"ok":{"quanta":2,"steps":259}}
        outcome 0
        > {"ok":{"answer":1}}
    """,
    "new actors in a loop": PAIR + """
        method A many: n | i | i := 0. [i < n] whileTrue: [kept := Kid newActor. kept post: #tick: with: i. i := i + 1]. ^kept
        method Kid tick: i ^thisActor == self or: [i * i]
        post 0 many: 9
        run 1
        run 1
        run
        outcome 0
        > {"ok":{"answer":{"ref":10}}}
        outcome 2
        > {"ok":{"answer":0}}
        outcome 10
        > {"ok":{"answer":64}}
    """,
}

POSTING = {
    "what a post is refused for": PAIR + """
        method A a: x ^thisActor post: x
        method A a: x b: y ^thisActor post: x with: y
        method A a: x b: y c: z ^thisActor post: x with: y with: z
        method A c: x ^x post: #foo
        method A a ^thisActor post: self
        method A b ^thisActor post: self with: self
        method A c ^thisActor post: #foo with: self
        method A d ^thisActor post: #foo: with: self
        method A e ^thisActor post: #foo:bar: with: 1 with: self
        method A f ^thisActor post: #foo:bar: with: self with: 1
        method A g ^thisActor post: #foo: with: self with: self
        method A h ^thisActor post: #+ with: A new
        method A i ^thisActor post: #foo: with: (A new == 3)
        method A j ^thisActor post: 3 with: self
        method A k ^thisActor post: #a:b:c: with: 1 with: 2
        turn 0 a: 3
        > {"ok":{"fault":"badArgument"}}
        turn 0 a: null
        > {"ok":{"fault":"badArgument"}}
        turn 0 a: {"class":"A"}
        > {"ok":{"fault":"badArgument"}}
        turn 0 a: {"ref":0}
        > {"ok":{"fault":"badArgument"}}
        turn 0 a: {"sym":"foo:"}
        > {"ok":{"fault":"badArgument"}}
        turn 0 a: {"sym":"+"}
        > {"ok":{"fault":"badArgument"}}
        turn 0 a: {"sym":"foo"}
        > {"ok":{"answer":true}}
        turn 0 a:b: {"sym":"foo"} 3
        > {"ok":{"fault":"badArgument"}}
        turn 0 a:b: {"sym":"foo:bar:"} 3
        > {"ok":{"fault":"badArgument"}}
        turn 0 a:b: {"sym":"=>"} 3
        > {"ok":{"answer":true}}
        turn 0 a:b: {"sym":"foo:"} 3
        > {"ok":{"answer":true}}
        turn 0 a:b:c: {"sym":"foo:"} 3 4
        > {"ok":{"fault":"badArgument"}}
        turn 0 a:b:c: {"sym":"+"} 3 4
        > {"ok":{"fault":"badArgument"}}
        turn 0 a:b:c: {"sym":"foo:bar:"} 3 4
        > {"ok":{"answer":true}}
        turn 0 c: null
        > {"ok":{"fault":"notUnderstood"}}
        turn 0 c: {"class":"A"}
        > {"ok":{"fault":"notUnderstood"}}
        turn 0 a
        > {"ok":{"fault":"badArgument"}}
        turn 0 b
        > {"ok":{"fault":"badArgument"}}
        turn 0 c
        > {"ok":{"fault":"badArgument"}}
        turn 0 d
        > {"ok":{"fault":"localArgument"}}
        turn 0 e
        > {"ok":{"fault":"localArgument"}}
        turn 0 f
        > {"ok":{"fault":"localArgument"}}
        turn 0 g
        > {"ok":{"fault":"badArgument"}}
        turn 0 h
        > {"ok":{"fault":"localArgument"}}
        turn 0 i
        > {"ok":{"answer":true}}
        turn 0 j
        > {"ok":{"fault":"badArgument"}}
        turn 0 k
        > {"ok":{"fault":"badArgument"}}
        turn 0 a: {"local":0}
        > {"error":"BadCommand"}
        turn 1 nothing
    """,
    "what a client's post is refused for": PAIR + """
        method A foo: x ^x
        post 0 a:b 1
        > {"error":"BadName"}
        post 9 a:b {"class":"Nowhere"}
        > {"error":"BadName"}
        post 9 foo: {"sym":"a:b"}
        > {"error":"BadName"}
        post 9 foo: {"class":"Nowhere"}
        > {"error":"UnknownClass"}
        post 9 foo:bar: {"class":"Nowhere"} {"sym":"a:b"}
        > {"error":"UnknownClass"}
        post 9 foo:bar: {"sym":"a:b"} {"class":"Nowhere"}
        > {"error":"BadName"}
        post 9 foo: 3 4
        > {"error":"UnknownActor"}
        post 0 foo: 3 4
        > {"error":"BadArguments"}
        post 0 foo:
        > {"error":"BadArguments"}
        post 0 foo: {"ref":2}
        > {"error":"BadArguments"}
        turn 0 foo: {"ref":1}
        > {"ok":{"answer":{"ref":1}}}
    """,
    "posts keep their order and their arguments": PAIR + """
        method A go: r r post: #kept: with: 1. r post: #kept: with: #a. r post: #less:from: with: 3 with: 5. ^r post: #kept
        method A self kept := 8. thisActor post: #kept. kept := 9. ^thisActor post: #kept
        method A kept ^kept
        method A kept: x kept := x
        method A less: x from: y kept := y - x. ^kept
        method A values: r r post: #kept: with: A. r post: #kept. r post: #kept: with: thisActor. r post: #kept
        actor A
        post 2 kept: 7
        > {"ok":{"turn":1}}
        post 0 go: {"ref":2}
        run 1
        post 2 kept
        > {"ok":{"turn":3}}
        run
        outcome 0 1
        > {"ok":{"answer":true}}
        outcome 2 1
        > {"ok":{"answer":{"local":0}}}
        outcome 2 3
        > {"ok":{"answer":1}}
        outcome 2 5
        > {"ok":{"answer":2}}
        outcome 2 6
        > {"ok":{"answer":2}}
        outcome 2 7
        > {"error":"Pending"}
        turn 0 self
        > {"ok":{"answer":true}}
        outcome 0 3
        > {"ok":{"answer":9}}
        outcome 0 4
        > {"ok":{"answer":9}}
        turn 0 kept: 3
        outcome 0 6
        > {"error":"Pending"}
        turn 0 values: {"ref":2}
        outcome 2 8
        > {"ok":{"answer":{"class":"A"}}}
        outcome 2 10
        > {"ok":{"answer":{"ref":0}}}
    """,
    "a posted message may be missing, or a kernel's method": PAIR + """
        method A ask: s ^kept post: s
        method A ask: s with: x ^kept post: s with: x
        method A set kept := Kid newActor
        turn 0 set
        turn 0 ask: {"sym":"neverSeen"}
        > {"ok":{"answer":true}}
        outcome 2 1
        > {"ok":{"fault":"notUnderstood"}}
        turn 0 ask: {"sym":"class"}
        outcome 2 2
        > {"ok":{"answer":{"class":"Kid"}}}
        turn 0 ask: {"sym":"newActor"}
        outcome 2 3
        > {"ok":{"fault":"notUnderstood"}}
        turn 0 ask:with: {"sym":"="} 3
        outcome 2 4
        > {"ok":{"answer":false}}
        method Kid doesNotUnderstand: s ^s
        turn 0 ask:with: {"sym":"post:"} 3
        outcome 2 5
        > {"ok":{"answer":{"sym":"post:"}}}
        turn 0 ask:with: {"sym":"doesNotUnderstand:"} 3
        outcome 2 6
        > {"ok":{"answer":3}}
        remove Kid doesNotUnderstand:
        turn 0 ask: {"sym":"neverSeen"}
        outcome 2 7
        > {"ok":{"fault":"notUnderstood"}}
    """,
    "objects post, and the mailbox is their actor's": PAIR + """
        method A go ^A new post
        method A post ^thisActor post: #one: with: 3
        method A one: x ^self
        method A away ^A new away: (Kid newActor)
        method A away: r kept := r. ^kept post: #class
        turn 0 go
        > {"ok":{"answer":true}}
        outcome 0 2
        > {"ok":{"answer":{"local":0}}}
        turn 0 away
        > {"ok":{"answer":true}}
        outcome 2 1
        > {"ok":{"answer":{"class":"Kid"}}}
    """,
    "a fault after a post leaves the message where it is": PAIR + """
        method A go: r r post: #seven. kept := 3. thisActor post: #kept. ^nil foo
        method A kept ^kept
        method Kid seven ^7
        turn 0 go: {"ref":1}
        > {"ok":{"fault":"notUnderstood"}}
        outcome 1 1
        > {"ok":{"answer":7}}
        outcome 0 2
        > {"ok":{"answer":3}}
    """,
}

# With mailboxes of one message.
FULL = {
    "a full mailbox takes no message": PAIR + """
        method A two: r ^(r post: #m) = (r post: #m)
        method A first: r ^r post: #m
        method A second: r kept := r post: #m. ^r post: #m
        method A self kept := thisActor post: #kept. ^thisActor post: #kept
        method A kept ^kept
        method A made | r | r := Kid newActor. kept := r post: #m. ^r post: #m
        method A grown | r | r := Kid newActor. r post: #slow. kept := r post: #m. ^r post: #m
        method A more: r ^(r post: #m with: 3)
        method A bad: r ^(r post: #m: with: self)
        method A last: r ^(r post: 3)
        method Kid m ^8
        method Kid slow | i | i := 0. [i < 300] whileTrue: [i := i + 1]. ^i
        turn 0 first: {"ref":1}
        > {"ok":{"answer":true}}
        turn 0 self
        > {"ok":{"answer":false}}
        outcome 0 3
        > {"ok":{"answer":true}}
        turn 1 m
        > {"ok":{"answer":8}}
        post 1 m
        > {"ok":{"turn":3}}
        post 1 m
        > {"error":"Full"}
        post 0 first: {"ref":1}
        run
        outcome 0
        > {"ok":{"answer":false}}
        outcome 1 3
        > {"ok":{"answer":8}}
        outcome 1 4
        > {"error":"Pending"}
        post 1 slow
        > {"ok":{"turn":4}}
        run 1
        turn 0 second: {"ref":1}
        > {"ok":{"answer":false}}
        turn 0 kept
        > {"ok":{"answer":true}}
        outcome 1 4
        > {"ok":{"answer":300}}
        outcome 1 5
        > {"ok":{"answer":8}}
        post 1 slow
        run 1
        post 1 m
        turn 0 more: {"ref":1}
        > {"ok":{"fault":"badArgument"}}
        post 1 slow
        run 1
        post 1 m
        turn 0 bad: {"ref":1}
        > {"ok":{"fault":"localArgument"}}
        post 1 slow
        run 1
        post 1 m
        turn 0 last: {"ref":1}
        > {"ok":{"fault":"badArgument"}}
        turn 0 made
        turn 0 kept
        > {"ok":{"answer":true}}
        turn 0 two: {"ref":1}
        turn 0 grown
        > {"ok":{"answer":false}}
        turn 0 kept
        > {"ok":{"answer":true}}
    """,
}

# With quanta of one, two, three and so on steps.
CUT = PAIR + """
    method A make kept := Kid newActor. ^kept
    method A ask kept post: #tick: with: kept. ^kept post: #tick: with: 3
    method A bad ^thisActor post: self
    method A none ^Class newActor
    method A deep: n ^n = 0 ifTrue: [self both: n] ifFalse: [self deep: n - 1]
    method A both: n ^(Kid newActor post: #tick: with: n) & (kept post: #tick: with: 4)
    method Kid tick: x ^x
    method Kid spin [true] whileTrue: [nil]
    post 0 make
    run
    outcome 0
    > {"ok":{"answer":{"ref":2}}}
    post 1 spin
    post 0 ask
    run 1
    run 2
    run 3
    run 20
    outcome 0
    outcome 2
    post 0 bad
    run 40
    outcome 0
    > {"ok":{"fault":"badArgument"}}
    post 0 none
    run 40
    outcome 0
    > {"ok":{"fault":"badArgument"}}
    post 0 deep: 3
    run 3
    run 90
    outcome 0
    outcome 3
"""

QUANTA = {
    1: """
    class A Object
    class Kid Object
    method A make ^Kid newActor
    actor A
    post 0 make
    run
    > {"ok":{"quanta":3,"steps":4}}
    outcome 0
    > {"ok":{"answer":{"ref":1}}}
    """,
    2: """
    class A Object
    class Kid Object
    method A make ^Kid newActor
    method A bad ^Class newActor
    actor A
    post 0 make
    run 1
    > {"ok":{"quanta":1,"steps":3}}
    run
    > {"ok":{"quanta":1,"steps":1}}
    post 0 bad
    run
    > {"ok":{"quanta":1,"steps":3}}
    outcome 0
    > {"ok":{"fault":"badArgument"}}
    """,
    3: """
    class A Object
    class Kid Object
    method A make ^Kid newActor
    method A go | i | i := 3. thisActor post: #make. ^i
    actor A
    post 0 make
    run 1
    > {"ok":{"quanta":1,"steps":3}}
    run
    > {"ok":{"quanta":1,"steps":1}}
    post 0 go
    run 3
    > {"ok":{"quanta":3,"steps":10}}
    outcome 0 2
    > {"ok":{"answer":3}}
    """,
    5: """
    class A Object
    method A a | i | i := 0. [true] whileTrue: [i := i + 1]
    method A b: r r post: #c. ^r post: #d
    method A c ^3
    method A d ^4
    actor A
    actor A
    actor A
    post 0 a
    post 1 b: {"ref":2}
    run 5
    > {"ok":{"quanta":5,"steps":21}}
    outcome 2 1
    > {"ok":{"answer":3}}
    outcome 1 1
    > {"error":"Pending"}
    """,
}

# 65,536 actors, with mailboxes of one message.
MANY = """
    class A Object
    method A fill [true] whileTrue: [A newActor]
    method A bad ^Symbol newActor
    method A one ^1
    method A ask: r ^r post: #one
    method A more ^A newActor
    actor A
    actor A
    actor A
    post 0 fill
    run 65534
    > {"ok":{"quanta":65534,"steps":393203}}
    outcome 0 1
    > {"ok":{"fault":"tooManyActors"}}
    actor A
    > {"error":"TooMany","what":"actors"}
    turn 65535 one
    > {"ok":{"answer":1}}
    post 65536 one
    > {"error":"UnknownActor"}
    post 0 ask: {"ref":65536}
    > {"error":"BadArguments"}
    turn 0 ask: {"ref":65535}
    > {"ok":{"answer":true}}
    turn 1 bad
    > {"ok":{"fault":"badArgument"}}
    turn 65535 more
    > {"ok":{"fault":"tooManyActors"}}
"""
