"""Picked scripts of messages to super, removes, and doesNotUnderstand:."""

CHAIN = """
class A Object
class B A
class C B
actor A
actor B
actor C
"""

SUPER = {
    "super goes on above the class that has the running method": CHAIN + """
        method A who ^1
        method B who ^super who + 10
        method C who ^super who + 100
        post 2 who
        run
        > {"ok":{"quanta":1,"steps":13}}
        outcome 2 1
        > {"ok":{"answer":111}}
        turn 1 who
        > {"ok":{"answer":11}}
        remove C who
        post 2 who
        run
        > {"ok":{"quanta":1,"steps":8}}
        outcome 2 2
        > {"ok":{"answer":11}}
        remove B who
        turn 2 who
        > {"ok":{"answer":1}}
        method B who ^super foo
        turn 2 who
        > {"ok":{"fault":"notUnderstood"}}
        method C foo ^3
        turn 2 who
        > {"ok":{"fault":"notUnderstood"}}
        method B foo ^4
        turn 2 who
        > {"ok":{"fault":"notUnderstood"}}
        method Object foo ^5
        turn 2 who
        > {"ok":{"answer":5}}
        method A foo ^6
        turn 2 who
        > {"ok":{"answer":6}}
    """,
    "in a method of Object nothing is found above": CHAIN + """
        method Object over ^super over
        method Object kind ^super class
        method Object same: x ^super = x
        post 0 over
        run
        > {"ok":{"quanta":1,"steps":3}}
        outcome 0 1
        > {"ok":{"fault":"notUnderstood"}}
        turn 0 kind
        > {"ok":{"fault":"notUnderstood"}}
        turn 0 same: 3
        > {"ok":{"fault":"notUnderstood"}}
        method A kind ^super kind
        turn 1 kind
        > {"ok":{"fault":"notUnderstood"}}
        method A doesNotUnderstand: s ^s
        turn 1 kind
        > {"ok":{"answer":{"sym":"class"}}}
        turn 1 same: 3
        > {"ok":{"answer":{"sym":"="}}}
        turn 2 over
        > {"ok":{"answer":{"sym":"over"}}}
    """,
    "what super does not find is looked up from the receiver's own class": CHAIN + """
        method A go ^super missing
        method B doesNotUnderstand: s ^s
        post 1 go
        run
        > {"ok":{"quanta":1,"steps":6}}
        outcome 1 1
        > {"ok":{"answer":{"sym":"missing"}}}
        turn 0 go
        > {"ok":{"fault":"notUnderstood"}}
        method C doesNotUnderstand: s ^super doesNotUnderstand: #more
        turn 2 go
        > {"ok":{"answer":{"sym":"more"}}}
        remove B doesNotUnderstand:
        turn 2 go
        > {"ok":{"fault":"notUnderstood"}}
        method A doesNotUnderstand: s ^7
        turn 2 go
        > {"ok":{"answer":7}}
        method C go ^(super go) + 1
        turn 2 go
        > {"ok":{"answer":8}}
        method C go: x ^super foo: x bar: x
        method C doesNotUnderstand: s ^s
        turn 2 go: 3
        > {"ok":{"answer":{"sym":"foo:bar:"}}}
    """,
    "super keeps the receiver and its arguments": """
        class A Object count
        class B A extra
        actor B
        method A me ^self
        method A count: x extra: y count := x. ^y
        method A = x ^8
        method B me ^super me
        method B count: x extra: y extra := super count: y extra: x. ^count
        method B extra ^extra
        method B = x ^super = x
        method B class ^super class
        method B is: x ^super == x
        method B two ^super two + super two
        method A two ^2
        method B ten ^super two foo: super two
        method B deep ^(super deep) + (super deep: (super deep: 3))
        method A deep ^4
        method A deep: x ^x * 10
        method B if ^super ifTrue: 3
        method A ifTrue: x ^x
        turn 0 me
        > {"ok":{"answer":{"local":0}}}
        turn 0 count:extra: 5 6
        > {"ok":{"answer":6}}
        turn 0 extra
        > {"ok":{"answer":5}}
        turn 0 = 3
        > {"ok":{"answer":8}}
        turn 0 class
        > {"ok":{"answer":{"class":"B"}}}
        turn 0 is: 3
        > {"ok":{"answer":false}}
        turn 0 two
        > {"ok":{"answer":4}}
        turn 0 ten
        > {"ok":{"fault":"notUnderstood"}}
        method SmallInteger foo: x ^self + x
        turn 0 ten
        > {"ok":{"answer":4}}
        turn 0 deep
        > {"ok":{"answer":304}}
        turn 0 if
        > {"ok":{"answer":3}}
    """,
    "super in the methods of kernel classes": CHAIN + """
        method SmallInteger foo ^super foo
        method SmallInteger bar ^super + 1
        method SmallInteger kind ^super class
        method Symbol foo ^super foo
        method Class foo ^super foo
        method Class made ^super new
        method ActorRef foo ^super post: #foo
        method True & x ^super & x
        method False what ^super & true
        method A do: x ^x foo
        method A kind ^3 kind
        method A bar ^3 bar
        method A made ^A made
        method A what ^false what
        turn 0 do: 3
        turn 0 kind
        > {"ok":{"answer":{"class":"SmallInteger"}}}
        turn 0 bar
        > {"ok":{"fault":"notUnderstood"}}
        turn 0 do: {"sym":"a"}
        > {"ok":{"fault":"notUnderstood"}}
        turn 0 made
        > {"ok":{"fault":"notUnderstood"}}
        turn 0 what
        > {"ok":{"fault":"notUnderstood"}}
        method Object foo ^self
        method Object new ^6
        method Object & x ^x
        turn 0 do: 3
        > {"ok":{"answer":3}}
        turn 0 do: {"class":"A"}
        > {"ok":{"answer":{"class":"A"}}}
        turn 0 made
        > {"ok":{"answer":6}}
        turn 0 what
        > {"ok":{"answer":true}}
        turn 0 do: {"ref":0}
        > {"ok":{"fault":"notUnderstood"}}
        method Object post: x ^x
        turn 0 do: {"ref":0}
        > {"ok":{"answer":{"sym":"foo"}}}
    """,
    "super is no argument, and gets no cascade": CHAIN + """
        method A a ^self foo: super
        > {"error":"BadSource","kind":"BadToken","offset":13}
        method A a ^super
        > {"error":"BadSource","kind":"BadToken","offset":3}
        method A a ^super foo; bar
        > {"error":"BadSource","kind":"BadToken","offset":3}
        method A a ^super foo bar; baz
        > {"ok":{"version":4}}
        method A a ^super ifTrue: [3]
        > {"error":"BadSource","kind":"BlockEscapes","offset":17}
        method A a super := 3
        > {"error":"BadSource","kind":"ReadOnly","offset":2}
        method A a ^super zork: zork
        > {"error":"BadSource","kind":"UnknownName","offset":15}
        method A super ^3
        turn 0 super
        > {"ok":{"answer":3}}
    """,
}

REMOVES = {
    "a method is removed, and is missing then": """
        class A Object
        > {"ok":{"version":1}}
        actor A
        method A go ^self missing
        > {"ok":{"version":2}}
        post 0 go
        run
        > {"ok":{"quanta":1,"steps":3}}
        outcome 0 1
        > {"ok":{"fault":"notUnderstood"}}
        method Object missing ^7
        > {"ok":{"version":3}}
        post 0 go
        run
        > {"ok":{"quanta":1,"steps":6}}
        outcome 0 2
        > {"ok":{"answer":7}}
        remove Object missing
        > {"ok":{"version":4}}
        turn 0 go
        > {"ok":{"fault":"notUnderstood"}}
        remove Object missing
        > {"error":"NoSuchMethod"}
        method A doesNotUnderstand: s ^s
        > {"ok":{"version":5}}
        post 0 go
        run
        > {"ok":{"quanta":1,"steps":6}}
        outcome 0 4
        > {"ok":{"answer":{"sym":"missing"}}}
        remove A doesNotUnderstand:
        > {"ok":{"version":6}}
        turn 0 go
        > {"ok":{"fault":"notUnderstood"}}
        method Object missing ^8
        > {"ok":{"version":7}}
        turn 0 go
        > {"ok":{"answer":8}}
    """,
    "what no remove takes": """
        class A Object
        class B A
        actor B
        method A foo ^1
        > {"ok":{"version":3}}
        remove Nowhere foo
        > {"error":"UnknownClass"}
        remove Nowhere a:b
        > {"error":"UnknownClass"}
        remove Nowhere ==
        > {"error":"UnknownClass"}
        remove A a:b
        > {"error":"BadName"}
        remove Object a:b
        > {"error":"BadName"}
        remove A a_b
        > {"error":"BadName"}
        remove A 3
        > {"error":"BadName"}
        remove A +-
        > {"error":"BadName"}
        remove A +++
        > {"error":"BadName"}
        remove A @
        > {"error":"BadName"}
        remove A :a
        > {"error":"BadName"}
        remove A a::
        > {"error":"BadName"}
        remove A -+
        > {"error":"NoSuchMethod"}
        remove A -
        > {"error":"NoSuchMethod"}
        remove A a:b:c:d:e:f:g:h:
        > {"error":"NoSuchMethod"}
        remove A a:b:c:d:e:f:g:h:i:
        > {"error":"BadName"}
        remove A LONG
        > {"error":"NoSuchMethod"}
        remove A LONGa
        > {"error":"BadName"}
        remove A a:LONG:
        > {"error":"NoSuchMethod"}
        remove A a:LONGa:
        > {"error":"BadName"}
        remove A neverSeen
        > {"error":"NoSuchMethod"}
        remove B foo
        > {"error":"NoSuchMethod"}
        remove Object foo
        > {"error":"NoSuchMethod"}
        remove A ==
        > {"error":"NoSuchMethod"}
        remove SmallInteger ==
        > {"error":"NoSuchMethod"}
        remove Object ==
        > {"error":"KernelMethod"}
        remove Object doesNotUnderstand:
        > {"error":"KernelMethod"}
        remove A doesNotUnderstand:
        > {"error":"NoSuchMethod"}
        remove SmallInteger \\\\
        > {"error":"KernelMethod"}
        remove True not
        > {"error":"KernelMethod"}
        remove False &
        > {"error":"KernelMethod"}
        remove UndefinedObject isNil
        > {"error":"NoSuchMethod"}
        remove ActorRef post:
        > {"error":"KernelMethod"}
        remove ActorRef post:with:
        > {"error":"KernelMethod"}
        remove ActorRef post:with:with:
        > {"error":"KernelMethod"}
        remove ActorRef post:with:with:with:
        > {"error":"NoSuchMethod"}
        remove Class new
        > {"error":"KernelMethod"}
        remove Class newActor
        > {"error":"KernelMethod"}
        remove Symbol new
        > {"error":"NoSuchMethod"}
        turn 0 foo
        > {"ok":{"answer":1}}
        method A == x ^5
        > {"ok":{"version":4}}
        turn 0 == 1
        > {"ok":{"answer":5}}
        remove A ==
        > {"ok":{"version":5}}
        turn 0 == 1
        > {"ok":{"answer":false}}
        class D A
        > {"ok":{"version":6}}
    """,
    "the kernel's own methods of actors and classes stay": CHAIN + """
        method ActorRef post: x ^x
        > {"error":"KernelMethod"}
        method ActorRef post: x with: y ^zork
        > {"error":"KernelMethod"}
        method ActorRef post: x with: y with: z ^x
        > {"error":"KernelMethod"}
        method Class new ^3
        > {"error":"KernelMethod"}
        method Class newActor ^3
        > {"error":"KernelMethod"}
        method ActorRef new ^thisActor
        > {"ok":{"version":4}}
        method Class post: x ^x
        > {"ok":{"version":5}}
        method A post: x ^x
        > {"ok":{"version":6}}
        turn 0 post: 4
        > {"ok":{"answer":4}}
    """,
    "what a removed method hid is found again": CHAIN + """
        method Object foo ^1
        method A foo ^2
        method B foo ^3
        turn 2 foo
        > {"ok":{"answer":3}}
        remove B foo
        turn 2 foo
        > {"ok":{"answer":2}}
        remove A foo
        turn 2 foo
        > {"ok":{"answer":1}}
        method C foo ^super foo + 4
        turn 2 foo
        > {"ok":{"answer":5}}
        remove Object foo
        turn 2 foo
        > {"ok":{"fault":"notUnderstood"}}
        remove C foo
        turn 2 foo
        > {"ok":{"fault":"notUnderstood"}}
        method B foo ^6
        turn 2 foo
        > {"ok":{"answer":6}}
    """,
}

# With a quantum of one step.
WHILE_RUNNING = {
    "a removed method runs to its end": CHAIN + """
        method A tag ^1
        method A go | i | i := 0. [i < 3] whileTrue: [i := i + self tag]. ^i
        post 0 go
        run 10
        remove A go
        post 0 go
        run 9
        run
        outcome 0 1
        > {"ok":{"answer":3}}
        outcome 0 2
        > {"ok":{"fault":"notUnderstood"}}
        method A go | i | i := 0. [i < 3] whileTrue: [i := i + self tag]. ^i
        post 0 go
        run 10
        remove A tag
        run
        outcome 0 3
        > {"ok":{"fault":"notUnderstood"}}
        method Object tag ^2
        turn 0 go
        > {"ok":{"answer":4}}
    """,
    "a removed method's super is still above its class": CHAIN + """
        method A who ^1
        method B who ^super who + 10
        method B wait ^self class == B ifTrue: [super who] ifFalse: [self who]
        method C wait ^super wait + 100
        post 2 wait
        post 1 wait
        run 7
        remove B wait
        remove C wait
        remove B who
        run
        outcome 1 1
        > {"ok":{"answer":1}}
        outcome 2 1
        > {"ok":{"answer":101}}
        post 1 wait
        run
        outcome 1 2
        > {"ok":{"fault":"notUnderstood"}}
    """,
    "a removed doesNotUnderstand: runs to its end": CHAIN + """
        method A doesNotUnderstand: s ^self class == A ifTrue: [s] ifFalse: [self later]
        post 0 missing
        run 3
        remove A doesNotUnderstand:
        run
        outcome 0 1
        > {"ok":{"answer":{"sym":"missing"}}}
        method A doesNotUnderstand: s ^self class == A ifTrue: [s] ifFalse: [self later]
        post 1 missing
        run 3
        remove A doesNotUnderstand:
        run
        outcome 1 1
        > {"ok":{"fault":"notUnderstood"}}
    """,
}

MISSING = {
    "the first message of a turn may be missing": CHAIN + """
        method B doesNotUnderstand: s ^s
        post 0 missing
        run
        > {"ok":{"quanta":1,"steps":1}}
        outcome 0 1
        > {"ok":{"fault":"notUnderstood"}}
        post 1 missing
        run
        > {"ok":{"quanta":1,"steps":3}}
        outcome 1 1
        > {"ok":{"answer":{"sym":"missing"}}}
        turn 2 at:put: 3 4
        > {"ok":{"answer":{"sym":"at:put:"}}}
        turn 2 + 3
        > {"ok":{"answer":{"sym":"+"}}}
        turn 2 new
        > {"ok":{"answer":{"sym":"new"}}}
        turn 2 newActor
        > {"ok":{"answer":{"sym":"newActor"}}}
        turn 2 post: {"sym":"a"}
        > {"ok":{"answer":{"sym":"post:"}}}
        turn 2 doesNotUnderstand: 5
        > {"ok":{"answer":5}}
        turn 0 doesNotUnderstand: 5
        > {"ok":{"fault":"notUnderstood"}}
        turn 2 isNil
        > {"ok":{"answer":false}}
    """,
    "doesNotUnderstand: of all kinds of values": CHAIN + """
        method A ask: x ^x missing: 3 at: 4
        method SmallInteger doesNotUnderstand: s ^self
        method True doesNotUnderstand: s ^1
        method False doesNotUnderstand: s ^2
        method UndefinedObject doesNotUnderstand: s ^s
        method Symbol doesNotUnderstand: s ^self == s
        method Class doesNotUnderstand: s ^self
        method ActorRef doesNotUnderstand: s ^self class
        turn 0 ask: 8
        > {"ok":{"answer":8}}
        turn 0 ask: true
        > {"ok":{"answer":1}}
        turn 0 ask: false
        > {"ok":{"answer":2}}
        turn 0 ask: null
        > {"ok":{"answer":{"sym":"missing:at:"}}}
        turn 0 ask: {"sym":"missing:at:"}
        > {"ok":{"answer":true}}
        turn 0 ask: {"class":"B"}
        > {"ok":{"answer":{"class":"B"}}}
        turn 0 ask: {"ref":2}
        > {"ok":{"answer":{"class":"ActorRef"}}}
        method A up ^self class missing
        turn 1 up
        > {"ok":{"answer":{"class":"B"}}}
        remove Class doesNotUnderstand:
        turn 1 up
        > {"ok":{"fault":"notUnderstood"}}
    """,
    "doesNotUnderstand: as any other message": CHAIN + """
        method A go ^self doesNotUnderstand: 3
        method A go: x ^x doesNotUnderstand: self
        turn 0 go
        > {"ok":{"fault":"notUnderstood"}}
        method A doesNotUnderstand: s ^s class
        turn 0 go
        > {"ok":{"answer":{"class":"SmallInteger"}}}
        turn 0 missing
        > {"ok":{"answer":{"class":"Symbol"}}}
        turn 0 go: 3
        > {"ok":{"fault":"notUnderstood"}}
        method A doesNotUnderstand: s ^s foo
        turn 0 missing
        > {"ok":{"fault":"notUnderstood"}}
        method A doesNotUnderstand: s ^self nextMissing
        post 0 missing
        run
        > {"ok":{"quanta":2,"steps":257}}
        outcome 0
        > {"ok":{"fault":"stackOverflow"}}
        method A down: n ^n = 0 ifTrue: [self missing] ifFalse: [self down: n - 1]
        method A doesNotUnderstand: s ^s
        turn 0 down: 126
        > {"ok":{"answer":{"sym":"missing"}}}
        turn 0 down: 127
        > {"ok":{"fault":"stackOverflow"}}
        remove A doesNotUnderstand:
        turn 0 down: 127
        > {"ok":{"fault":"notUnderstood"}}
    """,
}
