"""Picked scripts of the objects that methods make."""

OBJECTS = {
    "a new object has its own instance variables, all nil": """
        class A Object count total
        class B A extra
        actor A
        method A count ^count
        method A count: x count := x
        method A total ^total
        method A total: x total := x
        method B extra ^extra
        method B extra: x extra := x
        method A make ^A new
        method A makeB ^B new
        method A keep count := B new. total := A new. ^count
        method A set count extra: 5. count count: total. total count: 6. total total: count. ^count extra
        method A look ^count count count
        method A far ^total total extra
        method A far: x total total extra: x. ^count extra
        method A nothing ^(B new extra isNil) & (B new count isNil) & (A new total isNil)
        method A itself ^B new count: 3
        method A swap: x | t | t := A new. t count: count. count := x. ^t count == count
        post 0 make
        run
        > {"ok":{"quanta":1,"steps":4}}
        outcome 0
        > {"ok":{"answer":{"local":1}}}
        turn 0 makeB
        > {"ok":{"answer":{"local":2}}}
        turn 0 nothing
        > {"ok":{"answer":true}}
        turn 0 keep
        > {"ok":{"answer":{"local":6}}}
        turn 0 set
        > {"ok":{"answer":5}}
        turn 0 look
        > {"ok":{"answer":6}}
        turn 0 far
        > {"ok":{"answer":5}}
        turn 0 far: {"ref":0}
        > {"ok":{"answer":{"ref":0}}}
        turn 0 itself
        > {"ok":{"answer":{"local":8}}}
        turn 0 swap: 3
        > {"ok":{"answer":false}}
        turn 0 total
        > {"ok":{"answer":{"local":7}}}
        turn 0 count
        > {"ok":{"answer":3}}
    """,
    "objects are of their class, and each is only itself": """
        class A Object
        class B A
        actor A
        actor B
        method A who ^1
        method B who ^super who + 10
        method A kind ^B new class
        method A plain ^Object new class
        method A none ^Object new
        method A is ^B new == B new
        method A same: x ^x == x
        method A same ^self same: B new
        method A equal ^self = self & (A new = self) not
        method A ask ^B new who
        method A chain ^B new class new class new who
        method A me ^A new me: self
        method A me: x ^x == self
        method A actor ^A new here == thisActor
        method A here ^thisActor
        method A asked ^A new missing
        method B doesNotUnderstand: s ^self
        method A told ^B new missing: A new
        method A nil ^A new isNil
        method A if ^A new ifTrue: [3]
        method A plus ^3 + A new
        turn 0 kind
        > {"ok":{"answer":{"class":"B"}}}
        turn 0 plain
        > {"ok":{"answer":{"class":"Object"}}}
        turn 0 none
        > {"ok":{"answer":{"local":3}}}
        turn 0 is
        > {"ok":{"answer":false}}
        turn 0 same
        > {"ok":{"answer":true}}
        turn 0 equal
        > {"ok":{"answer":true}}
        turn 0 ask
        > {"ok":{"answer":11}}
        turn 0 chain
        > {"ok":{"answer":11}}
        turn 0 me
        > {"ok":{"answer":false}}
        turn 0 actor
        > {"ok":{"answer":true}}
        turn 0 asked
        > {"ok":{"fault":"notUnderstood"}}
        turn 0 told
        > {"ok":{"answer":{"local":15}}}
        turn 0 nil
        > {"ok":{"answer":false}}
        turn 0 if
        > {"ok":{"fault":"mustBeBoolean"}}
        turn 0 plus
        > {"ok":{"fault":"badArgument"}}
        turn 1 none
        > {"ok":{"answer":{"local":1}}}
    """,
    "the kernel's classes but Object have no objects and no actors": """
        class A Object
        actor A
        method A new: x ^x new
        method A actor: x ^x newActor
        method Class one ^self new
        method A one: x ^x one
        turn 0 new: {"class":"Object"}
        > {"ok":{"answer":{"local":1}}}
        turn 0 new: {"class":"SmallInteger"}
        > {"ok":{"fault":"badArgument"}}
        turn 0 new: {"class":"True"}
        > {"ok":{"fault":"badArgument"}}
        turn 0 new: {"class":"False"}
        > {"ok":{"fault":"badArgument"}}
        turn 0 new: {"class":"UndefinedObject"}
        > {"ok":{"fault":"badArgument"}}
        turn 0 new: {"class":"Symbol"}
        > {"ok":{"fault":"badArgument"}}
        turn 0 new: {"class":"ActorRef"}
        > {"ok":{"fault":"badArgument"}}
        turn 0 new: {"class":"Class"}
        > {"ok":{"fault":"badArgument"}}
        turn 0 new: {"class":"A"}
        > {"ok":{"answer":{"local":2}}}
        turn 0 one: {"class":"A"}
        > {"ok":{"answer":{"local":3}}}
        turn 0 one: {"class":"Class"}
        > {"ok":{"fault":"badArgument"}}
        turn 0 new: 3
        > {"ok":{"fault":"notUnderstood"}}
        turn 0 actor: {"class":"SmallInteger"}
        > {"ok":{"fault":"badArgument"}}
        turn 0 actor: {"class":"True"}
        > {"ok":{"fault":"badArgument"}}
        turn 0 actor: {"class":"False"}
        > {"ok":{"fault":"badArgument"}}
        turn 0 actor: {"class":"UndefinedObject"}
        > {"ok":{"fault":"badArgument"}}
        turn 0 actor: {"class":"Symbol"}
        > {"ok":{"fault":"badArgument"}}
        turn 0 actor: {"class":"ActorRef"}
        > {"ok":{"fault":"badArgument"}}
        turn 0 actor: {"class":"Class"}
        > {"ok":{"fault":"badArgument"}}
        turn 0 actor: null
        > {"ok":{"fault":"notUnderstood"}}
        post 0 actor: {"class":"Object"}
        run
        > {"ok":{"quanta":2,"steps":4}}
        outcome 0
        > {"ok":{"answer":{"ref":1}}}
        turn 1 class
        > {"ok":{"answer":{"class":"Object"}}}
        actor A
        > {"ok":{"actor":2}}
    """,
    "new is looked up as any other message": """
        class A Object
        actor A
        method Object new ^6
        method A new ^7
        method SmallInteger new ^8
        method A a ^A new
        method A b ^3 new
        method A c ^self new
        method A d ^nil new
        method A e ^A new new
        turn 0 a
        > {"ok":{"answer":{"local":1}}}
        turn 0 b
        > {"ok":{"answer":8}}
        turn 0 c
        > {"ok":{"answer":7}}
        turn 0 d
        > {"ok":{"answer":6}}
        turn 0 e
        > {"ok":{"answer":7}}
        turn 0 new
        > {"ok":{"answer":7}}
        remove A new
        turn 0 new
        > {"ok":{"answer":6}}
        remove Object new
        turn 0 new
        > {"ok":{"fault":"notUnderstood"}}
        turn 0 a
        > {"ok":{"answer":{"local":3}}}
    """,
    "an actor has so many objects, and keeps them": """
        class Kid Object
        class A Object last
        method A fill [true] whileTrue: [Kid new]
        method A one ^1
        method A again ^Kid new
        method A bad ^Symbol new
        method A other ^Object new
        method A last [true] whileTrue: [last := Kid new]
        method A look ^last
        method A mark: n | i | i := 0. [i < n] whileTrue: [Kid new. i := i + 1]. ^Kid new
        actor A
        post 0 fill
        post 0 one
        run 24
        > {"ok":{"quanta":24,"steps":6143}}
        outcome 0 1
        > {"ok":{"fault":"heapFull"}}
        run
        > {"ok":{"quanta":1,"steps":3}}
        outcome 0 2
        > {"ok":{"answer":1}}
        turn 0 again
        > {"ok":{"fault":"heapFull"}}
        turn 0 other
        > {"ok":{"fault":"heapFull"}}
        turn 0 bad
        > {"ok":{"fault":"badArgument"}}
        actor A
        turn 1 again
        > {"ok":{"answer":{"local":1}}}
        turn 1 last
        > {"ok":{"fault":"heapFull"}}
        turn 1 look
        > {"ok":{"answer":{"local":1023}}}
        actor A
        turn 2 mark: 1022
        > {"ok":{"answer":{"local":1023}}}
        turn 2 again
        > {"ok":{"fault":"heapFull"}}
        actor A
        turn 3 mark: 1023
        > {"ok":{"fault":"heapFull"}}
    """,
    "what a turn made before its fault stays": """
        class A Object count
        actor A
        method A fall count := A new. A new. ^nil foo
        method A count ^count
        method A make ^A new
        turn 0 fall
        > {"ok":{"fault":"notUnderstood"}}
        turn 0 count
        > {"ok":{"answer":{"local":1}}}
        turn 0 make
        > {"ok":{"answer":{"local":3}}}
    """,
    "a method goes on in an object, below another's instance variables": """
        class A Object a b
        class B A c
        class C B d e
        class D Object x
        actor A
        method A a: p b: q a := p. b := q
        method B set c := a. a := b. b := c
        method C set super set. d := a - b. e := d * d. ^e
        method C all ^a * 10 + b * 10 + c * 10 + d * 10 + e
        method D x: v x := v
        method D x ^x
        method A go a := C new. a a: 3 b: 5. b := a set. ^a all
        method A both | d | d := D new. d x: self. (d x) a: 1 b: 2. ^d x == self
        method A a ^a
        method A cross | d c | d := D new. c := C new. d x: c. (d x) a: d b: 8. (d x) a x: 9. ^d x
        turn 0 go
        > {"ok":{"answer":53324}}
        turn 0 both
        > {"ok":{"answer":true}}
        turn 0 a
        > {"ok":{"answer":1}}
        turn 0 cross
        > {"ok":{"answer":9}}
    """,
}
