"""Picked scripts of mailboxes that close, of the numbers that senders give, and of the outcomes that are kept."""

PAIR = """
class Kid Object
class A Object kept
actor A
actor Kid
"""

CLOSING = {
    "an actor closes its own mailbox": """
        class A Object
        actor A
        method A shut ^thisActor close
        post 0 shut
        post 0 shut
        run
        > {"ok":{"quanta":4,"steps":8}}
        outcome 0 1
        > {"ok":{"answer":true}}
        outcome 0 2
        > {"ok":{"answer":false}}
        post 0 shut
        > {"error":"Closed"}
    """,
    "what is pending at the close still runs": """
        class A Object
        actor A
        method A one ^1
        post 0 one
        post 0 one
        close 0
        > {"ok":{}}
        post 0 one
        > {"error":"Closed"}
        close 0
        > {"error":"Closed"}
        run
        > {"ok":{"quanta":2,"steps":6}}
        outcome 0 1
        > {"ok":{"answer":1}}
        outcome 0 2
        > {"ok":{"answer":1}}
        outcome 0 3
        > {"error":"Pending"}
        close 0
        > {"error":"Closed"}
        close 1
        > {"error":"UnknownActor"}
        post 0 none
        > {"error":"Closed"}
        post 0 one 3
        > {"error":"BadArguments"}
        post 1 one
        > {"error":"UnknownActor"}
    """,
    "an actor closes another, and posts to it": PAIR + """
        method A shut: r ^r close
        method A ask: r ^r post: #seven
        method A both: r | a | a := r post: #seven. r close. kept := r post: #seven. ^a == kept
        method A kept ^kept
        method Kid seven ^7
        turn 0 ask: {"ref":1}
        > {"ok":{"answer":true}}
        post 0 shut: {"ref":1}
        run
        > {"ok":{"quanta":2,"steps":4}}
        outcome 0
        > {"ok":{"answer":true}}
        turn 0 shut: {"ref":1}
        > {"ok":{"answer":false}}
        turn 0 ask: {"ref":1}
        > {"ok":{"answer":false}}
        outcome 1 2
        > {"error":"Pending"}
        close 1
        > {"error":"Closed"}
        post 1 seven
        > {"error":"Closed"}
        actor Kid
        turn 0 both: {"ref":2}
        > {"ok":{"answer":false}}
        turn 0 kept
        > {"ok":{"answer":false}}
        outcome 2 1
        > {"ok":{"answer":7}}
        post 2 seven
        > {"error":"Closed"}
    """,
    "a new actor is open, though its maker is closed": PAIR + """
        method A make ^Kid newActor
        method Kid one ^1
        post 0 make
        close 0
        > {"ok":{}}
        run
        post 2 one
        > {"ok":{"turn":1}}
        actor A
        > {"ok":{"actor":3}}
        post 3 make
        > {"ok":{"turn":1}}
    """,
    "close is the kernel's in ActorRef alone": PAIR + """
        method ActorRef close ^3
        > {"error":"KernelMethod"}
        remove ActorRef close
        > {"error":"KernelMethod"}
        method A close ^5
        method SmallInteger close ^6
        method A a ^self close
        method A b ^4 close
        method A c ^A close
        method A d ^thisActor close class
        turn 0 a
        > {"ok":{"answer":5}}
        turn 0 b
        > {"ok":{"answer":6}}
        turn 0 c
        > {"ok":{"fault":"notUnderstood"}}
        turn 0 d
        > {"ok":{"answer":{"class":"True"}}}
        post 0 d
        > {"error":"Closed"}
    """,
    "close beside a cascade and in a loop": PAIR + """
        method A a: r ^r close; close; post: #one
        method A b | i | i := 0. [thisActor close] whileFalse: [i := i + 1. i < 9 ifFalse: [^i]]. ^i
        turn 0 a: {"ref":1}
        > {"ok":{"answer":false}}
        turn 0 b
        > {"ok":{"answer":0}}
        post 0 b
        > {"error":"Closed"}
    """,
}

NUMBERS = {
    "the numbers of a client rise": PAIR + """
        method A one ^1
        method Kid one ^1
        send 1 5 0 one
        > {"ok":{"turn":1}}
        send 1 5 0 one
        > {"error":"Old","last":5}
        send 1 4 0 one
        > {"error":"Old","last":5}
        send 1 0 0 one
        > {"error":"Old","last":5}
        send 1 9 0 one
        > {"ok":{"turn":2}}
        send 1 8 1 one
        > {"error":"Old","last":9}
        send 1 10 1 one
        > {"ok":{"turn":1}}
        send 2 0 0 one
        > {"error":"Old","last":0}
        send 2 1 0 one
        > {"ok":{"turn":3}}
        send 1 10 0 one
        > {"error":"Old","last":10}
        send 65535 18446744073709551615 0 one
        > {"ok":{"turn":4}}
        send 65535 18446744073709551615 0 one
        > {"error":"Old","last":18446744073709551615}
        send 65534 1 0 one
        > {"ok":{"turn":5}}
        send 0 1 0 one
        > {"ok":{"turn":6}}
        send 0 1 1 one
        > {"error":"Old","last":1}
    """,
    "a refused post leaves its sender's number": PAIR + """
        method A one ^1
        send 3 7 0 one 1
        > {"error":"BadArguments"}
        send 3 7 9 one
        > {"error":"UnknownActor"}
        send 3 7 0 one
        > {"ok":{"turn":1}}
        close 0
        send 3 7 0 one
        > {"error":"Old","last":7}
        send 3 8 0 one
        > {"error":"Closed"}
        send 3 8 1 one
        > {"ok":{"turn":1}}
        send 3 8 0 one 4
        > {"error":"BadArguments"}
    """,
    "the numbers of actors are their own": PAIR + """
        method A two: r r post: #one. ^r post: #one
        method Kid one ^1
        send 1 1 0 two: {"ref":1}
        run
        send 1 2 1 one
        > {"ok":{"turn":3}}
        send 0 1 1 one
        > {"ok":{"turn":4}}
    """,
}

# With mailboxes of one message.
NARROW = {
    "a full mailbox": PAIR + """
        method A one ^1
        send 1 1 0 one
        > {"ok":{"turn":1}}
        send 1 2 0 one
        > {"error":"Full"}
        send 1 1 0 one
        > {"error":"Old","last":1}
        run
        send 1 2 0 one
        > {"ok":{"turn":2}}
        close 0
        > {"ok":{}}
        send 1 3 0 one
        > {"error":"Closed"}
        run
        send 1 3 0 one
        > {"error":"Closed"}
        send 1 3 1 none
        > {"ok":{"turn":1}}
    """,
}

# As many turns as are kept, and more.
KEPT = PAIR + "        method A one ^1\n        method A fail ^nil foo\n" + "        turn 0 one\n" * 63 + """
        turn 0 fail
        > {"ok":{"fault":"notUnderstood"}}
        outcome 0 0
        > {"error":"Expired"}
        outcome 0 1
        > {"ok":{"answer":1}}
        outcome 0 64
        > {"ok":{"fault":"notUnderstood"}}
        outcome 0 65
        > {"error":"Pending"}
        post 0 fail
        outcome 0 65
        > {"error":"Pending"}
        outcome 0 1
        > {"ok":{"answer":1}}
        run
        outcome 0 1
        > {"error":"Expired"}
        outcome 0 2
        > {"ok":{"answer":1}}
        outcome 0 65
        > {"ok":{"fault":"notUnderstood"}}
        outcome 0 66
        > {"error":"Pending"}
        outcome 1 1
        > {"error":"Pending"}
        outcome 1 0
        > {"error":"Expired"}
        outcome 2 0
        > {"error":"UnknownActor"}
""" + "        turn 0 one\n" * 200 + """
        outcome 0 201
        > {"error":"Expired"}
        outcome 0 202
        > {"ok":{"answer":1}}
        outcome 0 265
        > {"ok":{"answer":1}}
        outcome 0 266
        > {"error":"Pending"}
"""
