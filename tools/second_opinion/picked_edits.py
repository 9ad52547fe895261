"""Picked scripts of the list of edits, and of installs that are to replace a version."""

EDITS = (
    '{"define":{"name":"A","slots":["a","b"],"super":"Object"}}',
    '{"define":{"name":"B","slots":["c"],"super":"A"}}',
    '{"install":{"class":"A","source":"foo \\"one\\" ^1"}}',
    '{"remove":{"class":"A","selector":"foo"}}',
    '{"define":{"name":"D","slots":[],"super":"A"}}',
    '{"reparent":{"class":"B","super":"D"}}',
    '{"install":{"class":"D","source":"foo ^2"}}',
)


def told(edits, version):
    return f'> {{"ok":{{"edits":[{",".join(edits)}],"version":{version}}}}}'


LISTED = {
    "edits are told as files have them, from behind the first so many": f"""
        look edits 0
        {told([], 0)}
        look edits 1
        > {{"error":"BadArguments"}}
        class A Object a b
        class B A c
        method A foo "one" ^1
        method A foo ^zork
        > {{"error":"BadSource","kind":"UnknownName","offset":5}}
        remove A foo
        remove A foo
        > {{"error":"NoSuchMethod"}}
        class D A
        move B D
        move B Object
        > {{"error":"SlotsDiffer"}}
        replace D 0 foo ^2
        > {{"ok":{{"version":7}}}}
        replace D 0 foo ^3
        > {{"error":"Stale","version":7}}
        look edits 0
        {told(EDITS, 7)}
        look edits 1
        {told(EDITS[1:], 7)}
        look edits 4
        {told(EDITS[4:], 7)}
        look edits 6
        {told(EDITS[6:], 7)}
        checkpoint
        look edits 6
        {told(EDITS[6:], 7)}
        look edits 7
        {told([], 7)}
        look edits 8
        > {{"error":"BadArguments"}}
        look edits 4294967295
        > {{"error":"BadArguments"}}
        look edits 4294967296
        > {{"error":"BadCommand"}}
    """,
}

# The first edit is a definition, and each other one installs a method that answers the edit's own number.
MANY = 300
INSTALLS = "\n".join(f"method A foo ^{number}" for number in range(2, MANY + 1))


def installs(first, last):
    """What is told of these edits, by their numbers."""
    return told([f'{{"install":{{"class":"A","source":"foo ^{number}"}}}}' for number in range(first, last + 1)], MANY)


LISTED["not more than 256 edits are told at once"] = f"""
    class A Object
    {INSTALLS}
    look edits 1
    {installs(2, 257)}
    look edits 43
    {installs(44, 299)}
    look edits 44
    {installs(45, 300)}
    look edits 45
    {installs(46, 300)}
    look edits 299
    {installs(300, 300)}
    look edits 300
    {installs(301, 300)}
    look edits 301
    > {{"error":"BadArguments"}}
"""

REPLACING = {
    "a method is replaced over the version that the class's own one has": """
        class A Object
        class B A
        replace A 0 foo ^1
        > {"ok":{"version":3}}
        replace A 0 foo ^2
        > {"error":"Stale","version":3}
        replace A 4 foo ^2
        > {"error":"Stale","version":3}
        replace B 3 foo ^2
        > {"error":"Stale","version":0}
        replace A 3 foo ^2
        > {"ok":{"version":4}}
        replace A 3 foo ^3
        > {"error":"Stale","version":4}
        method A foo ^4
        > {"ok":{"version":5}}
        replace A 4 foo ^5
        > {"error":"Stale","version":5}
        replace A 5 foo ^4
        > {"ok":{"version":6}}
        replace B 0 foo ^super foo + 1
        > {"ok":{"version":7}}
        remove A foo
        > {"ok":{"version":8}}
        replace A 6 foo ^9
        > {"error":"Stale","version":0}
        replace A 8 foo ^9
        > {"error":"Stale","version":0}
        replace A 0 foo ^9
        > {"ok":{"version":9}}
        look versions A foo
        > {"ok":{"versions":[{"source":"foo ^1","version":3},{"source":"foo ^2","version":4},{"source":"foo ^4","version":5},\
{"source":"foo ^4","version":6},{"removed":true,"version":8},{"source":"foo ^9","version":9}]}}
        actor B
        turn 0 foo
        > {"ok":{"answer":10}}
        replace SmallInteger 0 foo ^self
        > {"ok":{"version":10}}
        replace SmallInteger 10 foo ^nil
        > {"ok":{"version":11}}
    """,
    "a version is looked at behind the source by itself, and before what the source means in the class": """
        class A Object
        method A foo ^1
        replace Nowhere 1 foo ^(
        > {"error":"UnknownClass"}
        replace A 1 foo ^(
        > {"error":"BadSource","kind":"BadToken","offset":6}
        replace A 1 foo ^zork
        > {"error":"Stale","version":2}
        replace A 2 foo ^zork
        > {"error":"BadSource","kind":"UnknownName","offset":5}
        replace Object 1 isNil ^[3]
        > {"error":"BadSource","kind":"BlockEscapes","offset":7}
        replace Object 1 isNil ^zork
        > {"error":"Stale","version":0}
        replace Object 0 isNil ^zork
        > {"error":"KernelMethod"}
        replace Symbol 1 isNil ^zork
        > {"error":"Stale","version":0}
        replace Symbol 0 isNil ^zork
        > {"error":"BadSource","kind":"UnknownName","offset":7}
        replace A 4294967295 foo ^1
        > {"error":"Stale","version":2}
        replace A 4294967296 foo ^(
        > {"error":"BadCommand"}
    """,
    "one that is Stale brings no name": """
        class A Object
        replace A 1 first ^#second
        > {"error":"Stale","version":0}
        replace A 0 second ^zork
        > {"error":"BadSource","kind":"UnknownName","offset":8}
        replace A 0 third ^1
        > {"ok":{"version":2}}
        method A second ^1
        method A first ^1
        look methods A
        > {"ok":{"methods":[{"selector":"third","version":2},{"selector":"second","version":3},{"selector":"first","version":4}]}}
    """,
}
