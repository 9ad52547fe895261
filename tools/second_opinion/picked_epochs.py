"""Picked scripts of an image's status, and of waits for turns. The epochs are the second reader's words."""


def status(epoch, actors, classes, edits, history, names, posts, steps, faults=0):
    sizes = f'"actors":{actors},"classes":{classes},"edits":{edits},"edits_left":{2048 - edits},"epoch":"epoch {epoch}","faults":{faults}'
    counts = f'"history":{history},"history_most":1000000,"names":{names},"posts":{posts},"sessions":1,"steps":{steps},"workers":1'
    return f'> {{"ok":{{{sizes},{counts}}}}}'


EPOCHS = {
    "a status tells the sizes of the image, and what it has counted": f"""
        status
        {status(0, actors=0, classes=8, edits=0, history=0, names=22, posts=0, steps=0)}
        class A Object
        method A foo ^self bar: #baz
        method A bar ^zork
        > {{"error":"BadSource","kind":"UnknownName","offset":5}}
        actor A
        post 0 foo
        post 0 foo:
        > {{"error":"BadArguments"}}
        status
        {status(0, actors=1, classes=9, edits=2, history=4, names=26, posts=1, steps=0)}
        look source A other
        > {{"error":"NoSuchMethod"}}
        run
        > {{"ok":{{"quanta":1,"steps":4}}}}
        status
        {status(0, actors=1, classes=9, edits=2, history=6, names=26, posts=1, steps=4, faults=1)}
        status
        {status(0, actors=1, classes=9, edits=2, history=6, names=26, posts=1, steps=4, faults=1)}
        close 0
        close 0
        > {{"error":"Closed"}}
        remove A foo
        remove A foo
        > {{"error":"NoSuchMethod"}}
        replace A 1 more ^1
        > {{"error":"Stale","version":0}}
        replace A 0 more ^1
        move A Object
        status
        {status(0, actors=1, classes=9, edits=5, history=10, names=27, posts=1, steps=4, faults=1)}
        checkpoint
        > {{"ok":{{"posts":1,"steps":4}}}}
        status
        {status(1, actors=1, classes=9, edits=5, history=0, names=27, posts=1, steps=4)}
        actor A
        status
        {status(1, actors=2, classes=9, edits=5, history=1, names=27, posts=1, steps=4)}
        checkpoint
        checkpoint
        status
        {status(3, actors=2, classes=9, edits=5, history=0, names=27, posts=1, steps=4)}
    """,
    "a script without a file is not saved, and nothing comes of that": f"""
        save
        > {{"error":"BadArguments"}}
        class A Object
        method A foo ^1
        actor A
        post 0 foo
        run
        status
        {status(0, actors=1, classes=9, edits=2, history=6, names=23, posts=1, steps=3)}
        save
        > {{"error":"BadArguments"}}
        status
        {status(0, actors=1, classes=9, edits=2, history=6, names=23, posts=1, steps=3)}
        outcome 0 1
        > {{"ok":{{"answer":1}}}}
    """,
    "what an actor makes and posts is no item, and its posts are not those of clients": f"""
        class A Object
        method A go ^A newActor post: #foo
        method A foo ^1
        actor A
        post 0 go
        run
        > {{"ok":{{"quanta":4,"steps":9}}}}
        status
        {status(0, actors=2, classes=9, edits=3, history=11, names=24, posts=1, steps=9)}
    """,
    "a wait is for a turn of the present epoch": """
        class A Object
        method A foo ^1
        actor A
        post 0 foo
        status
        wait 0 1 60000 epoch 0
        > {"error":"Pending"}
        wait 0 1 60000 epoch
        > {"error":"Expired"}
        wait 9 1 0 epoch
        > {"error":"Expired"}
        wait 9 1 0 epoch 0
        > {"error":"UnknownActor"}
        wait 0 1 60001 epoch 0
        > {"error":"BadCommand"}
        wait 0 0 0 epoch 0
        > {"error":"Expired"}
        run
        wait 0 1 60000 epoch 0
        > {"ok":{"answer":1}}
        wait 0 2 1 epoch 0
        > {"error":"Pending"}
        checkpoint
        wait 0 1 0 epoch 0
        > {"error":"Expired"}
        wait 0 0 0 epoch 0
        > {"error":"Expired"}
        status
        wait 0 0 0 epoch 1
        > {"ok":{"answer":1}}
        wait 0 1 0 epoch 1
        > {"error":"Pending"}
        post 0 gone
        > {"ok":{"turn":1}}
        run
        wait 0 1 0 epoch 1
        > {"ok":{"fault":"notUnderstood"}}
        wait 0 1 0 epoch 0
        > {"error":"Expired"}
    """,
}
