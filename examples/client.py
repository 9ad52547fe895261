import os, sys
sys.path.insert(0, os.path.join(os.path.dirname(os.path.abspath(__file__)), "../clients/python"))
import actorimage

with actorimage.script("./actorimage") as image:
    image.define("Counter", slots=["count"])
    image.install("Counter", "bump count isNil ifTrue: [count := 0]. count := count + 1. ^count")
    counter = image.new_actor("Counter")
    sender = image.sender(1)
    turns = [sender.post(counter, "bump") for _ in range(3)]
    print(image.run(), *[image.answer(turn) for turn in turns])
