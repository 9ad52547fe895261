"""A client of a served image, whose socket it is given: a stock that many may take from."""
import os, sys
sys.path.insert(0, os.path.join(os.path.dirname(os.path.abspath(__file__)), "../clients/python"))
import actorimage

with actorimage.connect(sys.argv[1], seconds=10) as image:
    image.define("Stock", slots=["left"])
    image.install("Stock", "fill: n left := n. ^left")
    image.install("Stock", "take left > 0 ifFalse: [^#sold]. left := left - 1. ^left")
    stock = image.new_actor("Stock")
    sender = image.sender(1)
    print("filled with", image.wait(sender.post(stock, "fill:", 3)))
    turns = list(sender.post_all((stock, "take") for _ in range(4)))
    print("left:", *[image.wait(turn) for turn in turns])

    # A message that is accepted once, whatever breaks meanwhile.
    turn = sender.post_once(stock, "fill:", 10)
    print("filled with", image.wait(turn))

    # An edit takes effect at the next send.
    image.install("Stock", "take left := left - 5. ^left")
    print("left:", image.wait(sender.post(stock, "take")))

    # What is refused says what is true afterwards; a turn may end with a fault.
    try:
        image.install("Stock", "take ^left -")
    except actorimage.BadSource as refused:
        print(refused)
    try:
        image.wait(sender.post(stock, "give"))
    except actorimage.Fault as fault:
        print(fault)
