"""What a refusal means by itself, where its sentence in advice.py has words for what the refused command named."""

IN_GENERAL = {
    "BadCharacter": "a character begins nothing in this language, or is not ASCII; take it out",
    "BadImage": "an image file cannot be read; take another file",
    "BadName": "what stands in place of a name is none; take a letter and then letters and digits, at most 64, a capital first for "
    "a class and a small letter for a variable",
    "ClassExists": "a class has this name already, and its variables stay; name just these to put it under another class, or take "
    "another name",
    "Closed": "the actor's mailbox is closed for ever; make a new actor",
    "Cycle": "no class is put under itself or under a class below it; take another one",
    "DuplicateName": "a name is taken, by another variable or by the language; take another one",
    "Expired": "how the turn ended is no longer kept, or its number is 0; ask for one of the newest 64",
    "Full": "the actor's mailbox is full; :run makes room",
    "KernelClass": "classes of the kernel stay where they are and, Object aside, have no subclasses and make no actors; take Object or "
    "a class of your own",
    "KernelMethod": "a method of the kernel stays in its class; take another name, or a class of your own",
    "NoSuchMethod": "a class has no such method of its own; :methods lists those it has",
    "Pending": "the turn has not ended, or its message was never posted; :run goes on",
    "ReadOnly": "only temporaries and instance variables are assigned to; name a temporary between bars",
    "SlotsDiffer": "a class keeps its variables, so it goes only under classes that give it the same ones; take one of those",
    "TooMany": "there would be too many classes, variables, edits, names or actors; do with those there are, or begin a new image",
    "UnknownActor": "no actor has this number; :actors lists those there are",
    "UnknownClass": "no class has this name; define it first, as in  Counter : Object",
    "UnknownName": "no variable or class has this name; name it between bars in the method, or in its class",
}
