"""The workspace: a place to type Smalltalk into, over a script that runs."""
