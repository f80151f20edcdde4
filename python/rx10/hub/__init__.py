"""The hub: a process that carries all messages of a job, and alone talks to the coordinator, its child.

`core` is what it knows and decides: messages and replies in, requests and messages out. `loop` has the lines, the processes and the
coordinator's pipes round it.
"""
