"""The law of a place's store, and which events of a journal are good.

docs/semantics.md has the rules under "Stores and references" and "Verdicts".
"""

import bisect

from model import Refused

# How many words of an event are the call: its kind and operands.
CALL = {"make": 2, "get": 4, "put": 5, "forget": 3}


class Store:
    """The live blocks of a place, by start, and how many were made."""

    def __init__(self, heap):
        self.heap = heap
        self.starts = []
        self.blocks = {}
        self.made = 0
        self.is_closed = False

    def hole(self, words):
        """The least start at which so many words meet no live block, or None."""
        at = 0
        for start in self.starts:
            if start - at >= words:
                break
            at = start + len(self.blocks[start][1])
        return at if at + words <= self.heap else None

    def answer(self, words):
        """What the store answers to a call, as a trace spells it."""
        kind, *operands = words
        return getattr(self, kind)(*map(int, operands))

    def make(self, words):
        start = self.hole(words)
        if start is None:
            return ["full"]
        self.made += 1
        bisect.insort(self.starts, start)
        self.blocks[start] = self.made, [0] * words
        return ["at", str(start), str(self.made)]

    def is_live(self, start, generation):
        return start in self.blocks and self.blocks[start][0] == generation

    def get(self, start, generation, index):
        if not self.is_live(start, generation):
            return ["stale"]
        block = self.blocks[start][1]
        return ["is", str(block[index])] if 0 <= index < len(block) else ["index"]

    def put(self, start, generation, index, value):
        if not self.is_live(start, generation):
            return ["stale"]
        block = self.blocks[start][1]
        if not 0 <= index < len(block):
            return ["index"]
        block[index] = value
        return ["ok"]

    def forget(self, start, generation):
        if not self.is_live(start, generation):
            return ["stale"]
        self.starts.remove(start)
        del self.blocks[start]
        return ["ok"]


class Journal:
    """The journal of a place, event by event. `players` are the tasks of the history, and `death` the number of the place's death."""

    def __init__(self, heap, place, players, death):
        self.store = Store(heap)
        self.place = place
        self.players = players
        self.death = death
        self.stamp = 0
        self.calls = {}
        for player in players.values():
            if player.term.place == place:
                player.request()
                self.calls.update((call.event.number, call) for call in player.calls)

    def check(self, event):
        """The next event is good; else the rule that refuses it is raised."""
        if self.store.is_closed:
            raise Refused("the journal is closed, and nothing stands behind that")
        if event.stamp < self.stamp:
            raise Refused("its stamp is below %d, the stamp of the event before it" % self.stamp)
        self.stamp = event.stamp
        if event.words[0] == "close":
            self.check_close(event)
        else:
            self.check_call(event)

    def check_close(self, event):
        if self.death is None:
            raise Refused("place %d does not die in this history" % self.place)
        if event.stamp != self.death:
            raise Refused("place %d dies at entry %d, and this is the stamp of the close" % (self.place, self.death))
        self.store.is_closed = True

    def check_call(self, event):
        mark = event.words[-1], "the statement of this event"
        count = CALL[event.words[0]]
        answer = self.store.answer(event.words[:count])
        if event.words[count:-1] != answer:
            raise Refused("the answer of the store here is `%s`" % " ".join(answer), mark)
        call = self.calls.get(event.number)
        if call is None:
            raise Refused(self.unmade(event), mark)
        if event.stamp <= call.after:
            raise Refused("its stamp must be above %d: t%d makes this call after entry %d" % (call.after, event.task, call.after), mark)
        if call.until is not None and event.stamp > call.until:
            raise Refused("its stamp must be at most %d: t%d makes this call before entry %d" % (call.until, event.task, call.until), mark)

    def unmade(self, event):
        """Why the term of a task does not make an event."""
        player = self.players.get(event.task)
        if player is None:
            return "no task t%d is started in this history" % event.task
        if player.term.place != self.place:
            return "t%d is a task of place %d" % (event.task, player.term.place)
        step = player.request()
        if step is None:
            return "by the script t%d makes no such call here: it has ended" % event.task
        return "by the script t%d makes no such call here: it %s" % (event.task, step.words)
