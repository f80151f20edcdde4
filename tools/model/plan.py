"""The deaths and joins that a run was given, in the order in which they are due (docs/semantics.md, "Runs")."""

from model import Refused


class Plan:
    """The events that are left. Each is a moment, a kind and a place; at one moment joins come before kills."""

    def __init__(self, trace):
        joins = [(int(moment), "join", trace.places + k) for k, moment in enumerate(trace.joins)]
        kills = [tuple(map(int, kill.split("@"))) for kill in trace.kills]
        deaths = [(moment, "death", place) for place, moment in kills]
        self.left = sorted(joins + deaths, key=lambda event: (event[0], event[1] == "death", event[2]), reverse=True)

    def check(self, entry):
        """An entry of the history has to be what the plan has at its moment. One that is done is left no more."""
        moment, kind, place = self.left[-1] if self.left else (None, None, None)
        is_due = moment is not None and moment <= entry.number
        if entry.kind not in ("death", "join"):
            if is_due:
                raise Refused("the %s of place %d is due from moment %d on, and comes first" % (kind, place, moment))
            return
        if not is_due or (kind, place) != (entry.kind, entry.place):
            raise Refused(self.words(entry, moment, kind, place))
        self.left.pop()

    def words(self, entry, moment, kind, place):
        """Why a death or a join is not the one that is due."""
        if moment is None:
            return "no death and no join is left of those that the run was given"
        if (kind, place) != (entry.kind, entry.place):
            return "the next of the deaths and joins that the run was given is the %s of place %d at moment %d" % (kind, place, moment)
        return "the %s of place %d is due from moment %d on, and no sooner" % (kind, place, moment)
