"""Finish over places that may die: parallel tasks of which you learn exactly which places lost work. See docs/python.md.

    import rx10

    def main():
        with rx10.local(places=5) as rt:
            try:
                with rt.finish() as f:
                    tasks = [f.spawn(p, work, parts[p]) for p in rt.places()]
            except rx10.DeadPlaces as lost:
                print("lost", lost.places)
            results = [t.result() for t in tasks if not t.lost]

    if __name__ == "__main__":
        main()
"""

from .calls import Ref, at, finish, here, job, join, kill, places, spawn, store
from .errors import Closed, CoordinatorLost, DeadPlace, DeadPlaces, Faults, Misuse, PlaceGone, RemoteError, Unpicklable
from .finish import Finish, Handle
from .runtime import Runtime, dask, launched, local
from .version import __version__

__all__ = ["Closed", "CoordinatorLost", "DeadPlace", "DeadPlaces", "Faults", "Finish", "Handle", "Misuse", "PlaceGone", "Ref", "RemoteError",
           "Runtime", "Unpicklable", "__version__", "at", "dask", "finish", "here", "job", "join", "kill", "launched", "local", "places",
           "spawn", "store"]
