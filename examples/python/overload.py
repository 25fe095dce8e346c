"""Serves the two jobs of examples/overload.feed, of which one can be done."""
from dover import Engine


def show(decision):
    print(*(it for it in decision if it is not None))


with Engine(2) as engine:  # k = 2
    for job in [(0, 4, 6, 8), (1, 80, 82, 80)]:  # release, work, deadline, value
        for decision in engine.settle(job[0]):
            show(decision)
        engine.admit(*job)
    for decision in engine.rest():
        show(decision)
