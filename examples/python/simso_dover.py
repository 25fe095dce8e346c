"""D-over as a scheduler of SimSo, for one processor: `simso_dover.Dover` is the class of a configuration's scheduler.

Not tried with SimSo itself, which was at hand nowhere: it was run over a stand-in for its `Scheduler` and `Timer`. A
tick is a cycle. A task has its value, 1 if it says none, in a field `value` of its additional data. It aborts on a
miss, since a job that is given up never runs again.
"""
from simso.core import Scheduler, Timer

import dover

RATIO, CAPACITY = 1000, 100000
# A take is told a cycle behind its tick, so a budget has some cycles more than its job.
MORE = 3


class Dover(Scheduler):
    def init(self):
        self.engine = dover.Engine(RATIO, capacity=CAPACITY)
        self.jobs, self.runs, self.timer = {}, None, None

    def on_activate(self, job):
        now, work = self.sim.now(), int(job.wcet * self.sim.cycles_per_ms) + MORE
        self.follow()
        try:
            value = int((job.task.data or {}).get("value", 1))
            self.jobs[self.engine.admit(now, work, int(job.absolute_deadline_cycles), value)] = job
        except dover.NotAdmitted as refusal:
            print(f"{job.name} is refused: {refusal.cause}")
        self.follow()

    def on_terminated(self, job):
        self.follow()
        for number in [number for number, it in self.jobs.items() if it is job]:
            try:
                self.engine.done(self.sim.now(), number)
            except dover.NotDone as refusal:
                print(f"{job.name} isn't done: {refusal.cause}")
        self.follow()

    def schedule(self, cpu):
        return self.jobs.get(self.runs), cpu

    def follow(self):
        """Acts on all that is decided by now, and comes again when the next decision is due."""
        now, cpu = self.sim.now(), self.processors[0]
        for kind, _, number, *_ in self.engine.settle(now):
            if kind in ("run", "preempt", "take"):
                self.runs = number
            elif kind in ("complete", "abandon"):
                self.jobs.pop(number)
                self.runs = None if self.runs == number else self.runs
        if self.timer:
            self.timer.stop()
        due = self.engine.next()
        if due is not None:
            self.timer = Timer(self.sim, Dover.follow, (self,), max(due + 1 - now, 1), cpu=cpu, in_ms=False)
            self.timer.start()
        cpu.resched()
