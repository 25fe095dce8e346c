"""The engine of include/dover.h from Python: an on-line scheduler for one processor under overload (D-over).

    engine = Engine(2)                      # k = 2
    for decision in engine.settle(0):       # what is decided before tick 0
        act_on(decision)
    number = engine.admit(0, 4, 6, 8)       # release, work, deadline, value

The library is what the variable LIBDOVER names, or libdover.so, which `./dover install` puts in a folder above this
module's, and which is looked for as the loader does if it isn't there. The header says what each call means, with units
and limits. What it answers by a status is an exception here. One thread at a time calls an engine; an interpreter with
a global lock sees to that, since it is kept through each call.
"""
import collections
import ctypes
import operator
import os

U32, U64 = ctypes.c_uint32, ctypes.c_uint64


class _Admitted(ctypes.Structure):
    _fields_ = [("number", U64), ("status", U32)]


class _Decision(ctypes.Structure):
    _fields_ = [("tick", U64), ("job", U64), ("other", U64), ("kind", U32)]


class _Due(ctypes.Structure):
    _fields_ = [("tick", U64), ("status", U32)]


class _Restarted(ctypes.Structure):
    _fields_ = [("tick", U64), ("status", U32)]


class _Named(ctypes.Structure):
    _fields_ = [("job", U64), ("status", U32)]


CALLS = {"size": (ctypes.c_size_t,), "init": (None, U32, U32, U32, U32), "status": (U32,), "drop": (None,),
         "init_factor": (None, U32, U32, U32, U32, U32, U32), "admit": (_Admitted, U64, U64, U64, U64),
         "done": (U32, U64, U64), "step": (_Decision, U64), "finish": (_Decision,), "restart": (_Restarted,),
         "next": (_Due,), "successor": (_Named,), "value": (U64,), "value_high": (U64,), "spare": (U32,)}
MADE, MOST_KINDS = 5, 8
KINDS = [None, "job", "run", "preempt", "take", "complete", "abandon", "end"]
NOT_MADE = {0: "empty", 1: "ratio", 2: "capacity", 3: "memory", 4: "version", 6: "factor"}
NOT_ADMITTED = {1: "unsettled", 2: "job", 3: "count", 4: "total", 5: "ratio", 6: "full", 7: "closed", 8: "numbers"}
NOT_DONE = {1: "unsettled", 2: "behind", 3: "not running", 4: "version", 7: "closed"}
NOT_RESTARTED = {1: "unsettled", 2: "open", 7: "closed", 10: "finished"}
NOT_STEPPED = {8: "falls", 9: "late", 10: "finished", 11: "closed"}

# At a tick, a job is admitted, gets the processor, or ends. `other` is the job that stops, at a preemption or a take.
# At the end there is the value of all jobs that completed, and no tick and no job. What isn't there is None.
Decision = collections.namedtuple("Decision", "kind tick job other value")


def _load(path):
    # PyDLL keeps the interpreter's lock through a call, so that no two threads are in one engine.
    library, place = ctypes.PyDLL(path), ctypes.c_void_p
    for name, (answer, *numbers) in CALLS.items():
        call = getattr(library, f"dover_{name}")
        call.restype, call.argtypes = answer, numbers if name == "size" else [place, *numbers]
    return library


def _place():
    """The library that LIBDOVER names, the one that was installed with this module, or where the loader finds it."""
    folder = os.path.dirname(os.path.realpath(__file__))
    beside = os.path.join(os.path.dirname(os.path.dirname(folder)), "libdover.so")
    return os.environ.get("LIBDOVER") or (beside if os.path.exists(beside) else "libdover.so")


_LIBRARY = _load(_place())


class DoverError(Exception):
    """A call was refused, and changed nothing. `cause` says why, and `status` is the header's number for it."""

    def __init__(self, status, causes):
        self.status, self.cause = status, causes.get(status, "unknown")
        super().__init__(self.cause)


class NotMade(DoverError):
    """No engine was made: ratio, capacity, memory, version or factor."""


class NotAdmitted(DoverError):
    """The job wasn't admitted: unsettled, job, count, total, ratio, full or numbers; closed behind close(). Where it is
    the ratio, `breaks` is the number of the job that breaks it with this one."""

    def __init__(self, status, number):
        super().__init__(status, NOT_ADMITTED)
        self.breaks = number if self.cause == "ratio" else None


class NotDone(DoverError):
    """The job isn't done early: unsettled, behind, not running, version or closed."""


class NotStepped(DoverError):
    """There is no step to the mark: it falls, is late, or comes behind the end (finished); or closed."""


class NotRestarted(DoverError):
    """Nothing begins anew: finished, unsettled, open or closed."""


def _numbers(bits, *values):
    """Whole numbers that a word of so many bits holds, since ctypes would cut others off without a word."""
    numbers = [operator.index(it) for it in values]
    for it in numbers:
        if not 0 <= it < 1 << bits:
            raise ValueError(f"{it} is no number of {bits} bits")
    return numbers


class Engine:
    """An engine for k = p/q, with room for so many open jobs at once, by version 4 of the rules with the factor 2.
    Where a version (1 to 4) is named the factor is that of k, and with (b, c) it is one of one's own. All its memory
    is taken here; close(), or the end of a `with`, gives it back."""

    def __init__(self, p, q=1, version=None, capacity=1000, factor=None):
        if version is None:
            version, factor = 4, factor or (2, 1)
        self._place = (U64 * (-(-_LIBRARY.dover_size() // 8)))()
        if factor is None:
            _LIBRARY.dover_init(self._place, *_numbers(32, p, q, version, capacity))
        else:
            _LIBRARY.dover_init_factor(self._place, *_numbers(32, p, q, version, capacity, *factor))
        status = _LIBRARY.dover_status(self._place)
        if status != MADE:
            raise NotMade(status, NOT_MADE)

    def admit(self, release, work, deadline, value):
        """The number of a job that is handed in; or NotAdmitted."""
        answer = _LIBRARY.dover_admit(self._place, *_numbers(64, release, work, deadline, value))
        if answer.status:
            raise NotAdmitted(answer.status, answer.number)
        return answer.number

    def done(self, tick, job):
        """Says that a job is done at this tick with work left, from version 3 on; or NotDone."""
        status = _LIBRARY.dover_done(self._place, *_numbers(64, tick, job))
        if status:
            raise NotDone(status, NOT_DONE)

    def step(self, mark):
        """The next decision that no job of the mark or later can change; None where there is none; or NotStepped."""
        return self._decided(_LIBRARY.dover_step(self._place, *_numbers(64, mark)))

    def settle(self, mark):
        """All decisions that step(mark) gives, up to None."""
        return iter(lambda: self.step(mark), None)

    def finish(self):
        """The next decision where no job can come any more; None behind the end."""
        return self._decided(_LIBRARY.dover_finish(self._place))

    def rest(self):
        """All decisions that finish() gives, up to None."""
        return iter(self.finish, None)

    def restart(self):
        """Begins anew at rest, with the clock, the numbers and the value at 0: the tick that is taken off the clock; or
        NotRestarted."""
        answer = _LIBRARY.dover_restart(self._place)
        if answer.status:
            raise NotRestarted(answer.status, NOT_RESTARTED)
        return answer.tick

    def next(self):
        """The tick for which to call step next, if no job comes before; None where no job is open."""
        answer = _LIBRARY.dover_next(self._place)
        return None if answer.status else answer.tick

    def successor(self):
        """The job that would get the processor if the one that has it were done; None where there is none."""
        answer = _LIBRARY.dover_successor(self._place)
        return None if answer.status else answer.job

    @property
    def value(self):
        """What all jobs are worth that completed."""
        return _LIBRARY.dover_value_high(self._place) << 64 | _LIBRARY.dover_value(self._place)

    @property
    def spare(self):
        """For how many open jobs more there is room."""
        return _LIBRARY.dover_spare(self._place)

    def close(self):
        """Gives the memory back. There is no engine then: next() and successor() are None, value and spare are 0, and
        all other calls are refused as closed."""
        _LIBRARY.dover_drop(self._place)

    def _decided(self, answer):
        if answer.kind >= MOST_KINDS:
            raise NotStepped(answer.kind, NOT_STEPPED)
        if not answer.kind:
            return None
        kind = KINDS[answer.kind]
        if kind == "end":
            return Decision(kind, None, None, None, answer.other << 64 | answer.tick)
        return Decision(kind, answer.tick, answer.job, answer.other if kind in ("preempt", "take") else None, None)

    def __enter__(self):
        return self

    def __exit__(self, *_):
        self.close()

    def __del__(self):
        if hasattr(self, "_place"):
            self.close()

    def __reduce_ex__(self, _):
        raise TypeError("an engine can't be copied")
