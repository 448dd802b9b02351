"""A call of the library beside the model's, case by case.

A case is the call's arguments: numbers, and arrays for lent buffers; where one comparison is about several calls, the
call's name stands before them. The model gives the refusal and what every buffer then holds. Each case is called twice,
with the buffers at the start and at the end of their rooms.
"""

import collections
import os
import signal
from array import array

from .rooms import Room, held

SHOWN = 10  # differences that are told; the others are only counted
SECONDS = 60  # of processor time for a wrong call: other work on the machine plays no part
FAULTY = 3  # the exit status of a test that is itself wrong


class Comparison:
    def __init__(self, check, call, model, told=True):
        self.check, self.call, self.model, self.told = check, call, model, told
        self.passed = self.failed = self.differences = self.cases = 0
        self.refusals = collections.Counter()
        self.refusal, self.after = 0, []  # what the model gave for the last case
        self.rooms = [Room() for _ in range(5)]

    def all(self, name, cases):
        """One test: many cases."""
        before = self.cases
        self.count(all([self.agrees(case) for case in cases]))
        self.say(f"{name}: {self.cases - before:,} cases")

    def holds(self, name, found):
        """One test: something that must be so."""
        if not found:
            self.say(f"{name}: not so")
        self.count(found)

    def count(self, good):
        self.passed += good
        self.failed += not good

    def say(self, text):
        if self.told:
            print(f"{self.check}: {text}", flush=True)

    def agrees(self, case):
        self.cases += 1
        self.refusal, self.after = self.model(*case)
        self.refusals[self.refusal] += 1
        given = [one for one in case if isinstance(one, array)]
        expected = self.refusal, [array(one.typecode, after) for one, after in zip(given, self.after, strict=True)]
        for at_end in (False, True):
            got = self.answer(case, at_end)
            if got != expected:
                self.differences += 1
                if self.differences <= SHOWN:
                    self.say(self.difference(case, got, expected))
                return False
        return True

    def difference(self, case, got, expected):
        return f"{shown(case)}: the library gives {shown(got)}, the model {shown(expected)}"

    def answer(self, case, at_end):
        """The refusal, and what the buffers hold after the call."""
        rooms = iter(self.rooms)
        lent = [next(rooms).lend(one, at_end) if isinstance(one, array) else one for one in case]
        refusal = self.call(*lent)
        return refusal, [held(one, given.typecode) for one, given in zip(lent, case) if isinstance(given, array)]

    def notices(self, wrong, cases):
        """Whether a call that is wrong on purpose is noticed, by a difference or by a fault of memory.

        The wrong call is given the right one and then the arguments. It runs in a process of its own.
        """
        child = os.fork()
        if child == 0:
            status = FAULTY
            signal.setitimer(signal.ITIMER_PROF, SECONDS)
            try:
                other = type(self)(self.check, lambda *lent: wrong(self.call, *lent), self.model, told=False)
                status = 0 if all(other.agrees(case) for case in cases) else 1
            finally:
                os._exit(status)
        status = os.waitstatus_to_exitcode(os.waitpid(child, 0)[1])
        return status == 1 or status == -signal.SIGSEGV

    def wrong_calls(self, calls, cases):
        """Each of these wrong calls must be noticed by some of the cases; the right call must not."""
        same = self.notices(lambda right, *lent: right(*lent), cases)
        self.holds("the right call is not taken for a wrong one", not same)
        for name, wrong in calls.items():
            self.holds(f"a wrong call is noticed: {name}", self.notices(wrong, cases))

    def end(self):
        """The exit status, after the last line."""
        refused = ", ".join(f"{count:,} ({one})" for one, count in sorted(self.refusals.items()) if one)
        self.say(f"{self.cases:,} cases; refused {refused}")
        print(f"{self.passed} passed, {self.failed} failed")
        return self.failed != 0


def shown(value):
    text = str(value)
    return text if len(text) < 400 else f"{text[:400]}.. ({len(text):,} characters)"
