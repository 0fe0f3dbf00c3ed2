"""The calls of generated code in a run: from which line of the user's code a goroutine came where it waits or ends.

A call is open until its caller goes on. So the caller of generated code is the newest open call of the goroutine.
"""

import bisect


class Calls:
    """The open calls of each goroutine. `code` tells of a line whether it is the user's (`is_own`), the function around
    it (`around`), and its text (`text`)."""

    def __init__(self, code, turns):
        self.code = code
        self.before, self.open, self.waits = {}, {}, {}
        for moment, turn in enumerate(turns, 1):
            self.take(turn.goroutine, turn.line)
            if turn.blocks:
                self.waits.setdefault(turn.goroutine, []).append((moment, self.last(turn.goroutine) or 0))

    def take(self, goroutine, line):
        """Takes one turn of a goroutine."""
        before, calls, code = self.before.get(goroutine), self.open.setdefault(goroutine, []), self.code
        self.before[goroutine] = line
        if not before or before == line or code.is_own(before) == code.is_own(line):
            return
        function = code.around(line)
        if code.is_own(before):
            calls += [before] if f"{function}(" in code.text(before) else []
        else:
            same = [code.around(call) == function for call in calls]
            del calls[same.index(True) if True in same else len(calls):]

    def last(self, goroutine):
        """Returns the line of the newest open call at the end of the run, or None."""
        calls = self.open.get(goroutine)
        return calls[-1] if calls else None

    def of_wait(self, goroutine, moment):
        """Returns the line of the newest open call in the wait that a goroutine has at a moment, or None."""
        waits = self.waits.get(goroutine, [])
        at = bisect.bisect_left(waits, (moment + 1,)) - 1
        return waits[at][1] or None if at >= 0 else None
