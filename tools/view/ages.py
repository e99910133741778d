"""How old the values in a taken frame are: how many ticks ago each Rx frame was accepted, counted from the program's lines alone, and the bound that
docs/AGE.md explains. This is for show and decides nothing.
"""
from view.words import TICK, accepted, count


class Ages:
    """For each Rx frame that was accepted since the opening, by number, the ticks since then."""

    def __init__(self, plan):
        self.plan, self.ticks = plan, {}

    def add(self, event, line, times):
        """Counts an event that was answered so many times in a row with this line; a refused tick counts nothing."""
        if event.kind == 17 and TICK.fullmatch(line):
            for number in self.ticks:
                self.ticks[number] += times
        for number in accepted(self.plan, event, line):
            self.ticks[number] = 0

    def words(self, number, failure):
        """The age of an Rx frame in a taken frame that has this failure bit of it, or none."""
        if number not in self.ticks:
            return 'no bound: not accepted since the opening'
        frame, ago = self.plan.rx[number], f'accepted {count(self.ticks[number], "tick")} ago'
        if not frame.enable:
            return f'{ago}; no bound: no failure bit'
        if not frame.reload:
            return f'{ago}; no bound: its reload is 0'
        if failure is None:
            elsewhere = next(owner.tx for owner in self.plan.owners if owner.rx == number and owner.failure)
            return f'{ago}; no bound: failure bit in Tx frame {elsewhere}'
        if failure:
            return f'{ago}; no bound: its failure bit is 1'
        bound = frame.reload * frame.prescaler
        if self.ticks[number] >= bound:
            return f'{ago}: breaks the bound, fewer than {bound}; no proved program answers so'
        return f'{ago}; bound: fewer than {bound}'
