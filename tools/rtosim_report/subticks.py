"""Times of boundaries in parts of a tick: the steps of one tick are in a row, and each tick has room for as many."""
from __future__ import annotations

from .lanes import Timeline


class SubTicks:
    """A tick is cut into a power of ten of parts, more than any of its steps are."""

    def __init__(self, timeline: Timeline) -> None:
        clock, steps = timeline.clock, timeline.steps
        self.times, most = [], 0
        ticks = [clock.at(it) for it in range(steps + 1)]
        places, place = [], 0
        for at, tick in enumerate(ticks):
            place = place + 1 if at and tick == ticks[at - 1] else 0
            places.append(place)
            most = max(most, place)
        self.in_a_tick = 10
        while self.in_a_tick <= most:
            self.in_a_tick *= 10
        self.times = [tick * self.in_a_tick + place for tick, place in zip(ticks, places)]

    def at(self, boundary: int) -> int:
        return self.times[boundary]
