"""How victims of garbage collection are picked, among superblocks that have garbage, each given with how much."""


class Greedy:
    """The most garbage, and the least number among equals."""

    def picked(self, garbage):
        return min(garbage, key=lambda sb: (-garbage[sb], sb))

    def erased(self, sb):
        pass


class Oldest:
    """The longest since its last erase. Those that were never erased in this run come first."""

    def __init__(self):
        self.order = []

    def picked(self, garbage):
        return min(garbage, key=lambda sb: (self.order.index(sb) if sb in self.order else -1, sb))

    def erased(self, sb):
        self.order = [other for other in self.order if other != sb] + [sb]


class RoundRobin:
    """The next one after the last that was picked, going round."""

    def __init__(self):
        self.last = -1

    def picked(self, garbage):
        self.last = min(garbage, key=lambda sb: (sb <= self.last, sb))
        return self.last

    def erased(self, sb):
        pass


POLICIES = {"greedy": Greedy, "oldest": Oldest, "roundrobin": RoundRobin}
