"""What a process has of the calls, as far as a trace tells it."""


class Held:
    """The posts that a process has, by call, and which call of these is shown: the one that came last into the run."""

    def __init__(self, process, run):
        own = {process} & run.ranks
        self.process, self.order, self.dropped = process, run.calls, set()
        self.calls = {run.calls[0]: own} if run.calls and own else {}
        self.shown = run.calls[0] if run.calls else ""

    def take(self, calls):
        """The process has these posts now. Which of them are new to it, by call: its own ones aren't. A call that it had posts of, and has
        none of now, was dropped: it has heard that every member has the result."""
        new = {call: posts - self.calls.get(call, set()) - {self.process} for call, posts in calls.items()}
        self.dropped |= {call for call, posts in self.calls.items() if call not in calls and posts != {self.process}}
        self.calls = calls
        self.shown = max(calls, key=self.order.index, default=self.shown)
        return {call: posts for call, posts in new.items() if posts}

    @property
    def posts(self):
        """Whose posts it has of the call that is shown."""
        return self.calls.get(self.shown, set())

    @property
    def is_dropped(self):
        return self.shown in self.dropped

    def __str__(self):
        return "; ".join("%s: %s" % (call, numbers(posts)) for call, posts in self.calls.items()) or "none"


def numbers(posts):
    return " ".join(map(str, sorted(posts)))
