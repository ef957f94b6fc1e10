"""Draws a run: processes as lines, turns across, frames as arrows, posts as squares, and what ranks print as flags."""
from held import Held, numbers
from marks import COLOURS, STYLE, arrow, broken, circle, group, plain, stroke, text


class Layout:
    """Where everything stands."""

    def __init__(self, run, first, last, ranks=None):
        self.first, self.last, self.many = first, last, len(run.calls) > 1
        self.processes, self.ranks = max(run.processes, ranks or 0), max(ranks or run.many(), 1)  # ranks are the first processes
        self.gap = 84 if self.processes <= 4 else 62 if self.processes <= 8 else 42 if self.processes <= 16 else 30
        self.side = 12 if self.processes <= 8 else 8
        self.room = self.ranks * (self.side + 2) if self.ranks <= 8 else 42
        self.raised = 8 if self.many else 0  # flags stand above the names of calls
        self.left, self.top, self.wide = 92 + self.room, 96 + self.raised, 116 + self.room
        self.end = 96 if last not in run.turns or not run.turns[last].taken and not run.turns[last].sent else self.wide
        self.width = max(self.column(last) + self.end + 16, 760)
        self.foot = self.top + self.gap * (self.processes - 1) + 34
        self.height = self.foot + 62

    def column(self, turn):
        return self.left + self.wide * (turn - self.first)

    def line(self, process):
        return self.top + self.gap * process

    def leaves(self, turn):
        return self.column(turn) + 10

    def comes(self, turn):
        return self.column(turn) + self.wide - self.room - 8

    def stands(self, turn):
        """Where the squares begin that stand at a turn's end."""
        return self.column(turn + 1) - self.room - 2


def squares(layout, x, y, held, told):
    """A square for each rank's post, filled where it is there; of more than eight ranks a bar. Above it which call it is, where there are several."""
    side, parts, posts = layout.side, [], set(range(layout.ranks)) if held.is_dropped else held.posts
    kind = "post gone" if held.is_dropped else "post"
    box = lambda left, wide, kind, colour="": '<rect x="%.1f" y="%.1f" width="%.1f" height="%d" class="%s"%s/>' % (
        left, y - side / 2, wide, side, kind, colour and ' style="fill: %s"' % colour)
    if layout.ranks <= 8:
        parts = [box(x + rank * (side + 2), side, kind if rank in posts else "none", COLOURS[rank] if rank in posts else "") for rank in range(layout.ranks)]
    else:
        parts = [box(x, 40, "none"), box(x, 40 * len(posts) / layout.ranks, kind, COLOURS[0])]
    if layout.many and held.calls:
        parts.append(text(x, y - side / 2 - 3, held.shown.replace("world ", "call "), "tiny"))
    return group(told, *parts)


def flag(layout, turn, rank, value, told):
    """What a rank prints, above its line, where the turn begins."""
    most = (layout.wide - 34) // 8
    shown = value if len(value) <= most else value[:most - 2] + ".."
    x, y, wide = layout.leaves(turn) - 4, layout.line(rank), 8 * len(shown) + 12
    top = y - 32 - layout.raised
    box = '<rect x="%.1f" y="%.1f" width="%.1f" height="18" rx="3" class="result"/>' % (x, top, wide)
    return group(told, stroke(x, y, x, top + 16, "pole"), box, text(x + 6, top + 13, shown, "value"))


def ends(layout, turn, sender, to):
    return layout.leaves(turn), layout.line(sender), layout.comes(turn), layout.line(to)


def frames(layout, run, turn, held):
    """The turn's frames, those that bring what is new above the others. What each process holds goes on with them."""
    weak, strong, here = [], [], run.turns.get(turn)
    for frame in here.sent if here else []:
        if frame.lost:
            strong.append(broken(*ends(layout, turn, frame.sender, frame.to), "turn %d: %s lost" % (turn, frame)))
    for taken in here.taken if here else []:
        new = held[taken.to].take(taken.calls)
        brings = "brings %s" % "; ".join("%s: %s" % (call, numbers(posts)) for call, posts in new.items()) if new else "brings no post that is new"
        told = "turn %d: %s %s" % (turn, taken, brings)
        x1, y1, x2, y2 = ends(layout, turn, taken.sender, taken.to)
        kind = "new" if new else "old"
        if taken.again:
            x1, y1 = x1 + 0.45 * (x2 - x1), y1 + 0.45 * (y2 - y1) - 9
        drawn = arrow(x1, y1, x2, y2, kind, told, taken.again) + (circle(x1, y1) if taken.again else "")
        (strong if new else weak).append(drawn)
    return weak + strong


def legend(layout, some):
    """What the marks mean, in two lines."""
    parts, x, y = [], 20, layout.foot + 22
    marks = [("new", "a frame that brings a post", 222), ("old", "one that brings nothing new", 234), ("lost", "lost", 88), ("again", "an old frame once more", 0)]
    for kind, words, wide in marks:
        at = (x, y - 4, x + 38, y - 4)
        parts.append(broken(*at[:2], x + 62, y - 4, words) if kind == "lost" else arrow(*at, "new" if kind == "new" else "old", words, kind == "again"))
        parts += [circle(x, y - 4)] * (kind == "again") + [text(x + 46, y, words, "small")]
        x += wide
    y += 22
    parts.append(squares(layout, 20, y - 4, some, "posts"))
    parts.append(text(30 + layout.room, y, "whose posts the process has" if layout.ranks <= 8 else "of how many ranks it has the posts", "small"))
    x = layout.room + (228 if layout.ranks <= 8 else 258)
    parts.append('<rect x="%.1f" y="%.1f" width="26" height="15" rx="3" class="result"/>' % (x, y - 12))
    parts.append(text(x + 34, y, "what the rank prints, in the turn in which it knows it", "small"))
    return parts


def some_of(layout, run):
    """A process that has half of all posts, for the legend."""
    held = Held(0, run)
    held.calls, held.dropped = {held.shown: set(range((layout.ranks + 1) // 2))}, set()
    return held


def heads(layout, run, title):
    """The background, the title, and a rule for each turn."""
    parts = ['<rect x="0.5" y="0.5" width="%d" height="%d" rx="8" class="back"/>' % (layout.width - 1, layout.height - 1), text(20, 30, title, "title")]
    if layout.first > 1 or layout.last < run.last:
        parts.append(text(20, 48, "turns %d to %d of %d" % (layout.first, layout.last, run.last), "small"))
    for turn in range(layout.first, layout.last + 1):
        parts.append(stroke(layout.column(turn), layout.top - 40 - layout.raised, layout.column(turn), layout.foot - 10, "rule"))
        parts.append(text(layout.column(turn) + 6, layout.top - 38 - layout.raised, "turn %d" % turn, "small"))
    return parts


def lines(layout, run, held):
    """Each process's name, its line, and what it holds at first."""
    parts = []
    for process in range(layout.processes):
        y = layout.line(process)
        parts.append(text(20, y + 4, ("rank %d" if process < layout.ranks else "relay %d") % process))
        parts.append(stroke(layout.stands(layout.first - 1) - 4, y, layout.column(layout.last) + layout.end, y, "line"))
        parts.append(squares(layout, layout.stands(layout.first - 1), y, held[process], "before turn %d: %s" % (layout.first, held[process])))
    return parts


def turn_of(layout, run, turn, held):
    """A turn's frames, and above them what is so at its end."""
    below, above = frames(layout, run, turn, held), []
    for process in range(layout.processes) if turn < layout.last or layout.end == layout.wide else []:
        above.append(squares(layout, layout.stands(turn), layout.line(process), held[process], "after turn %d: %s" % (turn, held[process])))
    results = {}
    for rank, value in run.turns[turn].results if turn in run.turns else []:
        results.setdefault(rank, []).append(value)
    for rank, values in results.items():
        above.append(flag(layout, turn, rank, "; ".join(values), "turn %d: rank %d prints %s" % (turn, rank, "; ".join(values))))
    return below, above


def picture_of(run, title, first, last, ranks=None):
    """The whole picture, of these turns."""
    layout = Layout(run, first, last, ranks)
    held = [Held(process, run) for process in range(layout.processes)]
    for turn in range(1, first):
        frames(layout, run, turn, held)
    body, above = heads(layout, run, title) + lines(layout, run, held), []
    for turn in range(first, last + 1):
        below, more = turn_of(layout, run, turn, held)
        body, above = body + below, above + more
    opening = '<svg xmlns="http://www.w3.org/2000/svg" viewBox="0 0 %d %d" width="%d" height="%d" role="img">' % ((layout.width, layout.height) * 2)
    head = [opening, "<title>%s</title>" % plain(title), "<style>%s</style>" % STYLE]
    return "\n".join(head + body + above + legend(layout, some_of(layout, run)) + ["</svg>", ""])
