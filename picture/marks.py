"""The marks of a picture, and their colours on a light and on a dark screen."""
import re
from xml.sax.saxutils import escape

# Of ranks 0 to 7, also told apart by those who don't see red and green apart.
COLOURS = ["#0072b2", "#d55e00", "#009e73", "#cc79a7", "#b8860b", "#56b4e9", "#7b5ea7", "#8c6d31"]
STYLE = """
  text { font-family: sans-serif; font-size: 13px; fill: #24292f; }
  .title { font-size: 16px; font-weight: bold; }
  .small { font-size: 12px; fill: #57606a; }
  .tiny { font-size: 9px; fill: #57606a; }
  .value { font-family: monospace; font-weight: bold; fill: #633c01; }
  .back { fill: #ffffff; stroke: #d0d7de; }
  .rule { stroke: #d0d7de; stroke-dasharray: 2 4; }
  .line { stroke: #8c959f; stroke-width: 2; }
  .frame { stroke-width: 2; }
  .new { stroke: #1a7f37; } .newhead { fill: #1a7f37; }
  .old { stroke: #b6bec8; } .oldhead { fill: #b6bec8; }
  .again { stroke-dasharray: 2 4; fill: none; }
  .lost { stroke: #cf222e; stroke-dasharray: 6 4; }
  .cross { stroke: #cf222e; stroke-width: 2.5; }
  .dot, .none { fill: #ffffff; stroke: #8c959f; stroke-width: 1; }
  .post { stroke: #ffffff; stroke-width: 0.5; } .gone { opacity: 0.35; }
  .result { fill: #fff8c5; stroke: #9a6700; stroke-width: 1.5; }
  .pole { stroke: #9a6700; stroke-width: 1.5; }
  @media (prefers-color-scheme: dark) {
    text { fill: #e6edf3; }
    .small, .tiny { fill: #9da7b3; }
    .value { fill: #f2cc60; }
    .back { fill: #0d1117; stroke: #30363d; }
    .rule { stroke: #30363d; }
    .line { stroke: #6e7681; }
    .new { stroke: #3fb950; } .newhead { fill: #3fb950; }
    .old { stroke: #545d68; } .oldhead { fill: #545d68; }
    .lost, .cross { stroke: #ff7b72; }
    .dot, .none { fill: #0d1117; }
    .post { stroke: #0d1117; }
    .result { fill: #3a2d00; stroke: #d29922; }
    .pole { stroke: #d29922; }
  }
"""


def plain(words):
    """Words as text of an SVG. Bytes that XML doesn't know become one that it knows."""
    return escape(re.sub("[^\t\n\r -\ud7ff\ue000-\ufffd\U00010000-\U0010ffff]", "\ufffd", words))


def group(told, *parts):
    """Marks that belong together; what they mean is shown where a pointer rests on them."""
    return "<g><title>%s</title>%s</g>" % (plain(told), "".join(parts))


def text(x, y, words, kind="name"):
    return '<text x="%.1f" y="%.1f" class="%s">%s</text>' % (x, y, kind, plain(words))


def stroke(x1, y1, x2, y2, kind):
    return '<line x1="%.1f" y1="%.1f" x2="%.1f" y2="%.1f" class="%s"/>' % (x1, y1, x2, y2, kind)


def circle(x, y):
    return '<circle cx="%.1f" cy="%.1f" r="4" class="dot"/>' % (x, y)


def arrow(x1, y1, x2, y2, kind, told, dotted=False):
    """An arrow; a dotted one goes in a bow, so that it isn't under a straight one."""
    turn_x, turn_y = (x1 + x2) / 2, (y1 + y2) / 2 - (14 if dotted else 0)
    long = max(((x2 - turn_x) ** 2 + (y2 - turn_y) ** 2) ** 0.5, 1)
    dx, dy = (x2 - turn_x) / long, (y2 - turn_y) / long
    left, right = (x2 - 9 * dx - 4.5 * dy, y2 - 9 * dy + 4.5 * dx), (x2 - 9 * dx + 4.5 * dy, y2 - 9 * dy - 4.5 * dx)
    head = '<polygon points="%.1f,%.1f %.1f,%.1f %.1f,%.1f" class="%shead"/>' % ((x2, y2) + left + right + (kind,))
    line = stroke(x1, y1, x2 - 7 * dx, y2 - 7 * dy, "frame " + kind)
    if dotted:
        line = '<path d="M%.1f %.1fQ%.1f %.1f %.1f %.1f" class="frame %s again"/>' % (x1, y1, turn_x, turn_y, x2 - 7 * dx, y2 - 7 * dy, kind)
    return group(told, line, head)


def broken(x1, y1, x2, y2, told):
    """An arrow that ends on its way, with a cross. Where it ends no other process has its line."""
    x, y = x1 + 0.42 * (x2 - x1), y1 + 0.42 * (y2 - y1)
    cross = stroke(x - 5, y - 5, x + 5, y + 5, "cross") + stroke(x - 5, y + 5, x + 5, y - 5, "cross")
    return group(told, stroke(x1, y1, x, y, "frame lost"), cross)
